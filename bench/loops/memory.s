# Three loads and three stores on a walk through 96 KiB, so that no lap of it leaves all as it was: such laps are counted and not made.
        auipc   x10, 16
        lui     x13, 24
        add     x13, x13, x10
start:
        addi    x12, x10, 0
loop:
        ld      x5, 0(x12)
        lw      x6, 8(x12)
        sd      x5, 16(x12)
        sw      x6, 12(x12)
        lbu     x7, 17(x12)
        sb      x7, 8(x12)
        addi    x12, x12, 24
        bltu    x12, x13, loop
        jal     x0, start
