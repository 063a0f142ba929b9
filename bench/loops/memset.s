# Fills 64 KiB, 64 bytes a round, as a C library's memset does, and begins again.
        auipc   x10, 16
        lui     x11, 16
        add     x11, x11, x10
start:
        addi    x12, x10, 0
        addi    x5, x5, 1
loop:
        sd      x5, 0(x12)
        sd      x5, 8(x12)
        sd      x5, 16(x12)
        sd      x5, 24(x12)
        sd      x5, 32(x12)
        sd      x5, 40(x12)
        sd      x5, 48(x12)
        sd      x5, 56(x12)
        addi    x12, x12, 64
        bltu    x12, x11, loop
        jal     x0, start
