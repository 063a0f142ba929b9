# Copies 64 KiB, 64 bytes a round, as a C library's memcpy does, and begins again.
        auipc   x10, 16
        lui     x11, 16
        add     x11, x11, x10
start:
        addi    x12, x10, 0
        addi    x13, x11, 0
loop:
        ld      x5, 0(x12)
        ld      x6, 8(x12)
        ld      x7, 16(x12)
        ld      x28, 24(x12)
        ld      x29, 32(x12)
        ld      x30, 40(x12)
        ld      x31, 48(x12)
        ld      x14, 56(x12)
        addi    x12, x12, 64
        sd      x5, 0(x13)
        sd      x6, 8(x13)
        sd      x7, 16(x13)
        sd      x28, 24(x13)
        sd      x29, 32(x13)
        sd      x30, 40(x13)
        sd      x31, 48(x13)
        sd      x14, 56(x13)
        addi    x13, x13, 64
        bltu    x12, x11, loop
        jal     x0, start
