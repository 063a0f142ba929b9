# Five arithmetic instructions and a branch.
loop:
        addi    x5, x5, 1
        add     x6, x6, x5
        xor     x7, x7, x6
        slli    x8, x7, 3
        sub     x9, x8, x6
        bne     x5, x0, loop
