# Branches, taken and not, and the two instructions that decide them.
loop:
        addi    x5, x5, 1
        andi    x6, x5, 1
        beq     x6, x0, even
        bltu    x5, x6, loop
even:
        bge     x0, x5, loop
        bne     x5, x0, loop
