# One store into each of so many pages behind the first, over and over, a new number each time. The third word has how many: lui x11, PAGES.
        auipc   x10, 1
        addi    x13, x0, 0
        lui     x11, 1
        add     x11, x11, x10
        lui     x14, 1
pass:
        addi    x13, x13, 1
        addi    x12, x10, 0
page:
        sd      x13, 0(x12)
        add     x12, x12, x14
        bltu    x12, x11, page
        jal     x0, pass
