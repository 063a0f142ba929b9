# Where the machine boots: every register is 0, and so is all memory after the image. Sets the stack, runs `main`, and
# stays at `stop` with the answer in a0. Where the assembler is told traps_stay, as guests/make tells it, a trap that the
# guest has no handler for stays at `trapped`, with mcause, mepc and mtval as it left them; else it goes to address 0.
        .section .start, "ax"
        .globl  start
start:  lla     sp, stack_top
        .ifdef  traps_stay
        lla     t0, trapped
        csrw    mtvec, t0
        .endif
        call    main
stop:   j       stop
        .ifdef  traps_stay
trapped:
        j       trapped
        .endif
