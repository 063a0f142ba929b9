# Traps go to `handler`, which saves what a function may change and calls `on_interrupt`.
        .text
        .globl  enable_interrupts, wait_for_interrupt

# Lets the machine's external interrupts come.
enable_interrupts:
        lla     t0, handler
        csrw    mtvec, t0
        li      t0, 1 << 11
        csrw    mie, t0
        csrsi   mstatus, 1 << 3
        ret

wait_for_interrupt:
        wfi
        ret

        .balign 4
handler:
        addi    sp, sp, -128
        sd      ra, 0(sp)
        sd      t0, 8(sp)
        sd      t1, 16(sp)
        sd      t2, 24(sp)
        sd      t3, 32(sp)
        sd      t4, 40(sp)
        sd      t5, 48(sp)
        sd      t6, 56(sp)
        sd      a0, 64(sp)
        sd      a1, 72(sp)
        sd      a2, 80(sp)
        sd      a3, 88(sp)
        sd      a4, 96(sp)
        sd      a5, 104(sp)
        sd      a6, 112(sp)
        sd      a7, 120(sp)
        csrr    a0, mcause
        bgez    a0, exception
        call    on_interrupt
        ld      ra, 0(sp)
        ld      t0, 8(sp)
        ld      t1, 16(sp)
        ld      t2, 24(sp)
        ld      t3, 32(sp)
        ld      t4, 40(sp)
        ld      t5, 48(sp)
        ld      t6, 56(sp)
        ld      a0, 64(sp)
        ld      a1, 72(sp)
        ld      a2, 80(sp)
        ld      a3, 88(sp)
        ld      a4, 96(sp)
        ld      a5, 104(sp)
        ld      a6, 112(sp)
        ld      a7, 120(sp)
        addi    sp, sp, 128
        mret

# This program makes no exception; one would be a fault in it.
exception:
        j       exception
