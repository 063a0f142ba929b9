# Interrupts of the timer: what a function may change is saved, and on_tick (ticks.c) is called with the place that was interrupted and what
# its register for a caller has. Others may have their turns before it answers.
        .text
        .globl  ticks_start, ticks_on, ticks_off

ticks_start:
        lla     t0, handler
        csrw    mtvec, t0
        li      t0, 1 << 7
        csrw    mie, t0
        ret

ticks_on:
        csrsi   mstatus, 1 << 3
        ret

ticks_off:
        csrci   mstatus, 1 << 3
        ret

        .balign 4
handler:
        addi    sp, sp, -144
        sd      ra, 0(sp)
        sd      t0, 8(sp)
        sd      t1, 16(sp)
        sd      t2, 24(sp)
        sd      t3, 32(sp)
        sd      t4, 40(sp)
        sd      t5, 48(sp)
        sd      t6, 56(sp)
        sd      a0, 64(sp)
        sd      a1, 72(sp)
        sd      a2, 80(sp)
        sd      a3, 88(sp)
        sd      a4, 96(sp)
        sd      a5, 104(sp)
        sd      a6, 112(sp)
        sd      a7, 120(sp)
        csrr    t0, mcause
        bgez    t0, exception
        csrr    a0, mepc
        sd      a0, 128(sp)
        mv      a1, ra
        call    on_tick
        ld      a0, 128(sp)
        csrw    mepc, a0
        ld      ra, 0(sp)
        ld      t0, 8(sp)
        ld      t1, 16(sp)
        ld      t2, 24(sp)
        ld      t3, 32(sp)
        ld      t4, 40(sp)
        ld      t5, 48(sp)
        ld      t6, 56(sp)
        ld      a0, 64(sp)
        ld      a1, 72(sp)
        ld      a2, 80(sp)
        ld      a3, 88(sp)
        ld      a4, 96(sp)
        ld      a5, 104(sp)
        ld      a6, 112(sp)
        ld      a7, 120(sp)
        addi    sp, sp, 144
        mret

# An exception is a fault of this program: it stays here, with mcause, mepc and mtval as the trap left them.
exception:
        j       exception
