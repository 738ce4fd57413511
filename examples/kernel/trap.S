# The way into the kernel and out of it. mscratch holds the control block of the context that runs.
#include "kernel.h"

        .section .text.start, "ax"
        .globl  _start
_start:
        la      sp, kernel_stack_end
        la      t0, trap_entry
        csrw    mtvec, t0
        call    started
        j       resume

        .balign 4
trap_entry:
        csrrw   sp, mscratch, sp
        sw      ra, 4(sp)
        csrr    ra, mcycle              # the moment, CALL_ENTRY or INTERRUPT_ENTRY cycles late
        sw      gp, 12(sp)
        sw      tp, 16(sp)
        sw      t0, 20(sp)
        sw      t1, 24(sp)
        sw      t2, 28(sp)
        sw      s0, 32(sp)
        sw      s1, 36(sp)
        sw      a0, 40(sp)
        sw      a1, 44(sp)
        sw      a2, 48(sp)
        sw      a3, 52(sp)
        sw      a4, 56(sp)
        sw      a5, 60(sp)
        sw      a6, 64(sp)
        sw      a7, 68(sp)
        sw      s2, 72(sp)
        sw      s3, 76(sp)
        sw      s4, 80(sp)
        sw      s5, 84(sp)
        sw      s6, 88(sp)
        sw      s7, 92(sp)
        sw      s8, 96(sp)
        sw      s9, 100(sp)
        sw      s10, 104(sp)
        sw      s11, 108(sp)
        sw      t3, 112(sp)
        sw      t4, 116(sp)
        sw      t5, 120(sp)
        sw      t6, 124(sp)
        csrr    t0, mscratch
        sw      t0, 8(sp)
        csrr    t0, mepc
        sw      t0, 0(sp)
        csrr    a0, mcause
        mv      a1, ra
        la      sp, kernel_stack_end
        call    trapped

# a0: the control block of the context that goes on
resume:
        csrw    mscratch, a0
        lw      t0, 0(a0)
        csrw    mepc, t0
        lw      t0, STATUS_OFFSET(a0)
        csrw    mstatus, t0
        lw      t0, last_end            # where the moment belongs at which the kernel ends
        csrr    t1, mcycle
        addi    t1, t1, TRAP_EXIT
        sw      t1, 0(t0)
        lw      ra, 4(a0)
        lw      sp, 8(a0)
        lw      gp, 12(a0)
        lw      tp, 16(a0)
        lw      t0, 20(a0)
        lw      t1, 24(a0)
        lw      t2, 28(a0)
        lw      s0, 32(a0)
        lw      s1, 36(a0)
        lw      a1, 44(a0)
        lw      a2, 48(a0)
        lw      a3, 52(a0)
        lw      a4, 56(a0)
        lw      a5, 60(a0)
        lw      a6, 64(a0)
        lw      a7, 68(a0)
        lw      s2, 72(a0)
        lw      s3, 76(a0)
        lw      s4, 80(a0)
        lw      s5, 84(a0)
        lw      s6, 88(a0)
        lw      s7, 92(a0)
        lw      s8, 96(a0)
        lw      s9, 100(a0)
        lw      s10, 104(a0)
        lw      s11, 108(a0)
        lw      t3, 112(a0)
        lw      t4, 116(a0)
        lw      t5, 120(a0)
        lw      t6, 124(a0)
        lw      a0, 40(a0)
        mret
