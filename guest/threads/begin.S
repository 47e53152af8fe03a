/* Where each thread begins, and the gates: each entry of an object that the layer makes is one of their two ecalls.

   A thread has a slice of the stacks: its stack begins at the upper end, and its thread-local variables are at the lower end. */
        .section .ir.begin, "ax"
        .globl  ir_begin
ir_begin:
        .cfi_startproc
        .cfi_undefined ra
        li      a7, 12
        ecall
        lui     t0, %hi(ir_slice)
        addi    t0, t0, %lo(ir_slice)
        mul     t1, t0, a0
        la      sp, ir_stack_top
        sub     sp, sp, t1
        sub     tp, sp, t0
        call    ir_prepare              # the argument in a0, the function in a1
        mv      t0, a1
        la      a1, ir_arguments
        jalr    t0
        call    ir_returned
        ebreak
        .cfi_endproc

/* Enters an object, a0, and returns to t0. What is dead is made 0 before: registers that a callee may change, and words below the stack. So
   states of a guest that differ in nothing that it can see are the same for `ir explore`. Registers a3 to a5 are kept for the caller. */
#ifndef IR_CLEARED
#define IR_CLEARED 8
#endif
        .macro  gate name, call
        .globl  \name
        .type   \name, @function
\name:
        .cfi_startproc
        .cfi_return_column t0
        .set    place, 0
        .rept   IR_CLEARED
        .set    place, place - 4
        sw      zero, place(sp)
        .endr
        .irp    dead, t1, t2, t3, t4, t5, t6, a1, a2, a6
        li      \dead, 0
        .endr
        li      a7, \call
        ecall
        jr      t0
        .cfi_endproc
        .size   \name, . - \name
        .endm

        .text
        gate    ir_gate_read, 7
        gate    ir_gate_write, 8

/* An attempt to enter, of --tso. */
#ifdef IR_TSO
        gate    ir_gate_try, 13
#endif
