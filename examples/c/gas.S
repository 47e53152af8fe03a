/* Two threads add one to a counter, three times each: a source for GNU as, which the same linker script links.

   What is wrong: add_one reads the counter in one entry and writes it in another. If both threads read before either writes, one
   update is lost. The counter begins at 5, so it should be 11 at the end.

   How it shows: at the end word 0 of object 0 isn't 11.
     ir hunt gas.img gas.trc --seeds 1+1000 --until '!word 0 0 11' */

        .equ    COUNTER, 0              # the object

        .equ    END, 1                  # the calls, as docs/reference/calls-and-ends.md lists them
        .equ    ENTER_READ, 7
        .equ    ENTER_WRITE, 8
        .equ    LEAVE, 9
        .equ    GET, 10
        .equ    PUT, 11

        /* A call about the counter: its number in a7, the object in a0. It keeps all registers, but GET answers in a0. */
        .macro  counter number
        li      a7, \number
        li      a0, COUNTER
        ecall
        .endm

        /* What IR_THREADS and IR_OBJECTS make in C: the form, where each thread begins, and the objects' first words. */
        .section .ir.form, "a"
        .word   1
        .section .ir.threads, "a"
        .word   adder, adder
        .section .ir.objects, "a"
        .word   5, 0, 0, 0, 0, 0, 0, 0

        .text
        .globl  adder
adder:  la      sp, ir_stack_top
        li      s0, 3
again:  call    add_one
        addi    s0, s0, -1
        bnez    s0, again
        mv      a0, zero                # the code
        li      a7, END
        ecall

add_one:
        mv      a1, zero                # word 0
        counter ENTER_READ
        counter GET
        addi    a2, a0, 1
        counter LEAVE                   # from here on the other thread may write
        counter ENTER_WRITE
        counter PUT
        counter LEAVE
        ret
