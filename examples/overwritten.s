# Fills an array of four words, and goes one too far: the word behind it is overwritten. Prints 4 where 100 is meant.

        .data
array:  .space  16
total:  .word   100                     # stands behind the array

        .text
        li      t0, array               # the next word
        addi    t1, zero, 0             # how many are filled
        addi    t2, zero, 5             # one too many
fill:   sw      t1, 0(t0)
        addi    t0, t0, 4
        addi    t1, t1, 1
        bne     t1, t2, fill
        li      t0, total
        lw      a0, 0(t0)
        addi    a7, zero, 3             # PUTN
        ecall
        addi    a0, zero, 0
        addi    a7, zero, 1             # END
        ecall
