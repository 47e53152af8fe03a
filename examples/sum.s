# Adds the words of an array, prints the sum in decimal and ends with it as the code.

        .data
array:  .word   3, 1, 4, 1, 5, 9, 2, 6, 5, 3, 5, -2
end:

        .text
        li      s0, array               # the next word
        li      s1, end                 # where the array ends
        addi    s2, zero, 0             # the sum so far
next:   bgeu    s0, s1, done
        lw      t0, 0(s0)
        add     s2, s2, t0
        addi    s0, s0, 4
        jal     zero, next
done:   add     a0, zero, s2
        addi    a7, zero, 3             # PUTN
        ecall
        addi    a7, zero, 1             # END; the code is still in a0
        ecall
