# Counts the moves of the towers of Hanoi with five discs by calls that keep what they need on the stack, which grows
# down from the end of private memory, where sp stands at the start. Prints 31 and ends with it as the code.

        addi    a0, zero, 5             # discs
        jal     ra, moves
        addi    a7, zero, 3             # PUTN
        ecall
        addi    a7, zero, 1             # END
        ecall

# a0: a number of discs; in return a0 is how many moves they take.
moves:  bne     a0, zero, some
        jalr    zero, 0(ra)             # none for no disc
some:   addi    sp, sp, -12
        sw      ra, 8(sp)
        sw      s0, 4(sp)
        addi    s0, a0, -1
        addi    a0, s0, 0
        jal     ra, moves               # all but the largest disc aside,
        addi    a0, a0, 1               # the largest,
        sw      a0, 0(sp)
        addi    a0, s0, 0
        jal     ra, moves               # and the others onto it
        lw      t0, 0(sp)
        add     a0, a0, t0
        lw      s0, 4(sp)
        lw      ra, 8(sp)
        addi    sp, sp, 12
        jalr    zero, 0(ra)
