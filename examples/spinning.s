# A lock that is spun for. Two threads add one to a counter, ten times each. A thread tries to enter the object; one that
# is refused, since the other is inside, pauses and tries again until it is in. The last one to add prints 20, however
# they ran. A trace holds the tries that were refused, so a replay spins as often as the recording did. TRY_WRITE is a
# call of the second profile: `ir record` takes `--profile 2`.

        .objects 1
        .thread main
        .thread main

main:   addi    s0, zero, 10            # how often it is still to add
        addi    s1, zero, 20            # the counter in the end
try:    addi    a0, zero, 0
        addi    a7, zero, 13            # TRY_WRITE of object 0: 1 inside, 0 refused
        ecall
        bne     a0, zero, inside
        addi    t0, zero, 500           # refused: a pause, and again
pause:  addi    t0, t0, -1
        bne     t0, zero, pause
        jal     zero, try
inside: addi    a0, zero, 0
        addi    a1, zero, 0
        addi    a7, zero, 10            # GET of word 0
        ecall
        addi    s2, a0, 1
        addi    a0, zero, 0
        addi    a2, s2, 0
        addi    a7, zero, 11            # PUT of one more; a1 is still 0
        ecall
        addi    a7, zero, 9             # LEAVE; a0 is still 0
        ecall
        addi    s0, s0, -1
        bne     s0, zero, try
        bne     s2, s1, done            # the other is still to add
        addi    a0, s2, 0
        addi    a7, zero, 3             # PUTN
        ecall
done:   addi    a0, zero, 0
        addi    a7, zero, 1             # END
        ecall
