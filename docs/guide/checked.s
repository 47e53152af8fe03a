# The lost update of examples/lost_update.s, made likely, by a guest that looks at the result. Each of two threads makes
# twenty additions, and in each it works for 40,000 steps between reading and writing. The thread that is done last ends
# with code 1 if the counter isn't 40. All other ends have code 0, so `ir record --status` tells a bad run from a good one.

        .objects 2                      # 0 the counter, 1 how many threads are done
        .thread main
        .thread main

main:   addi    s1, zero, 20            # the additions that are left
again:  addi    a0, zero, 0
        addi    a7, zero, 7             # ENTER_READ of the counter
        ecall
        addi    a1, zero, 0
        addi    a7, zero, 10            # GET
        ecall
        addi    s0, a0, 1
        addi    a0, zero, 0
        addi    a7, zero, 9             # LEAVE: from here on the other thread may write
        ecall
        li      t0, 20000
work:   addi    t0, t0, -1
        bne     t0, zero, work
        addi    a7, zero, 8             # ENTER_WRITE; a0 is still 0
        ecall
        addi    a2, s0, 0
        addi    a7, zero, 11            # PUT; a1 is still 0
        ecall
        addi    a7, zero, 9             # LEAVE
        ecall
        addi    s1, s1, -1
        bne     s1, zero, again

        addi    a0, zero, 1
        addi    a7, zero, 8             # ENTER_WRITE of object 1
        ecall
        addi    a7, zero, 10            # GET of how many were done before
        ecall
        addi    s2, a0, 0
        addi    a0, zero, 1
        addi    a2, s2, 1
        addi    a7, zero, 11            # PUT of one more
        ecall
        addi    a7, zero, 9             # LEAVE
        ecall
        addi    a0, zero, 0
        beq     s2, zero, done          # the other thread isn't done yet

        addi    a7, zero, 7             # ENTER_READ of the counter
        ecall
        addi    a7, zero, 10            # GET
        ecall
        xori    s0, a0, 40
        addi    a0, zero, 0
        addi    a7, zero, 9             # LEAVE
        ecall
        sltu    a0, zero, s0            # 1 if the counter isn't 40
done:   addi    a7, zero, 1             # END
        ecall
