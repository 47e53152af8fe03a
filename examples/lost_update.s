# A lost update. Two threads add one each to a shared counter, but each gives the object back between its GET and its
# PUT. Where both read before either writes, both write 1 and one update is lost.

        .objects 1
        .thread main
        .thread main

main:   addi    a0, zero, 0
        addi    a7, zero, 7             # ENTER_READ of object 0
        ecall
        addi    a0, zero, 0
        addi    a1, zero, 0
        addi    a7, zero, 10            # GET of word 0
        ecall
        addi    s0, a0, 1
        addi    a0, zero, 0
        addi    a7, zero, 9             # LEAVE: from here on the other thread may write
        ecall
        addi    a0, zero, 0
        addi    a7, zero, 8             # ENTER_WRITE
        ecall
        addi    a0, zero, 0
        addi    a1, zero, 0
        addi    a2, s0, 0
        addi    a7, zero, 11            # PUT of what may be stale by now
        ecall
        addi    a0, zero, 0
        addi    a7, zero, 9             # LEAVE
        ecall
        addi    a0, zero, 0
        addi    a7, zero, 1             # END
        ecall
