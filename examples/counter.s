# Four threads add one each to a shared counter. Each holds the object for writing from its GET to its PUT, so the
# counter is 4 in the end, whatever the order.

        .objects 1
        .thread main
        .thread main
        .thread main
        .thread main

main:   addi    a0, zero, 0
        addi    a7, zero, 8             # ENTER_WRITE of object 0
        ecall
        addi    a0, zero, 0
        addi    a1, zero, 0
        addi    a7, zero, 10            # GET of word 0
        ecall
        addi    a2, a0, 1
        addi    a0, zero, 0
        addi    a1, zero, 0
        addi    a7, zero, 11            # PUT of one more
        ecall
        addi    a0, zero, 0
        addi    a7, zero, 9             # LEAVE
        ecall
        addi    a0, zero, 0
        addi    a7, zero, 1             # END
        ecall
