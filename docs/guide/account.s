# Two payers take 100 each from an account of 100, if it has as much. Each looks in one entry and pays in another. If both look before
# either pays, both pay, and the account is overdrawn: each entry is right, and the two together aren't.

        .objects 1
        .object 0, 100
        .thread payer
        .thread payer

payer:  addi    a0, zero, 0
        addi    a7, zero, 7             # ENTER_READ of object 0
        ecall
        addi    a0, zero, 0
        addi    a1, zero, 0
        addi    a7, zero, 10            # GET of the balance
        ecall
        addi    s0, a0, 0
        addi    a0, zero, 0
        addi    a7, zero, 9             # LEAVE: from here on the other may pay
        ecall
        addi    t0, zero, 100
        blt     s0, t0, done            # too little
        addi    a0, zero, 0
        addi    a7, zero, 8             # ENTER_WRITE
        ecall
        addi    a0, zero, 0
        addi    a1, zero, 0
        addi    a7, zero, 10            # GET
        ecall
        addi    a2, a0, -100
        addi    a0, zero, 0
        addi    a1, zero, 0
        addi    a7, zero, 11            # PUT
        ecall
        addi    a0, zero, 0
        addi    a7, zero, 9             # LEAVE
        ecall
done:   addi    a0, zero, 0
        addi    a7, zero, 1             # END
        ecall
