# Two accounts and two threads, which move amounts in opposite directions. A thread may enter an object only if its
# number is greater than those that it holds, so both enter account 0 first, and neither waits for the other forever.
# In the end account 0 has 100 - 30 + 5 = 75 and account 1 has 50 + 30 - 5 = 75.

        .objects 2
        .object 0, 100
        .object 1, 50
        .thread first
        .thread second

first:  addi    s0, zero, -30           # what account 0 gains and account 1 loses
        jal     zero, move
second: addi    s0, zero, 5

move:   addi    a0, zero, 0
        addi    a7, zero, 8             # ENTER_WRITE of account 0
        ecall
        addi    a0, zero, 1
        ecall                           # and then of account 1
        addi    a0, zero, 0
        jal     ra, change              # account 0 gains
        sub     s0, zero, s0
        addi    a0, zero, 1
        jal     ra, change              # account 1 loses
        addi    a0, zero, 1
        addi    a7, zero, 9             # LEAVE of account 1
        ecall
        addi    a0, zero, 0
        ecall                           # and of account 0
        addi    a7, zero, 1             # END
        ecall

# Adds s0 to the first word of the object a0.
change: addi    t0, a0, 0
        addi    a1, zero, 0
        addi    a7, zero, 10            # GET
        ecall
        add     a2, a0, s0
        addi    a0, t0, 0
        addi    a7, zero, 11            # PUT; a1 is still 0
        ecall
        jalr    zero, 0(ra)
