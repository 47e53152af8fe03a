# A guest that polls. Thread 0 enters an object again and again until its first word isn't 0. Thread 1 works for a while
# and then writes that word.

        .objects 1
        .thread polls
        .thread writes

polls:  addi    a0, zero, 0
        addi    a7, zero, 7             # ENTER_READ of object 0
        ecall
        addi    a1, zero, 0
        addi    a7, zero, 10            # GET
        ecall
        addi    s0, a0, 0
        addi    a0, zero, 0
        addi    a7, zero, 9             # LEAVE
        ecall
        beq     s0, zero, polls
        addi    a7, zero, 1             # END
        ecall

writes: addi    t0, zero, 100
work:   addi    t0, t0, -1
        bne     t0, zero, work
        addi    a0, zero, 0
        addi    a7, zero, 8             # ENTER_WRITE
        ecall
        addi    a1, zero, 0
        addi    a2, zero, 1
        addi    a7, zero, 11            # PUT of 1
        ecall
        addi    a7, zero, 9             # LEAVE
        ecall
        addi    a7, zero, 1             # END
        ecall
