# Two workers that help each other and wait for nobody. Each has a heap of twelve jobs, in an object of its own. A worker
# tries to enter a heap; one that is refused, since the other is inside, does other work and then helps at the other
# heap, and so does one that finds a heap empty. Each prints how many jobs it did: together 24, however they ran. A trace
# holds the tries that were refused. TRY_WRITE is a call of the second profile: `ir record` takes `--profile 2`.

        .objects 2
        .object 0, 12                   # the jobs that are left
        .object 1, 12
        .thread worker
        .thread worker

worker: addi    a7, zero, 12            # SELF
        ecall
        addi    s0, a0, 0               # a heap, its own at first
        addi    s1, zero, 0             # the jobs that it did
        addi    s2, zero, 0             # 1 and 2 for the heaps that it found empty
        addi    s3, zero, 3             # for both
try:    addi    a0, s0, 0
        addi    a7, zero, 13            # TRY_WRITE: 1 inside, 0 refused
        ecall
        bne     a0, zero, inside
        addi    t0, zero, 500           # refused: other work,
work:   addi    t0, t0, -1
        bne     t0, zero, work
        xori    s0, s0, 1               # and then the other heap
        jal     zero, try
inside: addi    a0, s0, 0
        addi    a1, zero, 0
        addi    a7, zero, 10            # GET of how many are left
        ecall
        beq     a0, zero, empty
        addi    a2, a0, -1
        addi    a0, s0, 0
        addi    a7, zero, 11            # PUT of one less; a1 is still 0
        ecall
        addi    a7, zero, 9             # LEAVE; a0 is still the heap
        ecall
        addi    s1, s1, 1               # does the job
        jal     zero, try
empty:  addi    a0, s0, 0
        addi    a7, zero, 9             # LEAVE
        ecall
        addi    t0, s0, 1
        or      s2, s2, t0              # no job comes to it again
        xori    s0, s0, 1
        bne     s2, s3, try
        addi    a0, s1, 0
        addi    a7, zero, 3             # PUTN
        ecall
        addi    a0, zero, 0
        addi    a7, zero, 1             # END
        ecall
