# Prints Hello, world! and a line feed, a byte at a time, and ends with code 0.

        li      s0, text                # the next byte
        li      s1, end                 # where the text ends
next:   beq     s0, s1, done
        lbu     a0, 0(s0)
        addi    a7, zero, 2             # PUTC
        ecall
        addi    s0, s0, 1
        jal     zero, next
done:   addi    a0, zero, 0
        addi    a7, zero, 1             # END
        ecall

        .data
text:   .byte   72, 101, 108, 108, 111, 44, 32          # Hello, comma and space
        .byte   119, 111, 114, 108, 100, 33, 10         # world!, line feed
end:
