# CRC-32, bit by bit, over a buffer of 1 KiB, over and over.
#
# The buffer is filled once from a generator (state * 1664525 + 1013904223, its top byte). The rounds
# carry the remainder on, so a0 ends as the CRC-32 (polynomial 0xEDB88320, as in zip files) of the
# buffer repeated ROUNDS times.

        .equ    ROUNDS, 500
        .equ    BYTES, 1024

        la      s1, buffer
        li      s2, BYTES
        add     s2, s2, s1          # the buffer's end
        mv      a1, s1
        li      a2, 1               # the generator's state
        li      a3, 1664525
        li      a4, 1013904223
fill:   mul     a2, a2, a3
        add     a2, a2, a4
        srli    a5, a2, 24
        sb      a5, 0(a1)
        addi    a1, a1, 1
        bne     a1, s2, fill

        li      s0, ROUNDS
        li      a0, -1              # the remainder
        li      a3, 0xEDB88320
round:  mv      a1, s1
byte:   lbu     a5, 0(a1)
        xor     a0, a0, a5
        li      a4, 8
bit:    andi    a5, a0, 1
        neg     a5, a5              # all ones if the lowest bit is set
        and     a5, a5, a3
        srli    a0, a0, 1
        xor     a0, a0, a5
        addi    a4, a4, -1
        bnez    a4, bit
        addi    a1, a1, 1
        bne     a1, s2, byte
        addi    s0, s0, -1
        bnez    s0, round
        not     a0, a0
        ecall

        .balign 4
buffer: .space  BYTES
