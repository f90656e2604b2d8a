# Quotients and remainders of eight pairs of numbers, over and over: divu, remu, div and rem of each.
#
# Every quotient and every remainder is added to a0. Each round makes its number x of the last round's,
# y, and of that sum (y * 1664525 + a0), so that one wrong answer changes all that follow.

        .equ    ROUNDS, 400000

        .macro  divide dividend, divisor
        divu    a3, \dividend, \divisor
        remu    a4, \dividend, \divisor
        div     a5, \dividend, \divisor
        rem     a6, \dividend, \divisor
        add     a0, a0, a3
        add     a0, a0, a4
        add     a0, a0, a5
        add     a0, a0, a6
        .endm

        li      s0, ROUNDS
        li      s1, 1               # x
        li      s2, 1664525
        li      s3, -0x80000000
        li      s4, -1
        li      a0, 0               # the sum of all answers
round:  mv      s5, s1              # y
        mul     s1, s1, s2
        add     s1, s1, a0

        srli    a1, s1, 14          # readings: 18 bits by 6
        srli    a2, s5, 26
        divide  a1, a2
        srli    a2, s5, 16          # a large dividend by 16 bits
        divide  s1, a2
        srli    a1, s5, 16          # a dividend of 16 bits, below its divisor of 32
        or      a2, s1, s3
        divide  a1, a2
        srai    a1, s1, 8           # both signs: 24 bits by 12
        srai    a2, s5, 20
        divide  a1, a2
        divide  zero, s1
        divide  s1, zero
        divide  s1, s1
        divide  s3, s4              # -2^31 by -1

        addi    s0, s0, -1
        bnez    s0, round
        ecall
