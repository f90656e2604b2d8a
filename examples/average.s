# Running averages of 64 converter readings, over and over: divu and remu in the inner loop.
#
# A reading is 12 bits of a generator (state * 1664525 + 1013904223). Each round one new reading takes
# the oldest's place; then the mean of the first 1, 2, .. 64 readings is taken, each rounded to the
# nearest count, and added to a0.

        .equ    ROUNDS, 40000
        .equ    READINGS, 64

        li      s0, ROUNDS
        li      s1, 1               # the generator's state
        li      s2, 1664525
        li      s3, 1013904223
        la      s4, readings
        addi    s5, s4, 2 * READINGS
        li      s6, READINGS + 1
        mv      a1, s4
fill:   mul     s1, s1, s2
        add     s1, s1, s3
        srli    a5, s1, 20
        sh      a5, 0(a1)
        addi    a1, a1, 2
        bne     a1, s5, fill

        li      a0, 0               # the sum of all means
        mv      s7, s4              # the oldest reading
round:  mul     s1, s1, s2
        add     s1, s1, s3
        srli    a5, s1, 20
        sh      a5, 0(s7)
        addi    s7, s7, 2
        bne     s7, s5, means
        mv      s7, s4

means:  mv      a1, s4
        li      a2, 1               # readings up to this one
        li      a3, 0               # their sum
next:   lhu     a5, 0(a1)
        add     a3, a3, a5
        divu    a4, a3, a2
        remu    a5, a3, a2
        slli    a5, a5, 1
        bltu    a5, a2, down
        addi    a4, a4, 1           # the rest is half or more: round up
down:   add     a0, a0, a4
        addi    a1, a1, 2
        addi    a2, a2, 1
        bne     a2, s6, next

        addi    s0, s0, -1
        bnez    s0, round
        ecall

        .balign 4
readings:
        .space  2 * READINGS
