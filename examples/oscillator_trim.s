# Trims an oscillator in three ranges, on a die that it shares with reference_trim: words 32 to 63 are
# its own, 0 to 31 the reference's.
#
# Of five counts in each range the least and the greatest are left out; the mean of the others becomes a
# code, which is burnt into words 32 to 34. Then the words are read back from the row, and their
# exclusive or, inverted, is burnt into word 63.
# The target is 1000 counts and a trim step moves the oscillator by 4. The code is the signed number of
# steps, rounded down, in the low seven bits. Bit 7 says that the part is trimmed.

        .equ    RANGES, 3
        .equ    COUNTS, 5
        .equ    TARGET, 1000
        .equ    TRIMMED, 0x80
        .equ    FIRST, 4 * 32
        .equ    CHECK, 4 * (63 - 32 - RANGES)

        la      a1, counts
        lui     a5, 0x80000
        addi    a5, a5, FIRST       # word 32
        addi    a6, a5, 4 * RANGES
next:   lhu     a0, 0(a1)
        mv      a3, a0              # sum
        mv      a4, a0              # least count so far
        mv      a7, a0              # greatest count so far
        li      a2, COUNTS - 1
more:   addi    a1, a1, 2
        lhu     a0, 0(a1)
        add     a3, a3, a0
        bgeu    a0, a4, 1f
        mv      a4, a0
1:      bgeu    a7, a0, 2f
        mv      a7, a0
2:      addi    a2, a2, -1
        bnez    a2, more
        addi    a1, a1, 2
        sub     a3, a3, a4
        sub     a3, a3, a7
        li      a2, COUNTS - 2
        divu    a3, a3, a2          # the mean of the others
        li      a0, TARGET
        sub     a0, a0, a3
        srai    a0, a0, 2           # whole steps, rounded down
        andi    a0, a0, 0x7f
        ori     a0, a0, TRIMMED
        sw      a0, 0(a5)           # burns a word
        addi    a5, a5, 4
        bne     a5, a6, next

        addi    a5, a5, -4 * RANGES
        li      a3, -1
check:  lw      a0, 0(a5)           # as the row has it
        xor     a3, a3, a0
        addi    a5, a5, 4
        bne     a5, a6, check
        sw      a3, CHECK(a5)       # burns word 63
        ecall

        .balign 4
counts: .half   1012, 1009, 1011, 1040, 1010
        .half   985, 988, 986, 984, 987
        .half   1000, 1001, 900, 1002, 999
