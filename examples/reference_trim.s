# Trims a voltage reference at four temperatures, on a die that it shares with oscillator_trim: words 0 to
# 31 are its own, 32 to 63 the oscillator's.
#
# The mean of eight readings at each temperature becomes a code, which is burnt into words 0 to 3. Then
# the words are read back from the row, and their sum is burnt into word 31.
# A reading is a count of a 12-bit converter; the target is 2048 counts and a trim step moves the
# reference by 3 counts. The code is the signed number of steps in the low eight bits. Bit 8 says that
# the part is trimmed, so the word is never 0.

        .equ    TEMPERATURES, 4
        .equ    READINGS, 8
        .equ    TARGET, 2048
        .equ    STEP, 3
        .equ    TRIMMED, 0x100
        .equ    CHECK, 4 * (31 - TEMPERATURES)

        la      a1, readings
        lui     a5, 0x80000         # word 0
        addi    a6, a5, 4 * TEMPERATURES
next:   li      a2, READINGS
        li      a3, READINGS / 2    # rounds the mean to the nearest count
sum:    lhu     a0, 0(a1)
        add     a3, a3, a0
        addi    a1, a1, 2
        addi    a2, a2, -1
        bnez    a2, sum
        srli    a3, a3, 3           # the mean
        li      a0, TARGET
        sub     a0, a0, a3
        li      a2, STEP
        div     a0, a0, a2          # whole steps, toward zero
        andi    a0, a0, 0xff
        ori     a0, a0, TRIMMED
        sw      a0, 0(a5)           # burns a word
        addi    a5, a5, 4
        bne     a5, a6, next

        lui     a5, 0x80000
        li      a3, 0
check:  lw      a0, 0(a5)           # as the row has it
        add     a3, a3, a0
        addi    a5, a5, 4
        bne     a5, a6, check
        sw      a3, CHECK(a5)       # burns word 31
        ecall

        .balign 4
readings:
        .half   2071, 2069, 2074, 2070, 2068, 2072, 2073, 2071
        .half   2050, 2049, 2051, 2048, 2052, 2050, 2049, 2051
        .half   2031, 2030, 2033, 2029, 2032, 2031, 2030, 2032
        .half   1999, 2001, 1998, 2000, 2002, 1997, 2000, 1999
