# Trims a voltage reference: averages 16 readings, works out the trim code and burns it into word 0.
#
# A reading is a count of a 12-bit converter; the target is 2048 counts and a trim step moves the
# reference by 3 counts. The code is the signed number of steps, -32 to 31, in the low six bits.
# Bit 8 says that the part is trimmed, so the word is never 0.
# If the readings spread over more than 40 counts the recipe burns nothing and stops with ebreak.

        .equ    READINGS, 16
        .equ    TARGET, 2048
        .equ    STEP, 3
        .equ    SPREAD, 40
        .equ    TRIMMED, 0x100

        la      a1, readings
        li      a2, READINGS
        li      a3, 0               # sum
        li      a4, 4095            # least reading so far
        li      a5, 0               # greatest reading so far
next:   lhu     a0, 0(a1)
        add     a3, a3, a0
        bgeu    a0, a4, 1f
        mv      a4, a0
1:      bgeu    a5, a0, 2f
        mv      a5, a0
2:      addi    a1, a1, 2
        addi    a2, a2, -1
        bnez    a2, next

        sub     a5, a5, a4
        li      a4, SPREAD
        bltu    a4, a5, noisy

        addi    a3, a3, READINGS / 2    # rounds the mean to the nearest count
        li      a2, READINGS
        divu    a3, a3, a2
        li      a0, TARGET
        sub     a0, a0, a3
        li      a2, STEP
        div     a0, a0, a2          # whole steps, toward zero
        li      a2, -32
        bge     a0, a2, 3f
        mv      a0, a2
3:      li      a2, 31
        bge     a2, a0, 4f
        mv      a0, a2
4:      andi    a0, a0, 0x3f
        ori     a0, a0, TRIMMED

        lui     a1, 0x80000         # the fuse window
        sw      a0, 0(a1)           # burns word 0
        ecall

noisy:  ebreak

        .balign 4
readings:
        .half   2101, 2099, 2104, 2098, 2100, 2103, 2097, 2102
        .half   2100, 2099, 2105, 2096, 2101, 2100, 2098, 2103
