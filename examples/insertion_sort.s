# Insertion sort of 200 words, over and over.
#
# The routine is figure 2.8 of source document 000 word for word, so it has no short instructions;
# the driver has. Each round fills the array from a generator
# (state * 1664525 + 1013904223), sorts it as signed words, and folds it into a check sum
# (sum * 31 + word), which ends in a0.

        .equ    ROUNDS, 500
        .equ    WORDS, 200

        li      s0, ROUNDS
        li      s1, 1               # the generator's state
        li      s2, 0               # the check sum
        li      s3, 1664525
        li      s4, 1013904223
        li      s5, 31
        la      s6, array

round:  mv      t0, s6
        li      t1, WORDS
fill:   mul     s1, s1, s3
        add     s1, s1, s4
        sw      s1, 0(t0)
        addi    t0, t0, 4
        addi    t1, t1, -1
        bnez    t1, fill

        mv      a0, s6
        li      a1, WORDS
        jal     sort

        mv      t0, s6
        li      t1, WORDS
fold:   lw      t2, 0(t0)
        mul     s2, s2, s5
        add     s2, s2, t2
        addi    t0, t0, 4
        addi    t1, t1, -1
        bnez    t1, fold

        addi    s0, s0, -1
        bnez    s0, round
        mv      a0, s2
        ecall

# a0 points to the words, a1 is their number; a3 points to a[i], a4 is i, a5 is j, a6 is x
        .option push
        .option norvc
sort:   addi    a3, a0, 4
        addi    a4, x0, 1           # i = 1
outer:  bltu    a4, a1, insert      # while i < n
        jalr    x0, 0(x1)
insert: lw      a6, 0(a3)           # x = a[i]
        addi    a2, a3, 0           # a2 points to a[j]
        addi    a5, a4, 0           # j = i
inner:  lw      a7, -4(a2)          # a[j-1]
        bge     a6, a7, place       # its place is found if a[j-1] <= x
        sw      a7, 0(a2)           # a[j] = a[j-1]
        addi    a5, a5, -1          # j--
        addi    a2, a2, -4
        bne     a5, x0, inner       # while j > 0
place:  slli    a5, a5, 2
        add     a5, a0, a5
        sw      a6, 0(a5)           # a[j] = x
        addi    a4, a4, 1           # i++
        addi    a3, a3, 4
        jal     x0, outer
        .option pop

        .balign 4
array:  .space  4 * WORDS
