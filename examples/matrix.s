# Product of two 3x3 matrices of words, over and over.
#
# Source document 003 (section 5.2) measures its cache with this product. The loops are those of its
# listing 5.1, with the element of the result stored at every step of the inner loop, as C++ without
# further knowledge has to. It gives no values; they are chosen here. Each round copies the product
# over the first matrix, so ROUNDS rounds leave first * second ^ ROUNDS modulo 2^32.
# a0 ends as the sum of its nine words.

        .equ    ROUNDS, 80000
        .equ    N, 3

        li      s0, ROUNDS
        la      s1, first
        la      s2, second
        la      s3, result
        addi    s4, s3, 4 * N * N   # the result's end

round:  mv      a0, s1              # row i of the first
        mv      a2, s3              # the element of the result
rows:   mv      a1, s2              # column j of the second
        addi    a6, s2, 4 * N
cols:   sw      x0, 0(a2)           # res[i][j] = 0
        mv      a3, a0
        mv      a4, a1
        addi    a7, a0, 4 * N
        li      t0, 0
terms:  lw      a5, 0(a3)           # mat1[i][k]
        lw      t1, 0(a4)           # mat2[k][j]
        mul     a5, a5, t1
        add     t0, t0, a5
        sw      t0, 0(a2)           # res[i][j] += their product
        addi    a3, a3, 4
        addi    a4, a4, 4 * N
        bne     a3, a7, terms
        addi    a2, a2, 4
        addi    a1, a1, 4
        bne     a1, a6, cols
        addi    a0, a0, 4 * N
        bne     a2, s4, rows

        mv      a2, s3
        mv      a3, s1
copy:   lw      a5, 0(a2)
        sw      a5, 0(a3)
        addi    a2, a2, 4
        addi    a3, a3, 4
        bne     a2, s4, copy

        addi    s0, s0, -1
        bnez    s0, round

        mv      a2, s3
        li      a0, 0
sum:    lw      a5, 0(a2)
        add     a0, a0, a5
        addi    a2, a2, 4
        bne     a2, s4, sum
        ecall

        .balign 4
first:  .word   1, 2, 3, 4, 5, 6, 7, 8, 9
second: .word   9, 8, 7, -6, 5, 4, 3, -2, 1
result: .space  4 * N * N
