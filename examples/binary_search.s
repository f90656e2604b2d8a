# Binary search in 1,000 words in rising order, over and over.
#
# Source document 003 (section 5.2) measures its cache with this search over 1,000 elements; the
# values and the keys are chosen here. Element i is 2i + 1, and a key is 11 bits of a generator
# (state * 1664525 + 1013904223), so about half of the keys are found. The places of the found ones
# add up in a0, their number in a1.

        .equ    SEARCHES, 300000
        .equ    WORDS, 1000

        la      s1, array
        li      a2, 0
        li      a3, WORDS
        li      a4, 1
        mv      a5, s1
fill:   sw      a4, 0(a5)
        addi    a4, a4, 2
        addi    a5, a5, 4
        addi    a2, a2, 1
        bne     a2, a3, fill

        li      s0, SEARCHES
        li      s2, 1               # the generator's state
        li      s3, 1664525
        li      s4, 1013904223
        li      a0, 0               # sum of the places
        li      a1, 0               # number found
search: mul     s2, s2, s3
        add     s2, s2, s4
        srli    t0, s2, 21          # the key
        li      a2, 0               # low
        li      a3, WORDS           # high, not within
halve:  bgeu    a2, a3, done        # nothing left: not found
        add     a4, a2, a3
        srli    a4, a4, 1           # the middle
        slli    a5, a4, 2
        add     a5, a5, s1
        lw      a5, 0(a5)
        beq     a5, t0, found
        blt     a5, t0, above
        mv      a3, a4
        j       halve
above:  addi    a2, a4, 1
        j       halve
found:  add     a0, a0, a4
        addi    a1, a1, 1
done:   addi    s0, s0, -1
        bnez    s0, search
        ecall

        .balign 4
array:  .space  4 * WORDS
