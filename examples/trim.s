# The paper's recipe: burns 7 into word 0 of the row, 14 bytes in all.
# 3 steps retire, then ecall. On the same row a new start stops with 9: the word is burnt already.

        li      t0, 7               # the trim word
        lui     t1, 0x80000         # the fuse window
        sw      t0, 0(t1)           # burns word 0
        ecall
