# Clears every word of the row, as recipes for other programmers do, and then trims words 3 and 40.
# A store of zero gives no pulse: only the two are burnt. Started anew it stops at the first of them.
        lui     x6, 0x80000             # word 0
        addi    x7, x6, 256             # after the last
clear:  sw      x0, 0(x6)
        addi    x6, x6, 4
        bne     x6, x7, clear
        addi    x5, x0, 37
        sw      x5, -244(x6)            # word 3
        addi    x5, x0, -6
        sw      x5, -96(x6)             # word 40
        ecall
