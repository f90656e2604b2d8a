# Where a recipe in C begins: at address 0, with 0 in every register.
        .section .start, "ax"
        .globl  start
start:  la      sp, memory_end      # the stack goes down from the end of memory
        call    main
        bnez    a0, 1f
        ecall                       # main said 0: done
1:      ebreak                      # main said something else
