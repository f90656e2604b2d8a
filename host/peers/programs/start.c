/* The start: a stack at the top of 64 KiB where there is none yet, the results, write, exit. */
#include "peer.h"

u8 room[ROOM];
u32 used;

__asm__(".section .start,\"ax\"\n"
        ".globl _start\n"
        "_start:\n"
        "    bnez sp, 1f\n"
        "    lui sp, 16\n"
        "1:  call results\n"
        "    la a1, used\n"
        "    lw a2, 0(a1)\n"
        "    la a1, room\n"
        "    li a0, 1\n"
        "    li a7, 64\n"
        "    ecall\n"
        "    li a0, 0\n"
        "    li a7, 93\n"
        "    ecall\n"
        ".text\n");
