/* Bit tricks, and the shifts with amounts of 32 and more, which C leaves open. */
#include "peer.h"

INSTRUCTION(sll)
INSTRUCTION(srl)
INSTRUCTION(sra)

static u32 ones(u32 x)
{
    x -= x >> 1 & 0x55555555;
    x = (x & 0x33333333) + (x >> 2 & 0x33333333);
    return ((x + (x >> 4)) & 0x0F0F0F0F) * 0x01010101 >> 24;
}

static u32 reversed(u32 x)
{
    u32 y = 0;
    for (u32 i = 0; i < 32; i++, x >>= 1)
        y = y << 1 | (x & 1);
    return y;
}

static u32 leading_zeros(u32 x)
{
    u32 n = 0;
    for (; n < 32 && !(x & 0x80000000u >> n); n++)
        ;
    return n;
}

static u32 gray(u32 x)
{
    return x ^ x >> 1;
}

static u32 root(u32 x)
{
    u32 r = 0;
    for (u32 bit = 1u << 30; bit; bit >>= 2) {
        u32 t = r + bit;
        r >>= 1;
        if (x >= t) {
            x -= t;
            r += bit;
        }
    }
    return r;
}

static void one(u32 x)
{
    put8(ones(x));
    put32(reversed(x));
    put8(leading_zeros(x));
    put32(gray(x));
    put32(root(x));
    put32(x & (0 - x));
    put32((x << 7 | x >> 25) ^ 0x800);
    put8((i32)x < -2048 ? 1 : (i32)x < 2047 ? 2 : x < 2048 ? 3 : 4);
    put32((u32)((i32)x >> 31) | (~x & 0x7F0));
}

void results(void)
{
    u32 seed = 12;
    for (u32 i = 0; i < COUNT(edges); i++)
        one(edges[i]);
    for (u32 i = 0; i < 200; i++)
        one(next_random(&seed));
    for (u32 i = 0; i < COUNT(edges); i++)
        for (u32 amount = 0; amount < 70; amount += 3) {
            put32(do_sll(edges[i], amount));
            put32(do_srl(edges[i], amount));
            put32(do_sra(edges[i], amount | 0xFFFFFF00));
        }
}
