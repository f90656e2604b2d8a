/* 64-bit numbers: product, quotient, remainder, shifts and comparisons, at the edges and at random. */
#include "peer.h"

static const u64 values[] = {
    0, 1, 2, 3, 10, 0xFFFFFFFF, 0x100000000, 0x7FFFFFFFFFFFFFFF, 0x8000000000000000,
    0x8000000000000001, 0xFFFFFFFFFFFFFFFF, 0xFFFFFFFF00000000, 0x123456789ABCDEF0,
};

static void pair(u64 a, u64 b)
{
    i64 p = (i64)a, q = (i64)b;
    put64(a * b);
    put64(a + b);
    put64(a - b);
    put64(a << (b & 63));
    put64(a >> (b & 63));
    put64((u64)(p >> (b & 63)));
    put8((u32)(a < b) | (u32)(p < q) << 1 | (u32)(a == b) << 2);
    if (b == 0)
        return;
    put64(a / b);
    put64(a % b);
    if (a == 0x8000000000000000 && q == -1)
        return;
    put64((u64)(p / q));
    put64((u64)(p % q));
}

void results(void)
{
    u32 seed = 5;
    for (u32 i = 0; i < COUNT(values); i++)
        for (u32 j = 0; j < COUNT(values); j++)
            pair(values[i], values[j]);
    for (u32 i = 0; i < 80; i++) {
        u64 a = (u64)next_random(&seed) << 32 | next_random(&seed);
        u64 b = (u64)next_random(&seed) << 32 | next_random(&seed);
        pair(a, b >> (i & 63));
    }
}
