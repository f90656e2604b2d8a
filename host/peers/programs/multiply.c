/* The four products on every pair of edges and at random. */
#include "peer.h"

INSTRUCTION(mul)
INSTRUCTION(mulh)
INSTRUCTION(mulhsu)
INSTRUCTION(mulhu)

static void pair(u32 a, u32 b)
{
    put32(do_mul(a, b));
    put32(do_mulh(a, b));
    put32(do_mulhsu(a, b));
    put32(do_mulhu(a, b));
}

void results(void)
{
    u32 seed = 34;
    for (u32 i = 0; i < COUNT(edges); i++)
        for (u32 j = 0; j < COUNT(edges); j++)
            pair(edges[i], edges[j]);
    for (u32 i = 0; i < 600; i++) {
        u32 a = next_random(&seed), b = next_random(&seed);
        pair(a, b);
    }
}
