/* The four divisions on every pair of edges, by zero and -2^31 by -1 too, and at random. */
#include "peer.h"

INSTRUCTION(div)
INSTRUCTION(divu)
INSTRUCTION(rem)
INSTRUCTION(remu)

static void pair(u32 a, u32 b)
{
    put32(do_div(a, b));
    put32(do_divu(a, b));
    put32(do_rem(a, b));
    put32(do_remu(a, b));
}

void results(void)
{
    u32 seed = 21;
    for (u32 i = 0; i < COUNT(edges); i++)
        for (u32 j = 0; j < COUNT(edges); j++)
            pair(edges[i], edges[j]);
    for (u32 i = 0; i < 600; i++) {
        u32 a = next_random(&seed), b = next_random(&seed);
        pair(a, (u32)((i32)b >> (i & 31)));
    }
}
