/* Recursion, calls through a table, a dense switch and a small stack machine. */
#include "peer.h"

static u32 queens(u32 size, u32 columns, u32 left, u32 right)
{
    u32 all = (1u << size) - 1, found = 0;
    if (columns == all)
        return 1;
    for (u32 open = all & ~(columns | left | right); open; open &= open - 1) {
        u32 bit = open & (0 - open);
        found += queens(size, columns | bit, (left | bit) << 1, (right | bit) >> 1);
    }
    return found;
}

static u32 ackermann(u32 m, u32 n)
{
    if (m == 0)
        return n + 1;
    return ackermann(m - 1, n ? ackermann(m, n - 1) : 1);
}

static i32 plus(i32 a, i32 b) { return a + b; }
static i32 minus(i32 a, i32 b) { return a - b; }
static i32 less(i32 a, i32 b) { return a < b; }
static i32 below(i32 a, i32 b) { return (u32)a < (u32)b; }
static i32 both(i32 a, i32 b) { return a & b; }
static i32 shifted(i32 a, i32 b) { return a >> (b & 31); }

static i32 (*const operations[])(i32, i32) = {plus, minus, less, below, both, shifted};

static i32 interpret(u32 seed, u32 steps)
{
    static i32 stack[8];
    u32 top = 0;
    while (steps--) {
        u32 code = next_random(&seed);
        i32 *at = &stack[top];
        switch (code >> 8 & 7) {
        case 0: *at += (i32)code; break;
        case 1: *at ^= stack[code & 7]; break;
        case 2: top = (top + 1) & 7; break;
        case 3: *at *= 13; break;
        case 4: *at = (i32)((u32)*at >> (code & 31)); break;
        case 5: *at = -*at; break;
        case 6: top = (top - 1) & 7; break;
        default: *at = stack[(top + 3) & 7] - *at; break;
        }
        put8((u32)*at);
    }
    return stack[top];
}

void results(void)
{
    for (u32 size = 1; size < 8; size++)
        put32(queens(size, 0, 0, 0));
    for (u32 m = 0; m < 3; m++)
        for (u32 n = 0; n < 6; n++)
            put32(ackermann(m, n));
    for (u32 i = 0; i < COUNT(edges); i++)
        for (u32 j = 0; j < COUNT(edges); j++)
            put32((u32)operations[(i + j) % COUNT(operations)]((i32)edges[i], (i32)edges[j]));
    for (u32 seed = 1; seed < 20; seed++)
        put32((u32)interpret(seed, 200));
}
