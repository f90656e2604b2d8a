/* Products of matrices, signed and modulo a prime, and a fixed-point filter. */
#include "peer.h"

#define SIZE 12
#define PRIME 65537u

static i32 a[SIZE][SIZE], b[SIZE][SIZE], c[SIZE][SIZE];

static void fill(u32 seed)
{
    for (u32 i = 0; i < SIZE; i++)
        for (u32 j = 0; j < SIZE; j++) {
            a[i][j] = (i32)next_random(&seed) >> 18;
            b[i][j] = (i32)next_random(&seed) >> 17;
        }
}

static void multiply(void)
{
    for (u32 i = 0; i < SIZE; i++)
        for (u32 j = 0; j < SIZE; j++) {
            i32 sum = 0;
            for (u32 k = 0; k < SIZE; k++)
                sum += a[i][k] * b[k][j] / 16;
            c[i][j] = sum;
        }
}

static void multiply_modulo(void)
{
    for (u32 i = 0; i < SIZE; i++)
        for (u32 j = 0; j < SIZE; j++) {
            u64 sum = 0;
            for (u32 k = 0; k < SIZE; k++)
                sum += (u64)((u32)a[i][k] % PRIME) * ((u32)b[k][j] % PRIME);
            c[i][j] = (i32)(sum % PRIME);
        }
}

static void put_product(void)
{
    for (u32 i = 0; i < SIZE; i++)
        for (u32 j = 0; j < SIZE; j++)
            put32((u32)c[i][j]);
}

static void put_filtered(u32 seed)
{
    i32 state = 0;
    for (u32 i = 0; i < 300; i++) {
        i32 input = (i32)next_random(&seed);
        state += (i32)(((i64)input - state) * 26214 >> 16);
        put32((u32)state);
    }
}

void results(void)
{
    for (u32 seed = 1; seed < 9; seed++) {
        fill(seed);
        multiply();
        put_product();
        multiply_modulo();
        put_product();
    }
    put_filtered(77);
}
