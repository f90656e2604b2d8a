/* A record of bytes, halves and words: signed and unsigned loads, stores that keep the neighbours. */
#include "peer.h"

struct record {
    u8 kind;
    i8 offset;
    u16 code;
    i16 trim;
    u8 tail[2];
    i32 value;
};

static volatile struct record records[40];

static void change(volatile struct record *r, u32 x)
{
    r->kind = (u8)x;
    r->offset = (i8)(x >> 3);
    r->code = (u16)(x >> 7);
    r->trim = (i16)(x >> 11);
    r->tail[x & 1] = (u8)(x >> 13);
    r->value = (i32)x;
}

static void put_one(const volatile struct record *r)
{
    put32((u32)(r->kind + r->offset));
    put32((u32)(r->code - r->trim));
    put32((u32)r->offset);
    put32((u32)r->trim);
    put32((u32)(r->tail[0] * 256 - r->tail[1]));
    put32((u32)(r->value / (r->kind + 1)));
}

static void put_as_bytes(const volatile struct record *r)
{
    const volatile u8 *byte = (const volatile u8 *)r;
    for (u32 i = 0; i < sizeof(*r); i++)
        put8(byte[i]);
}

void results(void)
{
    u32 seed = 3;
    for (u32 i = 0; i < COUNT(edges); i++) {
        change(&records[i], edges[i]);
        put_one(&records[i]);
        put_as_bytes(&records[i]);
    }
    for (u32 i = 0; i < 400; i++) {
        volatile struct record *r = &records[next_random(&seed) % COUNT(records)];
        change(r, next_random(&seed));
        put_one(r);
        records[(i * 7) % COUNT(records)].kind ^= 0x80;
    }
    for (u32 i = 0; i < COUNT(records); i++)
        put_as_bytes(&records[i]);
}
