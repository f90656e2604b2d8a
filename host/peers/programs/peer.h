/* What the programs share: numbers of a width, the buffer that is compared, and random numbers. */
#ifndef PEER_H
#define PEER_H

typedef unsigned char u8;
typedef signed char i8;
typedef unsigned short u16;
typedef signed short i16;
typedef unsigned int u32;
typedef signed int i32;
typedef unsigned long long u64;
typedef signed long long i64;

#define ROOM 24576
#define COUNT(array) (sizeof(array) / sizeof((array)[0]))

extern u8 room[ROOM];
extern u32 used;

/* Each program has one: it puts its results and never an address. */
void results(void);

static inline void put8(u32 value)
{
    if (used < ROOM)
        room[used++] = (u8)value;
}

static inline void put32(u32 value)
{
    for (u32 shift = 0; shift < 32; shift += 8)
        put8(value >> shift);
}

static inline void put64(u64 value)
{
    put32((u32)value);
    put32((u32)(value >> 32));
}

static inline u32 next_random(u32 *state)
{
    u32 x = *state;
    x ^= x << 13;
    x ^= x >> 17;
    x ^= x << 5;
    *state = x;
    return x;
}

/* A function that is one instruction: C leaves open what some of them do at the edges. */
#define INSTRUCTION(name) \
    static inline u32 do_##name(u32 a, u32 b) \
    { \
        u32 result; \
        __asm__ volatile(#name " %0,%1,%2" : "=r"(result) : "r"(a), "r"(b)); \
        return result; \
    }

/* Numbers at the edges of signs and widths. */
static const u32 edges[] = {
    0, 1, 2, 3, 7, 10, 0x7F, 0x80, 0xFF, 0x7FFF, 0x8000, 0xFFFF, 0x10000, 0x12345678,
    0x55555555, 0xAAAAAAAA, 0x7FFFFFFE, 0x7FFFFFFF, 0x80000000, 0x80000001, 0xFFFF8000,
    0xFFFFFF80, 0xFFFFFFFE, 0xFFFFFFFF,
};

#endif
