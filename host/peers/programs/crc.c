/* CRC-32 bit by bit and by a table, CRC-16, Adler-32 and FNV-1a of random bytes. */
#include "peer.h"

static u8 bytes[512];
static u32 table[256];

static u32 crc_step(u32 crc)
{
    return crc >> 1 ^ (crc & 1 ? 0xEDB88320 : 0);
}

static u32 crc_by_bits(u32 length)
{
    u32 crc = 0xFFFFFFFF;
    for (u32 i = 0; i < length; i++) {
        crc ^= bytes[i];
        for (u32 bit = 0; bit < 8; bit++)
            crc = crc_step(crc);
    }
    return ~crc;
}

static u32 crc_by_table(u32 length)
{
    u32 crc = 0xFFFFFFFF;
    for (u32 i = 0; i < length; i++)
        crc = crc >> 8 ^ table[(crc ^ bytes[i]) & 0xFF];
    return ~crc;
}

static u16 crc16(u32 length)
{
    u16 crc = 0xFFFF;
    for (u32 i = 0; i < length; i++) {
        crc = (u16)(crc ^ bytes[i] << 8);
        for (u32 bit = 0; bit < 8; bit++)
            crc = (u16)(crc & 0x8000 ? crc << 1 ^ 0x1021 : crc << 1);
    }
    return crc;
}

static u32 adler(u32 length)
{
    u32 a = 1, b = 0;
    for (u32 i = 0; i < length; i++) {
        a = (a + bytes[i]) % 65521;
        b = (b + a) % 65521;
    }
    return b << 16 | a;
}

static u32 fnv(u32 length)
{
    u32 hash = 2166136261u;
    for (u32 i = 0; i < length; i++)
        hash = (hash ^ bytes[i]) * 16777619u;
    return hash;
}

void results(void)
{
    u32 seed = 99;
    for (u32 i = 0; i < 256; i++) {
        table[i] = i;
        for (u32 bit = 0; bit < 8; bit++)
            table[i] = crc_step(table[i]);
        put32(table[i]);
    }
    for (u32 i = 0; i < sizeof(bytes); i++)
        bytes[i] = (u8)next_random(&seed);
    for (u32 length = 0; length <= sizeof(bytes); length += 1 + length / 8) {
        put32(crc_by_bits(length));
        put32(crc_by_table(length));
        put32(crc16(length));
        put32(adler(length));
        put32(fnv(length));
    }
}
