/* Work on strings: length, comparison, search, reversal, letters, numbers to digits and back. */
#include "peer.h"

static const char *const texts[] = {
    "", "a", "fuse", "fuses", "Trim recipe", "a man a plan a canal", "zzzz", "word already burnt",
    "\x80\xFF high", "0", "-2147483648", "4294967295", "12ab",
};

static u32 length_of(const char *text)
{
    u32 length = 0;
    while (text[length])
        length++;
    return length;
}

static i32 compare(const char *a, const char *b)
{
    while (*a && *a == *b)
        a++, b++;
    return (u8)*a - (u8)*b;
}

static i32 find(const char *text, const char *part)
{
    for (i32 at = 0;; at++) {
        u32 i = 0;
        while (part[i] && text[at + (i32)i] == part[i])
            i++;
        if (!part[i])
            return at;
        if (!text[at])
            return -1;
    }
}

static void put_digits(i32 value, u32 base)
{
    char digits[36];
    u32 count = 0, rest = value < 0 ? 0u - (u32)value : (u32)value;
    do {
        digits[count++] = "0123456789abcdefghijklmnopqrstuvwxyz"[rest % base];
        rest /= base;
    } while (rest);
    if (value < 0)
        digits[count++] = '-';
    while (count)
        put8((u32)digits[--count]);
    put8(',');
}

static i32 number_in(const char *text)
{
    u32 value = 0, negative = *text == '-';
    for (text += negative; *text >= '0' && *text <= '9'; text++)
        value = value * 10 + (u32)(*text - '0');
    return (i32)(negative ? 0 - value : value);
}

static void put_turned(const char *text)
{
    for (u32 i = length_of(text); i-- > 0;) {
        char c = text[i];
        put8((u32)(c >= 'a' && c <= 'z' ? c - 32 : c >= 'A' && c <= 'Z' ? c + 32 : c));
    }
}

void results(void)
{
    for (u32 i = 0; i < COUNT(texts); i++) {
        put32(length_of(texts[i]));
        put_turned(texts[i]);
        put_digits(number_in(texts[i]), 10);
        for (u32 j = 0; j < COUNT(texts); j++) {
            put32((u32)compare(texts[i], texts[j]));
            put32((u32)find(texts[i], texts[j]));
        }
    }
    for (u32 i = 0; i < COUNT(edges); i++)
        for (u32 base = 2; base <= 36; base += 7)
            put_digits((i32)edges[i], base);
}
