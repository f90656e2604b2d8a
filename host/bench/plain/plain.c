/* Fetch, expand a short instruction to its 32 bits, switch on the opcode. No cache of decoded
   instructions, so stores over code are seen by the next fetch with no further care. */
#include "plain.h"

#include <phuyurik.h> /* the stop numbers */

#define WINDOW 0x80000000u
#define WINDOW_BYTES 256u

/* what the recipe can touch */
struct lent {
    uint8_t *mem;
    size_t length;
    uint8_t *row;
};

/* what a completed step does besides stores: rd 0 where nothing is written */
struct effect {
    uint32_t next;
    uint32_t rd;
    uint32_t value;
};

/* little-endian on every host; compilers make one load or store of each */
static uint32_t read2(const uint8_t *p)
{
    return p[0] | (uint32_t)p[1] << 8;
}

static uint32_t read4(const uint8_t *p)
{
    return read2(p) | read2(p + 2) << 16;
}

static void write2(uint8_t *p, uint32_t v)
{
    p[0] = (uint8_t)v;
    p[1] = (uint8_t)(v >> 8);
}

static void write4(uint8_t *p, uint32_t v)
{
    p[0] = (uint8_t)v;
    p[1] = (uint8_t)(v >> 8);
    p[2] = (uint8_t)(v >> 16);
    p[3] = (uint8_t)(v >> 24);
}

static uint32_t bits(uint32_t w, int high, int low)
{
    return (w >> low) & ((1u << (high - low + 1)) - 1);
}

/* the low k bits as a signed number */
static uint32_t extend(uint32_t v, int k)
{
    return (uint32_t)((int32_t)(v << (32 - k)) >> (32 - k));
}

/* The manual's formats, for the expansion of short instructions. */

static uint32_t r_type(uint32_t f7, uint32_t rs2, uint32_t rs1, uint32_t f3, uint32_t rd, uint32_t op)
{
    return f7 << 25 | rs2 << 20 | rs1 << 15 | f3 << 12 | rd << 7 | op;
}

static uint32_t i_type(uint32_t imm, uint32_t rs1, uint32_t f3, uint32_t rd, uint32_t op)
{
    return imm << 20 | rs1 << 15 | f3 << 12 | rd << 7 | op;
}

static uint32_t sw_word(uint32_t imm, uint32_t rs2, uint32_t rs1)
{
    return r_type(bits(imm, 11, 5), rs2, rs1, 2, bits(imm, 4, 0), 0x23);
}

static uint32_t branch_word(uint32_t imm, uint32_t rs1, uint32_t f3)
{
    uint32_t high = bits(imm, 12, 12) << 6 | bits(imm, 10, 5);
    return r_type(high, 0, rs1, f3, bits(imm, 4, 1) << 1 | bits(imm, 11, 11), 0x63);
}

static uint32_t jal_word(uint32_t imm, uint32_t rd)
{
    return bits(imm, 20, 20) << 31 | bits(imm, 10, 1) << 21 | bits(imm, 11, 11) << 20
        | bits(imm, 19, 12) << 12 | rd << 7 | 0x6f;
}

/* Quadrants 0, 1 and 2: the 32-bit word that a halfword stands for; 0 where there is none. */

static uint32_t expand_0(uint32_t h)
{
    uint32_t rd = bits(h, 4, 2) + 8, rs1 = bits(h, 9, 7) + 8;
    uint32_t offset = bits(h, 12, 10) << 3 | bits(h, 6, 6) << 2 | bits(h, 5, 5) << 6;
    uint32_t frame = bits(h, 10, 7) << 6 | bits(h, 12, 11) << 4 | bits(h, 5, 5) << 3
        | bits(h, 6, 6) << 2;
    switch (h >> 13) {
    case 0: return frame ? i_type(frame, 2, 0, rd, 0x13) : 0;
    case 2: return i_type(offset, rs1, 2, rd, 0x03);
    case 6: return sw_word(offset, rd, rs1);
    default: return 0;
    }
}

static uint32_t short_jump(uint32_t h)
{
    return extend(bits(h, 12, 12) << 11 | bits(h, 11, 11) << 4 | bits(h, 10, 9) << 8
        | bits(h, 8, 8) << 10 | bits(h, 7, 7) << 6 | bits(h, 6, 6) << 7 | bits(h, 5, 3) << 1
        | bits(h, 2, 2) << 5, 12);
}

static uint32_t short_branch(uint32_t h)
{
    return extend(bits(h, 12, 12) << 8 | bits(h, 11, 10) << 3 | bits(h, 6, 5) << 6
        | bits(h, 4, 3) << 1 | bits(h, 2, 2) << 5, 9);
}

/* C.LUI, and C.ADDI16SP where rd is the stack pointer */
static uint32_t short_upper(uint32_t h, uint32_t imm)
{
    uint32_t rd = bits(h, 11, 7);
    uint32_t frame = extend(bits(h, 12, 12) << 9 | bits(h, 6, 6) << 4 | bits(h, 5, 5) << 6
        | bits(h, 4, 3) << 7 | bits(h, 2, 2) << 5, 10);
    if (rd == 2)
        return frame ? i_type(frame, 2, 0, 2, 0x13) : 0;
    return imm ? imm << 12 | rd << 7 | 0x37 : 0;
}

static uint32_t short_arithmetic(uint32_t h, uint32_t imm)
{
    static const uint8_t f3[4] = {0, 4, 6, 7};
    uint32_t rd = bits(h, 9, 7) + 8, rs2 = bits(h, 4, 2) + 8, which = bits(h, 6, 5);
    if (bits(h, 11, 10) == 2)
        return i_type(imm, rd, 7, rd, 0x13);
    if (bits(h, 12, 12))
        return 0;
    switch (bits(h, 11, 10)) {
    case 0: return r_type(0, bits(h, 6, 2), rd, 5, rd, 0x13);
    case 1: return r_type(32, bits(h, 6, 2), rd, 5, rd, 0x13);
    default: return r_type(which ? 0 : 32, rs2, rd, f3[which], rd, 0x33);
    }
}

static uint32_t expand_1(uint32_t h)
{
    uint32_t rd = bits(h, 11, 7), rs1 = bits(h, 9, 7) + 8;
    uint32_t imm = extend(bits(h, 12, 12) << 5 | bits(h, 6, 2), 6);
    switch (h >> 13) {
    case 0: return i_type(imm, rd, 0, rd, 0x13);
    case 1: return jal_word(short_jump(h), 1);
    case 2: return i_type(imm, 0, 0, rd, 0x13);
    case 3: return short_upper(h, imm);
    case 4: return short_arithmetic(h, imm);
    case 5: return jal_word(short_jump(h), 0);
    case 6: return branch_word(short_branch(h), rs1, 0);
    default: return branch_word(short_branch(h), rs1, 1);
    }
}

/* C.JR, C.MV, C.EBREAK, C.JALR, C.ADD */
static uint32_t short_register(uint32_t h)
{
    uint32_t rd = bits(h, 11, 7), rs2 = bits(h, 6, 2), link = bits(h, 12, 12);
    if (rs2)
        return r_type(0, rs2, link ? rd : 0, 0, rd, 0x33);
    if (rd)
        return i_type(0, rd, 0, link, 0x67);
    return link ? 0x00100073 : 0;
}

static uint32_t expand_2(uint32_t h)
{
    uint32_t rd = bits(h, 11, 7), rs2 = bits(h, 6, 2);
    uint32_t load = bits(h, 12, 12) << 5 | bits(h, 6, 4) << 2 | bits(h, 3, 2) << 6;
    uint32_t store = bits(h, 12, 9) << 2 | bits(h, 8, 7) << 6;
    switch (h >> 13) {
    case 0: return bits(h, 12, 12) ? 0 : r_type(0, rs2, rd, 1, rd, 0x13);
    case 2: return rd ? i_type(load, 2, 2, rd, 0x03) : 0;
    case 4: return short_register(h);
    case 6: return sw_word(store, rs2, 2);
    default: return 0;
    }
}

static uint32_t expand(uint32_t h)
{
    switch (h & 3) {
    case 0: return expand_0(h);
    case 1: return expand_1(h);
    default: return expand_2(h);
    }
}

/* The operations. Each answers PHUYURIK_PAUSED, or the stop. */

static uint8_t load(const struct lent *lent, uint32_t f3, uint32_t a, uint32_t *value)
{
    uint32_t n = 1u << (f3 & 3);
    if (f3 == 3 || f3 > 5)
        return PHUYURIK_ILLEGAL;
    if (a & (n - 1))
        return PHUYURIK_LOAD_MISALIGNED;
    if ((uint64_t)a + n > lent->length) {
        if (f3 != 2 || a - WINDOW >= WINDOW_BYTES)
            return PHUYURIK_LOAD_OUTSIDE;
        *value = read4(lent->row + 2 * (a - WINDOW));
        return PHUYURIK_PAUSED;
    }
    switch (f3) {
    case 0: *value = extend(lent->mem[a], 8); break;
    case 1: *value = extend(read2(lent->mem + a), 16); break;
    case 2: *value = read4(lent->mem + a); break;
    case 4: *value = lent->mem[a]; break;
    default: *value = read2(lent->mem + a); break;
    }
    return PHUYURIK_PAUSED;
}

/* a is a word of the window; zero gives no pulse */
static uint8_t store_row(uint8_t *row, uint32_t a, uint32_t value)
{
    uint8_t *record = row + 2 * (a - WINDOW);
    if (record[4])
        return PHUYURIK_ALREADY_BURNT;
    if (value) {
        write4(record, value);
        record[4] = 1;
    }
    return PHUYURIK_PAUSED;
}

static uint8_t store(const struct lent *lent, uint32_t f3, uint32_t a, uint32_t value)
{
    uint32_t n = 1u << f3;
    if (f3 > 2)
        return PHUYURIK_ILLEGAL;
    if (a & (n - 1))
        return PHUYURIK_STORE_MISALIGNED;
    if ((uint64_t)a + n > lent->length) {
        if (f3 != 2 || a - WINDOW >= WINDOW_BYTES)
            return PHUYURIK_STORE_OUTSIDE;
        return store_row(lent->row, a, value);
    }
    switch (f3) {
    case 0: lent->mem[a] = (uint8_t)value; break;
    case 1: write2(lent->mem + a, value); break;
    default: write4(lent->mem + a, value); break;
    }
    return PHUYURIK_PAUSED;
}

/* `other` chooses sub and sra */
static uint32_t arithmetic(uint32_t f3, int other, uint32_t a, uint32_t b)
{
    switch (f3) {
    case 0: return other ? a - b : a + b;
    case 1: return a << (b & 31);
    case 2: return (int32_t)a < (int32_t)b;
    case 3: return a < b;
    case 4: return a ^ b;
    case 5: return other ? (uint32_t)((int32_t)a >> (b & 31)) : a >> (b & 31);
    case 6: return a | b;
    default: return a & b;
    }
}

/* signed division in 64 bits, so that -2^31 / -1 is defined in C */
static uint32_t multiply_divide(uint32_t f3, uint32_t a, uint32_t b)
{
    int64_t sa = (int32_t)a, sb = (int32_t)b;
    switch (f3) {
    case 0: return a * b;
    case 1: return (uint32_t)((sa * sb) >> 32);
    case 2: return (uint32_t)((sa * (int64_t)b) >> 32);
    case 3: return (uint32_t)(((uint64_t)a * b) >> 32);
    case 4: return b == 0 ? UINT32_MAX : (uint32_t)(sa / sb);
    case 5: return b == 0 ? UINT32_MAX : a / b;
    case 6: return b == 0 ? a : (uint32_t)(sa % sb);
    default: return b == 0 ? a : a % b;
    }
}

static uint8_t immediate_operation(uint32_t w, uint32_t a, uint32_t *value)
{
    uint32_t f3 = bits(w, 14, 12), f7 = w >> 25;
    int shift = f3 == 1 || f3 == 5;
    if (shift && f7 && (f3 == 1 || f7 != 32))
        return PHUYURIK_ILLEGAL;
    *value = arithmetic(f3, shift && f7, a, shift ? bits(w, 24, 20) : extend(w >> 20, 12));
    return PHUYURIK_PAUSED;
}

static uint8_t register_operation(uint32_t w, uint32_t a, uint32_t b, uint32_t *value)
{
    uint32_t f3 = bits(w, 14, 12), f7 = w >> 25;
    if (f7 == 1)
        *value = multiply_divide(f3, a, b);
    else if (f7 == 0 || (f7 == 32 && (f3 == 0 || f3 == 5)))
        *value = arithmetic(f3, f7 == 32, a, b);
    else
        return PHUYURIK_ILLEGAL;
    return PHUYURIK_PAUSED;
}

static uint8_t branch(uint32_t w, uint32_t pc, uint32_t a, uint32_t b, uint32_t *next)
{
    int taken;
    switch (bits(w, 14, 12)) {
    case 0: taken = a == b; break;
    case 1: taken = a != b; break;
    case 4: taken = (int32_t)a < (int32_t)b; break;
    case 5: taken = (int32_t)a >= (int32_t)b; break;
    case 6: taken = a < b; break;
    case 7: taken = a >= b; break;
    default: return PHUYURIK_ILLEGAL;
    }
    if (taken)
        *next = pc + extend(bits(w, 31, 31) << 12 | bits(w, 7, 7) << 11 | bits(w, 30, 25) << 5
            | bits(w, 11, 8) << 1, 13);
    return PHUYURIK_PAUSED;
}

static uint8_t jump(uint32_t w, uint32_t pc, uint32_t a, struct effect *e)
{
    e->value = e->next;
    if (bits(w, 3, 3)) {
        e->next = pc + extend(bits(w, 31, 31) << 20 | bits(w, 19, 12) << 12
            | bits(w, 20, 20) << 11 | bits(w, 30, 21) << 1, 21);
        return PHUYURIK_PAUSED;
    }
    e->next = (a + extend(w >> 20, 12)) & ~1u;
    return bits(w, 14, 12) ? PHUYURIK_ILLEGAL : PHUYURIK_PAUSED;
}

static uint8_t system_operation(uint32_t w)
{
    if (w == 0x00000073)
        return PHUYURIK_ECALL;
    return w == 0x00100073 ? PHUYURIK_EBREAK : PHUYURIK_ILLEGAL;
}

static uint8_t operation(const struct plain *s, const struct lent *lent, uint32_t w, struct effect *e)
{
    uint32_t f3 = bits(w, 14, 12), a = s->x[bits(w, 19, 15)], b = s->x[bits(w, 24, 20)];
    switch (w & 0x7f) {
    case 0x37:
        e->value = w & 0xfffff000;
        return PHUYURIK_PAUSED;
    case 0x17:
        e->value = s->pc + (w & 0xfffff000);
        return PHUYURIK_PAUSED;
    case 0x6f: case 0x67:
        return jump(w, s->pc, a, e);
    case 0x63:
        e->rd = 0;
        return branch(w, s->pc, a, b, &e->next);
    case 0x03:
        return load(lent, f3, a + extend(w >> 20, 12), &e->value);
    case 0x23:
        e->rd = 0;
        return store(lent, f3, a + extend(bits(w, 31, 25) << 5 | bits(w, 11, 7), 12), b);
    case 0x13:
        return immediate_operation(w, a, &e->value);
    case 0x33:
        return register_operation(w, a, b, &e->value);
    case 0x0f:
        e->rd = 0;
        return f3 ? PHUYURIK_ILLEGAL : PHUYURIK_PAUSED;
    case 0x73:
        return system_operation(w);
    default:
        return PHUYURIK_ILLEGAL;
    }
}

/* the instruction at pc as 32 bits, and its own length */
static uint8_t fetch(const struct lent *lent, uint32_t pc, uint32_t *word, uint32_t *length)
{
    uint32_t half;
    if ((uint64_t)pc + 2 > lent->length)
        return PHUYURIK_FETCH_OUTSIDE;
    half = read2(lent->mem + pc);
    if ((half & 31) == 31)
        return PHUYURIK_ILLEGAL;
    if ((half & 3) != 3) {
        *word = expand(half);
        *length = 2;
        return *word ? PHUYURIK_PAUSED : PHUYURIK_ILLEGAL;
    }
    if ((uint64_t)pc + 4 > lent->length)
        return PHUYURIK_FETCH_OUTSIDE;
    *word = read4(lent->mem + pc);
    *length = 4;
    return PHUYURIK_PAUSED;
}

/* a step that stops changes nothing but the stop */
static uint8_t step(struct plain *s, const struct lent *lent)
{
    struct effect e = {0, 0, 0};
    uint32_t word = 0, length = 0;
    uint8_t stop;
    if (s->count == UINT64_MAX)
        return PHUYURIK_COUNT_FULL;
    stop = fetch(lent, s->pc, &word, &length);
    if (stop != PHUYURIK_PAUSED)
        return stop;
    e.next = s->pc + length;
    e.rd = bits(word, 11, 7);
    stop = operation(s, lent, word, &e);
    if (stop != PHUYURIK_PAUSED)
        return stop;
    if (e.rd)
        s->x[e.rd] = e.value;
    s->pc = e.next;
    s->count++;
    return PHUYURIK_PAUSED;
}

uint64_t plain_run(struct plain *s, uint8_t *mem, size_t length, uint8_t *row, uint64_t budget)
{
    const struct lent lent = {mem, length, row};
    const uint64_t start = s->count;
    while (s->stop == PHUYURIK_PAUSED && s->count - start < budget)
        s->stop = step(s, &lent);
    return s->count - start;
}
