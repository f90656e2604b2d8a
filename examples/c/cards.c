/* Through the C interface: the paper's cards 1, 3, 7, 10, 11 (also with a budget of 3) and 12, the
 * recipe in pieces through a slot, its listing, the recipe assembled from its text, a word cleared and
 * trimmed, the addresses of stops, two recipes that take turns on one row, and nine refusals. Valid C11
 * and C++17. */
#include <phuyurik.h>

#include <stdio.h>
#include <string.h>

struct bench {
    phuyurik_state state;
    uint8_t memory[14];
    uint8_t row[PHUYURIK_ROW_SIZE];
    size_t word; /* for what refusal 3 tells */
};

static const uint8_t recipe[14] = {0x9D, 0x42, 0x37, 0x03, 0x00, 0x80, 0x23,
                                   0x20, 0x53, 0x00, 0x73, 0x00, 0x00, 0x00};

/* A new start: the recipe's memory and the fresh state. The row is the part's, and stays. */
static void start(struct bench *b) {
    memcpy(b->memory, recipe, sizeof recipe);
    memset(&b->state, 0, sizeof b->state);
    b->word = 77;
}

/* A stop in words, and where it was, if it has an address. */
static void show_stop(const phuyurik_state *state) {
    printf("stop %u, %s", (unsigned)state->stop, phuyurik_stop_text(state->stop));
    if (phuyurik_stop_has_address(state->stop)) printf(" at 0x%08x", (unsigned)state->address);
}

static void show(const char *name, uint64_t retired, const struct bench *b) {
    printf("%s: %llu retired, ", name, (unsigned long long)retired);
    show_stop(&b->state);
    printf(", pc %u, word 0 %s %u\n", (unsigned)b->state.pc,
           phuyurik_is_burnt(b->row, 0) ? "burnt with" : "blank with",
           (unsigned)phuyurik_word(b->row, 0));
}

static phuyurik_refusal run(struct bench *b, uint64_t budget, uint64_t *retired) {
    return phuyurik_run(&b->state, b->memory, sizeof b->memory, b->row, sizeof b->row, budget, retired,
                        &b->word);
}

/* A run of one step, and what then stands in the places for the number retired and for the word. */
static void show_refusal(struct bench *b) {
    uint64_t retired = 77;
    phuyurik_refusal refusal = run(b, 1, &retired);
    printf("refusal %u, retired %llu, word %zu\n", (unsigned)refusal, (unsigned long long)retired,
           b->word);
    printf("%u is: %s\n", (unsigned)refusal, phuyurik_refusal_text(refusal));
}

/* Cards 1, 3 and 7: bits to instructions and back. */
static int codes(void) {
    phuyurik_inst inst;
    uint32_t word = 0;
    uint16_t half = 0;
    uint8_t format = 0;
    if (phuyurik_chart(0x00A00513, &format) || phuyurik_decode(0x00A00513, &inst)) return 1;
    if (phuyurik_encode(&inst, &word)) return 1;
    printf("card 1: class %u, addi %d, rd %u, rs1 %u, immediate %u, word %08x\n", (unsigned)format,
           inst.operation == PHUYURIK_OP_ADDI, (unsigned)inst.rd, (unsigned)inst.rs1, (unsigned)inst.imm,
           (unsigned)word);
    if (phuyurik_expand(0x429D, &inst)) return 1;
    printf("card 3: rd %u, rs1 %u, immediate %u\n", (unsigned)inst.rd, (unsigned)inst.rs1,
           (unsigned)inst.imm);
    if (phuyurik_expand(0x6141, &inst) || phuyurik_shorten(&inst, &half)) return 1;
    printf("card 7: %04x\n", (unsigned)half);
    return 0;
}

/* Card 10: jalr x1,3(x1) at 0x20 with x1 = 0x10; and registers by number. */
static int card_10(struct bench *b) {
    static const uint8_t jalr[4] = {0xE7, 0x80, 0x30, 0x00};
    uint8_t memory[0x24] = {0};
    memcpy(memory + 0x20, jalr, sizeof jalr);
    start(b);
    memset(b->row, 0, sizeof b->row);
    b->state.pc = 0x20;
    b->state.x[0] = 0x10;
    b->state.x[30] = 31;
    if (phuyurik_step(&b->state, memory, sizeof memory, b->row, sizeof b->row, &b->word)) return 1;
    printf("card 10: pc 0x%x, x1 0x%x, x0 %u, x31 %u, no x32 %u\n", (unsigned)b->state.pc,
           (unsigned)phuyurik_reg(&b->state, 1), (unsigned)phuyurik_reg(&b->state, 0),
           (unsigned)phuyurik_reg(&b->state, 31), (unsigned)phuyurik_reg(&b->state, 32));
    return 0;
}

/* Card 11: on a blank row, with a budget. */
static int card_11(struct bench *b, uint64_t budget) {
    uint64_t retired = 0;
    memset(b->row, 0, sizeof b->row);
    start(b);
    if (run(b, budget, &retired) != PHUYURIK_ACCEPTED) return 1;
    show(budget == 3 ? "card 11, budget 3" : "card 11", retired, b);
    return 0;
}

/* Card 12: a new start on that row. */
static int card_12(struct bench *b) {
    uint64_t retired = 0;
    start(b);
    if (run(b, 100, &retired) != PHUYURIK_ACCEPTED) return 1;
    show("card 12", retired, b);
    return 0;
}

/* The same run, a step at a time through a slot; x5 then has the 7 that was burnt. */
static int in_pieces(struct bench *b) {
    uint8_t slots[2 * PHUYURIK_RECORD_SIZE] = {0};
    uint64_t retired = 0;
    uint64_t all = 0;
    int piece;
    memset(b->row, 0, sizeof b->row);
    start(b);
    if (phuyurik_write_slot(&b->state, slots, sizeof slots, 1)) return 1;
    for (piece = 0; piece < 5; piece++) {
        if (phuyurik_run_slot(b->memory, sizeof b->memory, b->row, sizeof b->row, slots, sizeof slots,
                              1, 1, &retired, &b->word) != PHUYURIK_ACCEPTED) {
            return 1;
        }
        all += retired;
    }
    if (phuyurik_read_slot(&b->state, slots, sizeof slots, 1)) return 1;
    show("in pieces", all, b);
    printf("x5 is %u\n", (unsigned)phuyurik_reg(&b->state, 5));
    return 0;
}

/* A listing, a page at a time: it ends for every image and every room. */
static void list(const uint8_t *image, size_t image_size) {
    uint8_t room[2 * PHUYURIK_LINE_MAX];
    size_t from, length, next;
    for (from = 0;; from = next) {
        phuyurik_list(image, image_size, from, room, sizeof room, &length, &next);
        if (length == 0) break;
        fwrite(room, 1, length, stdout);
    }
}

/* Assembles lines in a room of so many bytes, and shows the bytes, or the refusal and what stands in
 * the three places. */
static void assemble(const char *lines, size_t room_size) {
    uint8_t room[64];
    size_t length = 77, line = 77, byte = 77, i;
    phuyurik_refusal refusal = phuyurik_assemble((const uint8_t *)lines, strlen(lines), room, room_size,
                                                 &length, &line, &byte);
    if (refusal == PHUYURIK_ACCEPTED) {
        printf("assembled:");
        for (i = 0; i < length; i++) printf(" %02x", (unsigned)room[i]);
        printf("\n");
    } else {
        printf("refusal %u, length %zu, line %zu, byte %zu\n", (unsigned)refusal, length, line, byte);
        printf("%u is: %s\n", (unsigned)refusal, phuyurik_refusal_text(refusal));
    }
}

/* The recipe's text, also in a room that is one byte short, and a number that addi does not have. */
static void texts(void) {
    static const char lines[] = "c:addi x5,x0,7\nlui x6,524288\nsw x5,0(x6)\necall\n";
    assemble(lines, sizeof recipe);
    assemble(lines, sizeof recipe - 1);
    assemble("ecall\naddi x5,x0,2048\n", 64);
}

/* Clears word 0 of a blank row, which is no pulse, burns it, and clears it again, which stops. A mark
 * with the value 0 is refused. */
static int clear_and_trim(struct bench *b) {
    static const uint8_t stores[12] = {0x23, 0xA0, 0x00, 0x00,  /* sw x0,0(x1) */
                                       0x23, 0xA0, 0x20, 0x00,  /* sw x2,0(x1) */
                                       0x23, 0xA0, 0x00, 0x00}; /* sw x0,0(x1) */
    uint64_t retired = 0;
    memset(b->row, 0, sizeof b->row);
    start(b);
    memcpy(b->memory, stores, sizeof stores);
    b->state.x[0] = 0x80000000;
    b->state.x[1] = 7;
    if (run(b, 1, &retired)) return 1;
    show("cleared", retired, b);
    if (run(b, 9, &retired)) return 1;
    show("trimmed", retired, b);
    b->row[0] = 0;
    show_refusal(b);
    return 0;
}

/* A step of the instruction at 4, in so many bytes of memory. */
static const struct {
    uint32_t bits;
    uint32_t x1;
    size_t memory_size;
} steps[] = {
    {0x00000000, 0, 8},          /* no instruction */
    {0x0000A183, 0, 4},          /* lw x3,0(x1), beyond memory */
    {0x0000A183, 0, 6},          /* and with only its first halfword in memory */
    {0x00009183, 7, 8},          /* lh x3,0(x1) */
    {0xFF80A183, 4, 8},          /* lw x3,-8(x1) */
    {0x00209023, 7, 8},          /* sh x2,0(x1) */
    {0x0020A023, 0x80000100, 8}, /* sw x2,0(x1), behind the window */
    {0x0020A023, 0x800000FC, 8}, /* and in it, where word 63 is burnt */
    {0x00000073, 7, 8},          /* ecall */
    {0x00100073, 7, 8},          /* ebreak */
};

static void show_address(const struct bench *b) {
    printf("%s: %s 0x%08x\n", phuyurik_stop_text(b->state.stop),
           phuyurik_stop_has_address(b->state.stop) ? "address" : "no address,",
           (unsigned)b->state.address);
}

/* Where each of them stops, on a row of which word 63 is burnt; and a full count. */
static int addresses(struct bench *b) {
    uint8_t memory[8] = {0};
    size_t i, at;
    memset(b->row, 0, sizeof b->row);
    b->row[8 * 63] = b->row[8 * 63 + 4] = 1;
    for (i = 0; i < sizeof steps / sizeof *steps; i++) {
        for (at = 0; at < 4; at++) memory[4 + at] = (uint8_t)(steps[i].bits >> (8 * at));
        start(b);
        b->state.pc = 4;
        b->state.x[0] = steps[i].x1;
        if (phuyurik_step(&b->state, memory, steps[i].memory_size, b->row, sizeof b->row, &b->word)) {
            return 1;
        }
        show_address(b);
    }
    start(b);
    b->state.count = UINT64_MAX;
    if (phuyurik_step(&b->state, memory, sizeof memory, b->row, sizeof b->row, &b->word)) return 1;
    show_address(b);
    return 0;
}

/* Bad records are told apart: two of the row, of which the lower word is told, then a state's odd pc,
 * then its stop number, then its address, which a pause does not have. All are there from the start, and
 * mended one after the other, the last by a stop that is set anew. */
static void bad_records(struct bench *b) {
    start(b);
    memset(b->row, 0, sizeof b->row);
    b->row[8 * 17 + 4] = 1; /* a mark with value 0 */
    b->row[8 * 40] = 1;     /* a value with mark 0 */
    b->state.pc = 1;
    b->state.stop = 12;
    b->state.address = 4;
    show_refusal(b);
    memset(b->row, 0, sizeof b->row);
    b->word = 77;
    show_refusal(b);
    b->state.pc = 0;
    show_refusal(b);
    b->state.stop = PHUYURIK_PAUSED;
    show_refusal(b);
    phuyurik_set_stop(&b->state, PHUYURIK_PAUSED);
    show_refusal(b);
}

/* Burns x2 into its first word, loads that back into x3, and then the word behind it. */
static const uint8_t trim_and_stray[12] = {0x23, 0xA0, 0x20, 0x00,  /* sw x2,0(x1) */
                                           0x83, 0xA1, 0x00, 0x00,  /* lw x3,0(x1) */
                                           0x83, 0xA1, 0x40, 0x00}; /* lw x3,4(x1) */

/* One recipe of two, with memory and state of its own. */
struct sharer {
    phuyurik_state state;
    uint8_t memory[sizeof trim_and_stray];
    uint64_t own;
    uint64_t retired;
};

static void begin(struct sharer *s, unsigned first, unsigned last, uint32_t value) {
    memset(&s->state, 0, sizeof s->state);
    memcpy(s->memory, trim_and_stray, sizeof trim_and_stray);
    s->own = phuyurik_words(first, last);
    s->state.x[0] = 0x80000000u + 4 * first;
    s->state.x[1] = value;
    s->retired = 0;
}

/* A turn: at most so many steps on the row, where the other recipe has its own words. */
static int take_turn(struct bench *b, struct sharer *s, const struct sharer *other, uint64_t budget) {
    uint64_t retired = 0;
    if (phuyurik_run_masked(&s->state, s->memory, sizeof s->memory, b->row, sizeof b->row, s->own,
                            other->own, budget, &retired, &b->word)) {
        return 1;
    }
    s->retired += retired;
    return 0;
}

static void show_sharer(const char *name, const struct sharer *s) {
    printf("%s: words %016llx, %llu retired, ", name, (unsigned long long)s->own,
           (unsigned long long)s->retired);
    show_stop(&s->state);
    printf(", x3 is %u\n", (unsigned)phuyurik_reg(&s->state, 3));
}

/* A reference has word 0 and an oscillator word 1. Each stops where it leaves its own: the one at the
 * other's word, which is burnt by then, the other at word 2, which is nobody's. Masks that share a bit
 * are refused, also by the other two calls. */
static int two_recipes(struct bench *b) {
    struct sharer reference, oscillator;
    uint8_t slots[PHUYURIK_RECORD_SIZE] = {0};
    uint64_t all = PHUYURIK_ALL_WORDS, last = phuyurik_words(63, 63), retired = 77;
    phuyurik_refusal step, slot;
    memset(b->row, 0, sizeof b->row);
    begin(&reference, 0, 0, 7);
    begin(&oscillator, 1, 1, 9);
    if (take_turn(b, &reference, &oscillator, 1) || take_turn(b, &oscillator, &reference, 2)) return 1;
    if (take_turn(b, &reference, &oscillator, 9) || take_turn(b, &oscillator, &reference, 9)) return 1;
    show_sharer("reference", &reference);
    show_sharer("oscillator", &oscillator);
    printf("word 0 is %u, word 1 is %u\n", (unsigned)phuyurik_word(b->row, 0),
           (unsigned)phuyurik_word(b->row, 1));
    start(b);
    step = phuyurik_step_masked(&b->state, b->memory, sizeof b->memory, b->row, sizeof b->row, all, last,
                                &b->word);
    slot = phuyurik_run_slot_masked(b->memory, sizeof b->memory, b->row, sizeof b->row, slots,
                                    sizeof slots, 0, last, all, 1, &retired, &b->word);
    printf("refusals %u and %u, pc %u, %llu and %zu still there\n", (unsigned)step, (unsigned)slot,
           (unsigned)b->state.pc, (unsigned long long)retired, b->word);
    printf("%u is: %s\n", (unsigned)slot, phuyurik_refusal_text(slot));
    return 0;
}

/* Masks of words: both ends are included, those above 63 do not count, and none is above the last. */
static void words(void) {
    static const unsigned ends[][2] = {{0, 0},     {32, 63}, {63, 63}, {0, 63},
                                       {60, 1000}, {5, 4},   {64, 70}};
    size_t i;
    for (i = 0; i < sizeof ends / sizeof *ends; i++) {
        printf("words %u to %u: %016llx\n", ends[i][0], ends[i][1],
               (unsigned long long)phuyurik_words(ends[i][0], ends[i][1]));
    }
}

/* Refusals leave everything as it was: no slot 2, and a room of 23 bytes. */
static void refusals(struct bench *b) {
    uint8_t slots[2 * PHUYURIK_RECORD_SIZE] = {0};
    uint8_t room[23];
    uint64_t retired = 77;
    size_t length = 77;
    phuyurik_refusal slot = phuyurik_run_slot(b->memory, sizeof b->memory, b->row, sizeof b->row, slots,
                                              sizeof slots, 2, 1, &retired, &b->word);
    phuyurik_refusal text = phuyurik_text_of_word(0x00A00513, room, sizeof room, &length);
    printf("refusals %u and %u, %llu, %zu and %zu still there\n", (unsigned)slot, (unsigned)text,
           (unsigned long long)retired, b->word, length);
    printf("%u is: %s\n", (unsigned)slot, phuyurik_refusal_text(slot));
}

int main(void) {
    struct bench b;
    uint8_t room[PHUYURIK_ROOM_MIN];
    size_t length = 0;
    if (phuyurik_version() != PHUYURIK_VERSION) return 1;
    if (phuyurik_text_of_word(0x00A00513, room, sizeof room, &length)) return 1;
    printf("card 1: %.*s\n", (int)length, (const char *)room);
    if (codes() || card_10(&b) || card_11(&b, 100) || card_12(&b) || card_11(&b, 3) || in_pieces(&b)) return 1;
    list(recipe, sizeof recipe);
    texts();
    if (clear_and_trim(&b) || addresses(&b) || two_recipes(&b)) return 1;
    words();
    bad_records(&b);
    refusals(&b);
    return 0;
}
