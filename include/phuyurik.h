/* Phuyurik: a proved emulator for trim recipes, small RV32IMC programs that can touch only their own
 * memory and the 64 one-time words of the part in the socket.
 *
 * Every function that can refuse returns PHUYURIK_ACCEPTED, which is 0, or a refusal. A refusal says
 * nothing else: every buffer and every place that was lent to the call is as it was. The exceptions are
 * places at the end of a call, for what a refusal tells: the word of 3, and the line and the byte of 10
 * to 12. Where more than one refusal applies, the first in the order that the function names is given.
 * Later versions add refusals and stops: a switch over them has a default. No input is forbidden, but
 * for what C asks: a pointer points to as many bytes as its size says (where that is 0 it may be NULL),
 * a place for a value is there, and what a call may write overlaps nothing else that the call is given.
 * No function keeps a pointer, allocates, or has state of its own, so calls on different buffers may
 * run at the same time.
 *
 * Buffers come in one order in every call: state, memory, row, slots. For C11 and C++11 or later.
 */
#ifndef PHUYURIK_H
#define PHUYURIK_H

#include <stddef.h>
#include <stdint.h>

#if SIZE_MAX != UINT64_MAX
#error "the library's sizes and slot numbers have 64 bits, and so must size_t"
#endif
#if !defined(__BYTE_ORDER__) || __BYTE_ORDER__ != __ORDER_LITTLE_ENDIAN__
#error "a state in memory is its record, which is little-endian, and so must the machine be"
#endif

#ifdef __cplusplus
extern "C" {
#define PHUYURIK_ASSERT(what, words) static_assert(what, words)
#else
#define PHUYURIK_ASSERT(what, words) _Static_assert(what, words)
#endif

/* ---- the version
 *
 * The header's, and the archive's as the same number: major * 65536 + minor * 256 + patch. A program
 * compares the two at its start:
 *
 *     if (phuyurik_version() != PHUYURIK_VERSION) ...
 */

#define PHUYURIK_VERSION_MAJOR 0
#define PHUYURIK_VERSION_MINOR 7
#define PHUYURIK_VERSION_PATCH 0
#define PHUYURIK_VERSION                                                                                \
    (PHUYURIK_VERSION_MAJOR * 65536u + PHUYURIK_VERSION_MINOR * 256u + PHUYURIK_VERSION_PATCH)

uint32_t phuyurik_version(void);

/* ---- sizes */

#define PHUYURIK_MEMORY_MAX 65536 /* main memory has 0 to this many bytes */
#define PHUYURIK_ROW_SIZE 512     /* a fuse row: 64 records of 8 bytes */
#define PHUYURIK_WORDS 64         /* the words of a row */
#define PHUYURIK_RECORD_SIZE 144  /* a state, and its record in a slot */
#define PHUYURIK_ROOM_MIN 24      /* a text room has at least this; less is refused with 6 */
#define PHUYURIK_LINE_MAX 38      /* no line of a listing is longer, its newline included */

/* ---- refusals */

typedef enum phuyurik_refusal {
    PHUYURIK_ACCEPTED = 0,
    PHUYURIK_MEMORY_TOO_LONG = 1,     /* memory longer than 65,536 */
    PHUYURIK_ROW_LENGTH = 2,          /* row not 512 bytes */
    PHUYURIK_ROW_RECORD = 3,          /* a row record breaks its rules; *word is the lowest that does */
    PHUYURIK_SLOT = 4,                /* slot buffer not a multiple of 144, or no such slot */
    PHUYURIK_ODD_PC = 5,              /* odd pc */
    PHUYURIK_ROOM = 6,                /* text room under 24 bytes */
    PHUYURIK_NO_INSTRUCTION = 7,      /* no legal instruction in the given bits */
    PHUYURIK_FIELD = 8,               /* a field out of range, or an odd branch or jal offset */
    PHUYURIK_NO_SHORT_FORM = 9,       /* no short form */
    PHUYURIK_UNREADABLE = 10,         /* a line that cannot be read */
    PHUYURIK_NUMBER_NOT_ALLOWED = 11, /* a line with a number or offset not allowed */
    PHUYURIK_NO_SHORT_LINE = 12,      /* a line with `c:` without a short form */
    PHUYURIK_OUTPUT_ROOM = 13,        /* room shorter than the whole output */
    PHUYURIK_STOP_NUMBER = 14,        /* stop number out of range */
    PHUYURIK_RECORD_END = 15,         /* bytes 137 to 143 of a record, or a state's address, break
                                       * their rules */
    PHUYURIK_MASKS_SHARE = 16         /* masks that share a bit */
} phuyurik_refusal;

/* The words for a refusal's number; those for any other number say that it is none. */
static inline const char *phuyurik_refusal_text(unsigned number) {
    static const char *const texts[] = {
        "accepted",
        "memory longer than 65,536",
        "row not 512 bytes",
        "a row record breaks its rules",
        "slot buffer not a multiple of 144, or no such slot",
        "odd pc",
        "text room under 24 bytes",
        "no legal instruction in the given bits",
        "instruction with a field out of range, or an odd branch or jal offset",
        "no short form",
        "unreadable",
        "a number or offset not allowed",
        "`c:` without a short form",
        "room shorter than the whole output",
        "stop number out of range",
        "bytes 137 to 143 of a record, or a state's address, break their rules",
        "masks that share a bit",
    };
    return number < sizeof texts / sizeof *texts ? texts[number] : "no refusal has this number";
}

/* ---- stops */

typedef enum phuyurik_stop {
    PHUYURIK_PAUSED = 0, /* paused, can go on */
    PHUYURIK_ECALL = 1,
    PHUYURIK_EBREAK = 2,
    PHUYURIK_ILLEGAL = 3,
    PHUYURIK_FETCH_OUTSIDE = 4,
    PHUYURIK_LOAD_MISALIGNED = 5,
    PHUYURIK_LOAD_OUTSIDE = 6,
    PHUYURIK_STORE_MISALIGNED = 7,
    PHUYURIK_STORE_OUTSIDE = 8,
    PHUYURIK_ALREADY_BURNT = 9,
    PHUYURIK_COUNT_FULL = 10,
    PHUYURIK_NOT_OWNED = 11
} phuyurik_stop;

/* The words for a stop's number; those for any other number say that it is none. */
static inline const char *phuyurik_stop_text(unsigned number) {
    static const char *const texts[] = {
        "paused, can go on", "ecall",
        "ebreak",            "illegal instruction",
        "fetch outside",     "load misaligned",
        "load outside",      "store misaligned",
        "store outside",     "word already burnt",
        "count full",        "word not its own",
    };
    return number < sizeof texts / sizeof *texts ? texts[number] : "no stop has this number";
}

/* Whether a stop has an address, which a state carries with it: 3 to 9 and 11 have one, and no other
 * number. */
static inline int phuyurik_stop_has_address(unsigned number) {
    switch (number) {
    case PHUYURIK_ILLEGAL:
    case PHUYURIK_FETCH_OUTSIDE:
    case PHUYURIK_LOAD_MISALIGNED:
    case PHUYURIK_LOAD_OUTSIDE:
    case PHUYURIK_STORE_MISALIGNED:
    case PHUYURIK_STORE_OUTSIDE:
    case PHUYURIK_ALREADY_BURNT:
    case PHUYURIK_NOT_OWNED: return 1;
    default: return 0;
    }
}

/* ---- instructions
 *
 * An instruction is its operation, and its operands, 0 for each that it does not have. Immediates and
 * offsets are sign-extended to 32 bits; lui and auipc have the 20-bit field, a shift its amount, fence
 * its 12-bit field. Numbers of no instruction (an operation above 47, a register above 31, an operand
 * that the operation does not have) are refused with 8. */

typedef enum phuyurik_operation {
    PHUYURIK_OP_LUI = 0,
    PHUYURIK_OP_AUIPC = 1,
    PHUYURIK_OP_JAL = 2,
    PHUYURIK_OP_JALR = 3,
    PHUYURIK_OP_BEQ = 4,
    PHUYURIK_OP_BNE = 5,
    PHUYURIK_OP_BLT = 6,
    PHUYURIK_OP_BGE = 7,
    PHUYURIK_OP_BLTU = 8,
    PHUYURIK_OP_BGEU = 9,
    PHUYURIK_OP_LB = 10,
    PHUYURIK_OP_LH = 11,
    PHUYURIK_OP_LW = 12,
    PHUYURIK_OP_LBU = 13,
    PHUYURIK_OP_LHU = 14,
    PHUYURIK_OP_SB = 15,
    PHUYURIK_OP_SH = 16,
    PHUYURIK_OP_SW = 17,
    PHUYURIK_OP_ADDI = 18,
    PHUYURIK_OP_SLTI = 19,
    PHUYURIK_OP_SLTIU = 20,
    PHUYURIK_OP_XORI = 21,
    PHUYURIK_OP_ORI = 22,
    PHUYURIK_OP_ANDI = 23,
    PHUYURIK_OP_SLLI = 24,
    PHUYURIK_OP_SRLI = 25,
    PHUYURIK_OP_SRAI = 26,
    PHUYURIK_OP_ADD = 27,
    PHUYURIK_OP_SUB = 28,
    PHUYURIK_OP_SLL = 29,
    PHUYURIK_OP_SLT = 30,
    PHUYURIK_OP_SLTU = 31,
    PHUYURIK_OP_XOR = 32,
    PHUYURIK_OP_SRL = 33,
    PHUYURIK_OP_SRA = 34,
    PHUYURIK_OP_OR = 35,
    PHUYURIK_OP_AND = 36,
    PHUYURIK_OP_FENCE = 37,
    PHUYURIK_OP_ECALL = 38,
    PHUYURIK_OP_EBREAK = 39,
    PHUYURIK_OP_MUL = 40,
    PHUYURIK_OP_MULH = 41,
    PHUYURIK_OP_MULHSU = 42,
    PHUYURIK_OP_MULHU = 43,
    PHUYURIK_OP_DIV = 44,
    PHUYURIK_OP_DIVU = 45,
    PHUYURIK_OP_REM = 46,
    PHUYURIK_OP_REMU = 47
} phuyurik_operation;

typedef struct phuyurik_inst {
    uint32_t operation; /* a phuyurik_operation */
    uint32_t rd;
    uint32_t rs1;
    uint32_t rs2;
    uint32_t imm;
} phuyurik_inst;

/* The format class of 32 bits, by bits 6 to 2 and funct3 alone: 0 none, 1 R, 2 I, 3 S, 4 B, 5 U, 6 J.
 * Never refuses. */
phuyurik_refusal phuyurik_chart(uint32_t bits, uint8_t *format);

/* What 32 bits mean. Refuses with 7. */
phuyurik_refusal phuyurik_decode(uint32_t bits, phuyurik_inst *inst);

/* What 16 bits mean: the instruction that they stand for. Refuses with 7. */
phuyurik_refusal phuyurik_expand(uint16_t bits, phuyurik_inst *inst);

/* The word of an instruction. Refuses with 8. */
phuyurik_refusal phuyurik_encode(const phuyurik_inst *inst, uint32_t *bits);

/* The smallest halfword, as a number, that stands for an instruction. Refuses with 8, then 9. */
phuyurik_refusal phuyurik_shorten(const phuyurik_inst *inst, uint16_t *bits);

/* ---- texts
 *
 * The text is put at the front of the room, with no zero byte after it, and its length into *length.
 * Bytes of the room after the text stay. */

/* The text of 32 bits. Refuses with 6, then 7. */
phuyurik_refusal phuyurik_text_of_word(uint32_t bits, uint8_t *room, size_t room_size, size_t *length);

/* The text of 16 bits: that of what they stand for, with c: in front. Refuses with 6, then 7. */
phuyurik_refusal phuyurik_text_of_half(uint16_t bits, uint8_t *room, size_t room_size, size_t *length);

/* The text of an instruction. Refuses with 6, then 8. */
phuyurik_refusal phuyurik_text_of(const phuyurik_inst *inst, uint8_t *room, size_t room_size,
                                  size_t *length);

/* Whole lines of an image's listing, from the address `from` on, while the room has place for the
 * longest: their bytes at the front of the room, how many into *length, and the address after the
 * last line into *next. At the image's end, and in a room under PHUYURIK_LINE_MAX bytes, there is no
 * line, and *length is 0: so this ends for every image and every room, and lists all of the image
 * where the room has PHUYURIK_LINE_MAX bytes or more:
 *
 *     for (from = 0;; from = next) {
 *         phuyurik_list(image, image_size, from, room, sizeof room, &length, &next);
 *         if (length == 0) break;
 *         fwrite(room, 1, length, stdout);
 *     }
 *
 * An image over 65,536 bytes has the one line `too long`. Never refuses. */
phuyurik_refusal phuyurik_list(const uint8_t *image, size_t image_size, size_t from, uint8_t *room,
                               size_t room_size, size_t *length, size_t *next);

/* ---- the assembler */

/* Lines as the texts above are written, each ended by a newline, to their instructions, one after
 * another; a line with c: gives the smallest halfword. The bytes are put at the front of the room, and
 * their number into *length. Bytes of the room after them stay. A room as long as the text always
 * suffices.
 *
 * Refuses, for the first line at fault, with 10, then 11, then 12: that line goes into *line, and into
 * *byte the byte within it, both from 0. For 10 it is the first byte that can't continue a readable
 * line (the byte after the last where the text ends early), for 11 the first of the leftmost wrong
 * number, for 12 byte 0. Then refuses with 13. With 0 and 13 *line and *byte stay:
 *
 *     refusal = phuyurik_assemble(text, text_size, room, room_size, &length, &line, &byte);
 *     if (refusal == PHUYURIK_ACCEPTED) fwrite(room, 1, length, stdout);
 *     else if (refusal != PHUYURIK_OUTPUT_ROOM) fprintf(stderr, "line %zu, byte %zu\n", line, byte);
 */
phuyurik_refusal phuyurik_assemble(const uint8_t *text, size_t text_size, uint8_t *room,
                                   size_t room_size, size_t *length, size_t *line, size_t *byte);

/* ---- states
 *
 * A state is pc, x1 to x31, the retired count, a stop number and the address that belongs to the stop.
 * Its bytes in memory are those of its record in a slot (copy them, or use phuyurik_read_slot: a
 * pointer into slots is no pointer to a state). The fresh state is all zero: `phuyurik_state state =
 * {0};` in C, `{}` in C++.
 *
 * A step that stops sets the stop number and the address:
 *
 *     stop                address
 *     3                   pc
 *     4                   of the halfword that could not be fetched: pc, or pc + 2 where the first was
 *                         within memory
 *     5, 6, 7, 8, 9, 11   the address accessed: register plus immediate, modulo 2^32
 *     0, 1, 2, 10         0
 *
 * A state, and a record, is refused with 5 for an odd pc; then with 14 for a stop number above 11; then
 * with 15 for a `zero` that is not zero, or an address that is not 0 where the stop is 0, 1, 2 or 10.
 * With another stop any address is accepted: a record that was written before there were addresses has
 * 0 there. Programs do not name `zero`. */

typedef struct phuyurik_state {
    uint32_t pc;
    uint32_t x[31]; /* x[0] is x1: phuyurik_reg reads by number */
    uint64_t count;
    uint8_t stop; /* a phuyurik_stop */
    uint8_t zero[3];
    uint32_t address; /* where it stopped, if phuyurik_stop_has_address(stop) */
} phuyurik_state;

PHUYURIK_ASSERT(sizeof(phuyurik_state) == PHUYURIK_RECORD_SIZE, "a state is its record");
PHUYURIK_ASSERT(offsetof(phuyurik_state, x) == 4, "x1 stands at byte 4");
PHUYURIK_ASSERT(offsetof(phuyurik_state, count) == 128, "the count stands at byte 128");
PHUYURIK_ASSERT(offsetof(phuyurik_state, stop) == 136, "the stop number stands at byte 136");
PHUYURIK_ASSERT(offsetof(phuyurik_state, zero) == 137, "the zeros stand at byte 137");
PHUYURIK_ASSERT(offsetof(phuyurik_state, address) == 140, "the address stands at byte 140");
PHUYURIK_ASSERT(sizeof(phuyurik_inst) == 20, "an instruction is five numbers in a row");

/* Register n, 0 to 31, of a state; x0 is 0. Of a number above 31 it is 0, too. */
static inline uint32_t phuyurik_reg(const phuyurik_state *state, unsigned n) {
    return n >= 1 && n <= 31 ? state->x[n - 1] : 0;
}

/* Gives a state this stop, also to let one go on that has stopped (PHUYURIK_PAUSED). Programs set a
 * stop so and not by the field: what belongs to the old stop, its address, goes with it. */
static inline void phuyurik_set_stop(phuyurik_state *state, phuyurik_stop stop) {
    size_t i;
    state->stop = (uint8_t)stop;
    for (i = 0; i < sizeof state->zero; i++) state->zero[i] = 0;
    state->address = 0;
}

/* ---- rows
 *
 * Word k of a row is bytes 8k to 8k + 7: its value in the first four, little-endian, its mark in the
 * fifth (0 blank, 1 burnt), the rest zero. A blank word's value is zero, a burnt word's value is not
 * zero; any other record breaks the rules. A store of another value than zero to a blank word burns it;
 * a store of zero to a blank word changes nothing. A blank row is 512 zero bytes. */

/* Whether word k of a row is burnt. k is 0 to 63; any other word is not. */
static inline int phuyurik_is_burnt(const uint8_t *row, unsigned k) {
    return k < PHUYURIK_WORDS && row[8 * k + 4] == 1;
}

/* The value of word k of a row, 0 if it is not burnt. k is 0 to 63; the value of any other is 0. */
static inline uint32_t phuyurik_word(const uint8_t *row, unsigned k) {
    if (!phuyurik_is_burnt(row, k)) return 0;
    row += 8 * k;
    return (uint32_t)row[0] | (uint32_t)row[1] << 8 | (uint32_t)row[2] << 16 | (uint32_t)row[3] << 24;
}

/* ---- steps and runs
 *
 * mem is main memory, at address 0; row is the fuse row of the part, of which every word is the recipe's
 * own. With refusal 3 the lowest word, 0 to 63, whose record breaks the rules goes into *word, also of
 * phuyurik_run_slot and of the masked calls; else *word stays:
 *
 *     refusal = phuyurik_step(&state, mem, mem_size, row, row_size, &word);
 *     if (refusal == PHUYURIK_ROW_RECORD) fprintf(stderr, "record of word %zu\n", word);
 */

/* One step; a state that has stopped stays as it is. Refuses with 1, 2, 3, 5, 14, 15. */
phuyurik_refusal phuyurik_step(phuyurik_state *state, uint8_t *mem, size_t mem_size, uint8_t *row,
                               size_t row_size, size_t *word);

/* Steps while the state is paused and fewer than `budget` have retired; the number retired goes into
 * *retired. Refuses with 1, 2, 3, 5, 14, 15. */
phuyurik_refusal phuyurik_run(phuyurik_state *state, uint8_t *mem, size_t mem_size, uint8_t *row,
                              size_t row_size, uint64_t budget, uint64_t *retired, size_t *word);

/* ---- slots
 *
 * slots is a buffer of records, one after the other, with no header: bytes 0-3 pc, 4-127 x1 to x31,
 * 128-135 the retired count, 136 the stop number, 137-139 zero, 140-143 the stop's address, all
 * little-endian. k counts from 0. */

/* A state into slot k; no other byte changes. Refuses with 4, 5, 14, 15. */
phuyurik_refusal phuyurik_write_slot(const phuyurik_state *state, uint8_t *slots, size_t slots_size,
                                     size_t k);

/* The state in slot k. Refuses with 4, 5, 14, 15. */
phuyurik_refusal phuyurik_read_slot(phuyurik_state *state, const uint8_t *slots, size_t slots_size,
                                    size_t k);

/* Reads slot k, runs it as phuyurik_run does and writes it back. However a budget is cut into such
 * calls, the end is that of the whole budget. Refuses with 1, 2, 3, 4, 5, 14, 15. */
phuyurik_refusal phuyurik_run_slot(uint8_t *mem, size_t mem_size, uint8_t *row, size_t row_size,
                                   uint8_t *slots, size_t slots_size, size_t k, uint64_t budget,
                                   uint64_t *retired, size_t *word);

/* ---- masks: two recipes, one row
 *
 * Two recipes, each with its own memory and state, may take turns on one row. Each call is given the
 * recipe's own mask and the other recipe's: bit k (0 lowest) set means that word k is that recipe's. The
 * other recipe's calls are given the same masks, swapped:
 *
 *     uint64_t reference = phuyurik_words(0, 31), oscillator = phuyurik_words(32, 63);
 *     phuyurik_run_masked(&a, a_mem, a_size, row, sizeof row, reference, oscillator, 100, &n, &word);
 *     phuyurik_run_masked(&b, b_mem, b_size, row, sizeof row, oscillator, reference, 100, &n, &word);
 *
 * A load or store at a word that is not in the own mask stops with 11: after misaligned and outside,
 * and before already burnt, so whatever the word holds, and whatever is stored, also zero. A word of
 * neither mask is nobody's, and stops both. Masks that share a bit are refused with 16.
 *
 * With the same masks in every call, a recipe may rely on this, also where the other runs between:
 *
 *   - the other's words, and nobody's, are never changed by its calls, nor its own words by the other's;
 *   - what it gets back (state, memory, number retired, its own words) does not depend on what the
 *     words that are not its own hold, as long as every record of the row keeps its rules: one that
 *     breaks them is refused with 3, whoever owns the word;
 *   - so its end is that of the whole budget on the first row, however the turns are cut.
 *
 * Neither a state nor its record has the masks: the program keeps them, and gives them to every call. A
 * call without masks owns all words, so also phuyurik_run_slot where it carries on a run that had masks:
 * it is the call with PHUYURIK_ALL_WORDS and 0, and is never refused with 16.
 *
 * The order is own, other, budget, the budget last: all three are uint64_t, and a compiler does not see
 * that they were exchanged. */

#define PHUYURIK_ALL_WORDS UINT64_MAX

/* The mask of the words `first` to `last`, both included. Words above 63 do not count; where `first` is
 * above `last` it is 0. */
static inline uint64_t phuyurik_words(unsigned first, unsigned last) {
    uint64_t from_first = first < PHUYURIK_WORDS ? PHUYURIK_ALL_WORDS << first : 0;
    uint64_t behind_last = last < PHUYURIK_WORDS - 1 ? PHUYURIK_ALL_WORDS << (last + 1) : 0;
    return from_first & ~behind_last;
}

/* phuyurik_step with masks. Refuses with 1, 2, 3, 16, 5, 14, 15. */
phuyurik_refusal phuyurik_step_masked(phuyurik_state *state, uint8_t *mem, size_t mem_size, uint8_t *row,
                                      size_t row_size, uint64_t own, uint64_t other, size_t *word);

/* phuyurik_run with masks. Refuses with 1, 2, 3, 16, 5, 14, 15. */
phuyurik_refusal phuyurik_run_masked(phuyurik_state *state, uint8_t *mem, size_t mem_size, uint8_t *row,
                                     size_t row_size, uint64_t own, uint64_t other, uint64_t budget,
                                     uint64_t *retired, size_t *word);

/* phuyurik_run_slot with masks. Refuses with 1, 2, 3, 16, 4, 5, 14, 15. */
phuyurik_refusal phuyurik_run_slot_masked(uint8_t *mem, size_t mem_size, uint8_t *row, size_t row_size,
                                          uint8_t *slots, size_t slots_size, size_t k, uint64_t own,
                                          uint64_t other, uint64_t budget, uint64_t *retired,
                                          size_t *word);

#undef PHUYURIK_ASSERT

#ifdef __cplusplus
}
#endif

#endif
