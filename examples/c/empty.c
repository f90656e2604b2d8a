/* Buffers with no bytes: a NULL pointer with size 0 is allowed in every call, and gets its answer. Every
 * expected number is the paper's: no memory is memory (the first fetch is outside), no row is refused
 * with 2, no slots with 4 (after 16), no room with 6, or with 13 where a line gives something; no text
 * gives nothing. Valid C11 and C++17. */
#include <phuyurik.h>

#include <stdio.h>
#include <string.h>

static int failed = 0;

static void expect(const char *what, unsigned long long got, unsigned long long wanted) {
    if (got == wanted) return;
    printf("%s: %llu, not %llu\n", what, got, wanted);
    failed = 1;
}

static void runs(void) {
    phuyurik_state state;
    uint8_t row[PHUYURIK_ROW_SIZE] = {0};
    uint8_t slots[PHUYURIK_RECORD_SIZE] = {0};
    uint64_t retired = 77;
    size_t word = 77;
    memset(&state, 0, sizeof state);
    expect("a step with no memory", phuyurik_step(&state, NULL, 0, row, sizeof row, &word), 0);
    expect("its stop", state.stop, PHUYURIK_FETCH_OUTSIDE);
    state.address = 2;
    phuyurik_set_stop(&state, PHUYURIK_PAUSED);
    expect("the address after a stop was set", state.address, 0);
    expect("a step with no row", phuyurik_step(&state, NULL, 0, NULL, 0, &word), PHUYURIK_ROW_LENGTH);
    expect("a run with no row", phuyurik_run(&state, NULL, 0, NULL, 0, 9, &retired, &word),
           PHUYURIK_ROW_LENGTH);
    expect("a run of no slots",
           phuyurik_run_slot(NULL, 0, row, sizeof row, NULL, 0, 0, 9, &retired, &word), PHUYURIK_SLOT);
    expect("what was retired", retired, 77);
    expect("a slot's run with no memory",
           phuyurik_run_slot(NULL, 0, row, sizeof row, slots, sizeof slots, 0, 9, &retired, &word), 0);
    expect("its stop", slots[136], PHUYURIK_FETCH_OUTSIDE);
    expect("a run with no memory", phuyurik_run(&state, NULL, 0, row, sizeof row, 9, &retired, &word), 0);
    expect("what was retired", retired, 0);
    expect("its stop", state.stop, PHUYURIK_FETCH_OUTSIDE);
    expect("a step after it", phuyurik_step(&state, NULL, 0, row, sizeof row, &word), 0);
    expect("the word, which none told", word, 77);
}

static void masked(void) {
    phuyurik_state state;
    uint8_t row[PHUYURIK_ROW_SIZE] = {0};
    uint64_t own = phuyurik_words(0, 31), other = phuyurik_words(32, 63), retired = 77;
    size_t word = 77;
    memset(&state, 0, sizeof state);
    expect("a masked step with no row", phuyurik_step_masked(&state, NULL, 0, NULL, 0, own, own, &word),
           PHUYURIK_ROW_LENGTH);
    expect("a masked run with no row",
           phuyurik_run_masked(&state, NULL, 0, NULL, 0, own, own, 9, &retired, &word),
           PHUYURIK_ROW_LENGTH);
    expect("a masked run of no slots",
           phuyurik_run_slot_masked(NULL, 0, row, sizeof row, NULL, 0, 0, own, other, 9, &retired,
                                    &word),
           PHUYURIK_SLOT);
    expect("the same with masks that share",
           phuyurik_run_slot_masked(NULL, 0, row, sizeof row, NULL, 0, 0, own, own, 9, &retired,
                                    &word),
           PHUYURIK_MASKS_SHARE);
    expect("what was retired", retired, 77);
    expect("a masked run with no memory",
           phuyurik_run_masked(&state, NULL, 0, row, sizeof row, own, other, 9, &retired, &word), 0);
    expect("what was retired", retired, 0);
    expect("its stop", state.stop, PHUYURIK_FETCH_OUTSIDE);
    expect("a masked step after it",
           phuyurik_step_masked(&state, NULL, 0, row, sizeof row, own, other, &word), 0);
    expect("the word, which none told", word, 77);
}

static void slots(void) {
    phuyurik_state state;
    memset(&state, 0, sizeof state);
    expect("writing to no slots", phuyurik_write_slot(&state, NULL, 0, 0), PHUYURIK_SLOT);
    expect("reading of no slots", phuyurik_read_slot(&state, NULL, 0, 0), PHUYURIK_SLOT);
}

static void texts(void) {
    phuyurik_inst inst = {PHUYURIK_OP_ECALL, 0, 0, 0, 0};
    uint8_t room[PHUYURIK_LINE_MAX];
    const uint8_t image[2] = {0x01, 0x00};
    size_t length = 77, next = 77;
    expect("a word's text", phuyurik_text_of_word(0x73, NULL, 0, &length), PHUYURIK_ROOM);
    expect("a halfword's text", phuyurik_text_of_half(0x0001, NULL, 0, &length), PHUYURIK_ROOM);
    expect("a text", phuyurik_text_of(&inst, NULL, 0, &length), PHUYURIK_ROOM);
    expect("its length", length, 77);
    expect("no image", phuyurik_list(NULL, 0, 0, room, sizeof room, &length, &next), 0);
    expect("its length", length, 0);
    expect("no room", phuyurik_list(image, sizeof image, 0, NULL, 0, &length, &next), 0);
    expect("its length", length, 0);
    expect("its next", next, 0);
}

static void assembler(void) {
    static const uint8_t text[] = {'e', 'c', 'a', 'l', 'l', '\n'};
    uint8_t room[sizeof text];
    size_t length = 77, line = 77, byte = 77;
    expect("a line in no room", phuyurik_assemble(text, sizeof text, NULL, 0, &length, &line, &byte),
           PHUYURIK_OUTPUT_ROOM);
    expect("its length", length, 77);
    expect("no text", phuyurik_assemble(NULL, 0, room, sizeof room, &length, &line, &byte), 0);
    expect("its length", length, 0);
    length = 77;
    expect("no text in no room", phuyurik_assemble(NULL, 0, NULL, 0, &length, &line, &byte), 0);
    expect("its length", length, 0);
    expect("a line without its newline in no room",
           phuyurik_assemble(text, sizeof text - 1, NULL, 0, &length, &line, &byte),
           PHUYURIK_UNREADABLE);
    expect("its line", line, 0);
    expect("its byte", byte, 5);
}

int main(void) {
    runs();
    masked();
    slots();
    texts();
    assembler();
    return failed;
}
