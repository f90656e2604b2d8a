#include <phuyurik.h>

#include <stdio.h>

int main(void) {
    /* addi x5,x0,7; lui x6,524288; sw x5,0(x6); ecall */
    uint8_t memory[] = {0x9D, 0x42, 0x37, 0x03, 0x00, 0x80, 0x23, 0x20, 0x53, 0x00, 0x73, 0, 0, 0};
    uint8_t row[PHUYURIK_ROW_SIZE] = {0};
    phuyurik_state state = {0};
    uint64_t retired;
    size_t word;
    phuyurik_refusal refusal;
    if (phuyurik_version() != PHUYURIK_VERSION) return 1;
    refusal = phuyurik_run(&state, memory, sizeof memory, row, sizeof row, 100, &retired, &word);
    if (refusal != PHUYURIK_ACCEPTED) {
        fprintf(stderr, "refused: %s\n", phuyurik_refusal_text(refusal));
        if (refusal == PHUYURIK_ROW_RECORD) fprintf(stderr, "it is the record of word %zu\n", word);
        return 1;
    }
    printf("%llu retired, stopped by %s, word 0 is %u\n", (unsigned long long)retired,
           phuyurik_stop_text(state.stop), (unsigned)phuyurik_word(row, 0));
    return 0;
}
