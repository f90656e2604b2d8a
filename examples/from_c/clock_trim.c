/*
 * Trims an oscillator: takes the median of its readings, works out the trim code, burns it into
 * word 0 and its check into word 1.
 *
 * A reading is a frequency in kHz; the target is 8000 kHz and a trim step moves it by 25 kHz. The
 * code is the signed number of steps that comes nearest, -64 to 63, in the low seven bits; bit 8
 * says that the part is trimmed. The check is the code with every bit turned over.
 * If a part would need more steps than there are, nothing is burnt and main says 1.
 */
#include <stdint.h>

#define WORD(k) (*(volatile uint32_t *)(0x80000000u + 4u * (k)))

enum { READINGS = 11, TARGET = 8000, STEP = 25, TRIMMED = 0x100 };

/* In .data: a line puts a part's own readings here. One of these is spoilt by a spike. */
uint16_t readings[READINGS] = {7702, 7698, 7705, 7711, 9340, 7699, 7703, 7707, 7696, 7701, 7704};

/* In .bss: what was found, for whoever looks into the memory afterwards. */
struct { int32_t median, steps; } found;

/* Sorts a copy, which is on the stack. */
static int32_t median(void) {
    uint16_t sorted[READINGS];
    for (int count = 0; count < READINGS; count++) {
        int at = count;
        for (; at > 0 && sorted[at - 1] > readings[count]; at--) sorted[at] = sorted[at - 1];
        sorted[at] = readings[count];
    }
    return sorted[READINGS / 2];
}

/* The nearest whole number; halves away from 0. */
static int32_t divided(int32_t number, int32_t by) {
    return (number + (number < 0 ? -by : by) / 2) / by;
}

int main(void) {
    found.median = median();
    found.steps = divided(TARGET - found.median, STEP);
    if (found.steps < -64 || found.steps > 63) return 1;
    uint32_t code = ((uint32_t)found.steps & 0x7F) | TRIMMED;
    WORD(0) = code;
    WORD(1) = ~code;
    return 0;
}
