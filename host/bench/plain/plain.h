/* A plain C interpreter of the same machine, as a yardstick for speed; nothing about it is proved. */
#ifndef PLAIN_H
#define PLAIN_H

#include <stddef.h>
#include <stdint.h>

/* x[0] is x0 and stays 0 */
struct plain {
    uint32_t pc;
    uint32_t x[32];
    uint64_t count;
    uint8_t stop;
};

/* Runs while the state is paused and fewer than `budget` steps have retired; answers how many have.
   The caller answers for a sound state and row, and for at most 65,536 bytes of memory. */
uint64_t plain_run(struct plain *s, uint8_t *mem, size_t length, uint8_t *row, uint64_t budget);

#endif
