/* Processor time so far. Unlike the time of day it leaves out the moments when another program had
   the processor. */
#define _XOPEN_SOURCE 700
#include <stdint.h>
#include <sys/resource.h>
#include <time.h>

uint64_t processor_microseconds(void);
uint64_t ended_children_user_microseconds(void);

uint64_t processor_microseconds(void)
{
    return (uint64_t)clock() * 1000000 / CLOCKS_PER_SEC;
}

uint64_t ended_children_user_microseconds(void)
{
    struct rusage used;
    /* fails for an unknown first argument or a bad place only */
    (void)getrusage(RUSAGE_CHILDREN, &used);
    return (uint64_t)used.ru_utime.tv_sec * 1000000 + (uint64_t)used.ru_utime.tv_usec;
}
