/*
 * What a program needs of the emulated board, a Cortex-M3 (mps2-an385), beside newlib and its semihosting: the vectors, a clock, and
 * memory for tests/c/stack.c. Everything is in RAM, where newlib's own layout puts it, but for the vectors, at 0.
 */
#include <malloc.h>
#include <stdint.h>
#include <stdlib.h>
#include <time.h>

void _start(void);

/* A fault ends the program, by a status that no test gives. */
static void fault(void) {
    _Exit(99);
}

/* The first stack, until _start takes the one that the emulator names; the start; and what faults lead to. */
__attribute__((section(".vectors"), used)) static void (*const vectors[16])(void) = {
    (void (*)(void))0x400000, _start, fault, fault, fault, fault, fault};

/* The board's counter of 25 MHz. The emulator counts one instruction as a nanosecond (-icount shift=0), so that a time tells how many
 * instructions were executed, to 40. */
int clock_gettime(clockid_t clock, struct timespec *time) {
    const uint64_t nanoseconds = UINT64_C(40) * *(volatile uint32_t *)0x40028018;
    (void)clock;
    time->tv_sec = (time_t)(nanoseconds / 1000000000);
    time->tv_nsec = (long)(nanoseconds % 1000000000);
    return 0;
}

int posix_memalign(void **memory, size_t alignment, size_t size) {
    *memory = memalign(alignment, size);
    return *memory == NULL;
}
