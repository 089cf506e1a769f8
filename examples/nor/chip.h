/*
 * A simulated NOR flash chip: programming clears bits, erasing sets every bit of a block, and power may fail at any byte of either.
 * Firmware has its chip's own three functions in place of these; all else here is for the bench.
 */
#ifndef CHIP_H
#define CHIP_H

#include <setjmp.h>
#include <stddef.h>
#include <stdint.h>

/* A small serial chip: nine blocks ("sectors") of 4 KiB. An address is a byte of the chip. */
enum { CHIP_BLOCKS = 9, CHIP_BLOCK_BYTES = 4096, CHIP_BYTES = CHIP_BLOCKS * CHIP_BLOCK_BYTES };

/* A page is what can be programmed at once: bytes beyond its end would go to its front. */
enum { CHIP_PAGE_BYTES = 256 };

/* What an erased byte reads as. */
enum { CHIP_ERASED = 255 };

void chip_read(uint32_t address, uint8_t *bytes, size_t count);

/* Clears the bits of a page that are 0 in `bytes`; a bit that is 0 already stays 0. */
void chip_program(uint32_t address, const uint8_t *bytes, size_t count);

/* Sets all bits of a block. A block whose erasure was cut short does not hold what is programmed, also where it reads as erased, until
 * an erasure of it is finished. */
void chip_erase(uint32_t block);

/* The bench. A chip that was never used, whose chance is decided by a seed. */
void chip_new(uint32_t seed);

/* Where power fails: nowhere; at the byte before which so many more are programmed or erased; at the one before which so many more are
 * programmed; or at one of the last few bytes of an erasure, before which there are so many others. */
enum chip_cuts { CHIP_HOLDS, CHIP_CUT_ANYWHERE, CHIP_CUT_IN_A_PROGRAM, CHIP_CUT_NEAR_AN_END };

/* The bytes of one operation are altered in any order. The one at which power fails is torn: any of its bits are altered and the others
 * not. Then `chip_dies` is jumped to, with 1. */
void chip_cut(enum chip_cuts where, uint32_t after);
extern jmp_buf chip_dies;

/* What the chip was put to since it was new, and what it does now. */
struct chip_use {
    uint64_t programmed;           /* bytes */
    uint64_t nanoseconds;          /* the time that reading, programming and erasing took */
    uint32_t erased[CHIP_BLOCKS];  /* how often each block was erased, or begun to be */
    int is_erasing;
};
extern struct chip_use chip_use;

/* A number below `bound`, by chance: the same row of numbers on every machine. */
uint32_t chip_chance(uint32_t bound);

#endif
