#include "chip.h"

#include <string.h>

jmp_buf chip_dies;
struct chip_use chip_use;

static uint8_t cells[CHIP_BYTES];
static uint8_t is_weak[CHIP_BLOCKS];  /* its last erasure was not finished */
static enum chip_cuts cut = CHIP_HOLDS;
static uint32_t cut_after;
static uint32_t chance = 1;

/* Typical times of such chips: a byte read, the first byte that is programmed at once, each further one, and erasing a block. */
enum { READ_NS = 400, FIRST_BYTE_NS = 30000, NEXT_BYTE_NS = 2500, ERASE_NS = 45000000 };

uint32_t chip_chance(uint32_t bound) {
    chance ^= chance << 13;
    chance ^= chance >> 17;
    chance ^= chance << 5;
    return chance % bound;
}

void chip_new(uint32_t seed) {
    memset(cells, CHIP_ERASED, sizeof cells);
    memset(is_weak, 0, sizeof is_weak);
    memset(&chip_use, 0, sizeof chip_use);
    cut = CHIP_HOLDS;
    chance = 2 * seed + 1;
}

void chip_cut(enum chip_cuts where, uint32_t after) {
    cut = where;
    cut_after = after;
}

/* Makes a byte of the chip another. Where it counts and power fails at it, some of the bits that differ are altered. */
static void alter(uint8_t *cell, uint8_t byte, int counts) {
    if (counts && cut_after-- == 0) {
        cut = CHIP_HOLDS;
        *cell ^= (uint8_t)((*cell ^ byte) & chip_chance(256));
        longjmp(chip_dies, 1);
    }
    *cell = byte;
}

/* Which byte of an operation on so many comes after i others: rising, falling, or here and there. */
static uint32_t turn(uint32_t order, uint32_t i, uint32_t count) {
    enum { STRIDE = 37 };
    if (order == 0 || count % STRIDE == 0) {
        return i;
    }
    return order == 1 ? count - 1 - i : STRIDE * i % count;
}

void chip_read(uint32_t address, uint8_t *bytes, size_t count) {
    chip_use.nanoseconds += READ_NS * (uint64_t)count;
    memcpy(bytes, cells + address, count);
}

void chip_program(uint32_t address, const uint8_t *bytes, size_t count) {
    const uint32_t page = address - address % CHIP_PAGE_BYTES, order = chip_chance(3);
    const int weak = is_weak[address / CHIP_BLOCK_BYTES];
    uint32_t n;
    chip_use.is_erasing = 0;
    chip_use.programmed += count;
    chip_use.nanoseconds += FIRST_BYTE_NS + NEXT_BYTE_NS * ((uint64_t)count - 1);
    for (n = 0; n < count; n++) {
        const uint32_t i = turn(order, n, (uint32_t)count);
        uint8_t *cell = &cells[page + (address + i) % CHIP_PAGE_BYTES];
        alter(cell, *cell & bytes[i] & (uint8_t)(weak ? chip_chance(256) : 255), cut == CHIP_CUT_ANYWHERE || cut == CHIP_CUT_IN_A_PROGRAM);
    }
}

void chip_erase(uint32_t block) {
    uint8_t *first = cells + block * CHIP_BLOCK_BYTES;
    const uint32_t order = chip_chance(3);
    uint32_t n;
    if (cut == CHIP_CUT_NEAR_AN_END && cut_after-- == 0) {
        chip_cut(CHIP_CUT_ANYWHERE, CHIP_BLOCK_BYTES - 1 - chip_chance(32));
    }
    is_weak[block] = 1;
    chip_use.is_erasing = 1;
    chip_use.erased[block]++;
    chip_use.nanoseconds += ERASE_NS;
    for (n = 0; n < CHIP_BLOCK_BYTES; n++) {
        alter(&first[turn(order, n, CHIP_BLOCK_BYTES)], CHIP_ERASED, cut == CHIP_CUT_ANYWHERE);
    }
    is_weak[block] = 0;
}
