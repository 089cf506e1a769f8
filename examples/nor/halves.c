/*
 * The naive choice: all pistons in one plain file, kept in two halves at the chip's front. To store a set the other half is erased, the
 * whole file is written there with the set in it, and then a head with a sequence number and a checksum. At power-up the half counts
 * whose checksums are right, of two the later one.
 */
#include "console.h"

#include <string.h>

enum { HALF_HEAD_BYTES = 12, FILE_BYTES = PAGES * BPCC_MAX_WIDTH };

/* How many blocks a file of so many bytes takes; a half has as many as the file of the larger width takes. */
#define FILE_BLOCKS(bytes) ((HALF_HEAD_BYTES + SEAL_BYTES + (bytes) + SEAL_BYTES + CHIP_BLOCK_BYTES - 1) / CHIP_BLOCK_BYTES)
enum { HALF_BLOCKS = FILE_BLOCKS(FILE_BYTES) };

static struct {
    uint32_t width, sequence, half;
    uint8_t file[FILE_BYTES + SEAL_BYTES];
} halves;

static uint32_t file_bytes(void) {
    return PAGES * halves.width;
}

static uint32_t half_address(uint32_t half) {
    return half * HALF_BLOCKS * CHIP_BLOCK_BYTES;
}

/* Writes the file to the other half; from the last byte of the head on it is that one which counts. */
static void write_file(void) {
    const uint32_t half = 1 - halves.half, first = half_address(half);
    uint8_t head[HALF_HEAD_BYTES + SEAL_BYTES];
    uint32_t i;
    for (i = 0; i < FILE_BLOCKS(file_bytes()); i++) {
        chip_erase(half * HALF_BLOCKS + i);
    }
    driver_seal(halves.file, file_bytes());
    driver_put(first + sizeof head, halves.file, file_bytes() + SEAL_BYTES);
    halves.half = half;
    driver_put_word(head, ++halves.sequence);
    driver_put_word(head + 4, PAGES);
    driver_put_word(head + 8, halves.width);
    driver_seal(head, HALF_HEAD_BYTES);
    driver_put(first, head, sizeof head);
}

static void format(void) {
    memset(halves.file, 0, sizeof halves.file);
    write_file();
}

/* Whether a half's head is whole and says other sizes. */
static int is_other(uint32_t half) {
    uint8_t head[HALF_HEAD_BYTES + SEAL_BYTES];
    chip_read(half_address(half), head, sizeof head);
    return driver_is_sealed(head, HALF_HEAD_BYTES) && (driver_word(head + 4) != PAGES || driver_word(head + 8) != halves.width);
}

/* The sequence number of a half whose head and file are whole, and the file; 0 of any other. */
static uint32_t load(uint32_t half) {
    uint8_t head[HALF_HEAD_BYTES + SEAL_BYTES];
    chip_read(half_address(half), head, sizeof head);
    chip_read(half_address(half) + sizeof head, halves.file, file_bytes() + SEAL_BYTES);
    return driver_is_sealed(head, HALF_HEAD_BYTES) && driver_is_sealed(halves.file, file_bytes()) ? driver_word(head) : 0;
}

static int power_up(uint32_t width) {
    uint32_t first, second;
    halves.width = width;
    if (2 * HALF_BLOCKS > CHIP_BLOCKS) {
        driver_gives_up("the chip has no room for the file twice");
    }
    if (is_other(0) || is_other(1)) {
        return REFUSED;
    }
    first = load(0);
    second = load(1);
    halves.half = second > first;
    halves.sequence = second > first ? second : load(0);
    if (halves.sequence == 0) {
        format();
        return FORMATTED;
    }
    return READY;
}

static void store(const uint32_t *set, uint32_t count, const uint8_t *bytes, uint32_t pieces) {
    uint32_t i;
    if (pieces < count) {
        return;
    }
    for (i = 0; i < count; i++) {
        memcpy(halves.file + set[i] * halves.width, bytes + i * halves.width, halves.width);
    }
    write_file();
}

static void idle(void) {
}

static void read(uint32_t page, uint8_t *bytes) {
    memcpy(bytes, halves.file + page * halves.width, halves.width);
}

const struct console halves_console = {"two halves", &halves, sizeof halves, power_up, format, store, idle, read};
