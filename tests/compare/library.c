/*
 * The library's side of the comparison: a volume of 64 pages and 72 slots in a file.
 *
 *   library DIRECTORY make               a full volume: no slot blank
 *   library DIRECTORY store SETS SIZE    opens it and stores so many sets of so many pages
 *
 * A slot is 52 bytes of the file: five words and 32 bytes. A slot written or erased is one write of them and one sync, so that it
 * is stored before the next call is made, as a driver has to see to. For an erasure a chip is sent no bytes; this file is.
 */
#define _POSIX_C_SOURCE 200809L

#include "bpcc.h"

#include <fcntl.h>
#include <stdio.h>
#include <stdlib.h>
#include <string.h>
#include <sys/types.h>
#include <unistd.h>

enum { PAGES = 64, SLOTS = 72, WIDTH = BPCC_WIDTH_32, WORD_BYTES = 4 * BPCC_SLOT_WORDS, SLOT_BYTES = WORD_BYTES + WIDTH };

static uint32_t words[BPCC_SLOT_WORDS * SLOTS];
static uint8_t contents[WIDTH * SLOTS];
static uint32_t state[BPCC_PAGE_WORDS * PAGES];
static int flash;

#define VOLUME PAGES, SLOTS, WIDTH
#define WORDS words, BPCC_TABLE_WORDS(SLOTS)
#define CONTENTS contents, BPCC_CONTENTS_BYTES(SLOTS, WIDTH)
#define STATE state, BPCC_STATE_WORDS(PAGES)

static void need(int holds, const char *what) {
    if (!holds) {
        fprintf(stderr, "library: %s\n", what);
        exit(1);
    }
}

/* The second number of a call that is done. */
static uint32_t done(const char *call, uint64_t reply) {
    need(bpcc_answer(reply) == BPCC_DONE, call);
    return bpcc_second(reply);
}

static void program(uint32_t slot) {
    uint8_t piece[SLOT_BYTES];
    memcpy(piece, words + BPCC_SLOT_WORDS * slot, WORD_BYTES);
    memcpy(piece + WORD_BYTES, contents + WIDTH * slot, WIDTH);
    need(pwrite(flash, piece, SLOT_BYTES, (off_t)slot * SLOT_BYTES) == SLOT_BYTES, "the file takes no slot");
    need(fdatasync(flash) == 0, "the file is not synced");
}

static void load(uint32_t slot) {
    uint8_t piece[SLOT_BYTES];
    need(pread(flash, piece, SLOT_BYTES, (off_t)slot * SLOT_BYTES) == SLOT_BYTES, "the file is too short");
    memcpy(words + BPCC_SLOT_WORDS * slot, piece, WORD_BYTES);
    memcpy(contents + WIDTH * slot, piece + WORD_BYTES, WIDTH);
}

/* A blank slot; where there is none, one is erased. */
static uint32_t blank_slot(void) {
    uint32_t slot = 0;
    while (slot < SLOTS && words[BPCC_SLOT_WORDS * slot] != BPCC_NONE) {
        slot++;
    }
    if (slot == SLOTS) {
        slot = done("suggest", bpcc_suggest(VOLUME, WORDS, CONTENTS, STATE));
        done("erase", bpcc_erase(VOLUME, WORDS, CONTENTS, STATE, &slot, 1));
        program(slot);
    }
    return slot;
}

/* Set n: `size` pages that follow those of set n-1, with bytes of its own. */
static void store(uint32_t n, uint32_t size) {
    uint32_t list[PAGES] = {0}, i, stored = 0;
    uint8_t bytes[WIDTH];
    memset(bytes, (int)(n % 256), sizeof bytes);
    for (i = 0; i < size; i++) {
        list[i] = (n * size + i) % PAGES;
    }
    done("launch", bpcc_launch(VOLUME, STATE, list, size));
    for (i = 0; i < size; i++) {
        uint32_t slot = blank_slot();
        stored = done("write", bpcc_write(VOLUME, WORDS, CONTENTS, STATE, list[i], slot, bytes, sizeof bytes));
        program(slot);
    }
    need(stored == 1, "a set is not stored");
}

static void make(void) {
    uint32_t slot;
    done("format", bpcc_format(VOLUME, WORDS, CONTENTS, STATE));
    for (slot = 0; slot < SLOTS; slot++) {
        program(slot);
    }
    store(0, SLOTS - PAGES);
}

static void store_sets(uint32_t sets, uint32_t size) {
    uint32_t i;
    need(size >= 1 && size <= SLOTS - PAGES, "sets of 1 to 8 pages");
    for (i = 0; i < SLOTS; i++) {
        load(i);
    }
    done("recover", bpcc_recover(VOLUME, WORDS, CONTENTS, STATE));
    for (i = 1; i <= sets; i++) {
        store(i, size);
    }
}

int main(int argc, char **argv) {
    char path[4096];
    if (!(argc == 3 && strcmp(argv[2], "make") == 0) && !(argc == 5 && strcmp(argv[2], "store") == 0)) {
        fprintf(stderr, "usage: library DIRECTORY make | library DIRECTORY store SETS SIZE\n");
        return 2;
    }
    snprintf(path, sizeof path, "%s/flash", argv[1]);
    flash = open(path, O_RDWR | O_CREAT, 0600);
    need(flash >= 0, "the file cannot be opened");
    if (argc == 3) {
        make();
    } else {
        store_sets((uint32_t)strtoul(argv[3], NULL, 10), (uint32_t)strtoul(argv[4], NULL, 10));
    }
    return 0;
}
