/*
 * How long the cleaning of a block of 64 slots takes on 1,024 slots, beside an erase of 64 slots of the same kind of volume: a line
 * for each kind and width with both times, in microseconds, and 'N passed, M failed', where a kind passes if every call gave the
 * answer expected and the cleaning made the copies expected and took less than MOST times as long as the erase.
 *
 * A time is the median of ROUNDS calls, each on the volume as it was made; the two calls take turns, so that what else the machine
 * does falls on both. What is copied out of a cleaned block may not be erased; there the erased block's records are the same and have
 * twins outside it, by which they may. Where these twins are searched for among all records, they are in the lowest slots or in the
 * highest, and the slower of the two erases counts.
 */
#define _POSIX_C_SOURCE 200809L

#include "bpcc.h"

#include <stdio.h>
#include <stdlib.h>
#include <string.h>
#include <time.h>

enum { SLOTS = BPCC_MAX_SLOTS, BLOCK = 64, ROUNDS = 101, MOST = 3 };

static const uint32_t starts[BPCC_MAX_BLOCKS] = BPCC_BLOCKS_OF_64;

static struct volume {
    uint32_t pages;
    uint32_t words[BPCC_SLOT_WORDS * SLOTS];
    uint8_t contents[BPCC_MAX_WIDTH * SLOTS];
    uint32_t state[BPCC_PAGE_WORDS * BPCC_MAX_PAGES];
} v, cleaned, erased;

static uint32_t width;
static uint32_t list[SLOTS]; /* the numbers from 0 up */
static unsigned wrong;       /* answers not expected, of the kind at hand */

#define VOLUME v.pages, SLOTS, width
#define WORDS v.words, BPCC_TABLE_WORDS(SLOTS)
#define CONTENTS v.contents, BPCC_CONTENTS_BYTES(SLOTS, width)
#define STATE v.state, BPCC_STATE_WORDS(v.pages)
#define STARTS starts, BPCC_BLOCKS_OF_64_LENGTH(SLOTS)

static void expect(uint64_t reply) {
    wrong += bpcc_answer(reply) != BPCC_DONE;
}

static void format(uint32_t pages) {
    v.pages = pages;
    expect(bpcc_format(VOLUME, WORDS, CONTENTS, STATE));
}

static void put(uint32_t page, uint32_t slot) {
    uint8_t bytes[BPCC_MAX_WIDTH];
    memset(bytes, (int)(slot % 251), sizeof bytes);
    expect(bpcc_write(VOLUME, WORDS, CONTENTS, STATE, page, slot, bytes, width));
}

/* Rings of all pages, one after the other in the slots below `end`. */
static void rings(uint32_t end) {
    uint32_t slot;
    for (slot = v.pages; slot < end; slot++) {
        if (slot % v.pages == 0) {
            expect(bpcc_launch(VOLUME, STATE, list, v.pages));
        }
        put(slot % v.pages, slot);
    }
}

/* By hand: a record whose bytes differ from those of others at their end. */
static void set(uint32_t slot, uint32_t p, uint32_t version, uint32_t c, uint32_t np, uint32_t nv) {
    const uint32_t record[] = {p, version, c, np, nv};
    memcpy(v.words + BPCC_SLOT_WORDS * slot, record, sizeof record);
    memset(v.contents + width * slot, 0, width);
    memcpy(v.contents + width * (slot + 1) - sizeof slot, &slot, sizeof slot);
}

/* By hand: a slot becomes another's twin. */
static void copy(uint32_t from, uint32_t to) {
    memcpy(v.words + BPCC_SLOT_WORDS * to, v.words + BPCC_SLOT_WORDS * from, BPCC_SLOT_WORDS * sizeof *v.words);
    memcpy(v.contents + width * to, v.contents + width * from, width);
}

/* By hand: the slots from `first` on become twins of block 0's. */
static void copy_block(uint32_t first) {
    uint32_t slot;
    for (slot = 0; slot < BLOCK; slot++) {
        copy(slot, first + slot);
    }
}

/* Rings of 64 pages, each a block; the last block is blank. */
static void rings_of_blocks(void) {
    format(BLOCK);
    rings(SLOTS - BLOCK);
}

/* A set of two pages, withdrawn after the first. */
static void abandon(uint32_t page, uint32_t other, uint32_t slot) {
    const uint32_t both[] = {page, other};
    expect(bpcc_launch(VOLUME, STATE, both, 2));
    put(page, slot);
    expect(bpcc_withdraw(VOLUME, STATE, page));
}

/* A set of one page, stored. */
static void store(uint32_t page, uint32_t slot) {
    expect(bpcc_launch(VOLUME, STATE, list + page, 1));
    put(page, slot);
}

/* 648 records of eight pages, the last of each committed, and 200 exposed ones. */
static void exposed(void) {
    uint32_t slot;
    format(8);
    rings(648);
    for (slot = 648; slot < 848; slot++) {
        abandon(slot % 8, (slot + 1) % 8, slot);
    }
}

/* Versions of page 0, each of which straddles a link of its own behind them, and the last of all committed; block 0 has 62 of them and
 * both committed records, and the last block is blank. */
static void needed(void) {
    const uint32_t half = (SLOTS - BLOCK) / 2, first = 0;
    uint32_t i;
    format(2);
    for (i = 2; i < half; i++) {
        abandon(1, 0, half + i - 1);
        store(0, i);
    }
    expect(bpcc_erase(VOLUME, WORDS, CONTENTS, STATE, &first, 1));
    store(0, first);
}

/* … with a twin of each record of block 0 in the last block. */
static void needed_twins(void) {
    needed();
    copy_block(SLOTS - BLOCK);
}

/* By hand: records of one page, all committed and alike but for the end of their bytes; the last block is blank. */
static void alike(void) {
    uint32_t slot;
    format(1);
    for (slot = 0; slot < SLOTS - BLOCK; slot++) {
        set(slot, 0, 0, 0, 0, 0);
    }
}

/* … with a twin of each record of block 0 in the slots behind it. */
static void twins_behind(void) {
    alike();
    copy_block(BLOCK);
}

/* … or in the last block. */
static void twins_last(void) {
    alike();
    copy_block(SLOTS - BLOCK);
}

/* … with those of block 0 twins of each other. */
static void twins_within(void) {
    uint32_t slot;
    alike();
    for (slot = 1; slot < BLOCK; slot++) {
        copy(0, slot);
    }
}

/* … and one more in the slot behind the block. */
static void twins_within_and_behind(void) {
    twins_within();
    copy(0, BLOCK);
}

/* … or in the last slot. */
static void twins_within_and_last(void) {
    twins_within();
    copy(0, SLOTS - 1);
}

/* Each kind: the volume cleaned, its block and the copies to be made; the volumes erased, one or two, of which block 0 is listed. */
static const struct kind {
    const char *what;
    void (*make_cleaned)(void);
    uint32_t block, copies;
    void (*make_erased[2])(void);
} kinds[] = {
    {"rings of 64 pages, 64 records to copy", rings_of_blocks, SLOTS / BLOCK - 2, BLOCK, {rings_of_blocks, NULL}},
    {"rings of 64 pages, 64 records that may go", rings_of_blocks, 0, 0, {rings_of_blocks, NULL}},
    {"200 exposed records, 64 that may go", exposed, 0, 0, {exposed, NULL}},
    {"478 exposed records, 62 needed ones and two more to copy", needed, 0, BLOCK, {needed_twins, NULL}},
    {"by hand, 64 twins outside a block of 64", twins_behind, 0, 0, {twins_behind, NULL}},
    {"by hand, 64 twins in the block, one to copy", twins_within, 0, 1, {twins_within_and_behind, twins_within_and_last}},
    {"by hand, 960 records alike but for their last bytes, 64 to copy", alike, 0, BLOCK, {twins_behind, twins_last}},
};

static double microseconds(void) {
    struct timespec t;
    clock_gettime(CLOCK_MONOTONIC, &t);
    return 1e6 * (double)t.tv_sec + 1e-3 * (double)t.tv_nsec;
}

static double clean(const struct kind *kind) {
    double started;
    uint64_t reply;
    v = cleaned;
    started = microseconds();
    reply = bpcc_clean(VOLUME, WORDS, CONTENTS, STATE, STARTS, kind->block);
    started = microseconds() - started;
    expect(reply);
    return started;
}

static double erase(void) {
    double started;
    uint64_t reply;
    v = erased;
    started = microseconds();
    reply = bpcc_erase(VOLUME, WORDS, CONTENTS, STATE, list, BLOCK);
    started = microseconds() - started;
    expect(reply);
    return started;
}

/* How many slots that were blank hold a record since the last cleaning. */
static uint32_t copies(void) {
    uint32_t slot, count = 0;
    for (slot = 0; slot < SLOTS; slot++) {
        const size_t at = BPCC_SLOT_WORDS * slot;
        count += cleaned.words[at] == BPCC_NONE && v.words[at] != BPCC_NONE;
    }
    return count;
}

static int rising(const void *a, const void *b) {
    const double x = *(const double *)a, y = *(const double *)b;
    return (x > y) - (x < y);
}

static double median(double *times) {
    qsort(times, ROUNDS, sizeof *times, rising);
    return times[ROUNDS / 2];
}

/* The medians of a kind's cleaning and of one of its erases. */
static void measure(const struct kind *kind, void (*make_erased)(void), double *cleaning, double *erasing) {
    double cleanings[ROUNDS], erases[ROUNDS];
    int round;
    make_erased();
    erased = v;
    kind->make_cleaned();
    cleaned = v;
    for (round = 0; round < ROUNDS; round++) {
        erases[round] = erase();
        cleanings[round] = clean(kind);
    }
    wrong += copies() != kind->copies;
    *cleaning = median(cleanings);
    *erasing = median(erases);
}

/* Whether a kind passes; its line, with the slower erase. */
static int passes(const struct kind *kind) {
    double cleaning = 0, erasing = 0;
    int ok, i;
    wrong = 0;
    for (i = 0; i < 2 && kind->make_erased[i] != NULL; i++) {
        double one_cleaning, one_erasing;
        measure(kind, kind->make_erased[i], &one_cleaning, &one_erasing);
        if (one_erasing > erasing) {
            cleaning = one_cleaning;
            erasing = one_erasing;
        }
    }
    ok = wrong == 0 && cleaning < MOST * erasing;
    printf("%s  width %lu, %s: clean %.2f, erase %.2f, %.2f times\n", ok ? "ok    " : "FAILED", (unsigned long)width, kind->what, cleaning,
           erasing, cleaning / erasing);
    return ok;
}

int main(void) {
    const uint32_t widths[] = {BPCC_WIDTH_32, BPCC_WIDTH_64};
    unsigned passed = 0, failed = 0;
    size_t i, w;
    for (i = 0; i < SLOTS; i++) {
        list[i] = (uint32_t)i;
    }
    for (w = 0; w < 2; w++) {
        width = widths[w];
        for (i = 0; i < sizeof kinds / sizeof *kinds; i++) {
            int ok = passes(&kinds[i]);
            passed += (unsigned)ok;
            failed += (unsigned)!ok;
        }
    }
    printf("%u passed, %u failed\n", passed, failed);
    return failed != 0;
}
