/*
 * How long erase and suggest take on 1,024 slots: a line for each case, in microseconds, and 'N passed, M failed', where a case
 * passes if every call gave the answer expected. No time is a failure.
 *
 * A time is the shortest of ROUNDS calls, each on the volume as it was made. To see another archive's times beside, prefix its
 * symbols and link both; its calls must have this header's parameters (those before version 3.0 have others):
 *
 *     objcopy --prefix-symbols=before_ OTHER.a before.a
 *     objcopy --redefine-sym before_memset=memset --redefine-sym before_memcpy=memcpy before.a
 *     gcc -O2 -DBESIDE -Iinclude tests/c/erase_times.c crates/bpcc/out/libbpcc.a before.a
 */
#define _POSIX_C_SOURCE 200809L

#include "bpcc.h"

#include <stdio.h>
#include <string.h>
#include <time.h>

enum { SLOTS = BPCC_MAX_SLOTS, ROUNDS = 201 };

#ifdef BESIDE
uint64_t before_bpcc_erase(uint32_t, uint32_t, uint32_t, uint32_t *, size_t, uint8_t *, size_t, const uint32_t *, size_t,
                           const uint32_t *, size_t);
uint64_t before_bpcc_suggest(uint32_t, uint32_t, uint32_t, const uint32_t *, size_t, const uint8_t *, size_t, const uint32_t *,
                             size_t);
#endif

static struct volume {
    uint32_t pages, width;
    uint32_t words[BPCC_SLOT_WORDS * SLOTS];
    uint8_t contents[BPCC_MAX_WIDTH * SLOTS];
    uint32_t state[BPCC_PAGE_WORDS * BPCC_MAX_PAGES];
} v, made;

static uint32_t list[SLOTS]; /* the numbers from 0 up */
static const uint8_t bytes[BPCC_MAX_WIDTH];
static unsigned wrong; /* answers not expected, on the volume at hand */

#define VOLUME v.pages, SLOTS, v.width
#define WORDS v.words, BPCC_TABLE_WORDS(SLOTS)
#define CONTENTS v.contents, BPCC_CONTENTS_BYTES(SLOTS, v.width)
#define STATE v.state, BPCC_STATE_WORDS(v.pages)

static void expect(uint32_t answer, uint64_t reply) {
    wrong += bpcc_answer(reply) != answer;
}

static void format(uint32_t pages) {
    v.pages = pages;
    expect(BPCC_DONE, bpcc_format(VOLUME, WORDS, CONTENTS, STATE));
}

static void launch(const uint32_t *pages, size_t length) {
    expect(BPCC_DONE, bpcc_launch(VOLUME, STATE, pages, length));
}

static void put(uint32_t page, uint32_t slot) {
    expect(BPCC_DONE, bpcc_write(VOLUME, WORDS, CONTENTS, STATE, page, slot, bytes, v.width));
}

/* So many obsolete records, one committed record of each page behind them, and then so many exposed ones. */
static void mixed(uint32_t pages, uint32_t obsolete, uint32_t exposed) {
    uint32_t slot;
    format(pages);
    for (slot = pages; slot < obsolete + pages; slot++) {
        if (slot % pages == 0) {
            launch(list, pages);
        }
        put(slot % pages, slot);
    }
    for (; slot < obsolete + pages + exposed; slot++) {
        const uint32_t both[] = {slot % pages, (slot + 1) % pages};
        launch(both, 2);
        put(both[0], slot);
        expect(BPCC_DONE, bpcc_withdraw(VOLUME, STATE, both[0]));
    }
}

static void none_exposed(void) { mixed(8, 1000, 0); }
static void few_exposed(void) { mixed(8, 1000, 16); }
static void many_exposed(void) { mixed(8, 800, 200); }
static void formatted(void) { format(BPCC_MAX_PAGES); }

/* By hand: obsolete records of two pages with two back pointers, each of which straddles an exposed link behind them and is not
 * outdone. Each has bytes of its own, which differ at their end: there are no twins. */
static void all_needed(void) {
    const uint32_t state[] = {5, 6, 1, 0, 5, 6, 2, 0, 0, 1, 0, 0};
    uint32_t slot;
    format(3);
    memcpy(v.state, state, sizeof state);
    for (slot = 0; slot < SLOTS; slot++) {
        const uint32_t obsolete[] = {slot % 2, 3, slot / 2 % 2, slot % 2, 3}, exposed[] = {2, 1, 0, slot % 2, 2};
        memcpy(v.words + BPCC_SLOT_WORDS * slot, slot < SLOTS - 2 ? obsolete : exposed, sizeof obsolete);
        memset(v.contents + v.width * slot, 0, v.width);
        memcpy(v.contents + v.width * (slot + 1) - sizeof slot, &slot, sizeof slot);
    }
}

/* Each case: its volume and width, how many slots an erase lists (0: a suggest), and the answer expected. */
static const struct kind {
    const char *what;
    void (*make)(void);
    uint32_t width;
    size_t listed;
    uint32_t answer;
} kinds[] = {
    {"erase, 1,000 obsolete slots listed, 0 exposed records", none_exposed, BPCC_WIDTH_32, 1000, BPCC_DONE},
    {"erase, 1,000 obsolete slots listed, 0 exposed records, width 64", none_exposed, BPCC_WIDTH_64, 1000, BPCC_DONE},
    {"erase, 1,000 obsolete slots listed, 16 exposed records", few_exposed, BPCC_WIDTH_32, 1000, BPCC_DONE},
    {"erase, 800 obsolete slots listed, 200 exposed records", many_exposed, BPCC_WIDTH_32, 800, BPCC_DONE},
    {"erase, one obsolete slot listed, 0 exposed records", none_exposed, BPCC_WIDTH_32, 1, BPCC_DONE},
    {"erase, one obsolete slot listed, 0 exposed records, width 64", none_exposed, BPCC_WIDTH_64, 1, BPCC_DONE},
    {"erase, one obsolete slot listed, 16 exposed records", few_exposed, BPCC_WIDTH_32, 1, BPCC_DONE},
    {"suggest, 1,022 needed records, nothing may go", all_needed, BPCC_WIDTH_32, 0, BPCC_NOTHING_TO_ERASE},
    {"suggest, 1,022 needed records, nothing may go, width 64", all_needed, BPCC_WIDTH_64, 0, BPCC_NOTHING_TO_ERASE},
    {"suggest, a formatted volume, nothing may go", formatted, BPCC_WIDTH_32, 0, BPCC_NOTHING_TO_ERASE},
};

static uint64_t reply_of(size_t listed) {
    return listed > 0 ? bpcc_erase(VOLUME, WORDS, CONTENTS, STATE, list, listed) : bpcc_suggest(VOLUME, WORDS, CONTENTS, STATE);
}

#ifdef BESIDE
static uint64_t reply_before(size_t listed) {
    return listed > 0 ? before_bpcc_erase(VOLUME, WORDS, CONTENTS, STATE, list, listed) : before_bpcc_suggest(VOLUME, WORDS, CONTENTS, STATE);
}
#endif

static double microseconds(void) {
    struct timespec t;
    clock_gettime(CLOCK_MONOTONIC, &t);
    return 1e6 * (double)t.tv_sec + 1e-3 * (double)t.tv_nsec;
}

/* One call on the volume made; the shortest time so far. */
static double timed(uint64_t (*reply)(size_t), const struct kind *kind, double best) {
    double started, took;
    uint64_t r;
    v = made;
    started = microseconds();
    r = reply(kind->listed);
    took = microseconds() - started;
    expect(kind->answer, r);
    return best < 0 || took < best ? took : best;
}

int main(void) {
    unsigned passed = 0, failed = 0;
    size_t i;
    for (i = 0; i < SLOTS; i++) {
        list[i] = (uint32_t)i;
    }
    for (i = 0; i < sizeof kinds / sizeof *kinds; i++) {
        double now = -1;
#ifdef BESIDE
        double before = -1;
#endif
        int round;
        wrong = 0;
        v.width = kinds[i].width;
        kinds[i].make();
        made = v;
        for (round = 0; round < ROUNDS; round++) {
            now = timed(reply_of, &kinds[i], now);
#ifdef BESIDE
            before = timed(reply_before, &kinds[i], before);
#endif
        }
        passed += wrong == 0;
        failed += wrong != 0;
        printf("%s  %s: %.2f", wrong == 0 ? "ok    " : "FAILED", kinds[i].what, now);
#ifdef BESIDE
        printf(" (before %.2f)", before);
#endif
        printf("\n");
    }
    printf("%u passed, %u failed\n", passed, failed);
    return failed != 0;
}
