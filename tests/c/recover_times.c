/*
 * The longest time of recover over S, the number of slots, and P, the number of pages, at most S: of both families, on kinds of volume
 * that keep it busy, none with a blank slot but the formatted one. A line for each kind and P says what it is and has its times, in
 * microseconds, at five sizes; the table behind them has the longest for each S and P, a row for each family and P, but for the one
 * kind on which every page's link is searched for among all records of a page: its time is that of P searches. No time is a
 * failure; the last line is 'N passed, M failed', and a kind at a size passes if every call on it gave the answer and the links expected.
 *
 *   recover_times [ROUNDS]
 *
 * A time is the shortest of ROUNDS calls, 101 where no number is given, less what reading the clock takes: what else the machine does
 * is left out. The volumes are of width 32: recover looks at the contents of twins alone, and there are none.
 */
#define _POSIX_C_SOURCE 200809L

#include "scc.h"

#include <stdio.h>
#include <stdlib.h>
#include <string.h>
#include <time.h>

enum { SIZES = 5, FAMILIES = 2, MOST_ROUNDS = 1000000 };

static const uint32_t all_slots[SIZES] = {64, 128, 256, 512, 1024}, all_pages[SIZES] = {16, 32, 64, 128, 256};
static const char *const names[FAMILIES] = {"recover", "scc_recover"};

/* The volume at hand; four: its records have four words, and scc.h's calls are made on it. */
static int four;
static uint32_t pages, slots;
static uint32_t words[BPCC_SLOT_WORDS * BPCC_MAX_SLOTS];
static uint8_t contents[BPCC_WIDTH_32 * BPCC_MAX_SLOTS];
static uint32_t state[BPCC_PAGE_WORDS * BPCC_MAX_PAGES];

static long rounds = 101; /* how often each volume is recovered */
static unsigned passed, failed;

#define VOLUME pages, slots, BPCC_WIDTH_32
#define WORDS words, (four ? SCC_TABLE_WORDS(slots) : BPCC_TABLE_WORDS(slots))
#define CONTENTS contents, BPCC_CONTENTS_BYTES(slots, BPCC_WIDTH_32)
#define STATE state, BPCC_STATE_WORDS(pages)

/* A record of page p that links to page np; of four words it has no c. */
static void set(uint32_t slot, uint32_t p, uint32_t version, uint32_t c, uint32_t np, uint32_t nv) {
    const uint32_t five_words[] = {p, version, c, np, nv}, four_words[] = {p, version, np, nv};
    if (four) {
        memcpy(words + SCC_SLOT_WORDS * slot, four_words, sizeof four_words);
    } else {
        memcpy(words + BPCC_SLOT_WORDS * slot, five_words, sizeof five_words);
    }
}

/* Rings of all pages, the last at version S/P; gives this. */
static uint32_t rings(void) {
    uint32_t slot;
    for (slot = 0; slot < slots; slot++) {
        const uint32_t p = slot % pages, version = 1 + slot / pages;
        set(slot, p, version, version - 1, (p + 1) % pages, version);
    }
    return slots / pages;
}

/* The same, the last ring with a link of its last page, which is in the last slot, to another version of page 0. */
static void chain(int more) {
    const uint32_t last = rings();
    set(slots - 1, pages - 1, last, last - 1, 0, more ? last + 1 : last - 1);
}

/* Each kind makes a volume and gives the links that recover follows. */
static uint32_t ring(void) {
    rings();
    return pages * pages;
}

static uint32_t chain_replaced(void) {
    chain(0);
    return pages * (pages + 1) / 2;
}

static uint32_t chain_cut_off(void) {
    chain(1);
    return pages * (pages + 1) / 2;
}

static uint32_t formatted(void) {
    if (four) {
        scc_format(VOLUME, WORDS, CONTENTS, STATE);
    } else {
        bpcc_format(VOLUME, WORDS, CONTENTS, STATE);
    }
    return pages;
}

/* Versions of page 0 from `slot` on, the first `apart` and so far apart, each with the one before it as its back pointer. */
static void versions(uint32_t slot, uint32_t apart) {
    uint32_t version;
    for (version = apart; slot < slots; slot++, version += apart) {
        set(slot, 0, version, version - apart, 0, version);
    }
}

static uint32_t one_page(void) {
    formatted();
    versions(pages, 1);
    return pages;
}

/* The same with a link of every other page to one of them, or to a version before the first. */
static uint32_t linked(uint32_t apart) {
    uint32_t p;
    for (p = 1; p < pages; p++) {
        set(p - 1, p, 1, 0, 0, apart * (p % (slots - pages + 1)));
    }
    versions(pages - 1, apart);
    return pages;
}

static uint32_t one_page_linked(void) {
    return linked(1);
}

static uint32_t one_page_searched(void) {
    return linked(2);
}

/* least: so many records of each page are needed; apart: it is not in the table. */
static const struct kind {
    uint32_t (*make)(void);
    uint32_t least;
    int apart;
    const char *what;
} kinds[] = {
    {ring, 1, 0, "a ring of all"},
    {chain_replaced, 1, 0, "a chain of all to an older version, straddled by none"},
    {chain_cut_off, 2, 0, "a chain of all to a version that is not there"},
    {formatted, 1, 0, "formatted"},
    {one_page, 1, 0, "all other slots of page 0"},
    {one_page_linked, 1, 0, "all other slots of page 0, to which all pages link, straddled by none"},
    {one_page_searched, 1, 1, "the same, each version with one between it and its back pointer"},
};

static double microseconds(void) {
    struct timespec t;
    clock_gettime(CLOCK_MONOTONIC, &t);
    return 1e6 * (double)t.tv_sec + 1e-3 * (double)t.tv_nsec;
}

/* What reading the clock takes. */
static double clock_time(void) {
    double best = 0;
    long i;
    for (i = 0; i < 101; i++) {
        const double started = microseconds(), took = microseconds() - started;
        best = i == 0 || took < best ? took : best;
    }
    return best;
}

/* The shortest time of recover on the volume at hand, whose state is lost; counts it. */
static double recovered(uint32_t links, double clock) {
    double best = 0;
    int right = 1;
    long i;
    for (i = 0; i < rounds; i++) {
        double started, took;
        uint64_t reply;
        memset(state, 0xFF, sizeof state);
        started = microseconds();
        reply = four ? scc_recover(VOLUME, WORDS, STATE) : bpcc_recover(VOLUME, WORDS, CONTENTS, STATE);
        took = microseconds() - started - clock;
        best = i == 0 || took < best ? took : best;
        right = right && bpcc_answer(reply) == BPCC_DONE && bpcc_second(reply) == links;
    }
    passed += (unsigned)right;
    failed += (unsigned)!right;
    return best;
}

/* Times, a '-' where there is none. */
static void print_times(const double *times) {
    int s;
    for (s = 0; s < SIZES; s++) {
        if (times[s] > 0) {
            printf(" %.2f", times[s]);
        } else {
            printf(" -");
        }
    }
    printf("\n");
}

/* Times a kind at each size, and raises the longest times of its family and number of pages. */
static void measure(const struct kind *kind, double clock, double *longest) {
    const unsigned before = failed;
    double times[SIZES] = {0};
    int s;
    for (s = 0; s < SIZES; s++) {
        slots = all_slots[s];
        if (slots >= kind->least * pages) {
            times[s] = recovered(kind->make(), clock);
            longest[s] = times[s] > longest[s] && !kind->apart ? times[s] : longest[s];
        }
    }
    printf("%s  %s, P = %lu, %s:", failed == before ? "ok    " : "FAILED", names[four], (unsigned long)pages, kind->what);
    print_times(times);
}

/* Takes the number of rounds, if it is one. */
static int takes_rounds(const char *word) {
    char *end;
    rounds = strtol(word, &end, 10);
    return *word != 0 && *end == 0 && rounds >= 1 && rounds <= MOST_ROUNDS;
}

int main(int argc, char **argv) {
    double longest[FAMILIES][SIZES][SIZES] = {{{0}}}, clock;
    size_t i;
    int p, s;
    if (argc > 2 || (argc == 2 && !takes_rounds(argv[1]))) {
        fprintf(stderr, "usage: %s [ROUNDS]\n", argv[0]);
        return 2;
    }
    clock = clock_time();
    printf("kinds of volume, microseconds at each number of slots that they may have\n");
    for (four = 0; four < FAMILIES; four++) {
        for (p = 0; p < SIZES; p++) {
            pages = all_pages[p];
            for (i = 0; i < sizeof kinds / sizeof *kinds; i++) {
                measure(&kinds[i], clock, longest[four][p]);
            }
        }
    }
    printf("slots");
    for (s = 0; s < SIZES; s++) {
        printf(" %lu%s", (unsigned long)all_slots[s], s + 1 < SIZES ? "" : "\n");
    }
    for (i = 0; i < FAMILIES; i++) {
        for (p = 0; p < SIZES; p++) {
            printf("%s_%lu", names[i], (unsigned long)all_pages[p]);
            print_times(longest[i][p]);
        }
    }
    printf("%u passed, %u failed\n", passed, failed);
    return failed != 0;
}
