/*
 * What the samples of both families share: a volume of two pages and four slots, or of a block of eight slots and one of two, with
 * its buffers, the checks of replies and buffers, and each call with NULL, 0 for every choice of its buffers and with widths that
 * there are not. A sample defines TABLE_WORDS, then reads this, and has a table `calls` with what each of its calls takes, `make` and
 * `ready`. C99 and C++.
 */
#ifndef SAMPLE_H
#define SAMPLE_H

#include "bpcc.h"

#include <stdio.h>
#include <string.h>

enum { PAGES = 2, SLOTS = 4, BLOCK = 8, TWO_BLOCKS = BLOCK + 2 };

/* The buffers that calls are lent, each a bit. */
enum { WORDS = 1, CONTENTS = 2, STATE = 4, LIST = 8, BYTES = 16, OUT = 32, STARTS = 64, PICKED = 128, ENDS = 256 };

/* The memory of every buffer, and a copy. */
static struct {
    uint32_t words[BPCC_SLOT_WORDS * TWO_BLOCKS], state[BPCC_PAGE_WORDS * PAGES], list[1], starts[2], picked[BPCC_PICK_WORDS + 1], ends[2 * PAGES + 1];
    uint8_t contents[BPCC_MAX_WIDTH * TWO_BLOCKS], bytes[BPCC_MAX_WIDTH], out[BPCC_MAX_WIDTH + 1];
} memory, before;

/* The slots of the volume, its width, and the width that calls are told. */
static uint32_t volume_slots = SLOTS, width, told;

/* The buffers as they are lent. */
static uint32_t *words, *state, *list, *starts, *picked, *ends;
static uint8_t *contents, *bytes, *out;
static size_t words_length, state_length, list_length, starts_length, picked_length, ends_length, contents_length, bytes_length, out_length;

static unsigned passed, failed;

/* Counts a check and names it where it fails. */
static void check(int holds, const char *name) {
    if (holds) {
        passed++;
    } else {
        failed++;
        printf("FAILED  %s\n", name);
    }
}

/* A reply has this answer and this second number. */
static void expect(uint64_t reply, uint32_t answer, uint32_t second, const char *name) {
    check(bpcc_answer(reply) == answer, name);
    check(bpcc_second(reply) == second, name);
}

/* Lends every buffer, the absent ones as NULL, 0. */
static void lend(unsigned absent) {
    words = absent & WORDS ? NULL : memory.words;
    words_length = absent & WORDS ? 0 : TABLE_WORDS(volume_slots);
    contents = absent & CONTENTS ? NULL : memory.contents;
    contents_length = absent & CONTENTS ? 0 : BPCC_CONTENTS_BYTES(volume_slots, width);
    state = absent & STATE ? NULL : memory.state;
    state_length = absent & STATE ? 0 : BPCC_STATE_WORDS(PAGES);
    list = absent & LIST ? NULL : memory.list;
    list_length = absent & LIST ? 0 : 1;
    bytes = absent & BYTES ? NULL : memory.bytes;
    bytes_length = absent & BYTES ? 0 : width;
    out = absent & OUT ? NULL : memory.out;
    out_length = absent & OUT ? 0 : width;
    starts = absent & STARTS ? NULL : memory.starts;
    starts_length = absent & STARTS ? 0 : 2;
    picked = absent & PICKED ? NULL : memory.picked;
    picked_length = absent & PICKED ? 0 : BPCC_PICK_WORDS;
    ends = absent & ENDS ? NULL : memory.ends;
    ends_length = absent & ENDS ? 0 : BPCC_DOUBTFUL_WORDS(PAGES);
}

/* Copies the memory. */
static void keep(void) {
    memcpy(&before, &memory, sizeof memory);
}

/* The memory is as it was copied. */
static void expect_kept(const char *name) {
    check(memcmp(&memory, &before, sizeof memory) == 0, name);
}

/* A cut: the state is lost. */
static void crash(void) {
    memset(memory.state, 0xFF, sizeof memory.state);
}

/* A page's four words of the state. */
static void expect_state(uint32_t page, uint32_t committed, uint32_t used, uint32_t next, uint32_t written, const char *name) {
    const uint32_t *at = state + BPCC_PAGE_WORDS * page;
    check(at[0] == committed && at[1] == used && at[2] == next && at[3] == written, name);
}

/* The calls of both families; suggest, check_blocks, clean, pick, sweep, doubtful and count are bpcc.h's alone. */
enum call { FORMAT, LAUNCH, WRITE, WITHDRAW, ERASE, SUGGEST, CHECK_BLOCKS, CLEAN, PICK, SWEEP, RECOVER, DOUBTFUL, COUNT, READ };

/* A call, and the buffers that it takes. */
struct taking {
    enum call call;
    unsigned buffers;
    const char *name;
};

/* Makes a call that is done on the ready volume, where every buffer is there. */
static uint64_t make(enum call call);

/* Makes the ready volume, lends every buffer, and copies the memory. */
static void ready(void);

/* A call refuses, leaving every buffer. */
static void expect_refused(enum call call, uint32_t answer, const char *name) {
    expect(make(call), answer, call == SUGGEST ? BPCC_NONE : 0, name);
    expect_kept(name);
}

/* What a call says where these buffers are NULL, 0. */
static uint32_t refusal(unsigned absent) {
    return absent == LIST ? BPCC_WRONG_LIST : absent == STARTS ? BPCC_WRONG_BLOCKS : BPCC_WRONG_SIZE;
}

/* Whether a call takes NULL, 0 for these buffers: doubtful does for its list. */
static int may_lack(enum call call, unsigned absent) {
    return call == DOUBTFUL && absent == LIST;
}

/* A call refuses NULL, 0 for every choice of the buffers that it takes but those that it may lack, and is done where all others are
 * there. */
static void nulls(const struct taking *t) {
    unsigned absent;
    ready();
    for (absent = 1; absent <= t->buffers; absent++) {
        if ((absent & t->buffers) == absent) {
            lend(absent);
            if (may_lack(t->call, absent)) {
                check(bpcc_answer(make(t->call)) == BPCC_DONE, t->name);
                ready();
            } else {
                expect_refused(t->call, refusal(absent), t->name);
            }
        }
    }
    lend(0);
    check(bpcc_answer(make(t->call)) == BPCC_DONE, t->name);
}

/* A call refuses every wrong width, and the other one exactly where it takes the contents. Count takes none. */
static void widths(const struct taking *t) {
    const uint32_t wrong[] = {0, 31, 33, 63, 65, 96, BPCC_NONE};
    size_t i;
    ready();
    for (i = 0; t->call != COUNT && i < sizeof wrong / sizeof *wrong; i++) {
        told = wrong[i];
        expect_refused(t->call, BPCC_WRONG_SIZE, t->name);
    }
    told = BPCC_WIDTH_32 + BPCC_WIDTH_64 - width;
    if (t->buffers & CONTENTS) {
        expect_refused(t->call, BPCC_WRONG_SIZE, t->name);
    } else {
        check(bpcc_answer(make(t->call)) == BPCC_DONE, t->name);
    }
    told = width;
}

/* The last line. */
static int counted(void) {
    printf("%u passed, %u failed\n", passed, failed);
    return failed != 0;
}

#endif
