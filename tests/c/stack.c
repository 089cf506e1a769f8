/*
 * How much stack the calls take for which the headers state a bound: each is made on a thread whose stack was filled with one byte, on
 * the largest volume, formatted and full of rings, of width 32. A line for each call and volume has the bytes, less what a thread takes
 * that makes no call; it passes where they are below the bound and the answer is the one expected. The last line is 'N passed, M failed'.
 *
 *   stack
 */
#define _POSIX_C_SOURCE 200809L

#include "scc.h"

#include <pthread.h>
#include <stdio.h>
#include <stdlib.h>
#include <string.h>

enum { PAGES = BPCC_MAX_PAGES, SLOTS = BPCC_MAX_SLOTS, WIDTH = BPCC_WIDTH_32, BLOCKS = BPCC_MAX_BLOCKS, STACK = 1 << 20, FILL = 0xA5 };

static uint32_t words[BPCC_TABLE_WORDS(SLOTS)], state[BPCC_STATE_WORDS(PAGES)], starts[BLOCKS], list[SLOTS];
static uint32_t picked[BPCC_PICK_WORDS], ends[BPCC_DOUBTFUL_WORDS(PAGES)];
static uint8_t contents[BPCC_CONTENTS_BYTES(SLOTS, WIDTH)];

#define SIZES PAGES, SLOTS, WIDTH
#define VOLUME SIZES, words, BPCC_TABLE_WORDS(SLOTS), contents, sizeof contents
#define STATE state, BPCC_STATE_WORDS(PAGES)

static uint64_t none(void) {
    return BPCC_DONE;
}

static uint64_t erase(void) {
    return bpcc_erase(VOLUME, STATE, list, 1);
}

static uint64_t suggest(void) {
    return bpcc_suggest(VOLUME, STATE);
}

static uint64_t clean(void) {
    return bpcc_clean(VOLUME, STATE, starts, BLOCKS, 0);
}

static uint64_t pick(void) {
    return bpcc_pick(VOLUME, STATE, starts, BLOCKS, 0, BLOCKS, picked, BPCC_PICK_WORDS);
}

static uint64_t sweep(void) {
    return bpcc_sweep(VOLUME, STATE);
}

static uint64_t recover(void) {
    return bpcc_recover(VOLUME, STATE);
}

static uint64_t doubtful(void) {
    return bpcc_doubtful(VOLUME, list, BPCC_MAX_DOUBTFUL, ends, BPCC_DOUBTFUL_WORDS(PAGES));
}

static uint64_t recover_four(void) {
    return scc_recover(SIZES, words, SCC_TABLE_WORDS(SLOTS), STATE);
}

/* What a call takes at most, and what it answers on the formatted volume and on the full one. */
static const struct stated {
    const char *name;
    uint64_t (*call)(void);
    size_t below;
    uint32_t formatted, full;
} calls[] = {
    {"bpcc_erase", erase, 8 << 10, BPCC_MAY_NOT_ERASE, BPCC_DONE},
    {"bpcc_suggest", suggest, 8 << 10, BPCC_NOTHING_TO_ERASE, BPCC_DONE},
    {"bpcc_clean", clean, 12 << 10, BPCC_DONE, BPCC_DONE},
    {"bpcc_pick", pick, 8 << 10, BPCC_DONE, BPCC_DONE},
    {"bpcc_sweep", sweep, 9 << 10, BPCC_DONE, BPCC_DONE},
    {"bpcc_recover", recover, 9 << 10, BPCC_DONE, BPCC_DONE},
    {"bpcc_doubtful", doubtful, 33 << 10, BPCC_DONE, BPCC_DONE},
    {"scc_recover", recover_four, 9 << 10, BPCC_DONE, BPCC_DONE},
};

/* Makes the volume, formatted or full of rings of all pages, of four-word records or of five. */
static void make(int four, int full) {
    uint32_t slot;
    if (four) {
        scc_format(SIZES, words, SCC_TABLE_WORDS(SLOTS), contents, sizeof contents, STATE);
    } else {
        bpcc_format(VOLUME, STATE);
    }
    for (slot = 0; full && slot < SLOTS; slot++) {
        const uint32_t p = slot % PAGES, version = 1 + slot / PAGES, np = (p + 1) % PAGES;
        const uint32_t five_words[] = {p, version, version - 1, np, version}, four_words[] = {p, version, np, version};
        if (four) {
            memcpy(words + SCC_SLOT_WORDS * slot, four_words, sizeof four_words);
        } else {
            memcpy(words + BPCC_SLOT_WORDS * slot, five_words, sizeof five_words);
        }
    }
    if (full && !four) {
        recover();
    }
}

static uint64_t (*at_hand)(void);
static uint64_t reply;

static void *made(void *unused) {
    reply = at_hand();
    return unused;
}

/* The bytes of stack that a thread takes which makes the call; 0 where there is no thread. */
static size_t stack_of(uint64_t (*call)(void), unsigned char *stack) {
    pthread_attr_t attributes;
    pthread_t thread;
    size_t untouched = 0;
    memset(stack, FILL, STACK);
    at_hand = call;
    if (pthread_attr_init(&attributes) || pthread_attr_setstack(&attributes, stack, STACK) || pthread_create(&thread, &attributes, made, NULL)
        || pthread_join(thread, NULL)) {
        return 0;
    }
    pthread_attr_destroy(&attributes);
    while (untouched < STACK && stack[untouched] == FILL) {
        untouched++;
    }
    return STACK - untouched;
}

int main(void) {
    void *stack;
    unsigned passed = 0, failed = 0;
    size_t i, thread;
    uint32_t k;
    int full;
    if (posix_memalign(&stack, 1 << 12, STACK) || (thread = stack_of(none, stack)) == 0) {
        fprintf(stderr, "stack: no thread with a stack of its own\n");
        return 2;
    }
    for (k = 0; k < SLOTS; k++) {
        list[k] = k;
    }
    for (k = 0; k < BLOCKS; k++) {
        starts[k] = k * (SLOTS / BLOCKS);
    }
    for (i = 0; i < sizeof calls / sizeof *calls; i++) {
        for (full = 0; full < 2; full++) {
            size_t bytes;
            int right;
            /* Once before it is measured: a first call may also have symbols looked up, by which the linker's stack would be counted. */
            make(calls[i].call == recover_four, full);
            calls[i].call();
            make(calls[i].call == recover_four, full);
            bytes = stack_of(calls[i].call, stack);
            right = bytes > thread && bytes - thread < calls[i].below && bpcc_answer(reply) == (full ? calls[i].full : calls[i].formatted);
            passed += (unsigned)right;
            failed += (unsigned)!right;
            printf("%s  %s, %s: %lu bytes of stack, below %lu\n", right ? "ok    " : "FAILED", calls[i].name, full ? "full" : "formatted",
                   (unsigned long)(bytes - thread), (unsigned long)calls[i].below);
        }
    }
    printf("%u passed, %u failed\n", passed, failed);
    free(stack);
    return failed != 0;
}
