/*
 * Random and hostile calls of every function of both families, from a fixed seed, and a hash for each function of all that its calls
 * reply and leave: two builds of the library do the same on these calls where they print the same. The volumes are such as calls lead
 * to, with cuts, such as have sound records at random, and garbage, some of them damaged for a call; sizes, lengths, numbers, lists and
 * block tables are right and wrong, among them sizes whose products wrap in 32 bits.
 *
 *   digest [VOLUMES]
 *
 * A line for each function: how many calls were made, done and refused, the hash over every reply and all buffers behind it, and how
 * often each answer was given. The last line is 'N passed, M failed': an answer passes if a function gives it at least once where
 * docs/SPEC.md names it for the function, and never where it does not. C99.
 */
#include "digest.h"

#include <stdio.h>
#include <stdlib.h>

/* How many volumes where no number is given; an answer that is none counts as the last. */
enum { VOLUMES = 3000, ANSWERS = BPCC_NO_FILLING_RECOVERS + 2 };

enum call {
    FORMAT, LAUNCH, WRITE, WITHDRAW, ERASE, SUGGEST, CHECK_BLOCKS, CLEAN, PICK, SWEEP, RECOVER, DOUBTFUL, COUNT, READ,
    SCC_FORMAT, SCC_LAUNCH, SCC_WRITE, SCC_WITHDRAW, SCC_ERASE, SCC_RECOVER, SCC_READ, CALLS
};

/* Each call's name, and its refusals, from docs/SPEC.md, section 4; then what its calls did. */
static struct row {
    const char *name;
    uint8_t refusals[9];
    uint64_t hash;
    unsigned long made, given[ANSWERS];
} rows[CALLS] = {
    {"bpcc_format", {1}, 0, 0, {0}},
    {"bpcc_launch", {1, 5, 6, 7, 8}, 0, 0, {0}},
    {"bpcc_write", {1, 2, 5, 6, 9, 10, 11}, 0, 0, {0}},
    {"bpcc_withdraw", {1, 5, 6, 9}, 0, 0, {0}},
    {"bpcc_erase", {1, 2, 5, 6, 12}, 0, 0, {0}},
    {"bpcc_suggest", {1, 2, 5, 13}, 0, 0, {0}},
    {"bpcc_check_blocks", {1, 17}, 0, 0, {0}},
    {"bpcc_clean", {1, 17, 2, 5, 6, 15}, 0, 0, {0}},
    {"bpcc_pick", {1, 17, 2, 5, 6, 18}, 0, 0, {0}},
    {"bpcc_sweep", {1, 2, 5}, 0, 0, {0}},
    {"bpcc_recover", {1, 2, 3, 4, 14}, 0, 0, {0}},
    {"bpcc_doubtful", {1, 2, 6, 19, 20}, 0, 0, {0}},
    {"bpcc_count", {1}, 0, 0, {0}},
    {"bpcc_read", {1, 2, 5, 6, 14}, 0, 0, {0}},
    {"scc_format", {1}, 0, 0, {0}},
    {"scc_launch", {1, 5, 6, 7, 8}, 0, 0, {0}},
    {"scc_write", {1, 2, 5, 6, 9, 10, 11, 16}, 0, 0, {0}},
    {"scc_withdraw", {1, 5, 6, 9}, 0, 0, {0}},
    {"scc_erase", {1, 2, 5, 6, 12}, 0, 0, {0}},
    {"scc_recover", {1, 2, 3, 4, 14}, 0, 0, {0}},
    {"scc_read", {1, 2, 5, 6, 14}, 0, 0, {0}},
};

/* The calls of a step, the usual ones more often. */
static const uint8_t five_calls[] = {LAUNCH, LAUNCH, LAUNCH, WRITE, WRITE, WRITE, WRITE, WRITE, WRITE, WRITE, WITHDRAW, ERASE, ERASE, SUGGEST,
                                     CHECK_BLOCKS, CLEAN, CLEAN, PICK, SWEEP, RECOVER, DOUBTFUL, COUNT, READ, READ};
static const uint8_t four_calls[] = {SCC_LAUNCH, SCC_LAUNCH, SCC_LAUNCH, SCC_WRITE, SCC_WRITE, SCC_WRITE, SCC_WRITE, SCC_WRITE,
                                     SCC_WITHDRAW, SCC_ERASE, SCC_ERASE, SCC_RECOVER, SCC_READ, SCC_READ};

/* A buffer as it is lent. */
#define NUMBERS(buffer) numbers(buffer), lent[buffer]
#define BYTES_OF(buffer) bytes_of(buffer), lent[buffer]
#define SIZES told.pages, told.slots, told.width
#define FLASH SIZES, NUMBERS(WORDS), BYTES_OF(CONTENTS)

static uint64_t make(enum call call) {
    switch (call) {
    case FORMAT: return bpcc_format(FLASH, NUMBERS(STATE));
    case LAUNCH: return bpcc_launch(SIZES, NUMBERS(STATE), NUMBERS(LIST));
    case WRITE: return bpcc_write(FLASH, NUMBERS(STATE), page, slot, BYTES_OF(BYTES));
    case WITHDRAW: return bpcc_withdraw(SIZES, NUMBERS(STATE), page);
    case ERASE: return bpcc_erase(FLASH, NUMBERS(STATE), NUMBERS(LIST));
    case SUGGEST: return bpcc_suggest(FLASH, NUMBERS(STATE));
    case CHECK_BLOCKS: return bpcc_check_blocks(SIZES, NUMBERS(STARTS));
    case CLEAN: return bpcc_clean(FLASH, NUMBERS(STATE), NUMBERS(STARTS), block);
    case PICK: return bpcc_pick(FLASH, NUMBERS(STATE), NUMBERS(STARTS), block, looks, NUMBERS(PICKED));
    case SWEEP: return bpcc_sweep(FLASH, NUMBERS(STATE));
    case RECOVER: return bpcc_recover(FLASH, NUMBERS(STATE));
    case DOUBTFUL: return bpcc_doubtful(FLASH, NUMBERS(LIST), NUMBERS(ENDS));
    case COUNT: return bpcc_count(BYTES_OF(BYTES));
    case READ: return bpcc_read(FLASH, NUMBERS(STATE), page, BYTES_OF(OUT));
    case SCC_FORMAT: return scc_format(FLASH, NUMBERS(STATE));
    case SCC_LAUNCH: return scc_launch(SIZES, NUMBERS(STATE), NUMBERS(LIST));
    case SCC_WRITE: return scc_write(FLASH, NUMBERS(STATE), page, slot, BYTES_OF(BYTES));
    case SCC_WITHDRAW: return scc_withdraw(SIZES, NUMBERS(STATE), page);
    case SCC_ERASE: return scc_erase(FLASH, NUMBERS(STATE), NUMBERS(LIST));
    case SCC_RECOVER: return scc_recover(SIZES, NUMBERS(WORDS), NUMBERS(STATE));
    case SCC_READ: return scc_read(FLASH, NUMBERS(STATE), page, BYTES_OF(OUT));
    default: return BPCC_WRONG_SIZE;
    }
}

/* A hash with one more number in it. */
static void mix(uint64_t *hash, uint32_t value) {
    *hash = (*hash ^ value) * UINT64_C(0x9E3779B97F4A7C15);
    *hash ^= *hash >> 29;
}

/* All buffers, as far as they are lent and a little more, or wholly; bytes by fours. */
static void mix_buffers(uint64_t *hash, int wholly) {
    uint32_t b, i;
    for (b = 0; b < BUFFERS; b++) {
        const uint32_t length = buffers[b].length, some = (uint32_t)lent[b] + SPARE, end = wholly || some > length ? length : some;
        const uint8_t *at = buffers[b].bytes;
        for (i = 0; buffers[b].numbers != NULL && i < end; i++) {
            mix(hash, buffers[b].numbers[i]);
        }
        for (i = 0; at != NULL && i + 4 <= end; i += 4) {
            mix(hash, at[i] | (uint32_t)at[i + 1] << 8 | (uint32_t)at[i + 2] << 16 | (uint32_t)at[i + 3] << 24);
        }
    }
}

/* Makes a call as it is lent, and notes its reply and the buffers behind it. */
static void made(enum call call) {
    struct row *row = &rows[call];
    const uint64_t reply = make(call);
    row->made++;
    row->given[bpcc_answer(reply) < ANSWERS ? bpcc_answer(reply) : ANSWERS - 1]++;
    mix(&row->hash, bpcc_answer(reply));
    mix(&row->hash, bpcc_second(reply));
    mix_buffers(&row->hash, 0);
}

/* A call with the right sizes and lengths, or now and then wrong ones, and numbers and lists that it may take. */
static void called(enum call call) {
    lend();
    choose_page();
    choose_slot();
    choose_blocks();
    choose_list(call == LAUNCH || call == SCC_LAUNCH ? PAGES_AT_REST : call == DOUBTFUL ? RECORDS : NOT_COMMITTED);
    if (one_in(5)) {
        spoil();
    }
    made(call);
}

/* One call. In some it is cut off, and mostly recovered then; in some a word is another one for as long as the call takes. */
static void step(int damage) {
    const enum call recover = volume.four ? SCC_RECOVER : RECOVER;
    const uint32_t n = below(volume.four ? sizeof four_calls : sizeof five_calls);
    const enum call call = (enum call)(volume.four ? four_calls[n] : five_calls[n]);
    uint32_t *word = NULL, old = 0, other = 0;
    keep_flash();
    if (damage && one_in(3)) {
        word = any_word();
        old = *word;
        *word = other = any_number();
    }
    called(call);
    if (word != NULL && *word == other) {
        *word = old;
    }
    if (one_in(25)) {
        cut();
        if (!one_in(8)) {
            lend();
            made(recover);
        }
    }
}

/* A new volume of some kind, and calls on it. */
static void run(void) {
    const uint32_t kind = below(8);
    uint32_t steps;
    choose_sizes();
    if (kind < 5) {
        called(volume.four ? SCC_FORMAT : FORMAT);
        lend();
        made(volume.four ? SCC_FORMAT : FORMAT);
    } else {
        fill(kind);
        lend();
        made(volume.four ? SCC_RECOVER : RECOVER);
    }
    for (steps = volume.slots > 200 ? 12 : 80; steps > 0; steps--) {
        step(kind > 2);
    }
}

static void print_hash(uint64_t hash) {
    printf("%08lx%08lx", (unsigned long)(hash >> 32), (unsigned long)(hash & UINT32_C(0xFFFFFFFF)));
}

/* Prints a call's line; gives how many of its answers fail. */
static unsigned told_of(const struct row *row) {
    unsigned answer, wrong = 0;
    printf("%-18s%7lu made%7lu done%7lu refused  ", row->name, row->made, row->given[0], row->made - row->given[0]);
    print_hash(row->hash);
    for (answer = 0; answer < ANSWERS; answer++) {
        const int named = answer == 0 || memchr(row->refusals, (int)answer, sizeof row->refusals) != NULL;
        if (named || row->given[answer] != 0) {
            printf(" %u:%lu", answer, row->given[answer]);
        }
        if (named != (row->given[answer] != 0)) {
            printf(" FAILED");
            wrong++;
        }
    }
    printf("\n");
    return wrong;
}

int main(int argc, char **argv) {
    uint64_t whole = 0;
    unsigned failed = 0;
    long volumes = argc > 1 ? strtol(argv[1], NULL, 10) : VOLUMES;
    size_t i;
    if (argc > 2 || volumes < 1) {
        fprintf(stderr, "usage: %s [VOLUMES]\n", argv[0]);
        return 2;
    }
    for (; volumes > 0; volumes--) {
        run();
        mix_buffers(&whole, 1);
    }
    for (i = 0; i < CALLS; i++) {
        failed += told_of(&rows[i]);
    }
    printf("all buffers behind each volume  ");
    print_hash(whole);
    printf("\n%u passed, %u failed\n", (unsigned)(CALLS * ANSWERS) - failed, failed);
    return failed != 0;
}
