/*
 * Document 01's sample sequence over include/bpcc.h at both widths, every answer and every buffer checked; a volume cleaned, and
 * twins such as a cut in that leaves; tables of blocks; blocks picked; a volume swept; slots in doubt; the links that recover follows and
 * those of one that is refused; every call with NULL, 0 for every choice of its buffers, and every call with widths that there are not.
 * C99 and C++.
 * The last line of its output is 'N passed, M failed'.
 */
#include "bpcc.h"

#define TABLE_WORDS BPCC_TABLE_WORDS
#include "sample.h"

static uint64_t format(uint32_t slots) {
    return bpcc_format(PAGES, slots, told, words, words_length, contents, contents_length, state, state_length);
}

static uint64_t launch(const uint32_t *pages, size_t length) {
    return bpcc_launch(PAGES, volume_slots, told, state, state_length, pages, length);
}

static uint64_t write(uint32_t page, uint32_t slot, uint8_t fill) {
    memset(memory.bytes, fill, sizeof memory.bytes);
    return bpcc_write(PAGES, volume_slots, told, words, words_length, contents, contents_length, state, state_length, page, slot, bytes,
                      bytes_length);
}

static uint64_t withdraw(uint32_t page) {
    return bpcc_withdraw(PAGES, volume_slots, told, state, state_length, page);
}

static uint64_t erase(const uint32_t *slots, size_t length) {
    return bpcc_erase(PAGES, volume_slots, told, words, words_length, contents, contents_length, state, state_length, slots, length);
}

static uint64_t suggest(void) {
    return bpcc_suggest(PAGES, volume_slots, told, words, words_length, contents, contents_length, state, state_length);
}

static uint64_t check_blocks(void) {
    return bpcc_check_blocks(PAGES, volume_slots, told, starts, starts_length);
}

static uint64_t clean(uint32_t block) {
    return bpcc_clean(PAGES, volume_slots, told, words, words_length, contents, contents_length, state, state_length, starts,
                      starts_length, block);
}

static uint64_t pick(uint32_t block, uint32_t n) {
    return bpcc_pick(PAGES, volume_slots, told, words, words_length, contents, contents_length, state, state_length, starts, starts_length,
                     block, n, picked, picked_length);
}

static uint64_t sweep(void) {
    return bpcc_sweep(PAGES, volume_slots, told, words, words_length, contents, contents_length, state, state_length);
}

static uint64_t recover(void) {
    return bpcc_recover(PAGES, volume_slots, told, words, words_length, contents, contents_length, state, state_length);
}

static uint64_t doubtful(const uint32_t *slots, size_t length) {
    return bpcc_doubtful(PAGES, volume_slots, told, words, words_length, contents, contents_length, slots, length, ends, ends_length);
}

static uint64_t read(uint32_t page, size_t length) {
    return bpcc_read(PAGES, volume_slots, told, words, words_length, contents, contents_length, state, state_length, page, out, length);
}

/* A slot's five words. */
static void expect_slot(uint32_t slot, uint32_t p, uint32_t v, uint32_t c, uint32_t np, uint32_t nv, const char *name) {
    const uint32_t *at = words + BPCC_SLOT_WORDS * slot;
    check(at[0] == p && at[1] == v && at[2] == c && at[3] == np && at[4] == nv, name);
}

/* A page reads as bytes of one value, with so many set bits in each. */
static void expect_page(uint32_t page, uint8_t fill, uint32_t drawn, const char *name) {
    uint8_t same[BPCC_MAX_WIDTH];
    memset(memory.out, 0xA5, sizeof memory.out);
    memset(same, fill, sizeof same);
    expect(read(page, out_length), BPCC_DONE, 0, name);
    check(memcmp(out, same, width) == 0 && out[width] == 0xA5, name);
    expect(bpcc_count(out, out_length), BPCC_DONE, drawn * width, name);
}

/* Document 01's sample, call by call. */
static void sample(void) {
    const uint32_t both[] = {0, 1}, one[] = {1};
    volume_slots = SLOTS;
    lend(0);
    expect(format(SLOTS), BPCC_DONE, 0, "format");
    expect_slot(0, 0, 0, 0, 0, 0, "slot 0 is formatted");
    expect_slot(1, 1, 0, 0, 1, 0, "slot 1 is formatted");
    expect_slot(2, BPCC_NONE, BPCC_NONE, BPCC_NONE, BPCC_NONE, BPCC_NONE, "slot 2 is blank");
    check(contents[0] == 0 && contents[2 * width - 1] == 0, "formatted contents");
    check(contents[2 * width] == 255 && contents[4 * width - 1] == 255, "blank contents");
    expect_state(1, 0, 0, BPCC_NONE, 0, "formatted state");
    expect(launch(both, 2), BPCC_DONE, 0, "launch pages 0 and 1");
    expect_state(0, 0, 1, 1, 0, "page 0 in flight");
    expect_state(1, 0, 1, 0, 0, "page 1 in flight");
    expect(write(0, 2, 3), BPCC_DONE, 0, "write page 0");
    expect_slot(2, 0, 1, 0, 1, 1, "the planned record of page 0");
    expect_state(0, 0, 1, 1, 1, "page 0 written");
    crash();
    expect(recover(), BPCC_DONE, 1 + 1, "recover, a link from each page");
    expect_state(0, 0, 1, BPCC_NONE, 0, "page 0 recovered");
    expect_state(1, 0, 1, BPCC_NONE, 0, "page 1 recovered");
    expect(launch(one, 1), BPCC_DONE, 0, "launch page 1");
    expect(write(1, 3, 3), BPCC_DONE, 1, "write page 1, done");
    expect_slot(3, 1, 2, 0, 1, 2, "the planned record of page 1");
    expect_state(1, 2, 2, BPCC_NONE, 0, "page 1 committed");
    expect_page(0, 0, 0, "page 0 reads as formatted");
    expect_page(1, 3, 2, "page 1 reads as stored");
}

/* Refusals after the sample, each leaving every buffer. */
static void refusals(void) {
    const uint32_t any[] = {0, 1, 1, 9};
    keep();
    expect(format(PAGES - 1), BPCC_WRONG_SIZE, 0, "format with too few slots");
    expect(launch(any, 0), BPCC_WRONG_LIST, 0, "launch an empty list");
    expect(launch(any, 3), BPCC_WRONG_LIST, 0, "launch a repeated page");
    expect(launch(any + 3, 1), BPCC_WRONG_LIST, 0, "launch no such page");
    expect(write(0, 3, 3), BPCC_PAGE_NOT_IN_FLIGHT, 0, "write a page not in flight");
    expect(withdraw(0), BPCC_PAGE_NOT_IN_FLIGHT, 0, "withdraw a page not in flight");
    expect(erase(any, 1), BPCC_MAY_NOT_ERASE, 0, "erase a committed record");
    expect(read(0, width - 1), BPCC_WRONG_SIZE, 0, "read to a byte less");
    expect(read(0, width + 1), BPCC_WRONG_SIZE, 0, "read to a byte more");
    expect(read(2, width), BPCC_WRONG_LIST, 0, "read no such page");
    expect(bpcc_count(out, width - 1), BPCC_WRONG_SIZE, 0, "count a byte less");
    expect(bpcc_count(out, width + 1), BPCC_WRONG_SIZE, 0, "count a byte more");
    expect_kept("refusals leave every buffer");
}

/* What may be erased goes, one suggestion after another; then nothing is left to erase and the pages read the same. */
static void erasing(void) {
    uint32_t slot;
    for (slot = 1; slot <= 2; slot++) {
        expect(suggest(), BPCC_DONE, slot, "suggest the obsolete slot, then the exposed one");
        expect(erase(&slot, 1), BPCC_DONE, 0, "erase the suggested slot");
        check(words[BPCC_SLOT_WORDS * slot] == BPCC_NONE && contents[width * slot] == 255, "the suggested slot is blank");
    }
    expect(suggest(), BPCC_NOTHING_TO_ERASE, BPCC_NONE, "suggest with nothing to erase");
    crash();
    expect(suggest(), BPCC_STATE_UNSOUND, BPCC_NONE, "suggest with the state lost");
    expect(recover(), BPCC_DONE, 1 + 1, "recover again, a link from each page");
    expect_page(0, 0, 0, "page 0 stays");
    expect_page(1, 3, 2, "page 1 stays");
}

#include "sample_blocks.h"
#include "sample_sweep.h"
#include "sample_pick.h"
#include "sample_doubtful.h"

/* Recover refuses what is in the table now, has no links, and leaves every buffer. */
static void expect_no_links(uint32_t answer, const char *name) {
    crash();
    keep();
    expect(recover(), answer, 0, name);
    expect_kept(name);
}

/* Both pages in one ring, slot 2 to slot 3 and back, two links from each; then tables that recover refuses. */
static void links(void) {
    const uint32_t both[] = {0, 1};
    uint32_t *first, *last;
    volume_slots = SLOTS;
    lend(0);
    format(SLOTS);
    launch(both, 2);
    write(0, 2, 3);
    expect(write(1, 3, 3), BPCC_DONE, 1, "write both pages of a ring");
    crash();
    expect(recover(), BPCC_DONE, 2 + 2, "recover a ring, two links from each page");
    expect_state(0, 1, 1, BPCC_NONE, 0, "page 0 of the ring");
    expect_state(1, 1, 1, BPCC_NONE, 0, "page 1 of the ring");
    first = words;
    last = words + BPCC_SLOT_WORDS * 3;
    last[3] = PAGES;
    expect_no_links(BPCC_SLOT_UNSOUND, "no links where a slot is unsound");
    last[3] = 1;
    expect_no_links(BPCC_LINKS_ASTRAY, "no links where they run astray");
    memcpy(last, first, BPCC_SLOT_WORDS * sizeof *last);
    expect_no_links(BPCC_RECORDS_CLASH, "no links where records clash");
    memset(last, 0xFF, BPCC_SLOT_WORDS * sizeof *last);
    memset(first, 0xFF, BPCC_SLOT_WORDS * sizeof *first);
    expect_no_links(BPCC_NO_COMMITTED_RECORD, "no links where a committed record is missing");
}

/* The fourteen calls, and the buffers that each takes. */
static const struct taking calls[] = {
    {FORMAT, WORDS | CONTENTS | STATE, "format with NULL, 0 or another width"},
    {LAUNCH, STATE | LIST, "launch with NULL, 0 or another width"},
    {WRITE, WORDS | CONTENTS | STATE | BYTES, "write with NULL, 0 or another width"},
    {WITHDRAW, STATE, "withdraw with NULL, 0 or another width"},
    {ERASE, WORDS | CONTENTS | STATE | LIST, "erase with NULL, 0 or another width"},
    {SUGGEST, WORDS | CONTENTS | STATE, "suggest with NULL, 0 or another width"},
    {CHECK_BLOCKS, STARTS, "check_blocks with NULL, 0 or another width"},
    {CLEAN, WORDS | CONTENTS | STATE | STARTS, "clean with NULL, 0 or another width"},
    {PICK, WORDS | CONTENTS | STATE | STARTS | PICKED, "pick with NULL, 0 or another width"},
    {SWEEP, WORDS | CONTENTS | STATE, "sweep with NULL, 0 or another width"},
    {RECOVER, WORDS | CONTENTS | STATE, "recover with NULL, 0 or another width"},
    {DOUBTFUL, WORDS | CONTENTS | LIST | ENDS, "doubtful with NULL, 0 or another width"},
    {COUNT, BYTES, "count with NULL, 0"},
    {READ, WORDS | CONTENTS | STATE | OUT, "read with NULL, 0 or another width"},
};

enum { CALLS = sizeof calls / sizeof *calls };

static uint64_t make(enum call call) {
    switch (call) {
    case FORMAT: return format(TWO_BLOCKS);
    case LAUNCH: return launch(list, list_length);
    case WRITE: return write(1, 3, 3);
    case WITHDRAW: return withdraw(1);
    case ERASE: return erase(list, list_length);
    case SUGGEST: return suggest();
    case CHECK_BLOCKS: return check_blocks();
    case CLEAN: return clean(0);
    case PICK: return pick(0, 2);
    case SWEEP: return sweep();
    case RECOVER: return recover();
    case DOUBTFUL: return doubtful(list, list_length);
    case COUNT: return bpcc_count(bytes, bytes_length);
    case READ: return read(0, out_length);
    }
    return BPCC_WRONG_SIZE;
}

/* The ready volume: page 1 is in flight, slot 3 blank, page 0 (the list) may be launched, slot 0 erased or be in doubt, and what stays of
 * block 0 has room behind it; it is copied. */
static void ready(void) {
    const uint32_t one[] = {1};
    lend_two_blocks();
    memset(out, 0xA5, sizeof memory.out);
    format(TWO_BLOCKS);
    launch(list, list_length);
    write(0, 2, 3);
    launch(one, 1);
    keep();
}

/* Count takes 32 and 64 bytes and no other number; all bits set are 256 and 512. */
static void counts(void) {
    uint8_t all[96];
    size_t length;
    memset(all, 0xFF, sizeof all);
    for (length = 0; length <= sizeof all; length++) {
        int right = length == BPCC_WIDTH_32 || length == BPCC_WIDTH_64;
        expect(bpcc_count(all, length), right ? BPCC_DONE : BPCC_WRONG_SIZE, right ? (uint32_t)(8 * length) : 0, "count");
    }
}

/* Every answer, scc.h's 16 among them, has a text of its own, and no other number has one. */
static void texts(void) {
    const uint32_t last = BPCC_NO_FILLING_RECOVERS, no_answer[] = {last + 1, BPCC_NONE};
    const char *none = bpcc_answer_text(BPCC_NONE);
    uint32_t answer, other;
    size_t i;
    for (i = 0; i < sizeof no_answer / sizeof *no_answer; i++) {
        check(strcmp(none, bpcc_answer_text(no_answer[i])) == 0, "one text for numbers that are no answer");
    }
    for (answer = BPCC_DONE; answer <= last; answer++) {
        int own = strcmp(bpcc_answer_text(answer), none) != 0;
        for (other = BPCC_DONE; other < answer; other++) {
            own &= strcmp(bpcc_answer_text(answer), bpcc_answer_text(other)) != 0;
        }
        check(own, "an answer's text");
    }
}

/* Everything that depends on the width. */
static void at_width(uint32_t w) {
    size_t i;
    width = told = w;
    sample();
    refusals();
    erasing();
    cleaning();
    twins();
    blocks();
    sweep_refusals();
    sweeping();
    pick_refusals();
    picking();
    doubtful_refusals();
    doubting();
    links();
    for (i = 0; i < CALLS; i++) {
        nulls(&calls[i]);
        widths(&calls[i]);
    }
}

int main(void) {
    at_width(BPCC_WIDTH_32);
    at_width(BPCC_WIDTH_64);
    counts();
    texts();
    return counted();
}
