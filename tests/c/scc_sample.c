/*
 * Document 01's sample sequence over include/scc.h at both widths, every answer and every buffer checked: what a set that was cut off
 * left in flash must be erased before it would be buried, by its page and by its link; the links that recover follows and those of
 * one that is refused; every call with NULL, 0 for every choice of its buffers, and every call with widths that there are not. C99
 * and C++.
 * The last line of its output is 'N passed, M failed'.
 */
#include "scc.h"

#define TABLE_WORDS SCC_TABLE_WORDS
#include "sample.h"

static uint64_t format(uint32_t slots) {
    return scc_format(PAGES, slots, told, words, words_length, contents, contents_length, state, state_length);
}

static uint64_t launch(const uint32_t *pages, size_t length) {
    return scc_launch(PAGES, SLOTS, told, state, state_length, pages, length);
}

static uint64_t write(uint32_t page, uint32_t slot, uint8_t fill) {
    memset(memory.bytes, fill, sizeof memory.bytes);
    return scc_write(PAGES, SLOTS, told, words, words_length, contents, contents_length, state, state_length, page, slot, bytes,
                     bytes_length);
}

static uint64_t withdraw(uint32_t page) {
    return scc_withdraw(PAGES, SLOTS, told, state, state_length, page);
}

static uint64_t erase(const uint32_t *slots, size_t length) {
    return scc_erase(PAGES, SLOTS, told, words, words_length, contents, contents_length, state, state_length, slots, length);
}

static uint64_t recover(void) {
    return scc_recover(PAGES, SLOTS, told, words, words_length, state, state_length);
}

static uint64_t read(uint32_t page, size_t length) {
    return scc_read(PAGES, SLOTS, told, words, words_length, contents, contents_length, state, state_length, page, out, length);
}

/* A slot's four words. */
static void expect_slot(uint32_t slot, uint32_t p, uint32_t v, uint32_t np, uint32_t nv, const char *name) {
    const uint32_t *at = words + SCC_SLOT_WORDS * slot;
    check(at[0] == p && at[1] == v && at[2] == np && at[3] == nv, name);
}

/* A page reads as bytes of one value. */
static void expect_page(uint32_t page, uint8_t fill, const char *name) {
    uint8_t same[BPCC_MAX_WIDTH];
    memset(memory.out, 0xA5, sizeof memory.out);
    memset(same, fill, sizeof same);
    expect(read(page, out_length), BPCC_DONE, 0, name);
    check(memcmp(out, same, width) == 0 && out[width] == 0xA5, name);
}

/* A write would bury a record, and leaves every buffer. */
static void expect_buried(uint32_t page, uint32_t slot, const char *name) {
    memset(memory.bytes, 3, sizeof memory.bytes);
    keep();
    expect(write(page, slot, 3), SCC_WOULD_BURY, 0, name);
    expect_kept(name);
}

/* Document 01's sample, call by call; the record that the cut left behind goes before page 1 is stored. */
static void sample(void) {
    const uint32_t both[] = {0, 1}, one[] = {1}, left[] = {2};
    lend(0);
    memset(&memory, 0xA5, sizeof memory);
    expect(format(SLOTS), BPCC_DONE, 0, "format");
    expect_slot(0, 0, 0, 0, 0, "slot 0 is formatted");
    expect_slot(1, 1, 0, 1, 0, "slot 1 is formatted");
    expect_slot(2, BPCC_NONE, BPCC_NONE, BPCC_NONE, BPCC_NONE, "slot 2 is blank");
    expect_slot(3, BPCC_NONE, BPCC_NONE, BPCC_NONE, BPCC_NONE, "slot 3 is blank");
    check(memory.words[SCC_TABLE_WORDS(SLOTS)] == UINT32_C(0xA5A5A5A5), "what lies behind the table");
    check(contents[0] == 0 && contents[2 * width - 1] == 0, "formatted contents");
    check(contents[2 * width] == 255 && contents[4 * width - 1] == 255, "blank contents");
    expect_state(1, 0, 0, BPCC_NONE, 0, "formatted state");
    expect(launch(both, 2), BPCC_DONE, 0, "launch pages 0 and 1");
    expect_state(0, 0, 1, 1, 0, "page 0 in flight");
    expect_state(1, 0, 1, 0, 0, "page 1 in flight");
    expect(write(0, 2, 3), BPCC_DONE, 0, "write page 0");
    expect_slot(2, 0, 1, 1, 1, "the planned record of page 0");
    check(contents[2 * width] == 3 && contents[3 * width - 1] == 3 && contents[3 * width] == 255, "the bytes of page 0");
    expect_state(0, 0, 1, 1, 1, "page 0 written");
    crash();
    expect(recover(), BPCC_DONE, 1 + 1, "recover, a link from each page");
    expect_state(0, 0, 1, BPCC_NONE, 0, "page 0 recovered");
    expect_state(1, 0, 1, BPCC_NONE, 0, "page 1 recovered");
    expect(launch(one, 1), BPCC_DONE, 0, "launch page 1");
    expect_buried(1, 3, "write page 1 while a record links to it");
    expect(erase(left, 1), BPCC_DONE, 0, "erase the record that the cut left");
    expect_slot(2, BPCC_NONE, BPCC_NONE, BPCC_NONE, BPCC_NONE, "slot 2 is blank again");
    check(contents[2 * width] == 255 && contents[3 * width - 1] == 255, "erased contents");
    expect(write(1, 3, 3), BPCC_DONE, 1, "write page 1, done");
    expect_slot(3, 1, 2, 1, 2, "the planned record of page 1");
    expect_state(1, 2, 2, BPCC_NONE, 0, "page 1 committed");
    expect_page(0, 0, "page 0 reads as formatted");
    expect_page(1, 3, "page 1 reads as stored");
}

/* Refusals after the sample, each leaving every buffer. */
static void refusals(void) {
    const uint32_t any[] = {0, 1, 1, 9};
    keep();
    expect(format(PAGES - 1), BPCC_WRONG_SIZE, 0, "format with too few slots");
    expect(launch(any, 0), BPCC_WRONG_LIST, 0, "launch an empty list");
    expect(launch(any, 3), BPCC_WRONG_LIST, 0, "launch a repeated page");
    expect(launch(any + 3, 1), BPCC_WRONG_LIST, 0, "launch no such page");
    expect(write(0, 3, 3), BPCC_PAGE_NOT_IN_FLIGHT, 0, "write a page not in flight");
    expect(withdraw(0), BPCC_PAGE_NOT_IN_FLIGHT, 0, "withdraw a page not in flight");
    expect(erase(any, 1), BPCC_MAY_NOT_ERASE, 0, "erase a committed record");
    expect(read(0, width - 1), BPCC_WRONG_SIZE, 0, "read to a byte less");
    expect(read(0, width + 1), BPCC_WRONG_SIZE, 0, "read to a byte more");
    expect(read(2, width), BPCC_WRONG_LIST, 0, "read no such page");
    expect_kept("refusals leave every buffer");
    words_length = BPCC_TABLE_WORDS(SLOTS);
    expect(recover(), BPCC_WRONG_SIZE, 0, "recover a table of five words a slot");
    lend(0);
}

/* After the sample the obsolete record goes. A withdrawn set leaves a record that the page's next write would bury, and after its
 * erasure no more. */
static void burying(void) {
    const uint32_t both[] = {0, 1}, none[] = {0}, obsolete[] = {1}, left[] = {2};
    expect(erase(obsolete, 1), BPCC_DONE, 0, "erase the obsolete record");
    expect(launch(both, 2), BPCC_DONE, 0, "launch pages 0 and 1 again");
    expect(write(0, 2, 5), BPCC_DONE, 0, "write page 0");
    expect_slot(2, 0, 2, 1, 3, "the planned record of page 0, its version after the linked one");
    keep();
    expect(erase(left, 1), BPCC_MAY_NOT_ERASE, 0, "erase a record in flight");
    expect_kept("a refused erase leaves every buffer");
    expect(withdraw(1), BPCC_DONE, 0, "withdraw");
    expect_state(0, 0, 2, BPCC_NONE, 0, "page 0 withdrawn");
    expect_state(1, 2, 3, BPCC_NONE, 0, "page 1 withdrawn");
    expect(launch(none, 1), BPCC_DONE, 0, "launch page 0");
    expect_buried(0, 1, "write page 0 above its exposed record");
    expect(write(0, 0, 5), BPCC_SLOT_NOT_BLANK, 0, "a slot that is not blank before a record buried");
    expect(erase(left, 1), BPCC_DONE, 0, "erase the record withdrawn");
    expect(write(0, 1, 5), BPCC_DONE, 1, "write page 0, done");
    expect_slot(1, 0, 3, 0, 3, "the planned record of page 0");
    crash();
    expect(recover(), BPCC_DONE, 1 + 1, "recover again, a link from each page");
    expect_page(0, 5, "page 0 stored");
    expect_page(1, 3, "page 1 stays");
}

/* Recover refuses what is in the table now, has no links, and leaves every buffer. */
static void expect_no_links(uint32_t answer, const char *name) {
    crash();
    keep();
    expect(recover(), answer, 0, name);
    expect_kept(name);
}

/* Both pages in one ring, slot 2 to slot 3 and back, two links from each; then tables that recover refuses. */
static void links(void) {
    const uint32_t both[] = {0, 1};
    uint32_t *first, *last;
    lend(0);
    format(SLOTS);
    launch(both, 2);
    expect(write(0, 2, 3), BPCC_DONE, 0, "write the first page of a ring");
    expect(write(1, 3, 3), BPCC_DONE, 1, "write its last, to which the first links");
    crash();
    expect(recover(), BPCC_DONE, 2 + 2, "recover a ring, two links from each page");
    expect_state(0, 1, 1, BPCC_NONE, 0, "page 0 of the ring");
    expect_state(1, 1, 1, BPCC_NONE, 0, "page 1 of the ring");
    first = words;
    last = words + SCC_SLOT_WORDS * 3;
    last[2] = PAGES;
    expect_no_links(BPCC_SLOT_UNSOUND, "no links where a slot is unsound");
    last[2] = 1;
    expect_no_links(BPCC_LINKS_ASTRAY, "no links where they run astray");
    memcpy(last, first, SCC_SLOT_WORDS * sizeof *last);
    expect_no_links(BPCC_RECORDS_CLASH, "no links where records are equal");
    memset(last, 0xFF, SCC_SLOT_WORDS * sizeof *last);
    memset(first, 0xFF, SCC_SLOT_WORDS * sizeof *first);
    expect_no_links(BPCC_NO_COMMITTED_RECORD, "no links where there is no second version");
}

/* The seven calls, and the buffers that each takes. */
static const struct taking calls[] = {
    {FORMAT, WORDS | CONTENTS | STATE, "format with NULL, 0 or another width"},
    {LAUNCH, STATE | LIST, "launch with NULL, 0 or another width"},
    {WRITE, WORDS | CONTENTS | STATE | BYTES, "write with NULL, 0 or another width"},
    {WITHDRAW, STATE, "withdraw with NULL, 0 or another width"},
    {ERASE, WORDS | CONTENTS | STATE | LIST, "erase with NULL, 0 or another width"},
    {RECOVER, WORDS | STATE, "recover with NULL, 0 or another width"},
    {READ, WORDS | CONTENTS | STATE | OUT, "read with NULL, 0 or another width"},
};

enum { CALLS = sizeof calls / sizeof *calls };

static uint64_t make(enum call call) {
    switch (call) {
    case FORMAT: return format(SLOTS);
    case LAUNCH: return launch(list, list_length);
    case WRITE: return write(1, 3, 3);
    case WITHDRAW: return withdraw(1);
    case ERASE: return erase(list, list_length);
    case RECOVER: return recover();
    case READ: return read(0, out_length);
    default: return BPCC_WRONG_SIZE;
    }
}

/* The ready volume: page 1 is in flight, slot 3 blank, page 0 (the list) may be launched and slot 0 erased. */
static void ready(void) {
    const uint32_t one[] = {1};
    lend(0);
    memory.list[0] = 0;
    memset(out, 0xA5, sizeof memory.out);
    format(SLOTS);
    launch(list, list_length);
    write(0, 2, 3);
    launch(one, 1);
    keep();
}

/* Everything at a width. */
static void at_width(uint32_t w) {
    size_t i;
    width = told = w;
    sample();
    refusals();
    burying();
    links();
    for (i = 0; i < CALLS; i++) {
        nulls(&calls[i]);
        widths(&calls[i]);
    }
}

int main(void) {
    at_width(BPCC_WIDTH_32);
    at_width(BPCC_WIDTH_64);
    return counted();
}
