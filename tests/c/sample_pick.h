/*
 * What sample.c checks of picks, by its calls: which of two uneven blocks is named, by what may be erased in each, twins among it; how
 * much the other could beat it; and what is refused.
 */
#ifndef SAMPLE_PICK_H
#define SAMPLE_PICK_H

/* A pick gives these words and alters nothing else. */
static void expect_pick(uint32_t block, uint32_t n, uint32_t named, uint32_t frees, uint32_t looked, uint32_t unseen, const char *name) {
    memset(picked, 0xA5, sizeof memory.picked);
    keep();
    expect(pick(block, n), BPCC_DONE, 0, name);
    check(picked[BPCC_PICK_BLOCK] == named && picked[BPCC_PICK_FREES] == frees, name);
    check(picked[BPCC_PICK_LOOKED] == looked && picked[BPCC_PICK_UNSEEN] == unseen, name);
    memset(picked, 0xA5, BPCC_PICK_WORDS * sizeof *picked);
    expect_kept(name);
}

/* A pick is refused and leaves every buffer. */
static void expect_no_pick(uint32_t block, uint32_t n, uint32_t answer, const char *name) {
    keep();
    expect(pick(block, n), answer, 0, name);
    expect_kept(name);
}

/* A set of one page, stored. */
static void store(uint32_t page, uint32_t slot, const char *name) {
    launch(&page, 1);
    expect(write(page, slot, 3), BPCC_DONE, 1, name);
}

/* What a pick refuses, each cured before the next. */
static void pick_refusals(void) {
    lend_two_blocks();
    format(TWO_BLOCKS);
    words[3] = PAGES;
    crash();
    starts[1] = 0;
    for (picked_length = 0; picked_length < BPCC_PICK_WORDS; picked_length++) {
        expect_no_pick(2, 0, BPCC_WRONG_SIZE, "pick to fewer words");
    }
    picked_length = BPCC_PICK_WORDS + 1;
    expect_no_pick(2, 0, BPCC_WRONG_SIZE, "pick to a word more");
    picked_length = BPCC_PICK_WORDS;
    expect_no_pick(2, 0, BPCC_WRONG_BLOCKS, "pick by a table with equal starts");
    starts[1] = BLOCK;
    expect_no_pick(2, 0, BPCC_SLOT_UNSOUND, "pick with a slot that is unsound");
    words[3] = 0;
    expect_no_pick(2, 0, BPCC_STATE_UNSOUND, "pick with the state lost");
    recover();
    expect_no_pick(2, 0, BPCC_WRONG_LIST, "pick from block 2 of two on, no block");
    expect_no_pick(2, 1, BPCC_WRONG_LIST, "pick from block 2 of two on");
    expect_no_pick(BPCC_NONE, BPCC_NONE, BPCC_WRONG_LIST, "pick from no block on");
    expect_no_pick(0, 0, BPCC_NOTHING_TO_LOOK_AT, "pick of no block");
    expect_no_pick(1, 0, BPCC_NOTHING_TO_LOOK_AT, "pick of no block from block 1 on");
}

/* Picks of a block of eight slots and one of two. */
static void picking(void) {
    const uint32_t both[] = {0, 1};
    lend_two_blocks();
    format(TWO_BLOCKS);
    expect_pick(0, 1, 0, 0, 1, 2, "nothing to free, two slots unseen");
    expect_pick(1, 1, 1, 0, 1, BLOCK, "nothing to free, eight slots unseen");
    expect_pick(1, 2, 1, 0, 2, 0, "nothing to free in both, block 1 seen first");
    store(0, BLOCK, "page 0 in block 1");
    expect_pick(1, 1, 1, 0, 1, BLOCK, "block 1 alone");
    expect_pick(1, 2, 0, 1, 2, 0, "block 0 behind the end of the table");
    expect_pick(0, 1, 0, 1, 1, 1, "block 0 alone");
    store(0, BLOCK + 1, "page 0 in block 1 again");
    expect_pick(0, 2, 0, 1, 2, 0, "one to free in both, block 0 seen first");
    expect_pick(1, 2, 1, 1, 2, 0, "one to free in both, block 1 seen first");
    expect_pick(1, 1, 1, 1, 1, BLOCK - 1, "one to free in block 1");
    copy_slot(1, 5);
    expect_pick(0, 1, 0, 3, 1, 0, "both twins of a committed record count, and no unseen block is as large");
    expect_pick(1, BPCC_NONE, 0, 3, 2, 0, "all blocks, whatever number is asked for");
    contents[width * 5] ^= 1;
    expect_pick(0, 1, 0, 1, 1, 1, "records that differ in a byte do not");
    case_6();
    expect_pick(0, 1, 0, 2, 1, 0, "a needed record does not count");
    launch(both, 2);
    write(0, 5, 7);
    expect_pick(0, 1, 0, 2, 1, 0, "a record in flight does not count");
    copy_slot(5, BLOCK);
    expect_pick(0, 1, 0, 3, 1, 0, "one with a twin in the other block does");
    expect_pick(1, 1, 1, 1, 1, BLOCK - 1, "and so does the twin");
}

#endif
