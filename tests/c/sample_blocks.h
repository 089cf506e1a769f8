/*
 * What sample.c checks of blocks, by its calls: a volume of two blocks cleaned, twins such as a cut in that leaves, and which tables of
 * blocks there are.
 */
#ifndef SAMPLE_BLOCKS_H
#define SAMPLE_BLOCKS_H

/* The slots from `first` up to before `end` are blank, all bytes 255. */
static void expect_blank(uint32_t first, uint32_t end, const char *name) {
    int blank = 1;
    size_t i;
    for (i = BPCC_TABLE_WORDS(first); i < BPCC_TABLE_WORDS(end); i++) {
        blank &= words[i] == BPCC_NONE;
    }
    for (i = BPCC_CONTENTS_BYTES(first, width); i < BPCC_CONTENTS_BYTES(end, width); i++) {
        blank &= contents[i] == 255;
    }
    check(blank, name);
}

/* Two blocks: the first has eight slots, the last the two behind them. */
static void lend_two_blocks(void) {
    volume_slots = TWO_BLOCKS;
    lend(0);
    starts[0] = 0;
    starts[1] = BLOCK;
}

/* By hand: a slot becomes another's twin. */
static void copy_slot(uint32_t from, uint32_t to) {
    memcpy(words + BPCC_SLOT_WORDS * to, words + BPCC_SLOT_WORDS * from, BPCC_SLOT_WORDS * sizeof *words);
    memcpy(contents + width * to, contents + width * from, width);
}

/* A set of both pages, stored; block 0 is cleaned, then the two slots behind it. */
static void cleaning(void) {
    const uint32_t both[] = {0, 1};
    lend_two_blocks();
    format(TWO_BLOCKS);
    launch(both, 2);
    write(0, 7, 3);
    expect(write(1, 5, 1), BPCC_DONE, 1, "a set before a cleaning");
    keep();
    expect(check_blocks(), BPCC_DONE, 0, "two blocks");
    expect(clean(2), BPCC_WRONG_LIST, 0, "clean block 2 of two");
    expect(clean(BPCC_NONE), BPCC_WRONG_LIST, 0, "clean no block");
    expect_kept("refused cleanings leave every buffer");
    expect(clean(0), BPCC_DONE, 0, "clean block 0");
    expect_blank(0, BLOCK, "block 0 is blank");
    expect_slot(BLOCK, 1, 1, 0, 0, 1, "the copy of slot 5");
    expect_slot(BLOCK + 1, 0, 1, 0, 1, 1, "the copy of slot 7");
    check(memcmp(memory.state, before.state, sizeof memory.state) == 0, "a cleaning leaves the state");
    crash();
    expect(recover(), BPCC_DONE, 2 + 2, "recover a cleaned volume");
    expect_page(0, 3, 2, "page 0 of a cleaned volume");
    expect_page(1, 1, 1, "page 1 of a cleaned volume");
    expect(clean(1), BPCC_DONE, 0, "clean block 1");
    expect_slot(0, 1, 1, 0, 0, 1, "the copy of slot 8");
    expect_blank(BLOCK, TWO_BLOCKS, "block 1 is blank");
}

/* … and a slot of it copied by hand, as by a cut after a copy: recover takes twins, and one of them may go. */
static void twins(void) {
    const uint32_t two[] = {0, BLOCK};
    copy_slot(two[0], two[1]);
    crash();
    expect(recover(), BPCC_DONE, 2 + 2, "recover twins");
    expect(suggest(), BPCC_DONE, 0, "suggest the lower twin");
    keep();
    expect(erase(two, 2), BPCC_MAY_NOT_ERASE, 0, "erase both twins");
    contents[width - 1] ^= 1;
    crash();
    expect(recover(), BPCC_RECORDS_CLASH, 0, "recover records that differ in a byte");
    memory = before;
    expect(erase(two, 1), BPCC_DONE, 0, "erase the lower twin");
    expect_page(1, 1, 1, "the other twin is read");
    launch(two, 1);
    expect(write(0, BLOCK + 1, 9), BPCC_DONE, 1, "no blank slot behind block 0");
    launch(two, 1);
    expect(write(0, 5, 9), BPCC_DONE, 1, "a committed record in block 0");
    keep();
    expect(clean(0), BPCC_TOO_FEW_BLANK, 0, "clean with no blank slot outside");
    expect_kept("a cleaning with no blank slot outside leaves every buffer");
}

/* A table is refused by all calls that take it, leaving every buffer. */
static void expect_no_table(uint32_t first, uint32_t second, size_t length, const char *name) {
    lend_two_blocks();
    starts[0] = first;
    starts[1] = second;
    starts_length = length;
    keep();
    expect(check_blocks(), BPCC_WRONG_BLOCKS, 0, name);
    expect(clean(0), BPCC_WRONG_BLOCKS, 0, name);
    expect(pick(0, 1), BPCC_WRONG_BLOCKS, 0, name);
    expect_kept(name);
}

/* Tables of blocks: some that are none, and the header's sample, for volumes of all sizes. */
static void blocks(void) {
    static const uint32_t of_64[BPCC_MAX_BLOCKS] = BPCC_BLOCKS_OF_64;
    uint32_t rising[BPCC_MAX_BLOCKS + 1], slots;
    int right = 1;
    expect_no_table(0, BLOCK, 0, "no starts");
    expect_no_table(1, BLOCK, 2, "a first start other than 0");
    expect_no_table(0, 0, 2, "equal starts");
    expect_no_table(0, TWO_BLOCKS, 2, "a start at S");
    for (slots = 0; slots <= BPCC_MAX_BLOCKS; slots++) {
        rising[slots] = slots;
    }
    expect(bpcc_check_blocks(1, BPCC_MAX_SLOTS, told, rising, BPCC_MAX_BLOCKS), BPCC_DONE, 0, "16 starts");
    expect(bpcc_check_blocks(1, BPCC_MAX_SLOTS, told, rising, BPCC_MAX_BLOCKS + 1), BPCC_WRONG_BLOCKS, 0, "17 starts");
    expect(bpcc_check_blocks(1, 0, told, rising, BPCC_MAX_BLOCKS + 1), BPCC_WRONG_SIZE, 0, "17 starts and no slots");
    for (slots = 1; slots <= BPCC_MAX_SLOTS; slots++) {
        const size_t length = BPCC_BLOCKS_OF_64_LENGTH(slots);
        right &= bpcc_check_blocks(1, slots, told, of_64, length) == BPCC_DONE && slots <= of_64[length - 1] + 64;
    }
    check(right, "blocks of 64, the last of up to 64");
}

#endif
