/*
 * What sample.c checks of doubtful slots, by its calls: what a technician is told of a set of two pages where the chip reads some of its
 * records only now and then, and what is refused.
 */
#ifndef SAMPLE_DOUBTFUL_H
#define SAMPLE_DOUBTFUL_H

/* With these slots in doubt so many fillings recover, page 0 is from the first version to the second, page 1 from the third to the last;
 * nothing but the ends is altered. */
static void expect_ends(const uint32_t *slots, size_t length, uint32_t fillings, uint32_t low_0, uint32_t high_0, uint32_t low_1,
                        uint32_t high_1, const char *name) {
    memset(ends, 0xA5, sizeof memory.ends);
    keep();
    expect(doubtful(slots, length), BPCC_DONE, fillings, name);
    check(ends[0] == low_0 && ends[1] == high_0, name);
    check(ends[2] == low_1 && ends[3] == high_1, name);
    memset(ends, 0xA5, BPCC_DOUBTFUL_WORDS(PAGES) * sizeof *ends);
    expect_kept(name);
}

/* A call that is refused leaves every buffer. */
static void expect_no_ends(const uint32_t *slots, size_t length, uint32_t answer, const char *name) {
    keep();
    expect(doubtful(slots, length), answer, 0, name);
    expect_kept(name);
}

/* Pages 0 and 1 as they were formatted, in the slots 0 and 1, and then stored together, in the slots 2 and 3. */
static void store_both(void) {
    const uint32_t both[] = {0, 1};
    volume_slots = TWO_BLOCKS;
    lend(0);
    format(TWO_BLOCKS);
    launch(both, 2);
    write(0, 2, 3);
    expect(write(1, 3, 5), BPCC_DONE, 1, "a set of two pages");
}

/* What a technician is told. */
static void doubting(void) {
    const uint32_t replaced[] = {0, 1}, one[] = {3}, two[] = {3, 0}, pair[] = {3, 4};
    store_both();
    expect_ends(NULL, 0, 1, 1, 1, 1, 1, "no slot in doubt: both pages as the set stored them");
    expect_ends(replaced, 2, 4, 1, 1, 1, 1, "what the set replaced in doubt: both pages are safe");
    expect_ends(one, 1, 2, 0, 1, 0, 1, "page 1's new record in doubt: both pages come back new or both old");
    expect_ends(two, 2, 3, 0, 1, 0, 1, "page 0's old record, too: new, old, and of the four fillings one does not recover");
    copy_slot(3, 4);
    expect_ends(one, 1, 2, 1, 1, 1, 1, "page 1's new record in doubt, and a twin of it there: both pages are safe");
    expect_ends(pair, 2, 4, 0, 1, 0, 1, "both twins in doubt: new or old");
    contents[width * 4] ^= 1;
    expect_no_ends(NULL, 0, BPCC_NO_FILLING_RECOVERS, "records that clash");
    expect_ends(one, 1, 1, 1, 1, 1, 1, "one of them in doubt: blank it does not clash");
    case_6();
    expect_ends(NULL, 0, 1, 0, 0, 3, 3, "case 6");
    expect_ends(one, 1, 2, 0, 1, 3, 3, "case 6's straddler in doubt: without it page 0 comes back at a version never committed");
}

/* What doubtful refuses, each cured before the next. */
static void doubtful_refusals(void) {
    const uint32_t nine[] = {0, 1, 2, 3, 4, 5, 6, 7, 8, 0}, past[] = {0, TWO_BLOCKS}, blank[] = {0, TWO_BLOCKS - 1};
    uint32_t slot;
    store_both();
    for (slot = 4; slot < TWO_BLOCKS - 1; slot++) {
        copy_slot(0, slot);
    }
    memset(words, 0xFF, BPCC_SLOT_WORDS * sizeof *words);
    words[BPCC_SLOT_WORDS + 3] = PAGES;
    for (ends_length = 0; ends_length < BPCC_DOUBTFUL_WORDS(PAGES); ends_length++) {
        expect_no_ends(nine, 10, BPCC_WRONG_SIZE, "doubtful to fewer words");
    }
    ends_length = BPCC_DOUBTFUL_WORDS(PAGES) + 1;
    expect_no_ends(nine, 10, BPCC_WRONG_SIZE, "doubtful to a word more");
    ends_length = BPCC_DOUBTFUL_WORDS(PAGES);
    expect_no_ends(nine, 10, BPCC_SLOT_UNSOUND, "doubtful with a slot that is unsound");
    words[BPCC_SLOT_WORDS + 3] = 1;
    expect_no_ends(nine, 9, BPCC_WRONG_LIST, "nine slots in doubt, one of them blank");
    copy_slot(4, 0);
    expect_no_ends(nine, 10, BPCC_WRONG_LIST, "ten slots in doubt, one of them twice");
    expect_no_ends(past, 2, BPCC_WRONG_LIST, "a slot past the last in doubt");
    expect_no_ends(blank, 2, BPCC_WRONG_LIST, "a blank slot in doubt");
    expect_no_ends(nine, BPCC_MAX_DOUBTFUL + 1, BPCC_TOO_MANY_DOUBTFUL, "nine slots in doubt");
    contents[width * 8] ^= 1;
    expect_no_ends(nine + 1, BPCC_MAX_DOUBTFUL - 1, BPCC_NO_FILLING_RECOVERS, "seven slots in doubt, and others clash");
    contents[width * 8] ^= 1;
    expect_ends(nine, BPCC_MAX_DOUBTFUL, 160, 0, 1, 0, 1, "eight slots in doubt");
}

#endif
