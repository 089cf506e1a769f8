/*
 * What sample.c checks of sweeps, by its calls: a volume with something for each of the three erasures, a page in flight, one that has
 * nothing to erase, and what is refused.
 */
#ifndef SAMPLE_SWEEP_H
#define SAMPLE_SWEEP_H

/* A slot's five words and its bytes are as they were copied. */
static void expect_slot_kept(uint32_t slot, const char *name) {
    check(memcmp(words + BPCC_SLOT_WORDS * slot, before.words + BPCC_SLOT_WORDS * slot, BPCC_SLOT_WORDS * sizeof *words) == 0, name);
    check(memcmp(contents + width * slot, before.contents + width * slot, width) == 0, name);
}

/* Case 6 with two pages: slot 2 exposed, slot 3 obsolete and needed because of it, slots 0 and 4 committed. */
static void case_6(void) {
    const uint32_t both[] = {0, 1}, one[] = {1};
    volume_slots = TWO_BLOCKS;
    lend(0);
    format(TWO_BLOCKS);
    launch(both, 2);
    write(0, 2, 3);
    withdraw(0);
    launch(one, 1);
    write(1, 3, 5);
    launch(one, 1);
    expect(write(1, 4, 9), BPCC_DONE, 1, "case 6 before a sweep");
}

/* A sweep gives this answer and leaves every buffer. */
static void expect_unswept(uint32_t answer, const char *name) {
    keep();
    expect(sweep(), answer, 0, name);
    expect_kept(name);
}

/* Sweeps that find nothing, and what a sweep refuses. */
static void sweep_refusals(void) {
    volume_slots = TWO_BLOCKS;
    lend(0);
    format(TWO_BLOCKS);
    expect_unswept(BPCC_DONE, "sweep a formatted volume");
    case_6();
    words_length--;
    expect_unswept(BPCC_WRONG_SIZE, "sweep a table a word short");
    words_length++;
    words[3] = PAGES;
    crash();
    expect_unswept(BPCC_SLOT_UNSOUND, "sweep a slot that is unsound, the state lost");
    words[3] = 0;
    expect_unswept(BPCC_STATE_UNSOUND, "sweep with the state lost");
}

/* Case 6 with twins of both committed records and page 0 in flight and written: the exposed record goes, then the obsolete ones, then
 * the higher twins, and the set in flight goes on. */
static void sweeping(void) {
    const uint32_t both[] = {0, 1}, all[] = {1, 2, 3};
    case_6();
    launch(both, 2);
    write(0, 5, 7);
    copy_slot(0, 7);
    copy_slot(4, 9);
    keep();
    expect(erase(all, 3), BPCC_MAY_NOT_ERASE, 0, "erase case 6 in one list");
    expect(sweep(), BPCC_DONE, 0, "sweep case 6");
    expect_slot_kept(0, "page 0 stays");
    expect_blank(1, 4, "what is obsolete or exposed goes");
    expect_slot_kept(4, "page 1 stays");
    expect_slot_kept(5, "page 0 in flight stays");
    expect_blank(6, TWO_BLOCKS, "the higher twins go");
    check(memcmp(memory.state, before.state, sizeof memory.state) == 0, "a sweep leaves the state");
    expect(suggest(), BPCC_NOTHING_TO_ERASE, BPCC_NONE, "suggest after a sweep");
    expect_unswept(BPCC_DONE, "sweep again");
    expect(write(1, 1, 1), BPCC_DONE, 1, "the set that was in flight");
    expect(sweep(), BPCC_DONE, 0, "sweep what it replaces");
    expect_blank(0, 1, "page 0's record before it");
    expect_blank(2, 5, "page 1's record before it");
    crash();
    expect(recover(), BPCC_DONE, 2 + 2, "recover a swept volume");
    expect_page(0, 7, 3, "page 0 of a swept volume");
    expect_page(1, 1, 1, "page 1 of a swept volume");
}

#endif
