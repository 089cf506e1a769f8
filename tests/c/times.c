/*
 * The longest time of each call over S, the number of slots, at both widths. A call is made on kinds of volume that keep it busy,
 * at five sizes: a line for each kind says what it is and has its times, for recover also the links that it follows. Behind the
 * kinds of each width a table has the longest of each call of bpcc.h, in milliseconds, but for check_blocks, which takes less than
 * the clock tells, and one of its own the longest of those calls of scc.h that a table's records keep busy: its other calls do what
 * bpcc.h's do. Pick has three rows: pick_1, pick_4 and pick_16 look at so many blocks of 64 slots, or at all where there are fewer.
 * Doubtful has two: doubtful_0 has no slot in doubt, doubtful_8 has eight, and so 256 fillings to recover.
 * No time is a failure; the last line is 'N passed, M failed', and a kind at a size passes if it could be made and each call on it
 * gave the answer, recover the links, pick the number of blocks looked at and doubtful the number of fillings, expected.
 *
 *   times [ROUNDS]
 *
 * A time is the shortest of ROUNDS calls, 101 where no number is given, of doubtful_8 of FEW_ROUNDS at most, each on the volume as it
 * was made, less what reading the clock takes: what else the machine does is left out. (Where the linker lays an innermost loop across
 * two cache lines, it is up to twice as long.) The calls themselves make the volumes, but for those made by hand, to which no list of
 * calls leads: erase, suggest, clean, pick, sweep, recover and doubtful accept any sound records, and search or follow longest on these.
 */
#define _POSIX_C_SOURCE 200809L

#include "scc.h"

#include <stdio.h>
#include <stdlib.h>
#include <string.h>
#include <time.h>

enum { SIZES = 5, FEW_ROUNDS = 3, MOST_ROUNDS = 1000000 };
enum call {
    FORMAT, LAUNCH, WRITE, WITHDRAW, ERASE, SUGGEST, CLEAN, PICK_1, PICK_4, PICK_16, SWEEP, RECOVER, DOUBTFUL_0, DOUBTFUL_8, COUNT, READ,
    SCC_WRITE, SCC_ERASE, SCC_RECOVER, CALLS
};

static const char *const names[CALLS] = {
    "format", "launch", "write", "withdraw", "erase", "suggest", "clean", "pick_1", "pick_4", "pick_16", "sweep", "recover",
    "doubtful_0", "doubtful_8", "count", "read",
    "scc_write", "scc_erase", "scc_recover"
};
static const uint32_t sizes[SIZES] = {64, 128, 256, 512, 1024};

/* A volume. Calls on it are given its last page, its last slot, its table of blocks and block 0 of it, and the list of the `listed`
 * pages or slots from `first` up; `links` has how many recover follows, where it is the call timed. */
static struct volume {
    uint32_t pages, slots, first, listed, links, blocks;
    uint32_t starts[BPCC_MAX_BLOCKS];
    uint32_t words[BPCC_SLOT_WORDS * BPCC_MAX_SLOTS];
    uint8_t contents[BPCC_MAX_WIDTH * BPCC_MAX_SLOTS];
    uint32_t state[BPCC_PAGE_WORDS * BPCC_MAX_PAGES];
} v, made;

static long rounds = 101; /* how often each call is made on a volume */
static uint32_t width; /* of all volumes at hand */
static int four;       /* whether their records have four words: scc.h's calls are made on them */
static uint32_t list[BPCC_MAX_SLOTS]; /* the numbers from 0 up */
static uint8_t bytes[BPCC_MAX_WIDTH];
static const uint32_t looked_at[] = {1, 4, 16}; /* how many blocks pick_1, pick_4 and pick_16 look at */
static const uint32_t in_doubt[] = {0, BPCC_MAX_DOUBTFUL}; /* how many slots doubtful_0 and doubtful_8 have in doubt, from 0 up */
static uint32_t picked[BPCC_PICK_WORDS], ends[BPCC_DOUBTFUL_WORDS(BPCC_MAX_PAGES)];
static unsigned passed, failed, wrong; /* wrong: answers not expected, on the volume at hand */

#define FAMILY(call, ...) (four ? scc_##call(__VA_ARGS__) : bpcc_##call(__VA_ARGS__))
#define VOLUME v.pages, v.slots, width
#define WORDS v.words, (four ? SCC_TABLE_WORDS(v.slots) : BPCC_TABLE_WORDS(v.slots))
#define CONTENTS v.contents, BPCC_CONTENTS_BYTES(v.slots, width)
#define STATE v.state, BPCC_STATE_WORDS(v.pages)

static uint64_t reply_of(enum call call) {
    switch (call) {
    case FORMAT: return FAMILY(format, VOLUME, WORDS, CONTENTS, STATE);
    case LAUNCH: return FAMILY(launch, VOLUME, STATE, list + v.first, v.listed);
    case WRITE:
    case SCC_WRITE: return FAMILY(write, VOLUME, WORDS, CONTENTS, STATE, v.pages - 1, v.slots - 1, bytes, width);
    case WITHDRAW: return bpcc_withdraw(VOLUME, STATE, v.pages - 1);
    case ERASE:
    case SCC_ERASE: return FAMILY(erase, VOLUME, WORDS, CONTENTS, STATE, list + v.first, v.listed);
    case SUGGEST: return bpcc_suggest(VOLUME, WORDS, CONTENTS, STATE);
    case CLEAN: return bpcc_clean(VOLUME, WORDS, CONTENTS, STATE, v.starts, v.blocks, 0);
    case PICK_1:
    case PICK_4:
    case PICK_16:
        return bpcc_pick(VOLUME, WORDS, CONTENTS, STATE, v.starts, v.blocks, 0, looked_at[call - PICK_1], picked, BPCC_PICK_WORDS);
    case SWEEP: return bpcc_sweep(VOLUME, WORDS, CONTENTS, STATE);
    case RECOVER: return bpcc_recover(VOLUME, WORDS, CONTENTS, STATE);
    case SCC_RECOVER: return scc_recover(VOLUME, WORDS, STATE);
    case DOUBTFUL_0:
    case DOUBTFUL_8:
        return bpcc_doubtful(VOLUME, WORDS, CONTENTS, list, in_doubt[call - DOUBTFUL_0], ends, BPCC_DOUBTFUL_WORDS(v.pages));
    case COUNT: return bpcc_count(bytes, width);
    case READ: return bpcc_read(VOLUME, WORDS, CONTENTS, STATE, v.pages - 1, bytes, width);
    default: return BPCC_DONE; /* no call: what reading the clock takes */
    }
}

static void expect(uint32_t answer, uint64_t reply) {
    wrong += bpcc_answer(reply) != answer;
}

/* Blocks of so many slots. */
static void cut(uint32_t size) {
    for (v.blocks = 0; v.blocks * size < v.slots; v.blocks++) {
        v.starts[v.blocks] = v.blocks * size;
    }
}

/* A formatted volume of so many pages, at most 256, and blocks of 64 slots. */
static void format(uint32_t slots, uint32_t pages) {
    v.slots = slots;
    cut(64);
    v.first = 0;
    v.pages = v.listed = pages < BPCC_MAX_PAGES ? pages : BPCC_MAX_PAGES;
    expect(BPCC_DONE, reply_of(FORMAT));
}

/* Launches a ring of two pages, or of one. */
static void launch(uint32_t first, uint32_t second) {
    const uint32_t both[] = {first, second};
    expect(BPCC_DONE, FAMILY(launch, VOLUME, STATE, both, first == second ? 1 : 2));
}

/* Writes a page in flight. */
static void put(uint32_t page, uint32_t slot) {
    expect(BPCC_DONE, FAMILY(write, VOLUME, WORDS, CONTENTS, STATE, page, slot, bytes, width));
}

/* A set of one page, stored. */
static void store(uint32_t page, uint32_t slot) {
    launch(page, page);
    put(page, slot);
}

/* A set of two pages, withdrawn after the first. */
static void abandon(uint32_t page, uint32_t other, uint32_t slot) {
    launch(page, other);
    put(page, slot);
    expect(BPCC_DONE, FAMILY(withdraw, VOLUME, STATE, page));
}

/* Erases a slot. */
static void blank(uint32_t slot) {
    expect(BPCC_DONE, bpcc_erase(VOLUME, WORDS, CONTENTS, STATE, &slot, 1));
}

/* The lowest blank slot; where there is none, one is erased. */
static uint32_t blank_slot(void) {
    uint32_t slot = 0;
    while (slot < v.slots && v.words[BPCC_SLOT_WORDS * slot] != BPCC_NONE) {
        slot++;
    }
    if (slot == v.slots) {
        slot = bpcc_second(reply_of(SUGGEST));
        blank(slot);
    }
    return slot;
}

/* Rings of all pages, stored one after the other in the slots below `end`. */
static void fill(uint32_t end) {
    uint32_t slot;
    for (slot = v.pages; slot < end; slot++) {
        if (slot % v.pages == 0) {
            expect(BPCC_DONE, reply_of(LAUNCH));
        }
        put(slot % v.pages, slot);
    }
}

/* 0 or 1, in an order that no processor foresees. */
static uint32_t either(void) {
    return (uint32_t)rand() / 64 % 2;
}

/* By hand: a record of page p that links to page np; of four words it has no c. Its bytes differ from those of others at their end:
 * it has no twin. */
static void set(uint32_t slot, uint32_t p, uint32_t version, uint32_t c, uint32_t np, uint32_t nv) {
    const uint32_t five_words[] = {p, version, c, np, nv}, four_words[] = {p, version, np, nv};
    if (four) {
        memcpy(v.words + SCC_SLOT_WORDS * slot, four_words, sizeof four_words);
    } else {
        memcpy(v.words + BPCC_SLOT_WORDS * slot, five_words, sizeof five_words);
    }
    memset(v.contents + width * slot, 0, width);
    memcpy(v.contents + width * (slot + 1) - sizeof slot, &slot, sizeof slot);
}

/* As many pages as there may be, stored in rings of all of them until no slot is blank. */
static void at_rest(uint32_t slots) {
    format(slots, slots);
    fill(slots);
}

/* … and launched again. */
static void in_flight(uint32_t slots) {
    at_rest(slots);
    expect(BPCC_DONE, reply_of(LAUNCH));
}

/* As many pages as leave a slot blank, launched. */
static void one_blank(uint32_t slots) {
    format(slots, slots - 1);
    expect(BPCC_DONE, reply_of(LAUNCH));
}

/* As many pages as can be stored in one ring, in rings of all of them; the last slot of the last ring is to be written. */
static void ring_but_one(uint32_t slots) {
    format(slots, slots / 2);
    fill(slots - 1);
}

/* … and is. */
static void ring(uint32_t slots) {
    ring_but_one(slots);
    expect(BPCC_DONE, reply_of(WRITE));
    v.links = v.pages * v.pages;
}

/* As many pages as can be stored in one ring, in rings of all of them, the last cut off before its last page: no page's highest version
 * but that page's is committed. Of the page before it one link is followed, of each before that one more. */
static void ring_cut_off(uint32_t slots) {
    ring_but_one(slots);
    v.links = v.pages * (v.pages - 1) / 2 + 1;
}

/* … and of the last page alone the next version launched: the record that links to it would be buried. */
static void ring_given_up(uint32_t slots) {
    ring_but_one(slots);
    expect(BPCC_DONE, FAMILY(withdraw, VOLUME, STATE, 0));
    launch(v.pages - 1, v.pages - 1);
}

/* Versions of one page, all stored; those before the last are listed. */
static void versions_behind(uint32_t slots) {
    uint32_t slot;
    format(slots, 1);
    for (slot = 1; slot < slots; slot++) {
        store(0, slot);
    }
    v.listed = slots - 1;
}

/* As many pages as can be stored in one ring, in rings of all of them; those before the last are listed. */
static void rings_behind(uint32_t slots) {
    ring(slots);
    v.listed = slots - v.pages;
}

/* By hand: as many pages as there may be, in one ring, and no other record. */
static void one_ring(uint32_t slots) {
    uint32_t p;
    format(slots, slots);
    for (p = 0; p < v.pages; p++) {
        set(p, p, 1, 0, (p + 1) % v.pages, 1);
    }
    v.links = v.pages * v.pages;
}

/* Page 0 or 1 is stored with each other page, so that all links but those of the last two sets are to older versions: from the four
 * pages of these sets two links are followed, from any other one. */
static void old_links(uint32_t slots) {
    uint32_t i, hub;
    format(slots, slots - 2);
    for (i = 3 * v.pages - 4; i < slots; i++) {
        store(either(), blank_slot());
    }
    for (i = 2; i < v.pages; i++) {
        hub = either();
        launch(i, hub);
        put(i, blank_slot());
        put(hub, blank_slot());
    }
    v.links = v.pages + 4;
}

/* Versions of page 0, from the last slot but two down, all but the last abandoned; each straddles the link behind them, and is outdone by those before it. */
static void outdone(uint32_t slots) {
    uint32_t slot;
    format(slots, 2);
    store(1, slots - 1);
    blank(1);
    abandon(1, 0, slots - 2);
    for (slot = slots - 3; slot > 1; slot--) {
        abandon(0, 1, slot);
    }
    store(0, 1);
    v.first = 2;
    v.listed = slots - 4;
}

/* Versions of page 0, all stored, and as many records of page 1, all abandoned; none of the one straddles a link of the other. */
static void unstraddled(uint32_t slots) {
    uint32_t slot;
    format(slots, 2);
    store(1, slots - 1);
    blank(1);
    for (slot = 1; slot < slots / 2; slot++) {
        store(0, slot);
    }
    for (; slot < slots - 1; slot++) {
        abandon(1, 0, slot);
    }
    v.listed = slots / 2 - 1;
}

/* Versions of page 0, all stored; each straddles a link of its own behind them. */
static void needed(uint32_t slots) {
    uint32_t i;
    format(slots, 2);
    for (i = 2; i < slots / 2; i++) {
        abandon(1, 0, slots / 2 + i - 1);
        store(0, i);
    }
    blank(0);
    store(0, 0);
}

/* By hand: all pages in flight, and obsolete records of page 0 on one chain, each of which straddles the link behind them. */
static void chain_needed(uint32_t slots) {
    const uint32_t state[] = {9, 10, 1, 0, 0, 1, 2, 0};
    uint32_t slot;
    in_flight(slots);
    memcpy(v.state, state, sizeof state);
    for (slot = 0; slot < slots - 1; slot++) {
        set(slot, 0, 7, 4 * either(), 0, 7);
    }
    set(slots - 1, 1, 1, 0, 0, 6);
}

/* … and two before them that outdo all. */
static void chain_outdone(uint32_t slots) {
    chain_needed(slots);
    set(0, 0, 8, 0, 0, 8);
    set(1, 0, 8, 4, 0, 8);
    v.first = 2;
    v.listed = slots - 3;
}

/* By hand: one record of one page in all slots, its bytes the same in all; all but the last are listed. */
static void twins(uint32_t slots) {
    uint32_t slot;
    format(slots, 1);
    for (slot = 0; slot < slots; slot++) {
        set(slot, 0, 0, 0, 0, 0);
        memset(v.contents + width * slot, 7, width);
    }
    v.listed = slots - 1;
    v.links = 1;
}

/* … and with other bytes at the end of each. */
static void alike(uint32_t slots) {
    uint32_t slot;
    format(slots, 1);
    for (slot = 0; slot < slots; slot++) {
        set(slot, 0, 0, 0, 0, 0);
    }
}

/* By hand: the last record of each two of these becomes a twin of the first. */
static void pairs(uint32_t slots) {
    uint32_t slot;
    alike(slots);
    for (slot = 0; slot < slots / 2; slot++) {
        memcpy(v.contents + width * (slots / 2 + slot), v.contents + width * slot, width);
    }
}

/* By hand: page 1 in flight, with half of the slots at its used version, and obsolete records of page 0, none of which straddles one of
 * their links. */
static void unstraddled_in_flight(uint32_t slots) {
    const uint32_t state[] = {9, 9, BPCC_NONE, 0, 0, 1, 1, 1};
    uint32_t slot;
    format(slots, 2);
    memcpy(v.state, state, sizeof state);
    for (slot = 0; slot < slots / 2; slot++) {
        set(slot, 0, 1 + slot % 8, 0, 0, 1 + slot % 8);
        set(slots / 2 + slot, 1, 1, 0, 0, 8);
    }
}

/* By hand: obsolete records alike but for their last bytes, each of which straddles the link behind them, of a page in flight at used. */
static void needed_alike(uint32_t slots) {
    uint32_t slot;
    chain_needed(slots);
    for (slot = 0; slot < slots - 1; slot++) {
        set(slot, 0, 7, 0, 0, 7);
    }
}

/* By hand: room for what is copied out of block 0, as many slots at the end; a volume of one block has none. Gives the slots of block
 * 0. */
static uint32_t room(void) {
    const uint32_t size = v.blocks > 1 ? v.starts[1] : v.slots;
    if (v.blocks > 1) {
        memset(v.words + BPCC_SLOT_WORDS * (v.slots - size), 0xFF, 4 * BPCC_SLOT_WORDS * size);
    }
    return size;
}

/* Formatted pages that fill a block, or half of the only one. */
static void block_of_pages(uint32_t slots) {
    format(slots, slots > 64 ? 64 : slots / 2);
}

/* By hand: a block of records alike, each to be copied, and as many more as leave room. */
static void block_alike(uint32_t slots) {
    alike(slots);
    room();
}

/* … a block of half of the slots, … */
static void half_alike(uint32_t slots) {
    alike(slots);
    cut(slots / 2);
    room();
}

/* … and one of all of them, which leaves no room. */
static void all_alike(uint32_t slots) {
    alike(slots);
    cut(slots);
}

/* By hand: a block of needed records with their link at its end, each to be copied, and as many more as leave room. */
static void block_needed(uint32_t slots) {
    chain_needed(slots);
    set(room() - 1, 1, 1, 0, 0, 6);
}

/* … a block of half of the slots. */
static void half_needed(uint32_t slots) {
    chain_needed(slots);
    cut(slots / 2);
    set(room() - 1, 1, 1, 0, 0, 6);
}

/* By hand: block 0 is blank, and so has nothing to judge; rings of all pages are in the others. */
static void block_blank(uint32_t slots) {
    at_rest(slots);
    memset(v.words, 0xFF, 4 * BPCC_TABLE_WORDS(64));
}

/* Each call on its kinds of volume, and the answer expected. */
static const struct kind {
    enum call call;
    uint32_t answer;
    void (*make)(uint32_t slots);
    const char *what;
} kinds[] = {
    {FORMAT, BPCC_DONE, at_rest, "P = S"},
    {LAUNCH, BPCC_DONE, at_rest, "P = S, all pages"},
    {LAUNCH, BPCC_PAGE_IN_FLIGHT, in_flight, "P = S, all pages, all in flight already"},
    {WRITE, BPCC_DONE, ring_but_one, "P = S/2, the last page of a ring of all"},
    {WRITE, BPCC_DONE, one_blank, "P = S-1, the first page of a ring of all"},
    {WITHDRAW, BPCC_DONE, in_flight, "P = S, a ring of all"},
    {ERASE, BPCC_DONE, unstraddled, "P = 2, half of the slots, the others exposed"},
    {ERASE, BPCC_DONE, outdone, "P = 2, S-4 records, each outdone by those before it"},
    {ERASE, BPCC_DONE, chain_outdone, "P = S, by hand, S-3 records of one chain, outdone by its first two"},
    {ERASE, BPCC_DONE, twins, "P = 1, by hand, S-1 of S twins"},
    {SUGGEST, BPCC_DONE, needed, "P = 2, S/2-2 needed records before their links"},
    {SUGGEST, BPCC_NOTHING_TO_ERASE, chain_needed, "P = S, by hand, S-1 needed records of one chain"},
    {SUGGEST, BPCC_NOTHING_TO_ERASE, alike, "P = 1, by hand, S records alike but for their last bytes"},
    {CLEAN, BPCC_DONE, block_of_pages, "P = 64, a record of each to copy"},
    {CLEAN, BPCC_DONE, block_alike, "P = 1, by hand, S-64 records alike but for their last bytes, 64 to copy"},
    {CLEAN, BPCC_DONE, block_needed, "P = S, by hand, S-65 needed records of one chain, 63 and their link to copy"},
    {CLEAN, BPCC_DONE, half_alike, "P = 1, by hand, a block of S/2 records alike but for their last bytes, all to copy"},
    {CLEAN, BPCC_DONE, half_needed, "P = S, by hand, a block of S/2-1 needed records of one chain and their link, all to copy"},
    {CLEAN, BPCC_TOO_FEW_BLANK, all_alike, "P = 1, by hand, one block of S records alike but for their last bytes"},
    {PICK_1, BPCC_DONE, block_blank, "P = S, by hand, a blank block, rings of all in the others"},
    {PICK_1, BPCC_DONE, at_rest, "P = S, rings of all, no slot blank"},
    {PICK_1, BPCC_DONE, unstraddled, "P = 2, half of the slots obsolete, the others exposed"},
    {PICK_1, BPCC_DONE, needed, "P = 2, S/2-2 needed records before their links"},
    {PICK_1, BPCC_DONE, outdone, "P = 2, S-4 records, each outdone by those before it"},
    {PICK_1, BPCC_DONE, chain_needed, "P = S, by hand, S-1 needed records of one chain"},
    {PICK_1, BPCC_DONE, alike, "P = 1, by hand, S records alike but for their last bytes"},
    {PICK_1, BPCC_DONE, needed_alike, "P = S, by hand, S-1 needed records alike but for their last bytes"},
    {PICK_4, BPCC_DONE, at_rest, "P = S, rings of all, no slot blank"},
    {PICK_4, BPCC_DONE, unstraddled, "P = 2, half of the slots obsolete, the others exposed"},
    {PICK_4, BPCC_DONE, needed, "P = 2, S/2-2 needed records before their links"},
    {PICK_4, BPCC_DONE, outdone, "P = 2, S-4 records, each outdone by those before it"},
    {PICK_4, BPCC_DONE, chain_needed, "P = S, by hand, S-1 needed records of one chain"},
    {PICK_4, BPCC_DONE, alike, "P = 1, by hand, S records alike but for their last bytes"},
    {PICK_4, BPCC_DONE, needed_alike, "P = S, by hand, S-1 needed records alike but for their last bytes"},
    {PICK_16, BPCC_DONE, at_rest, "P = S, rings of all, no slot blank"},
    {PICK_16, BPCC_DONE, unstraddled, "P = 2, half of the slots obsolete, the others exposed"},
    {PICK_16, BPCC_DONE, needed, "P = 2, S/2-2 needed records before their links"},
    {PICK_16, BPCC_DONE, outdone, "P = 2, S-4 records, each outdone by those before it"},
    {PICK_16, BPCC_DONE, chain_needed, "P = S, by hand, S-1 needed records of one chain"},
    {PICK_16, BPCC_DONE, alike, "P = 1, by hand, S records alike but for their last bytes"},
    {PICK_16, BPCC_DONE, needed_alike, "P = S, by hand, S-1 needed records alike but for their last bytes"},
    {SWEEP, BPCC_DONE, at_rest, "P = S, rings of all, no slot blank"},
    {SWEEP, BPCC_DONE, unstraddled, "P = 2, half of the slots obsolete, the others exposed"},
    {SWEEP, BPCC_DONE, needed, "P = 2, S/2-2 needed records before their links"},
    {SWEEP, BPCC_DONE, outdone, "P = 2, S-4 records, each outdone by those before it"},
    {SWEEP, BPCC_DONE, unstraddled_in_flight, "P = 2, by hand, half of the slots obsolete, the others in flight at used"},
    {SWEEP, BPCC_DONE, chain_outdone, "P = S, by hand, S-3 records of one chain, outdone by its first two"},
    {SWEEP, BPCC_DONE, twins, "P = 1, by hand, S twins"},
    {SWEEP, BPCC_DONE, pairs, "P = 1, by hand, S/2 records alike but for their last bytes, and a twin of each"},
    {SWEEP, BPCC_DONE, alike, "P = 1, by hand, S records alike but for their last bytes"},
    {SWEEP, BPCC_DONE, needed_alike, "P = S, by hand, S-1 needed records alike but for their last bytes"},
    {RECOVER, BPCC_DONE, ring, "P = S/2, a ring of all, no slot blank"},
    {RECOVER, BPCC_DONE, one_ring, "P = S, by hand, a ring of all, no other record"},
    {RECOVER, BPCC_DONE, old_links, "P = S-2, links to older versions"},
    {RECOVER, BPCC_DONE, twins, "P = 1, by hand, S twins"},
    {DOUBTFUL_0, BPCC_DONE, ring, "P = S/2, a ring of all, no slot blank, an empty list"},
    {DOUBTFUL_0, BPCC_DONE, one_ring, "P = S, by hand, a ring of all, no other record, an empty list"},
    {DOUBTFUL_0, BPCC_DONE, old_links, "P = S-2, links to older versions, an empty list"},
    {DOUBTFUL_8, BPCC_DONE, ring, "P = S/2, a ring of all, no slot blank, eight older records in doubt"},
    {DOUBTFUL_8, BPCC_DONE, twins, "P = 1, by hand, S twins, eight in doubt"},
    {COUNT, BPCC_DONE, at_rest, "the bytes of a page"},
    {READ, BPCC_DONE, in_flight, "P = S, all in flight"},
    {SCC_WRITE, BPCC_DONE, ring_but_one, "P = S/2, the last page of a ring of all"},
    {SCC_WRITE, BPCC_DONE, one_blank, "P = S-1, the first page of a ring of all"},
    {SCC_WRITE, SCC_WOULD_BURY, ring_given_up, "P = S/2, a page to which the last slot but one links"},
    {SCC_ERASE, BPCC_DONE, rings_behind, "P = S/2, the rings of all before the last"},
    {SCC_ERASE, BPCC_DONE, versions_behind, "P = 1, S-1 versions before the last"},
    {SCC_RECOVER, BPCC_DONE, ring, "P = S/2, a ring of all, no slot blank"},
    {SCC_RECOVER, BPCC_DONE, one_ring, "P = S, by hand, a ring of all, no other record"},
    {SCC_RECOVER, BPCC_DONE, ring_cut_off, "P = S/2, a ring of all but its last page"},
};

static double milliseconds(void) {
    struct timespec t;
    clock_gettime(CLOCK_MONOTONIC, &t);
    return 1e3 * (double)t.tv_sec + 1e-6 * (double)t.tv_nsec;
}

/* A pick looked at as many blocks as it is to, or at all. */
static void expect_looked_at(enum call call) {
    const uint32_t n = looked_at[call - PICK_1];
    wrong += picked[BPCC_PICK_LOOKED] != (n < v.blocks ? n : v.blocks);
}

/* Of doubtful all fillings recover. */
static void expect_fillings(enum call call, uint64_t reply) {
    wrong += bpcc_second(reply) != UINT32_C(1) << in_doubt[call - DOUBTFUL_0];
}

/* The shortest time of a call on the volume made. */
static double shortest(enum call call, uint32_t answer) {
    const long times = call == DOUBTFUL_8 && rounds > FEW_ROUNDS ? FEW_ROUNDS : rounds;
    double best = 0;
    long i;
    for (i = 0; i < times; i++) {
        double started, took;
        uint64_t reply;
        v = made;
        started = milliseconds();
        reply = reply_of(call);
        took = milliseconds() - started;
        best = i == 0 || took < best ? took : best;
        expect(answer, reply);
        if (call == DOUBTFUL_0 || call == DOUBTFUL_8) {
            expect_fillings(call, reply);
        }
    }
    return best;
}

static void print_times(const double *times) {
    int s;
    for (s = 0; s < SIZES; s++) {
        printf(" %.5f", times[s]);
    }
}

/* The links that a recover follows on the volume made. */
static uint32_t followed(enum call recover) {
    uint32_t links;
    v = made;
    links = bpcc_second(reply_of(recover));
    wrong += links != made.links;
    return links;
}

/* Whether a volume of one block is to be cleaned: its slots are judged, and there is none to copy to. */
static int one_block(const struct kind *kind) {
    return kind->call == CLEAN && made.blocks == 1;
}

/* Times a kind at each size, counts it, and raises the longest times of its call. */
static void measure(const struct kind *kind, double clock_time, double *longest) {
    double times[SIZES];
    uint32_t links[SIZES];
    unsigned right = 0;
    int s, recovers = kind->call == RECOVER || kind->call == SCC_RECOVER;
    four = kind->call >= SCC_WRITE;
    for (s = 0; s < SIZES; s++) {
        wrong = 0;
        kind->make(sizes[s]);
        made = v;
        times[s] = shortest(kind->call, one_block(kind) ? BPCC_TOO_FEW_BLANK : kind->answer) - clock_time;
        longest[s] = times[s] > longest[s] ? times[s] : longest[s];
        links[s] = recovers ? followed(kind->call) : 0;
        if (kind->call >= PICK_1 && kind->call <= PICK_16) {
            expect_looked_at(kind->call);
        }
        right += wrong == 0;
    }
    passed += right;
    failed += SIZES - right;
    printf("%s  %s, %s:", right == SIZES ? "ok    " : "FAILED", names[kind->call], kind->what);
    print_times(times);
    for (s = 0; recovers && s < SIZES; s++) {
        printf("%s %lu", s == 0 ? "; links" : "", (unsigned long)links[s]);
    }
    printf("\n");
}

/* The longest times of the calls from `first` up to before `end`, as a table. */
static void print_table(const char *title, double longest[CALLS][SIZES], int first, int end) {
    int i;
    printf("# %swidth %lu\nslots", title, (unsigned long)width);
    for (i = 0; i < SIZES; i++) {
        printf(" %lu%s", (unsigned long)sizes[i], i + 1 < SIZES ? "" : "\n");
    }
    for (i = first; i < end; i++) {
        printf("%s", names[i]);
        print_times(longest[i]);
        printf("\n");
    }
}

/* Times every kind at a width, and prints the tables of the longest. */
static void measure_all(uint32_t at, double clock_time) {
    double longest[CALLS][SIZES] = {{0}};
    size_t i;
    width = at;
    printf("width %lu: kinds of volume (P is 256 where more are named), milliseconds at each number of slots\n", (unsigned long)width);
    for (i = 0; i < sizeof kinds / sizeof *kinds; i++) {
        measure(&kinds[i], clock_time, longest[kinds[i].call]);
    }
    print_table("", longest, FORMAT, SCC_WRITE);
    print_table("scc.h, ", longest, SCC_WRITE, CALLS);
}

/* Takes the number of rounds, if it is one. */
static int takes_rounds(const char *word) {
    char *end;
    rounds = strtol(word, &end, 10);
    return *word != 0 && *end == 0 && rounds >= 1 && rounds <= MOST_ROUNDS;
}

int main(int argc, char **argv) {
    double clock_time;
    size_t i;
    if (argc > 2 || (argc == 2 && !takes_rounds(argv[1]))) {
        fprintf(stderr, "usage: %s [ROUNDS]\n", argv[0]);
        return 2;
    }
    for (i = 0; i < BPCC_MAX_SLOTS; i++) {
        list[i] = (uint32_t)i;
    }
    clock_time = shortest(CALLS, BPCC_DONE);
    measure_all(BPCC_WIDTH_32, clock_time);
    measure_all(BPCC_WIDTH_64, clock_time);
    printf("%u passed, %u failed\n", passed, failed);
    return failed != 0;
}
