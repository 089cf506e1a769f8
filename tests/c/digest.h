/*
 * The volumes of digest.c, and what its calls are lent: random numbers from a fixed seed, the volume at hand and its buffers, right and
 * wrong sizes, lengths, lists and block tables, and cuts. No length is above what the buffer has.
 */
#ifndef DIGEST_H
#define DIGEST_H

#include "scc.h"

#include <string.h>

/* What every buffer has behind the most that a call can take. */
enum { SPARE = 8 };

enum { ALL_WORDS = BPCC_SLOT_WORDS * BPCC_MAX_SLOTS + SPARE, ALL_BYTES = BPCC_MAX_WIDTH * BPCC_MAX_SLOTS + SPARE };

static uint32_t words[ALL_WORDS], state[BPCC_PAGE_WORDS * BPCC_MAX_PAGES + SPARE], list[BPCC_MAX_SLOTS + SPARE];
static uint32_t starts[BPCC_MAX_BLOCKS + SPARE], picked[BPCC_PICK_WORDS + SPARE], ends[2 * BPCC_MAX_PAGES + SPARE];
static uint8_t contents[ALL_BYTES], bytes[BPCC_MAX_WIDTH + SPARE], out[BPCC_MAX_WIDTH + SPARE];

enum buffer { WORDS, STATE, LIST, STARTS, PICKED, ENDS, CONTENTS, BYTES, OUT, BUFFERS };

/* Each buffer's memory, of numbers or of bytes, and how many it has. */
static const struct {
    uint32_t *numbers;
    uint8_t *bytes;
    uint32_t length;
} buffers[BUFFERS] = {
    {words, NULL, ALL_WORDS},
    {state, NULL, sizeof state / sizeof *state},
    {list, NULL, sizeof list / sizeof *list},
    {starts, NULL, sizeof starts / sizeof *starts},
    {picked, NULL, sizeof picked / sizeof *picked},
    {ends, NULL, sizeof ends / sizeof *ends},
    {NULL, contents, ALL_BYTES},
    {NULL, bytes, sizeof bytes},
    {NULL, out, sizeof out},
};

/* The volume at hand, and what calls are told of it; four: its records have four words. */
static struct sizes {
    uint32_t pages, slots, width;
    int four;
} volume, told;

/* The lengths that are lent, whether a buffer of length 0 is NULL, and the numbers of a call. */
static size_t lent[BUFFERS];
static int nulls;
static uint32_t page, slot, block, looks;

static uint32_t *numbers(enum buffer buffer) {
    return nulls && lent[buffer] == 0 ? NULL : buffers[buffer].numbers;
}

static uint8_t *bytes_of(enum buffer buffer) {
    return nulls && lent[buffer] == 0 ? NULL : buffers[buffer].bytes;
}

/* Random numbers, the same on every machine: none is drawn where the order of two is the compiler's. */
static uint32_t random_number(void) {
    static uint64_t seed = 1;
    seed = seed * UINT64_C(6364136223846793005) + UINT64_C(1442695040888963407);
    return (uint32_t)(seed >> 32);
}

static uint32_t below(uint32_t n) {
    return random_number() % n;
}

static int one_in(uint32_t n) {
    return below(n) == 0;
}

/* A number in a word: small, near the volume's sizes, near the last, or any. */
static uint32_t any_number(void) {
    const uint32_t near[] = {0, volume.pages, volume.slots, BPCC_NONE, BPCC_NONE, BPCC_NONE - 1, UINT32_C(0x80000000)};
    const uint32_t n = below(sizeof near / sizeof *near + 4);
    if (n < sizeof near / sizeof *near) {
        return near[n];
    }
    return n % 4 == 0 ? random_number() : below(volume.pages + 4);
}

/* A size other than the right one. With many of them a product of two sizes, or of a size and a record's words, is in 32 bits what it
 * is with the right one, or small. */
static uint32_t any_size(uint32_t right) {
    static const uint32_t sizes[] = {0, 1, 31, 32, 33, 64, 96, 256, 257, 1023, 1024, 1025, 65536, 1 << 26, 1 << 27, 1 << 30,
                                     UINT32_C(0x80000000), UINT32_C(0x33333334), BPCC_NONE, BPCC_NONE - 1};
    const uint32_t n = below(sizeof sizes / sizeof *sizes + 10), bit = UINT32_C(1) << (24 + below(8)), small = below(64);
    if (n < sizeof sizes / sizeof *sizes) {
        return sizes[n];
    }
    switch (n % 5) {
    case 0: return right + bit;
    case 1: return right + UINT32_C(0xC0000000);
    case 2: return right * bit;
    case 3: return UINT32_C(0xCCCCCCCD) * small; /* five times this is small */
    default: return right + small - 32;
    }
}

static uint32_t record_words(void) {
    return volume.four ? SCC_SLOT_WORDS : BPCC_SLOT_WORDS;
}

/* A buffer's length as the sizes that are told give it, in 32 bits. */
static uint32_t length_of(enum buffer buffer) {
    switch (buffer) {
    case WORDS: return record_words() * told.slots;
    case CONTENTS: return told.width * told.slots;
    case STATE: return BPCC_PAGE_WORDS * told.pages;
    case ENDS: return 2 * told.pages;
    case BYTES: case OUT: return told.width;
    case PICKED: return BPCC_PICK_WORDS;
    default: return (uint32_t)lent[buffer];
    }
}

/* Lends each buffer as long as the sizes that are told say, where it is so long. */
static void lend_as_told(void) {
    unsigned b;
    for (b = 0; b < BUFFERS; b++) {
        const uint32_t length = length_of((enum buffer)b);
        lent[b] = length <= buffers[b].length ? length : lent[b];
    }
}

/* Lends the volume at hand as it is. */
static void lend(void) {
    told = volume;
    nulls = one_in(2);
    lend_as_told();
}

/* Makes a size or a length wrong, or lends another volume's. */
static void spoil(void) {
    const uint32_t b = below(BUFFERS), length = below(buffers[b].length + 1), less = below(2);
    switch (below(7)) {
    case 0: told.pages = any_size(volume.pages); break;
    case 1: told.slots = any_size(volume.slots); break;
    case 2: told.width = any_size(volume.width); break;
    case 3: told.pages = any_size(volume.pages); told.slots = any_size(volume.slots); break;
    case 4: lent[b] = 0; return;
    case 5: lent[b] = length; return;
    default: lent[b] = less && lent[b] > 0 ? lent[b] - 1 : lent[b] + 1 <= buffers[b].length ? lent[b] + 1 : 0; return;
    }
    lend_as_told();
}

/* The volume's words of a slot, and whether it is blank. */
static uint32_t *slot_words(uint32_t *table, uint32_t k) {
    return table + record_words() * k;
}

static int is_blank(uint32_t *table, uint32_t k) {
    uint32_t i;
    for (i = 0; i < record_words() && slot_words(table, k)[i] == BPCC_NONE; i++) {
    }
    return i == record_words();
}

/* A page, mostly one in flight that is not written; a slot, mostly a blank one. */
static void choose_page(void) {
    const uint32_t tries = below(16);
    uint32_t i;
    page = one_in(12) ? any_number() : below(volume.pages);
    for (i = 0; i < tries && !(page < volume.pages && state[4 * page + 2] != BPCC_NONE && state[4 * page + 3] == 0); i++) {
        page = below(volume.pages);
    }
}

static void choose_slot(void) {
    const uint32_t tries = below(16);
    uint32_t i;
    slot = one_in(12) ? any_number() : below(volume.slots);
    for (i = 0; i < tries && !(slot < volume.slots && is_blank(words, slot)); i++) {
        slot = below(volume.slots);
    }
    memset(bytes, one_in(4) ? (int)below(256) : (int)below(2), volume.width);
}

/* A block table, a block of it and a number of blocks to look at, mostly right ones. */
static void choose_blocks(void) {
    uint32_t length = 1, last = 0;
    starts[0] = 0;
    while (length < BPCC_MAX_BLOCKS && !one_in(6)) {
        last += 1 + below(2 + volume.slots / 6);
        if (last >= volume.slots) {
            break;
        }
        starts[length++] = last;
    }
    if (one_in(12)) {
        const uint32_t at = below(length);
        starts[at] = any_number();
    }
    block = one_in(12) ? any_number() : below(length);
    looks = one_in(12) ? any_number() : below(length + 2);
    lent[STARTS] = one_in(20) ? below(buffers[STARTS].length + 1) : length;
}

/* What a list mostly has: pages that are not in flight, slots with records, and slots with records of other versions than the committed. */
enum entries { PAGES_AT_REST, RECORDS, NOT_COMMITTED };

static int fits(enum entries entries, uint32_t entry) {
    const uint32_t *at = slot_words(words, entry);
    if (one_in(20)) {
        return 1;
    }
    if (entries == PAGES_AT_REST) {
        return state[4 * entry + 2] == BPCC_NONE;
    }
    return !is_blank(words, entry) && (entries == RECORDS || (at[0] < volume.pages && at[1] != state[4 * at[0]]));
}

/* A list without an entry twice, now and then with one or of any length. */
static void choose_list(enum entries entries) {
    const uint32_t bound = entries == PAGES_AT_REST ? volume.pages : volume.slots;
    uint32_t tries = one_in(30) ? 2 * bound : 1 + below(14), length = 0, i;
    for (; tries > 0 && length < BPCC_MAX_SLOTS; tries--) {
        const uint32_t entry = below(bound);
        for (i = 0; i < length && list[i] != entry; i++) {
        }
        if (i == length && fits(entries, entry)) {
            list[length++] = entry;
        }
    }
    if (one_in(15)) {
        const uint32_t at = below(length + 1);
        list[at] = any_number();
    }
    lent[LIST] = one_in(40) ? below(buffers[LIST].length + 1) : length + (uint32_t)one_in(40);
}

/* The sizes of a new volume: mostly small, now and then the largest. */
static void choose_sizes(void) {
    const uint32_t size = below(100);
    volume.four = (int)one_in(3);
    volume.width = one_in(2) ? BPCC_WIDTH_32 : BPCC_WIDTH_64;
    volume.pages = 1 + below(size < 80 ? 6 : 40);
    volume.slots = volume.pages + below(size < 80 ? 20 : 150);
    if (size > 97) {
        volume.pages = BPCC_MAX_PAGES - below(2);
        volume.slots = BPCC_MAX_SLOTS - below(2);
    }
}

/* A volume not made by calls: 5, of sound records; 6, of one record for each page at one version, so that links run in rings and into
 * them; 7, of any words. Versions are low, or near the last. */
static void fill(uint32_t kind) {
    const uint32_t first = one_in(2) ? 0 : BPCC_NONE - 6, same = first + 1 + below(3);
    uint32_t k, i;
    memset(words, 0xFF, sizeof words);
    for (k = 0; k < volume.slots; k++) {
        const int stored = k < volume.pages || (kind != 6 && !one_in(3));
        const uint32_t p = k < volume.pages ? k : below(volume.pages), v = kind == 6 ? same : first + below(5);
        const uint32_t c = v == 0 ? 0 : v - 1 - below(v < 3 ? v : 3), np = below(volume.pages);
        const uint32_t nv = np == p || kind == 6 ? v : first + below(5);
        const uint32_t five[] = {p, v, c, np, nv}, four[] = {p, v, np, nv};
        for (i = 0; stored && i < record_words(); i++) {
            slot_words(words, k)[i] = kind == 7 ? any_number() : volume.four ? four[i] : five[i];
        }
        memset(contents + volume.width * k, (int)below(2), volume.width);
    }
}

/* A word of the table or of the state. */
static uint32_t *any_word(void) {
    const uint32_t n = below(record_words() * volume.slots), m = below(BPCC_PAGE_WORDS * volume.pages);
    return one_in(2) ? words + n : state + m;
}

/* The flash before a call. */
static uint32_t old_words[ALL_WORDS];
static uint8_t old_contents[ALL_BYTES];

static void keep_flash(void) {
    memcpy(old_words, words, record_words() * volume.slots * sizeof *words);
    memcpy(old_contents, contents, volume.width * volume.slots);
}

static void undo(uint32_t k) {
    memcpy(slot_words(words, k), slot_words(old_words, k), record_words() * sizeof *words);
    memcpy(contents + volume.width * k, old_contents + volume.width * k, volume.width);
}

/* A cut in the call: the slots that it stored are stored up to some slot; where all are, some of those that it blanked are blank. The
 * state is lost. */
static void cut(void) {
    const uint32_t last = below(2 * volume.slots);
    uint32_t k;
    int all = 1;
    for (k = last; k < volume.slots; k++) {
        if (is_blank(old_words, k) && !is_blank(words, k)) {
            undo(k);
            all = 0;
        }
    }
    for (k = 0; k < volume.slots; k++) {
        if (!is_blank(old_words, k) && (!all || one_in(2))) {
            undo(k);
        }
    }
    for (k = 0; k < BPCC_PAGE_WORDS * volume.pages; k++) {
        state[k] = any_number();
    }
}

#endif
