/*
 * bpcc.h: pages kept in raw flash so that a set stored together comes back whole, all old or all new, wherever power fails
 * (Back-Pointer Cyclic Commit). C99 and C++.
 *
 * A volume has P pages (1 to 256) and S slots (P to 1,024), both numbered from 0, and a width W (32 or 64), the bytes of a page.
 * Every call but bpcc_count takes these three first, and a volume keeps them. The caller owns all memory and lends it:
 *
 *   words     BPCC_TABLE_WORDS(S) words, the slot table: an image of the flash; slot k has words 5k to 5k+4
 *   contents  BPCC_CONTENTS_BYTES(S, W) bytes, the slots' bytes: an image of the flash; slot k has the W bytes from W*k on
 *   state     BPCC_STATE_WORDS(P) words of working memory, lost when power fails; page p has words 4p to 4p+3:
 *             the last committed version, the last used version, the next page of its transaction (BPCC_NONE: not in flight),
 *             and written (0 or 1)
 *
 * A blank slot has BPCC_NONE in all five words. Any other slot is a record: its page p, its version v, its back pointer c (the
 * page's committed version at launch), the next page np of its transaction and that page's version nv. docs/SPEC.md says when a
 * record (section 2) and a state (section 3) are sound. A record may be in several slots: twins, equal in all five words and all W
 * bytes, as a cut in bpcc_clean leaves them.
 *
 * A block is slots that the chip erases together. The calls about blocks take a table of them, another at each call if need be:
 *
 *   starts    1 to BPCC_MAX_BLOCKS words, the blocks' first slots: the first is 0, they rise strictly, all are below S. Block b has
 *             the slots from starts[b] to before starts[b + 1], the last block those to before S.
 *
 * A buffer, and a list is one, is a pointer and then its length, in elements; it is really there and as long as stated, as
 * premise 1 of README.md says. What the buffers hold, and all numbers and lengths, may be anything: every call either is done or
 * refuses. Nothing is kept between calls; two calls on one volume must not overlap in time.
 *
 * Every call returns the answer in the lower 32 bits (bpcc_answer) and a second number in the upper (bpcc_second). The answer
 * is 0 or the first refusal, from the lowest number up (17 straight after 1), whose condition holds, each tried for all pages or
 * slots before the next. After a refusal every buffer is as it was and the second number is 0 (of bpcc_suggest: BPCC_NONE).
 */
#ifndef BPCC_H
#define BPCC_H

#include <stddef.h>
#include <stdint.h>

#ifdef __cplusplus
extern "C" {
#endif

/* The interface's version: the major number rises where a caller must change, the minor where something is added, made
 * stricter, or costs otherwise (docs/CHANGES.md). */
#define BPCC_VERSION_MAJOR 4
#define BPCC_VERSION_MINOR 3

/* The two widths: bytes of contents for each slot, and the length of what is written and read. */
#define BPCC_WIDTH_32 32
#define BPCC_WIDTH_64 64

/* A word of a blank slot; in a state, not in flight; the slot that a refused bpcc_suggest names. */
#define BPCC_NONE UINT32_C(4294967295)

/* The most pages and slots of a volume, and its largest width. */
#define BPCC_MAX_PAGES 256
#define BPCC_MAX_SLOTS 1024
#define BPCC_MAX_WIDTH BPCC_WIDTH_64

/* The most blocks of a table, and the most slots in doubt. */
#define BPCC_MAX_BLOCKS 16
#define BPCC_MAX_DOUBTFUL 8

/* A sample of a table, as an initializer: blocks of 64 slots. A volume of S slots has the first BPCC_BLOCKS_OF_64_LENGTH(S) of them:
 *
 *   static const uint32_t starts[BPCC_MAX_BLOCKS] = BPCC_BLOCKS_OF_64;
 *   bpcc_check_blocks(P, S, W, starts, BPCC_BLOCKS_OF_64_LENGTH(S))
 */
#define BPCC_BLOCKS_OF_64 {0, 64, 128, 192, 256, 320, 384, 448, 512, 576, 640, 704, 768, 832, 896, 960}
#define BPCC_BLOCKS_OF_64_LENGTH(slots) (((size_t)(slots) + 63) / 64)

/* Words of a slot in the table, of a page in the state, and of what bpcc_pick fills. */
#define BPCC_SLOT_WORDS 5
#define BPCC_PAGE_WORDS 4
#define BPCC_PICK_WORDS 4

/* The words that bpcc_pick fills. */
enum bpcc_pick_words {
    BPCC_PICK_BLOCK = 0,
    BPCC_PICK_FREES = 1,
    BPCC_PICK_LOOKED = 2,
    BPCC_PICK_UNSEEN = 3
};

/* The lengths of words, contents and state for P pages, S slots and width W, and of what bpcc_doubtful fills. */
#define BPCC_TABLE_WORDS(slots) (BPCC_SLOT_WORDS * (size_t)(slots))
#define BPCC_CONTENTS_BYTES(slots, width) ((size_t)(width) * (size_t)(slots))
#define BPCC_STATE_WORDS(pages) (BPCC_PAGE_WORDS * (size_t)(pages))
#define BPCC_DOUBTFUL_WORDS(pages) (2 * (size_t)(pages))

/* The answers. Each one's condition is in docs/SPEC.md, section 7; what to do about it in docs/INTEGRATION.md. */
enum bpcc_answers {
    BPCC_DONE = 0,
    BPCC_WRONG_SIZE = 1,
    BPCC_SLOT_UNSOUND = 2,
    BPCC_RECORDS_CLASH = 3,
    BPCC_LINKS_ASTRAY = 4,
    BPCC_STATE_UNSOUND = 5,
    BPCC_WRONG_LIST = 6,
    BPCC_PAGE_IN_FLIGHT = 7,
    BPCC_VERSIONS_EXHAUSTED = 8,
    BPCC_PAGE_NOT_IN_FLIGHT = 9,
    BPCC_PAGE_WRITTEN = 10,
    BPCC_SLOT_NOT_BLANK = 11,
    BPCC_MAY_NOT_ERASE = 12,
    BPCC_NOTHING_TO_ERASE = 13,
    BPCC_NO_COMMITTED_RECORD = 14,
    BPCC_TOO_FEW_BLANK = 15,
    BPCC_WRONG_BLOCKS = 17,
    BPCC_NOTHING_TO_LOOK_AT = 18,
    BPCC_TOO_MANY_DOUBTFUL = 19,
    BPCC_NO_FILLING_RECOVERS = 20
};

/* The answer, 0 for done. */
static inline uint32_t bpcc_answer(uint64_t reply) {
    return (uint32_t)(reply & UINT32_C(4294967295));
}

/* An answer in words. */
static inline const char *bpcc_answer_text(uint32_t answer) {
    switch (answer) {
    case BPCC_DONE: return "done";
    case BPCC_WRONG_SIZE: return "pages, slots, width or a length wrong";
    case BPCC_SLOT_UNSOUND: return "slot neither blank nor sound";
    case BPCC_RECORDS_CLASH: return "records clash or a page has none";
    case BPCC_LINKS_ASTRAY: return "links astray";
    case BPCC_STATE_UNSOUND: return "state not sound";
    case BPCC_WRONG_LIST: return "wrong list, page, slot or block";
    case BPCC_PAGE_IN_FLIGHT: return "page in flight";
    case BPCC_VERSIONS_EXHAUSTED: return "versions exhausted";
    case BPCC_PAGE_NOT_IN_FLIGHT: return "page not in flight";
    case BPCC_PAGE_WRITTEN: return "page already written";
    case BPCC_SLOT_NOT_BLANK: return "slot not blank";
    case BPCC_MAY_NOT_ERASE: return "slot may not be erased";
    case BPCC_NOTHING_TO_ERASE: return "nothing to erase";
    case BPCC_NO_COMMITTED_RECORD: return "no committed record";
    case BPCC_TOO_FEW_BLANK: return "too few blank slots outside the block";
    case 16: return "a record would be buried";
    case BPCC_WRONG_BLOCKS: return "block table wrong";
    case BPCC_NOTHING_TO_LOOK_AT: return "no block to look at";
    case BPCC_TOO_MANY_DOUBTFUL: return "too many doubtful slots";
    case BPCC_NO_FILLING_RECOVERS: return "no filling recovers";
    default: return "no answer of this library";
    }
}

/* The second number: done of a write, the slot of a suggest, the links of a recover, the fillings of a doubtful that recover, the set
 * bits of a count; else 0. */
static inline uint32_t bpcc_second(uint64_t reply) {
    return (uint32_t)(reply >> 32);
}

/*
 * Formats a volume. Slot i below P holds the record (i, 0, 0, i, 0) with `width` zero bytes; all other slots are blank with
 * bytes 255; the state says 0, 0, not in flight, 0 for each page.
 * Refuses: 1.
 */
uint64_t bpcc_format(uint32_t pages, uint32_t slots, uint32_t width,
                     uint32_t *words, size_t words_length,
                     uint8_t *contents, size_t contents_length,
                     uint32_t *state, size_t state_length);

/*
 * Launches a transaction over the listed pages, in a cycle in the list's order: each page's used version rises by 1, its next
 * is the following page in the list (the last points to the first), written is 0. Flash is untouched.
 * Refuses: 1, 5, 6, 7, 8.
 */
uint64_t bpcc_launch(uint32_t pages, uint32_t slots, uint32_t width,
                     uint32_t *state, size_t state_length,
                     const uint32_t *list, size_t list_length);

/*
 * Writes a page of a transaction to a blank slot: the planned record (v = used of the page, c = its committed, np = its next,
 * nv = used of np) and the bytes, `width` of them. Nothing else in flash changes, and the page becomes written. If its whole
 * transaction is then written, each of its pages gets committed = used and leaves flight, written 0, and the second number,
 * done, is 1; else 0.
 * Refuses: 1, 2, 5, 6, 9, 10, 11.
 */
uint64_t bpcc_write(uint32_t pages, uint32_t slots, uint32_t width,
                    uint32_t *words, size_t words_length,
                    uint8_t *contents, size_t contents_length,
                    uint32_t *state, size_t state_length,
                    uint32_t page, uint32_t slot,
                    const uint8_t *bytes, size_t bytes_length);

/*
 * Withdraws the transaction that holds the page: every page of it leaves flight, written 0; nothing else changes.
 * Refuses: 1, 5, 6, 9.
 */
uint64_t bpcc_withdraw(uint32_t pages, uint32_t slots, uint32_t width,
                       uint32_t *state, size_t state_length,
                       uint32_t page);

/*
 * Erases the listed slots: all become blank with bytes 255; nothing else changes. A slot may be erased if a twin of it is not in
 * the list, or else if its record may go (docs/SPEC.md, section 5); this is judged for every slot on the flash before the call. So
 * one of twins always stays, unless the record may go.
 * Refuses: 1, 2, 5, 6, 12. Uses less than 8 KiB of stack.
 */
uint64_t bpcc_erase(uint32_t pages, uint32_t slots, uint32_t width,
                    uint32_t *words, size_t words_length,
                    uint8_t *contents, size_t contents_length,
                    const uint32_t *state, size_t state_length,
                    const uint32_t *list, size_t list_length);

/*
 * Names, as the second number, the lowest slot that may be erased in a list of its own: the lower of twins, too. Alters nothing.
 * Refuses, with BPCC_NONE as the second number: 1, 2, 5, 13. Uses less than 8 KiB of stack.
 */
uint64_t bpcc_suggest(uint32_t pages, uint32_t slots, uint32_t width,
                      const uint32_t *words, size_t words_length,
                      const uint8_t *contents, size_t contents_length,
                      const uint32_t *state, size_t state_length);

/*
 * Checks a block table, for loading: the calls that take it check it again. Alters nothing.
 * Refuses: 1 (pages, slots or width), 17.
 */
uint64_t bpcc_check_blocks(uint32_t pages, uint32_t slots, uint32_t width,
                           const uint32_t *starts, size_t starts_length);

/*
 * Cleans a block of the table: each record in it that may not be erased, all slots of the block being listed, is copied with its bytes to a
 * blank slot outside the block, of twins in the block the lowest alone; then every slot of the block becomes blank with bytes 255.
 * The copies are made in rising order of the block's slots, to the lowest blank slots outside, rising. The state stays.
 *
 * The call alters the images alone, as every call does. The driver then programs the copies and erases the block, in this order:
 * first the slots outside the block that were blank before the call and hold a record after it, one after the other in rising
 * order, and only when all are programmed the block, as one. After a cut anywhere in this bpcc_recover finds every page, some
 * records perhaps in two slots, as twins; clean the block again.
 * Refuses: 1, 17, 2, 5, 6 (a block at or past the table's length), 15 (fewer blank slots outside the block than records to copy), in
 * this order. Uses less than 12 KiB of stack.
 */
uint64_t bpcc_clean(uint32_t pages, uint32_t slots, uint32_t width,
                    uint32_t *words, size_t words_length,
                    uint8_t *contents, size_t contents_length,
                    const uint32_t *state, size_t state_length,
                    const uint32_t *starts, size_t starts_length,
                    uint32_t block);

/*
 * Picks a block to clean: of n blocks, or of all where n is above the table's length, the one that frees most, the earliest looked at
 * where several do. It looks at `block` first and then at those behind it, behind the last at block 0. What a block frees is the number
 * of its slots that may be erased, each in a list of its own, as bpcc_suggest judges: of twins in one block all count, though cleaning
 * keeps one of them where their record must stay. Alters out alone, BPCC_PICK_WORDS long:
 *
 *   BPCC_PICK_BLOCK   the block
 *   BPCC_PICK_FREES   what it frees
 *   BPCC_PICK_LOOKED  how many blocks were looked at: the smaller of n and the table's length
 *   BPCC_PICK_UNSEEN  how much a block not looked at could beat it: the slots of the largest such block less BPCC_PICK_FREES, or 0
 *
 * No block not looked at frees more than the second and the last word together: the last says whether it is worth to look on, and
 * where it is 0 no block of the table frees more. A larger n never finds less.
 * Refuses: 1, 17, 2, 5, 6 (a block at or past the table's length), 18 (n is 0), in this order. Uses less than 8 KiB of stack.
 */
uint64_t bpcc_pick(uint32_t pages, uint32_t slots, uint32_t width,
                   const uint32_t *words, size_t words_length,
                   const uint8_t *contents, size_t contents_length,
                   const uint32_t *state, size_t state_length,
                   const uint32_t *starts, size_t starts_length,
                   uint32_t block, uint32_t n,
                   uint32_t *out, size_t out_length);

/*
 * Sweeps the volume: three erasures in a row. First every exposed record goes (v above its page's committed version), other than one
 * whose page is in flight with v = used; then every obsolete one (v below it) that may then be erased, judged as one list; then of
 * twins all but the lowest. The state stays. Of a volume that these calls made exactly one record for each page is left, and one
 * more for each written page in flight.
 *
 * The call alters the images alone. The driver then blanks the slots on the chip, erasure by erasure, each finished before the next
 * begins; within one in any order. Which one a slot belongs to that was a record and is blank now is told by its old record, which
 * the chip still has, and the state: the first, if v is above its page's committed version and the page is not in flight with
 * v = used; the second, if v is below; else the third. After a cut anywhere in this bpcc_recover finds every page as before.
 * Refuses: 1, 2, 5. Uses less than 9 KiB of stack.
 */
uint64_t bpcc_sweep(uint32_t pages, uint32_t slots, uint32_t width,
                    uint32_t *words, size_t words_length,
                    uint8_t *contents, size_t contents_length,
                    const uint32_t *state, size_t state_length);

/*
 * Fills the state from the slot table, and from the contents, by which twins are told; the old state may hold anything. Each page
 * gets the version last committed, the highest version that any record gives it or links to as used, not in flight, written 0.
 * The first call after power-up. Two records of one page and version are a clash (3) unless they are twins.
 * The second number is the number of links followed, summed over the pages as starts: one for each record whose link is compared,
 * the link that decides and the return to the start included. It is at most P*P, which one set of all pages reaches.
 * Refuses: 1, 2, 3, 4, 14. Uses less than 9 KiB of stack.
 */
uint64_t bpcc_recover(uint32_t pages, uint32_t slots, uint32_t width,
                      const uint32_t *words, size_t words_length,
                      const uint8_t *contents, size_t contents_length,
                      uint32_t *state, size_t state_length);

/*
 * Tells for each page between which versions it comes back where the chip reads some records only now and then: the listed slots are in
 * doubt, each there, as it is lent, or blank. A volume with d of them is one of 2^d fillings; one recovers if bpcc_recover would answer
 * 0 on it, and its versions are those that it would give as last committed. The second number is the number of fillings that recover, 1
 * to 2^d. Alters out alone, BPCC_DOUBTFUL_WORDS(P) long; page p has two words:
 *
 *   2p      its lowest version over the fillings that recover
 *   2p + 1  its highest
 *
 * Each is its version in some filling that recovers, and in every other it lies between them. Where they are equal the page has this
 * version whatever the doubtful slots hold, as long as the volume recovers, and where the second number is 2^d it does whatever
 * they hold. An empty list gives the version of bpcc_recover twice for each page, and 1.
 *
 * The call is for a read of the flash that differs from the last: lend images in which each slot is a record that either read had, and
 * list the slots that only one of them had. It takes no state.
 * Refuses: 1, 2, 6 (a listed slot at or past S, listed twice, or blank; a list may be empty), 19 (more than BPCC_MAX_DOUBTFUL listed), 20
 * (no filling recovers). Uses less than 33 KiB of stack.
 */
uint64_t bpcc_doubtful(uint32_t pages, uint32_t slots, uint32_t width,
                       const uint32_t *words, size_t words_length,
                       const uint8_t *contents, size_t contents_length,
                       const uint32_t *list, size_t list_length,
                       uint32_t *out, size_t out_length);

/*
 * Counts, as the second number, the set bits of 32 or 64 bytes (the drawn stops: stop s is bit s mod 8 of byte s div 8, lowest
 * bit first). It takes no volume and no width. Alters nothing.
 * Refuses: 1.
 */
uint64_t bpcc_count(const uint8_t *bytes, size_t bytes_length);

/*
 * Copies to out, `width` long, the bytes of the lowest slot that holds the page at its committed version. Alters nothing else.
 * Refuses: 1, 2, 5, 6, 14.
 */
uint64_t bpcc_read(uint32_t pages, uint32_t slots, uint32_t width,
                   const uint32_t *words, size_t words_length,
                   const uint8_t *contents, size_t contents_length,
                   const uint32_t *state, size_t state_length,
                   uint32_t page,
                   uint8_t *out, size_t out_length);

#ifdef __cplusplus
}
#endif

#endif
