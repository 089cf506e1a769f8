/*
 * scc.h: the second family of calls, for volumes with records of four words (Simple Cyclic Commit), as older consoles have them.
 * The guarantee is bpcc.h's: a set of pages stored together comes back whole, all old or all new, wherever power fails. C99 and
 * C++.
 *
 * A record here has no back pointer: a slot takes a word less, and any obsolete record may be erased at once. In return what an
 * unfinished set left in flash must be erased before a write would bury it (answer 16, below), where bpcc.h asks for no such order.
 * For a new volume use bpcc.h, which also has suggest, clean, pick, sweep and doubtful; these volumes are neither cleaned nor swept, and
 * have no twins. A volume keeps its family: its records are not those of the other.
 *
 * The volume, the state, the widths, the buffers and the replies are as bpcc.h says at its head, but for the slot table:
 *
 *   words     SCC_TABLE_WORDS(S) words; slot k has words 4k to 4k+3
 *
 * A blank slot has BPCC_NONE in all four words. Any other slot is a record: its page p, its version v, the next page np of its
 * transaction and that page's version nv. It is sound if p and np are below P, v and nv are below BPCC_NONE, and nv equals v where
 * np equals p. A record is obsolete if v is below its page's committed version, exposed if above. contents and state have
 * BPCC_CONTENTS_BYTES(S, W) bytes and BPCC_STATE_WORDS(P) words; bpcc_answer, bpcc_second and bpcc_answer_text serve these calls
 * too, and so does bpcc_count.
 */
#ifndef SCC_H
#define SCC_H

#include "bpcc.h"

#ifdef __cplusplus
extern "C" {
#endif

/* Words of a slot in the table, and the length of words for S slots. */
#define SCC_SLOT_WORDS 4
#define SCC_TABLE_WORDS(slots) (SCC_SLOT_WORDS * (size_t)(slots))

/* The one answer that bpcc.h's calls do not give: the write would bury a record. Erase every exposed record other than one whose
 * page is in flight with v = used, then make the same write again; on a volume that these calls made it is then done. */
#define SCC_WOULD_BURY 16

/*
 * Formats a volume. Slot i below P holds the record (i, 0, i, 0) with `width` zero bytes; all other slots are blank with bytes 255;
 * the state says 0, 0, not in flight, 0 for each page.
 * Refuses: 1.
 */
uint64_t scc_format(uint32_t pages, uint32_t slots, uint32_t width,
                    uint32_t *words, size_t words_length,
                    uint8_t *contents, size_t contents_length,
                    uint32_t *state, size_t state_length);

/*
 * Launches a transaction over the listed pages, in a cycle in the list's order, as bpcc_launch does. Flash is untouched.
 * Refuses: 1, 5, 6, 7, 8.
 */
uint64_t scc_launch(uint32_t pages, uint32_t slots, uint32_t width,
                    uint32_t *state, size_t state_length,
                    const uint32_t *list, size_t list_length);

/*
 * Writes a page of a transaction to a blank slot: the planned record (v = used of the page, np = its next, nv = used of np) and the
 * bytes, `width` of them. Nothing else in flash changes, and the page becomes written. If its whole transaction is then written,
 * each of its pages gets committed = used and leaves flight, written 0, and the second number, done, is 1; else 0.
 * A record would be buried (16) where the table holds an exposed one of the page with a version below v, or one that links to the
 * page at a version below v. The earlier records of the page's own transaction link to v itself, and do not count.
 * Refuses: 1, 2, 5, 6, 9, 10, 11, 16.
 */
uint64_t scc_write(uint32_t pages, uint32_t slots, uint32_t width,
                   uint32_t *words, size_t words_length,
                   uint8_t *contents, size_t contents_length,
                   uint32_t *state, size_t state_length,
                   uint32_t page, uint32_t slot,
                   const uint8_t *bytes, size_t bytes_length);

/*
 * Withdraws the transaction that holds the page, as bpcc_withdraw does. The records it left in flash are exposed: erase them before
 * a later write would bury them.
 * Refuses: 1, 5, 6, 9.
 */
uint64_t scc_withdraw(uint32_t pages, uint32_t slots, uint32_t width,
                      uint32_t *state, size_t state_length,
                      uint32_t page);

/*
 * Erases the listed slots: all become blank with bytes 255; nothing else changes. A slot may be erased if it holds an obsolete
 * record, or an exposed one other than one whose page is in flight with v = used.
 * Refuses: 1, 2, 5, 6, 12.
 */
uint64_t scc_erase(uint32_t pages, uint32_t slots, uint32_t width,
                   uint32_t *words, size_t words_length,
                   uint8_t *contents, size_t contents_length,
                   const uint32_t *state, size_t state_length,
                   const uint32_t *list, size_t list_length);

/*
 * Fills the state from the slot table alone; the old state may hold anything. Each page gets the version last committed, which is
 * its highest or its second highest, the highest version that any record gives it or links to as used, not in flight, written 0.
 * The first call after power-up. The second number is the number of links followed, as bpcc_recover counts them, at most P*P.
 * Refuses: 1, 2, 3 (two records of one page and version, or a page without one), 4, 14 (a page whose highest version is not
 * committed has no other). Uses less than 9 KiB of stack.
 */
uint64_t scc_recover(uint32_t pages, uint32_t slots, uint32_t width,
                     const uint32_t *words, size_t words_length,
                     uint32_t *state, size_t state_length);

/*
 * Copies to out, `width` long, the bytes of the lowest slot that holds the page at its committed version. Alters nothing else.
 * Refuses: 1, 2, 5, 6, 14.
 */
uint64_t scc_read(uint32_t pages, uint32_t slots, uint32_t width,
                  const uint32_t *words, size_t words_length,
                  const uint8_t *contents, size_t contents_length,
                  const uint32_t *state, size_t state_length,
                  uint32_t page,
                  uint8_t *out, size_t out_length);

#ifdef __cplusplus
}
#endif

#endif
