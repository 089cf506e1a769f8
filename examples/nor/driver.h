/*
 * A driver for NOR flash: what it does so that a chip on which a cut tears programs and erasures keeps slots whole. The functions are
 * short and depend on the chip's three alone, so that they can be copied. README.md says which premise each makes true.
 *
 * The chip has one block more than the volume. Each block of the volume has its home in some block of the chip; the one that is nobody's
 * home is the spare. A block of the chip begins with a head of two parts, each under a checksum of its own:
 *
 *   bytes 0 to 7     the count: how often the block was erased. It is there from the end of an erasure to the begin of the next
 *   bytes 8 to 23    the claim: of which block of the volume this is the home, a sequence number, and the volume's sizes
 *   from byte 24 on  the slots: five words, lowest byte first, the contents, and a checksum
 *
 * Of two claims to one block the one with the higher sequence number counts. So a block of the volume moves to the spare at the moment
 * when one claim is whole, and nothing that counts is ever erased. A chip is formatted where every block of the volume has its home and
 * no block is marked: the mark is a claim that says that the chip is being formatted.
 */
#ifndef DRIVER_H
#define DRIVER_H

#include "bpcc.h"
#include "chip.h"

enum { PAGES = 60, BLOCKS = CHIP_BLOCKS - 1 };

enum { COUNT_BYTES = 4, CLAIM_AT = 8, CLAIM_BYTES = 12, HEAD_BYTES = 24, SEAL_BYTES = 4, WORD_BYTES = 4 * BPCC_SLOT_WORDS };

/* A slot's bytes on the chip, and how many slots a block has: as many as it has room for and the library takes. */
#define SLOT_BYTES(width) (WORD_BYTES + (width) + SEAL_BYTES)
#define BLOCK_ROOM(width) ((CHIP_BLOCK_BYTES - HEAD_BYTES) / SLOT_BYTES(width))
#define BLOCK_SLOTS(width) (BLOCK_ROOM(width) * BLOCKS > BPCC_MAX_SLOTS ? BPCC_MAX_SLOTS / BLOCKS : BLOCK_ROOM(width))
#define SLOTS(width) (BLOCKS * BLOCK_SLOTS(width))

/* All that a console keeps in memory: lost when power fails. Room for the larger of both widths' images. */
struct volume {
    uint32_t width, slots;
    uint32_t words[BPCC_TABLE_WORDS(SLOTS(BPCC_WIDTH_32))];
    uint8_t contents[BPCC_CONTENTS_BYTES(SLOTS(BPCC_WIDTH_64), BPCC_WIDTH_64)];
    uint32_t state[BPCC_STATE_WORDS(PAGES)];
    uint32_t starts[BLOCKS];       /* the table of blocks, for the calls */
    uint32_t home[BLOCKS];         /* of each block of the volume its block of the chip */
    uint32_t erased[CHIP_BLOCKS];  /* how often each block of the chip was erased */
    uint32_t spare, sequence;      /* the spare block, and the highest sequence number */
    int spare_is_erased;
};

/* What power-up finds. */
enum driver_finds { DRIVER_READY, DRIVER_NOT_FORMATTED, DRIVER_OTHER_SIZES, DRIVER_DAMAGED };

/* Power-up, before bpcc_recover: finds the blocks, loads the images, and rewrites each block that has a torn slot. Where it does not
 * find a volume that is ready, it alters nothing. */
int driver_power_up(struct volume *v, uint32_t width);

/* Puts the images onto the chip as a new volume, after a power-up, whatever that has found. Until the chip is marked, what was there
 * stays; from then on it is not formatted, until all is there. */
void driver_format(struct volume *v);

/* Programs a slot from the images. */
void driver_program(struct volume *v, uint32_t slot);

/* Blanks all slots of a block, at one moment. */
void driver_blank(struct volume *v, uint32_t block);

/* Erases the spare block, where it is not erased; at the latest that is done when a block moves there. It takes the longest of all. */
void driver_erase_spare(struct volume *v);

/* How often a block's home was erased. */
uint32_t driver_wear(const struct volume *v, uint32_t block);

/* Moves the block whose home was erased least, with what is in it, to the spare, if that was erased more than WEAR_APART times more
 * often: pistons that are never stored again then stand where the wear is. The slots stay as they are, so that no call is made. */
enum { WEAR_APART = 8 };
void driver_level(struct volume *v);

/* A checksum behind so many bytes, programmed with them; whether it is right. */
void driver_seal(uint8_t *bytes, size_t count);
int driver_is_sealed(const uint8_t *bytes, size_t count);

/* Words lie on the chip lowest byte first, whatever the processor's order is. */
void driver_put_word(uint8_t *bytes, uint32_t word);
uint32_t driver_word(const uint8_t *bytes);

/* Programs bytes, page by page, and reads them back. */
void driver_put(uint32_t address, const uint8_t *bytes, size_t count);

/* Called where the chip does not hold what was programmed, or a call refuses what it should not; it must not return. Firmware starts
 * anew: it loads the flash and recovers, as after a power cut (docs/INTEGRATION.md, "A chip that fails"). */
void driver_gives_up(const char *why);

#endif
