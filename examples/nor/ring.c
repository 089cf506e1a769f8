/* The console over the library: what firmware does with it on a chip that erases blocks. */
#include "console.h"

#include <string.h>

static struct volume volume;

#define VOLUME PAGES, volume.slots, volume.width
#define WORDS volume.words, BPCC_TABLE_WORDS(volume.slots)
#define CONTENTS volume.contents, BPCC_CONTENTS_BYTES(volume.slots, volume.width)
#define STATE volume.state, BPCC_STATE_WORDS(PAGES)
#define STARTS volume.starts, BLOCKS

/* The second number of a call that is done. Any other answer says that memory or chip was altered by something else. */
static uint32_t done(uint64_t reply) {
    if (bpcc_answer(reply) != BPCC_DONE) {
        driver_gives_up(bpcc_answer_text(bpcc_answer(reply)));
    }
    return bpcc_second(reply);
}

static int is_blank(uint32_t slot) {
    return volume.words[BPCC_SLOT_WORDS * slot] == BPCC_NONE;
}

static uint32_t blank_slots(void) {
    uint32_t slot, count = 0;
    for (slot = 0; slot < volume.slots; slot++) {
        count += (uint32_t)is_blank(slot);
    }
    return count;
}

/* How many blank slots are kept in reserve: with as many as a block has slots every block can be cleaned. */
static uint32_t reserve(void) {
    return BLOCK_SLOTS(volume.width);
}

static void format(void) {
    done(bpcc_format(VOLUME, WORDS, CONTENTS, STATE));
    driver_format(&volume);
}

/* Power-up: the driver's part, then recovery. Nothing else is called before recovery has answered 0. */
static int power_up(uint32_t width) {
    const int found = driver_power_up(&volume, width);
    done(bpcc_check_blocks(VOLUME, STARTS));
    if (found == DRIVER_NOT_FORMATTED) {
        format();
        return FORMATTED;
    }
    if (found != DRIVER_READY) {
        return REFUSED;
    }
    done(bpcc_recover(VOLUME, WORDS, CONTENTS, STATE));
    return READY;
}

/* Cleans a block: in the images, then on the chip, where all copies are programmed, rising, before the block is blanked. Gives 0 where
 * there are too few blank slots for the copies. */
static int clean(uint32_t block) {
    static uint8_t was_blank[SLOTS(BPCC_WIDTH_32)];
    uint64_t reply;
    uint32_t slot;
    for (slot = 0; slot < volume.slots; slot++) {
        was_blank[slot] = (uint8_t)is_blank(slot);
    }
    reply = bpcc_clean(VOLUME, WORDS, CONTENTS, STATE, STARTS, block);
    if (bpcc_answer(reply) == BPCC_TOO_FEW_BLANK) {
        return 0;
    }
    done(reply);
    for (slot = 0; slot < volume.slots; slot++) {
        if (was_blank[slot] && !is_blank(slot)) {
            driver_program(&volume, slot);
        }
    }
    driver_blank(&volume, block);
    return 1;
}

/* What cleaning a block frees: a pick that looks at this one alone. */
static uint32_t frees(uint32_t block) {
    uint32_t picked[BPCC_PICK_WORDS];
    done(bpcc_pick(VOLUME, WORDS, CONTENTS, STATE, STARTS, block, 1, picked, BPCC_PICK_WORDS));
    return picked[BPCC_PICK_FREES];
}

/* Of the blocks that are not passed by (bits), the one that frees most, and of those that free as much the least erased, which levels
 * the wear; BLOCKS where none frees anything. (One pick that looks at all would name the first of those that free most.) */
static uint32_t best_block(uint32_t passed_by) {
    uint32_t block, best = BLOCKS, most = 0;
    for (block = 0; block < BLOCKS; block++) {
        const uint32_t freed = passed_by >> block & 1 ? 0 : frees(block);
        if (freed > most || (freed > 0 && freed == most && driver_wear(&volume, block) < driver_wear(&volume, best))) {
            best = block;
            most = freed;
        }
    }
    return best;
}

/* Cleans the best block. Copies that a power cut left beside their originals may have used some of the reserve, so that a block has to
 * wait: then the next best; the one that was being cleaned never has to. */
static void clean_best(void) {
    uint32_t passed_by = 0, block = best_block(passed_by);
    while (block < BLOCKS && !clean(block)) {
        passed_by |= UINT32_C(1) << block;
        block = best_block(passed_by);
    }
    if (block == BLOCKS) {
        driver_gives_up("no block can be cleaned");
    }
}

/* Whether there is a piece of work where fewer slots are blank than wanted: the spare block is erased, or a block is cleaned. */
static int tidy(uint32_t wanted) {
    if (!volume.spare_is_erased) {
        driver_erase_spare(&volume);
    } else if (blank_slots() < wanted) {
        clean_best();
    } else {
        return 0;
    }
    return 1;
}

/* Between two sets, so much ahead of need that the next set seldom waits. */
static void idle(void) {
    if (!tidy(reserve() + 2 * LARGEST_SET)) {
        driver_level(&volume);
    }
}

/* A blank slot of the least erased block that has one: what is written there wears that block when it is cleaned. */
static uint32_t blank_slot(void) {
    uint32_t slot, block, best = volume.slots, least = UINT32_MAX;
    for (slot = 0; slot < volume.slots; slot++) {
        block = slot / BLOCK_SLOTS(volume.width);
        if (is_blank(slot) && driver_wear(&volume, block) < least) {
            best = slot;
            least = driver_wear(&volume, block);
        }
    }
    return best;
}

/* Each slot is programmed before the next call. */
static void store(const uint32_t *set, uint32_t count, const uint8_t *bytes, uint32_t pieces) {
    uint32_t i;
    while (blank_slots() < reserve() + count) {
        tidy(reserve() + count);
    }
    done(bpcc_launch(VOLUME, STATE, set, count));
    for (i = 0; i < pieces; i++) {
        const uint32_t slot = blank_slot();
        done(bpcc_write(VOLUME, WORDS, CONTENTS, STATE, set[i], slot, bytes + i * volume.width, volume.width));
        driver_program(&volume, slot);
    }
    if (pieces < count) {
        done(bpcc_withdraw(VOLUME, STATE, set[0]));
    }
}

static void read(uint32_t page, uint8_t *bytes) {
    done(bpcc_read(VOLUME, WORDS, CONTENTS, STATE, page, bytes, volume.width));
}

const struct console ring_console = {"rings", &volume, sizeof volume, power_up, format, store, idle, read};
