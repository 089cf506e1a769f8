#include "driver.h"

#include <string.h>

/* ---- Bytes ---- */

void driver_put_word(uint8_t *bytes, uint32_t word) {
    int i;
    for (i = 0; i < 4; i++) {
        bytes[i] = (uint8_t)(word >> (8 * i));
    }
}

uint32_t driver_word(const uint8_t *bytes) {
    return (uint32_t)bytes[0] | (uint32_t)bytes[1] << 8 | (uint32_t)bytes[2] << 16 | (uint32_t)bytes[3] << 24;
}

/* CRC-32 over the bytes and one constant byte. Without that byte four erased bytes would have the checksum of four erased bytes. */
static uint32_t checksum(const uint8_t *bytes, size_t count) {
    uint32_t crc = UINT32_MAX;
    size_t i;
    int bit;
    for (i = 0; i <= count; i++) {
        crc ^= i < count ? bytes[i] : 0xA5;
        for (bit = 0; bit < 8; bit++) {
            crc = (crc >> 1) ^ (UINT32_C(0xEDB88320) & (0 - (crc & 1)));
        }
    }
    return ~crc;
}

void driver_seal(uint8_t *bytes, size_t count) {
    driver_put_word(bytes + count, checksum(bytes, count));
}

int driver_is_sealed(const uint8_t *bytes, size_t count) {
    return driver_word(bytes + count) == checksum(bytes, count);
}

static int is_erased(const uint8_t *bytes, size_t count) {
    size_t i;
    for (i = 0; i < count && bytes[i] == CHIP_ERASED; i++) {
    }
    return i == count;
}

void driver_put(uint32_t address, const uint8_t *bytes, size_t count) {
    uint8_t back[CHIP_PAGE_BYTES];
    while (count > 0) {
        const uint32_t room = CHIP_PAGE_BYTES - address % CHIP_PAGE_BYTES, part = count < room ? (uint32_t)count : room;
        chip_program(address, bytes, part);
        chip_read(address, back, part);
        if (memcmp(back, bytes, part) != 0) {
            driver_gives_up("the chip does not hold what was programmed");
        }
        address += part;
        bytes += part;
        count -= part;
    }
}

/* ---- Slots ---- */

/* Where slot i of a block of the chip begins. */
static uint32_t slot_address(const struct volume *v, uint32_t chip_block, uint32_t i) {
    return chip_block * CHIP_BLOCK_BYTES + HEAD_BYTES + i * SLOT_BYTES(v->width);
}

/* A slot as it is on the chip: erased, sound, or torn by a cut that fell while it was programmed. A chip that reads with errors reads a
 * torn slot again before it believes that. */
enum kinds { ERASED, SOUND, TORN };

static int read_slot(const struct volume *v, uint32_t chip_block, uint32_t i, uint8_t *piece) {
    chip_read(slot_address(v, chip_block, i), piece, SLOT_BYTES(v->width));
    if (is_erased(piece, SLOT_BYTES(v->width))) {
        return ERASED;
    }
    return driver_is_sealed(piece, WORD_BYTES + v->width) ? SOUND : TORN;
}

void driver_program(struct volume *v, uint32_t slot) {
    const uint32_t block = slot / BLOCK_SLOTS(v->width), i = slot % BLOCK_SLOTS(v->width);
    uint8_t piece[SLOT_BYTES(BPCC_MAX_WIDTH)];
    uint32_t word;
    for (word = 0; word < BPCC_SLOT_WORDS; word++) {
        driver_put_word(piece + 4 * word, v->words[BPCC_SLOT_WORDS * slot + word]);
    }
    memcpy(piece + WORD_BYTES, v->contents + v->width * slot, v->width);
    driver_seal(piece, WORD_BYTES + v->width);
    driver_put(slot_address(v, v->home[block], i), piece, SLOT_BYTES(v->width));
}

/* Loads a slot into the images, what is not sound as the library's blank slots are: BPCC_NONE in its words and 255 in its bytes. */
static int load_slot(struct volume *v, uint32_t block, uint32_t i) {
    const uint32_t slot = block * BLOCK_SLOTS(v->width) + i;
    uint8_t piece[SLOT_BYTES(BPCC_MAX_WIDTH)];
    const int kind = read_slot(v, v->home[block], i, piece);
    uint32_t word;
    if (kind != SOUND) {
        memset(piece, 255, sizeof piece);
    }
    for (word = 0; word < BPCC_SLOT_WORDS; word++) {
        v->words[BPCC_SLOT_WORDS * slot + word] = driver_word(piece + 4 * word);
    }
    memcpy(v->contents + v->width * slot, piece + WORD_BYTES, v->width);
    return kind;
}

/* ---- Blocks ---- */

struct head {
    int is_counted, is_claimed;
    uint32_t erased, block, sequence, sizes;
};

static struct head read_head(uint32_t chip_block) {
    uint8_t bytes[HEAD_BYTES];
    const uint8_t *claim = bytes + CLAIM_AT;
    struct head head;
    chip_read(chip_block * CHIP_BLOCK_BYTES, bytes, HEAD_BYTES);
    head.is_counted = driver_is_sealed(bytes, COUNT_BYTES);
    head.erased = driver_word(bytes);
    head.is_claimed = driver_is_sealed(claim, CLAIM_BYTES);
    head.block = driver_word(claim);
    head.sequence = driver_word(claim + 4);
    head.sizes = driver_word(claim + 8);
    return head;
}

/* Erases a block of the chip. Its old count is struck out first, by programming zeros over it: while an erasure is not finished, there is
 * none. */
static void erase(struct volume *v, uint32_t chip_block) {
    static const uint8_t zeros[COUNT_BYTES + SEAL_BYTES] = {0};
    uint8_t count[COUNT_BYTES + SEAL_BYTES];
    driver_put(chip_block * CHIP_BLOCK_BYTES, zeros, sizeof zeros);
    chip_erase(chip_block);
    driver_put_word(count, ++v->erased[chip_block]);
    driver_seal(count, COUNT_BYTES);
    driver_put(chip_block * CHIP_BLOCK_BYTES, count, sizeof count);
}

void driver_erase_spare(struct volume *v) {
    if (!v->spare_is_erased) {
        erase(v, v->spare);
        v->spare_is_erased = 1;
    }
}

/* The sizes of a volume as one word: its width, pages, blocks, and slots of a block. */
static uint32_t sizes_word(const struct volume *v) {
    return v->width << 25 | (uint32_t)PAGES << 16 | (uint32_t)BLOCKS << 11 | (uint32_t)BLOCK_SLOTS(v->width);
}

/* What the mark claims: it is no block of the volume. */
enum { FORMATTING = BLOCKS };

static int is_mark(uint32_t chip_block) {
    const struct head head = read_head(chip_block);
    return head.is_claimed && head.block == FORMATTING;
}

/* Programs a claim: from its last byte on the block of the chip is the home of that block of the volume, or marks the chip. */
static void claim(struct volume *v, uint32_t block, uint32_t chip_block) {
    uint8_t bytes[CLAIM_BYTES + SEAL_BYTES];
    driver_put_word(bytes, block);
    driver_put_word(bytes + 4, ++v->sequence);
    driver_put_word(bytes + 8, sizes_word(v));
    driver_seal(bytes, CLAIM_BYTES);
    driver_put(chip_block * CHIP_BLOCK_BYTES + CLAIM_AT, bytes, sizeof bytes);
}

/* Moves a block of the volume to the spare, with what is there by now; its old home is the new spare. */
static void move(struct volume *v, uint32_t block) {
    const uint32_t old = v->home[block];
    claim(v, block, v->spare);
    v->home[block] = v->spare;
    v->spare = old;
    v->spare_is_erased = 0;
}

void driver_blank(struct volume *v, uint32_t block) {
    driver_erase_spare(v);
    move(v, block);
}

/* Rewrites a block: its sound slots are copied to the spare, each to its place, and then the block moves there. A cut before the move
 * leaves the block as it was. */
static void rewrite(struct volume *v, uint32_t block) {
    const uint32_t from = v->home[block], to = v->spare;
    uint8_t piece[SLOT_BYTES(BPCC_MAX_WIDTH)];
    uint32_t i;
    driver_erase_spare(v);
    for (i = 0; i < BLOCK_SLOTS(v->width); i++) {
        if (read_slot(v, from, i, piece) == SOUND) {
            driver_put(slot_address(v, to, i), piece, SLOT_BYTES(v->width));
        }
    }
    move(v, block);
}

uint32_t driver_wear(const struct volume *v, uint32_t block) {
    return v->erased[v->home[block]];
}

void driver_level(struct volume *v) {
    uint32_t block, least = 0;
    for (block = 1; block < BLOCKS; block++) {
        least = driver_wear(v, block) < driver_wear(v, least) ? block : least;
    }
    if (v->spare_is_erased && v->erased[v->spare] > driver_wear(v, least) + WEAR_APART) {
        rewrite(v, least);
    }
}

/* ---- Power-up ---- */

/* How often each block was erased. Of one that a cut left without its count, the mean of the others. */
static void read_counts(struct volume *v) {
    uint32_t sum = 0, counted = 0, b;
    for (b = 0; b < CHIP_BLOCKS; b++) {
        const struct head head = read_head(b);
        v->erased[b] = head.is_counted ? head.erased : UINT32_MAX;
        sum += head.is_counted ? head.erased : 0;
        counted += (uint32_t)head.is_counted;
    }
    for (b = 0; b < CHIP_BLOCKS; b++) {
        if (v->erased[b] == UINT32_MAX) {
            v->erased[b] = counted == 0 ? 0 : sum / counted;
        }
    }
}

/* Finds each block's home, by the claims, and the spare: the mark, or else a block that is nobody's home. */
static int find_homes(struct volume *v) {
    uint32_t sequence[BLOCKS] = {0}, is_home[CHIP_BLOCKS] = {0}, claims = 0, homes = 0, b;
    int is_other = 0;
    v->sequence = 0;
    for (b = 0; b < CHIP_BLOCKS; b++) {
        const struct head head = read_head(b);
        if (!head.is_claimed) {
            continue;
        }
        claims++;
        is_other |= head.sizes != sizes_word(v);
        v->sequence = head.sequence > v->sequence ? head.sequence : v->sequence;
        if (head.block < BLOCKS && head.sequence > sequence[head.block]) {
            sequence[head.block] = head.sequence;
            v->home[head.block] = b;
        }
    }
    for (b = 0; b < BLOCKS; b++) {
        if (sequence[b] != 0) {
            is_home[v->home[b]] = 1;
            homes++;
        }
    }
    for (b = v->spare = 0; b < CHIP_BLOCKS; b++) {
        v->spare = is_home[b] || is_mark(v->spare) ? v->spare : b;
    }
    if (claims == 0 || is_mark(v->spare)) {
        return DRIVER_NOT_FORMATTED;
    }
    if (is_other) {
        return DRIVER_OTHER_SIZES;
    }
    return homes < BLOCKS || v->sequence == UINT32_MAX ? DRIVER_DAMAGED : DRIVER_READY;
}

/* Whether a block of the chip has its count and nothing else: a cut in an erasure, a move or a rewriting leaves one that is not so. */
static int is_ready(uint32_t chip_block) {
    uint8_t bytes[CHIP_PAGE_BYTES];
    uint32_t i, part;
    for (i = CLAIM_AT; i < CHIP_BLOCK_BYTES; i += part) {
        part = CHIP_BLOCK_BYTES - i < sizeof bytes ? CHIP_BLOCK_BYTES - i : (uint32_t)sizeof bytes;
        chip_read(chip_block * CHIP_BLOCK_BYTES + i, bytes, part);
        if (!is_erased(bytes, part)) {
            return 0;
        }
    }
    return read_head(chip_block).is_counted;
}

/* Loads a block's slots, and rewrites it where one is torn, so that no slot is blank in the images that is not erased. */
static void load_block(struct volume *v, uint32_t block) {
    int is_torn = 0;
    uint32_t i;
    for (i = 0; i < BLOCK_SLOTS(v->width); i++) {
        is_torn |= load_slot(v, block, i) == TORN;
    }
    if (is_torn) {
        rewrite(v, block);
    }
}

int driver_power_up(struct volume *v, uint32_t width) {
    uint32_t b;
    int found;
    v->width = width;
    v->slots = SLOTS(width);
    for (b = 0; b < BLOCKS; b++) {
        v->starts[b] = b * BLOCK_SLOTS(width);
    }
    read_counts(v);
    found = find_homes(v);
    v->spare_is_erased = is_ready(v->spare);
    for (b = 0; b < BLOCKS && found == DRIVER_READY; b++) {
        load_block(v, b);
    }
    return found;
}

/* ---- Formatting ---- */

/* The spare marks the chip, and is erased last: of a volume that was there nothing is touched before the mark is whole, and the new one
 * is there, with all its claims, before the mark goes. */
void driver_format(struct volume *v) {
    const uint32_t mark = v->spare;
    uint32_t b, slot;
    if (!is_mark(mark)) {
        driver_erase_spare(v);
        claim(v, FORMATTING, mark);
    }
    for (b = 0; b < BLOCKS; b++) {
        v->home[b] = b < mark ? b : b + 1;
        erase(v, v->home[b]);
    }
    for (slot = 0; slot < v->slots; slot++) {
        if (v->words[BPCC_SLOT_WORDS * slot] != BPCC_NONE) {
            driver_program(v, slot);
        }
    }
    for (b = 0; b < BLOCKS; b++) {
        claim(v, b, v->home[b]);
    }
    v->spare_is_erased = 0;
    driver_erase_spare(v);
}
