/*
 * A small console over a simulated flash file, of a chip that programs a slot by itself and erases blocks of slots, small ones at its
 * front and larger ones behind, or of one that erases a slot by itself, too. It stores sets of pistons, is killed at a random flash
 * step, powers up again, and finds every set whole: all old or all new.
 *
 *   console FILE           powers up from FILE (made and formatted where it is missing) and lists the pistons
 *   console FILE N SEED    formats FILE and stores random sets, N times killed; after each kill powers up and compares
 *   console FILE volume    writes the volume in FILE, which must be there, to standard output, for the page of the service van: P, S, the
 *                          width and the words of the table, 32 bits each, lowest byte first, then the contents. FILE is neither
 *                          recovered nor altered
 *
 * Behind these may stand, in this order:
 *
 *   64       a piston has 64 bytes, 512 stops; else it has 32 bytes, 256 stops
 *   slots    the chip erases slots, and the console sweeps; else it erases blocks, and the console cleans the one that frees most of
 *            the next few. Not behind volume, which is the same over either chip
 *
 * A FILE that is there and is no flash file of this console and this width, by its length, is left as it is. Both chips have the same
 * slots: a file of the one is a file of the other.
 *
 * The driver is what firmware has to supply: load the flash at power-up; program one slot at a time from the images in memory, wholly
 * or not at all, before the next call. Of a chip of blocks: lend their table, and erase a block only when every copy out of it is
 * programmed. Of a chip of slots: erase what a sweep blanked in the images in three stages, each finished before the next begins. A
 * freshly formatted file is moved into place in one piece: that stands for the marker that a chip's driver keeps
 * (docs/INTEGRATION.md, "First boot"). POSIX for the processes; the use of the library is plain C99.
 */
#define _POSIX_C_SOURCE 200809L

#include "bpcc.h"

#include <fcntl.h>
#include <signal.h>
#include <stdio.h>
#include <stdlib.h>
#include <string.h>
#include <sys/stat.h>
#include <sys/types.h>
#include <sys/wait.h>
#include <unistd.h>

enum { PAGES = 8, SLOTS = 192, BLOCKS = 6, LARGEST_BLOCK = 64, WORD_BYTES = 4 * BPCC_SLOT_WORDS };

/* The chip's blocks: of 8, 8, 16, 32, 64 and 64 slots. */
static const uint32_t starts[BLOCKS] = {0, 8, 16, 32, 64, 128};

/* How many blank slots are kept in reserve for cleaning: as many as the largest block has slots. A block of m slots with n records has
 * m - n of them at most, so that n or more are outside it: enough to copy all its records, whatever they are. */
enum { RESERVE = LARGEST_BLOCK };

/* How many blocks are looked at for one to clean, while the organist waits. With time to spare a console may look on where
 * BPCC_PICK_UNSEEN says that another block could free many more. */
enum { LOOKED_AT = 3 };

/* How few slots are blank where the chip of slots is swept. */
enum { SWEPT_AT = 16 };

/* Whether the chip erases slots: then the console sweeps, and never cleans. */
static int erases_slots;

/* The bytes of a piston: the width of the volume. */
static uint32_t width = BPCC_WIDTH_32;

/* The images of the flash in memory, and the state. The console owns them and lends them to each call. */
static uint32_t words[BPCC_SLOT_WORDS * SLOTS];
static uint8_t contents[BPCC_MAX_WIDTH * SLOTS];
static uint32_t state[BPCC_PAGE_WORDS * PAGES];

#define VOLUME PAGES, SLOTS, width
#define WORDS words, BPCC_TABLE_WORDS(SLOTS)
#define CONTENTS contents, BPCC_CONTENTS_BYTES(SLOTS, width)
#define STATE state, BPCC_STATE_WORDS(PAGES)
#define STARTS starts, BLOCKS

/* The file that stands for the chip: for each slot its five words, its bytes, and bytes 255 to a multiple of 32. All bytes of an
 * erased slot are 255. */
static int flash = -1;

#define SLOT_BYTES(width) (32 + (size_t)(width))
#define FLASH_BYTES(width) ((off_t)(SLOTS * SLOT_BYTES(width)))

/* The power fails at the step that finds 0 here; below 0 it holds. */
static long steps_left = -1;

static void fail(const char *what) {
    fprintf(stderr, "console: %s\n", what);
    exit(1);
}

/* The second number of a call that is done; any other ends the console. */
static uint32_t done(const char *call, uint64_t reply) {
    if (bpcc_answer(reply) != BPCC_DONE) {
        fprintf(stderr, "console: %s: answer %lu, %s\n", call, (unsigned long)bpcc_answer(reply), bpcc_answer_text(bpcc_answer(reply)));
        exit(1);
    }
    return bpcc_second(reply);
}

/* Whether the power fails at this point. */
static int power_fails(void) {
    return steps_left >= 0 && steps_left-- == 0;
}

/* A point at which the power may fail. */
static void step(void) {
    if (power_fails()) {
        raise(SIGKILL);
    }
}

/* Reads slot k of the flash, and writes it. */
static void get(uint32_t k, uint8_t *piece) {
    const size_t length = SLOT_BYTES(width);
    if (pread(flash, piece, length, (off_t)(k * length)) != (ssize_t)length) {
        fail("the flash file cannot be read");
    }
}

static void put(uint32_t k, const uint8_t *piece) {
    const size_t length = SLOT_BYTES(width);
    if (pwrite(flash, piece, length, (off_t)(k * length)) != (ssize_t)length) {
        fail("the flash file takes no slot");
    }
}

/* Programs slot k from the images: the five words and the bytes, in one piece. The chip programs erased slots alone. */
static void program(uint32_t k) {
    uint8_t piece[SLOT_BYTES(BPCC_MAX_WIDTH)];
    size_t i;
    get(k, piece);
    for (i = 0; i < SLOT_BYTES(width); i++) {
        if (piece[i] != 255) {
            fail("a slot is programmed that is not erased");
        }
    }
    memcpy(piece, words + BPCC_SLOT_WORDS * k, WORD_BYTES);
    memcpy(piece + WORD_BYTES, contents + width * k, width);
    step();
    put(k, piece);
    step();
}

/* Makes slot k of the flash erased. */
static void wipe(uint32_t k) {
    uint8_t erased[SLOT_BYTES(BPCC_MAX_WIDTH)];
    memset(erased, 255, sizeof erased);
    put(k, erased);
}

/* Erases a block. Where the power fails, some of its slots are erased and the others as they were. */
static void erase_block(uint32_t block) {
    const uint32_t end = block + 1 < BLOCKS ? starts[block + 1] : SLOTS;
    int cut = power_fails();
    uint32_t k;
    for (k = starts[block]; k < end; k++) {
        if (!cut || rand() % 2 == 0) {
            wipe(k);
        }
    }
    if (cut) {
        raise(SIGKILL);
    }
    step();
}

/* Erases a slot, wholly or not at all. */
static void erase_slot(uint32_t k) {
    step();
    wipe(k);
    step();
}

/* Loads slot k of the flash into the images. */
static void load(uint32_t k) {
    uint8_t piece[SLOT_BYTES(BPCC_MAX_WIDTH)];
    get(k, piece);
    memcpy(words + BPCC_SLOT_WORDS * k, piece, WORD_BYTES);
    memcpy(contents + width * k, piece + WORD_BYTES, width);
}

/* Whether slot k is blank in the images. */
static int is_blank(uint32_t k) {
    return words[BPCC_SLOT_WORDS * k] == BPCC_NONE;
}

/* Makes a formatted flash file under another name and moves it into place, so that it is there whole or not at all. */
static void make_flash(const char *path) {
    char fresh[4096];
    uint32_t k;
    if (snprintf(fresh, sizeof fresh, "%s.new", path) >= (int)sizeof fresh) {
        fail("the flash file's name is too long");
    }
    done("format", bpcc_format(VOLUME, WORDS, CONTENTS, STATE));
    flash = open(fresh, O_RDWR | O_CREAT | O_TRUNC, 0600);
    if (flash < 0) {
        fail("the flash file cannot be made");
    }
    for (k = 0; k < SLOTS; k++) {
        wipe(k);
        if (!is_blank(k)) {
            program(k);
        }
    }
    close(flash);
    if (rename(fresh, path) != 0) {
        fail("the flash file cannot be made");
    }
}

/* Whether the file is there; one that is must have the length of a flash file of this width. */
static int is_there(const char *path) {
    struct stat file;
    if (stat(path, &file) != 0) {
        return 0;
    }
    if (!S_ISREG(file.st_mode) || (file.st_size != FLASH_BYTES(BPCC_WIDTH_32) && file.st_size != FLASH_BYTES(BPCC_WIDTH_64))) {
        fail("the file is no flash file of this console");
    }
    if (file.st_size != FLASH_BYTES(width)) {
        fail(width == BPCC_WIDTH_32 ? "the file has pistons of 64 bytes: the argument 64 is missing"
                                    : "the file has pistons of 32 bytes: leave out the argument 64");
    }
    return 1;
}

/* Checks the table of blocks, where the chip has any, before anything is erased by it. */
static void check_blocks(void) {
    if (!erases_slots) {
        done("check_blocks", bpcc_check_blocks(VOLUME, STARTS));
    }
}

/* The first of the blocks that are looked at next: the one behind that which was cleaned last. */
static uint32_t next_block;

/* Opens the flash file and loads the flash into the images. */
static void load_flash(const char *path, int mode) {
    uint32_t k;
    flash = open(path, mode);
    for (k = 0; k < SLOTS; k++) {
        load(k);
    }
}

/* Power-up: check the table of blocks, load the flash, then recover. Nothing else is called before recovery has answered 0. Which block
 * is looked at first is left to chance, so that the first ones do not wear faster where the power fails often. */
static void power_up(const char *path) {
    check_blocks();
    next_block = (uint32_t)rand() % BLOCKS;
    if (!is_there(path)) {
        make_flash(path);
        close(flash);
    }
    load_flash(path, O_RDWR);
    memset(state, 0xFF, sizeof state);
    done("recover", bpcc_recover(VOLUME, WORDS, CONTENTS, STATE));
}

/* Cleans a block: first in the images, then on the chip. The copies are the slots that were blank and no longer are; all of them are
 * programmed, rising, before the block is erased. Gives 0 where there are too few blank slots for the copies. */
static int clean(uint32_t block) {
    int was_blank[SLOTS];
    uint64_t reply;
    uint32_t k;
    for (k = 0; k < SLOTS; k++) {
        was_blank[k] = is_blank(k);
    }
    reply = bpcc_clean(VOLUME, WORDS, CONTENTS, STATE, STARTS, block);
    if (bpcc_answer(reply) == BPCC_TOO_FEW_BLANK) {
        return 0;
    }
    done("clean", reply);
    for (k = 0; k < SLOTS; k++) {
        if (was_blank[k] && !is_blank(k)) {
            program(k);
        }
    }
    erase_block(block);
    return 1;
}

static uint32_t blank_slots(void) {
    uint32_t k, count = 0;
    for (k = 0; k < SLOTS; k++) {
        count += (uint32_t)is_blank(k);
    }
    return count;
}

/* How many blocks were cleaned, or sweeps finished, since power-up. */
static uint32_t tidied;

/* Which stage of a sweep erases slot k, told by what the chip still has in it and the state: 1, 2 or 3; 0 where it is not erased. */
static int stage_of(uint32_t k) {
    uint8_t piece[SLOT_BYTES(BPCC_MAX_WIDTH)];
    uint32_t record[BPCC_SLOT_WORDS], version, committed, used, in_flight;
    const uint32_t *page;
    get(k, piece);
    memcpy(record, piece, sizeof record);
    if (record[0] == BPCC_NONE || !is_blank(k)) {
        return 0;
    }
    page = state + BPCC_PAGE_WORDS * record[0];
    version = record[1];
    committed = page[0];
    used = page[1];
    in_flight = page[2] != BPCC_NONE;
    if (version > committed && !(in_flight && version == used)) {
        return 1;
    }
    return version < committed ? 2 : 3;
}

/* Erases the slots of a stage, in any order. */
static void erase_stage(int stage) {
    uint32_t slots[SLOTS], count = 0, i, k;
    for (k = 0; k < SLOTS; k++) {
        if (stage_of(k) == stage) {
            slots[count++] = k;
        }
    }
    for (; count > 0; count--) {
        i = (uint32_t)rand() % count;
        erase_slot(slots[i]);
        slots[i] = slots[count - 1];
    }
}

/* The chip holds a record for each piston, one more for each that is in flight and written, and nothing else. */
static void check_swept(void) {
    uint8_t piece[SLOT_BYTES(BPCC_MAX_WIDTH)];
    uint32_t expected = PAGES, records = 0, word, page, k;
    for (page = 0; page < PAGES; page++) {
        expected += state[BPCC_PAGE_WORDS * page + 3];
    }
    for (k = 0; k < SLOTS; k++) {
        get(k, piece);
        memcpy(&word, piece, sizeof word);
        records += word != BPCC_NONE;
    }
    if (records != expected) {
        fail("a sweep left another number of records");
    }
}

/* Sweeps: first in the images, then on the chip, stage by stage. The third is empty on a chip that is never cleaned: it has no twins. */
static void sweep(void) {
    int stage;
    done("sweep", bpcc_sweep(VOLUME, WORDS, CONTENTS, STATE));
    for (stage = 1; stage <= 3; stage++) {
        erase_stage(stage);
    }
    check_swept();
    tidied++;
}

/* Cleans blocks until more slots are blank than the reserve: of the next few the one that frees most, and on from the one behind it,
 * which spreads the wear. One that frees nothing is passed by: its cleaning gains no slot. Copies that a power failure left beside their
 * originals may have used some of the reserve, so that a block has to wait; the one that was being cleaned never has to. So behind a
 * block that is passed by or has to wait each is tried by itself. */
static void clean_blocks(void) {
    uint32_t picked[BPCC_PICK_WORDS], skipped = 0;
    while (blank_slots() <= RESERVE) {
        done("pick", bpcc_pick(VOLUME, WORDS, CONTENTS, STATE, STARTS, next_block, skipped == 0 ? LOOKED_AT : 1, picked, BPCC_PICK_WORDS));
        if (picked[BPCC_PICK_FREES] > 0 && clean(picked[BPCC_PICK_BLOCK])) {
            tidied++;
            skipped = 0;
        } else if (++skipped == BLOCKS) {
            fail("no block can be cleaned");
        }
        next_block = (picked[BPCC_PICK_BLOCK] + 1) % BLOCKS;
    }
}

/* Makes room. A sweep needs no blank slot and leaves at most two records of each piston: the chip of slots is swept when few slots are
 * blank, and now and then before, in the middle of a set. */
static void make_room(void) {
    if (!erases_slots) {
        clean_blocks();
    } else if (blank_slots() <= SWEPT_AT || rand() % 16 == 0) {
        sweep();
    }
}

/* A blank slot, the next from `start` on, once there is room. */
static uint32_t blank_slot(uint32_t start) {
    uint32_t slot = start;
    make_room();
    while (!is_blank(slot)) {
        slot = (slot + 1) % SLOTS;
    }
    return slot;
}

/* What a piston holds once it is stored as part of set number n. */
static void piston(uint8_t *bytes, uint32_t page, uint32_t n) {
    uint32_t i;
    for (i = 0; i < width; i++) {
        bytes[i] = (uint8_t)(n >> (8 * (i % 4))) ^ (uint8_t)(n == 0 ? 0 : page * i);
    }
}

/* Stores a set of pistons as one transaction, and gives 1; where only some pieces of it are to be written, withdraws it after
 * these, and gives 0. */
static int store(const uint32_t *set, uint32_t count, uint32_t n, uint32_t pieces) {
    uint32_t i;
    done("launch", bpcc_launch(VOLUME, STATE, set, count));
    for (i = 0; i < count && i < pieces; i++) {
        uint8_t bytes[BPCC_MAX_WIDTH];
        uint32_t slot = blank_slot((uint32_t)rand() % SLOTS);
        piston(bytes, set[i], n);
        done("write", bpcc_write(VOLUME, WORDS, CONTENTS, STATE, set[i], slot, bytes, width));
        program(slot);
    }
    if (i == count) {
        return 1;
    }
    done("withdraw", bpcc_withdraw(VOLUME, STATE, set[0]));
    return 0;
}

/* What the console tells its observer: it is about to store a set (its pistons as bits), or the set is stored; and how many blocks
 * it has cleaned, or sweeps finished. */
struct note {
    uint32_t stored, n, set, tidied;
};

/* Stores random sets until the power fails, now and then with a sweep between them. */
static void play(const char *path, int notes, uint32_t n) {
    power_up(path);
    for (;; n++) {
        struct note note = {0, n, 0, tidied};
        uint32_t set[PAGES], i, count = 1 + (uint32_t)rand() % PAGES, first = (uint32_t)rand() % PAGES;
        uint32_t stride = 1 + 2 * ((uint32_t)rand() % 4), pieces = rand() % 3 == 0 ? (uint32_t)rand() % count : count;
        for (i = 0; i < count; i++) {
            set[i] = (first + stride * i) % PAGES;
            note.set |= UINT32_C(1) << set[i];
        }
        if (write(notes, &note, sizeof note) != (ssize_t)sizeof note) {
            exit(1);
        }
        if (erases_slots && rand() % 8 == 0) {
            sweep();
        }
        note.stored = (uint32_t)store(set, count, n, pieces);
        note.tidied = tidied;
        step();
        if (note.stored && write(notes, &note, sizeof note) != (ssize_t)sizeof note) {
            exit(1);
        }
    }
}

/* Whether piston `page`, read after power-up, holds what set n stored. */
static int holds(uint32_t page, uint32_t n) {
    uint8_t out[BPCC_MAX_WIDTH], bytes[BPCC_MAX_WIDTH];
    done("read", bpcc_read(VOLUME, WORDS, CONTENTS, STATE, page, out, width));
    piston(bytes, page, n);
    return memcmp(out, bytes, width) == 0;
}

/* Every piston holds the set that stored it last; a set that was being stored is there whole or not at all. */
static int whole(uint32_t *kept, const struct note *last) {
    uint32_t page, old = 1, new_set = 1;
    for (page = 0; page < PAGES; page++) {
        old &= (uint32_t)holds(page, kept[page]);
        new_set &= (uint32_t)holds(page, (last->set >> page & 1) ? last->n : kept[page]);
    }
    for (page = 0; new_set && page < PAGES; page++) {
        kept[page] = (last->set >> page & 1) ? last->n : kept[page];
    }
    return (int)(old | new_set);
}

/* Reads the console's notes to their end: the last one, and what each piston holds by the sets that were stored. */
static struct note follow(int notes, uint32_t *kept, unsigned *sets) {
    struct note note, last = {0, 0, 0, 0};
    while (read(notes, &note, sizeof note) == (ssize_t)sizeof note) {
        uint32_t page;
        last = note;
        *sets += note.stored;
        for (page = 0; note.stored && page < PAGES; page++) {
            kept[page] = (note.set >> page & 1) ? note.n : kept[page];
        }
    }
    return last;
}

/* Kills the console so many times at a random step, powers up after each, and compares. */
static int trial(const char *path, unsigned kills, unsigned seed) {
    uint32_t kept[PAGES] = {0}, n = 1;
    unsigned i, sets = 0, tidy = 0;
    check_blocks();
    is_there(path);
    make_flash(path);
    close(flash);
    for (i = 1; i <= kills; i++) {
        struct note last;
        int ends[2], status;
        pid_t child;
        if (pipe(ends) != 0 || (child = fork()) < 0) {
            fail("no process");
        }
        if (child == 0) {
            close(ends[0]);
            srand(seed + i);
            steps_left = rand() % 120;
            play(path, ends[1], n);
        }
        close(ends[1]);
        last = follow(ends[0], kept, &sets);
        tidy += last.tidied;
        close(ends[0]);
        n = last.n == 0 ? n : last.n + 1;
        waitpid(child, &status, 0);
        if (!WIFSIGNALED(status)) {
            printf("the console stopped by itself before kill %u\n", i);
            return 1;
        }
        power_up(path);
        if (!whole(kept, &last)) {
            printf("after kill %u a set came back in pieces\n", i);
            return 1;
        }
        close(flash);
    }
    printf("%u kills, %u sets stored, %u %s, every set whole\n", kills, sets, tidy, erases_slots ? "sweeps finished" : "blocks cleaned");
    return 0;
}

/* Lists the pistons as they are after power-up. */
static int list(const char *path) {
    uint32_t page;
    power_up(path);
    for (page = 0; page < PAGES; page++) {
        uint8_t out[BPCC_MAX_WIDTH];
        done("read", bpcc_read(VOLUME, WORDS, CONTENTS, STATE, page, out, width));
        printf("piston %lu: version %lu, %lu stops drawn\n", (unsigned long)page, (unsigned long)state[BPCC_PAGE_WORDS * page],
               (unsigned long)done("count", bpcc_count(out, width)));
    }
    return 0;
}

/* Writes a word to standard output, lowest byte first whatever the host's order is. */
static void write_word(uint32_t word) {
    int shift;
    for (shift = 0; shift < 32; shift += 8) {
        putchar((int)(word >> shift & 255));
    }
}

/* Writes the volume to standard output, as the flash has it: of an erased slot all words are BPCC_NONE and all bytes 255. Whether it
 * recovers is told by the page that is printed of it. */
static int write_volume(const char *path) {
    const uint32_t sizes[] = {VOLUME};
    size_t i;
    if (!is_there(path)) {
        fail("the flash file is not there");
    }
    load_flash(path, O_RDONLY);
    for (i = 0; i < sizeof sizes / sizeof sizes[0]; i++) {
        write_word(sizes[i]);
    }
    for (i = 0; i < BPCC_TABLE_WORDS(SLOTS); i++) {
        write_word(words[i]);
    }
    fwrite(contents, 1, BPCC_CONTENTS_BYTES(SLOTS, width), stdout);
    if (fflush(stdout) != 0 || ferror(stdout)) {
        fail("the volume cannot be written");
    }
    return 0;
}

/* Standard output and error are open, so that the flash file becomes neither. */
static void check_streams(void) {
    if (fcntl(STDERR_FILENO, F_GETFD) == -1) {
        exit(1);
    }
    if (fcntl(STDOUT_FILENO, F_GETFD) == -1) {
        fail("there is no standard output");
    }
}

/* A decimal number from 1 to 1,000,000,000; 0 where the word is none. */
static unsigned number(const char *word) {
    unsigned n = 0;
    for (; *word >= '0' && *word <= '9' && n <= 100000000; word++) {
        n = 10 * n + (unsigned)(*word - '0');
    }
    return *word == '\0' && n <= 1000000000 ? n : 0;
}

int main(int argc, char **argv) {
    const int named = argc > 1 && argv[1][0] != '-' && argv[1][0] != '\0';
    const int volume = argc > 2 && strcmp(argv[2], "volume") == 0;
    check_streams();
    if (argc > 2 && !volume && strcmp(argv[argc - 1], "slots") == 0) {
        erases_slots = 1;
        argc--;
    }
    /* A last word 64 is the width behind FILE, FILE KILLS SEED and FILE volume, and the seed behind FILE KILLS. */
    if (argc > 1 && argc % 2 == !volume && strcmp(argv[argc - 1], "64") == 0) {
        width = BPCC_WIDTH_64;
        argc--;
    }
    if (named && argc == 2) {
        return list(argv[1]);
    }
    if (named && argc == 3 && volume) {
        return write_volume(argv[1]);
    }
    if (named && argc == 4 && number(argv[2]) != 0 && number(argv[3]) != 0) {
        return trial(argv[1], number(argv[2]), number(argv[3]));
    }
    fprintf(stderr, "usage: console FILE [KILLS SEED] [64] [slots]   (KILLS and SEED from 1 up)\n"
                    "       console FILE volume [64]\n");
    return 2;
}
