/*
 * The bench: two consoles over a simulated NOR chip, whose power fails at random bytes of what is programmed and erased; then what each
 * costs.
 *
 *   trial [CUTS [SEED]]      so many power cuts for each console at each width (3000), by the seed (1)
 *
 * After a cut all memory is lost. At the next power-up, which may be cut short, too, every set must be whole: all old or all new. Then
 * each console stores the same sets on a new chip, without a cut, for the figures. Exit status 0 exactly where every set came back whole.
 */
#include "console.h"

#include <stdio.h>
#include <stdlib.h>
#include <string.h>

/* How many sets are stored without a cut, and of how many pistons; the others are never stored, which is hardest on the wear. */
enum { SETS = 10000, IN_USE = PAGES < 16 ? PAGES : 16 };

/* What the bench knows: of each piston the set that stored it last, by number, and the set that is being stored. It outlives the cuts. */
static struct {
    const struct console *console;
    uint32_t width, in_use, sets;
    uint32_t kept[PAGES];   /* 0: silent, as formatted */
    uint8_t in_set[PAGES];  /* the pistons of the set that is being stored */
    uint32_t n;             /* its number, or 0 where the chip is being formatted */
    int is_up;
} bench;

/* What is printed of a console. */
struct figures {
    uint32_t cuts, cuts_erasing, cuts_at_power_up, formats, pistons, given_up;
    uint64_t longest_start, pauses, longest_pause;
};
static struct figures figures;

void driver_gives_up(const char *why) {
    printf("%s: %s, after %lu power cuts\n", bench.console->name, why, (unsigned long)figures.cuts);
    exit(1);
}

/* What a piston holds once set n has stored it: silent where n is 0. */
static void piston(uint8_t *bytes, uint32_t page, uint32_t n) {
    uint32_t i;
    for (i = 0; i < bench.width; i++) {
        bytes[i] = n == 0 ? 0 : (uint8_t)((n >> (8 * (i % 4))) ^ (page * i));
    }
}

static int holds(uint32_t page, uint32_t n) {
    uint8_t found[BPCC_MAX_WIDTH], expected[BPCC_MAX_WIDTH];
    bench.console->read(page, found);
    piston(expected, page, n);
    return memcmp(found, expected, bench.width) == 0;
}

/* No set is being stored any more; the one that was is stored, or is not. */
static void settle(int is_stored) {
    uint32_t page;
    for (page = 0; page < PAGES; page++) {
        bench.kept[page] = is_stored && bench.in_set[page] ? bench.n : bench.kept[page];
        bench.in_set[page] = 0;
    }
}

/* Every piston holds what was stored last; the set that was being stored is there whole or not at all. */
static void check_whole(void) {
    int is_old = 1, is_new = 1;
    uint32_t page;
    for (page = 0; page < PAGES; page++) {
        is_old &= holds(page, bench.kept[page]);
        is_new &= holds(page, bench.in_set[page] ? bench.n : bench.kept[page]);
    }
    if (!is_old && !is_new) {
        driver_gives_up("a set came back in pieces");
    }
    settle(is_new);
}

static uint64_t longer(uint64_t a, uint64_t b) {
    return a > b ? a : b;
}

/* Stores a set of pistons by chance; one in five is given up before its last piece. */
static void store_set(void) {
    uint8_t bytes[LARGEST_SET * BPCC_MAX_WIDTH];
    uint32_t set[LARGEST_SET], i;
    const uint32_t count = 1 + chip_chance(LARGEST_SET), pieces = chip_chance(5) == 0 ? chip_chance(count) : count;
    const uint32_t first = chip_chance(bench.in_use);
    const uint64_t begun = chip_use.nanoseconds;
    bench.n = ++bench.sets;
    for (i = 0; i < count; i++) {
        set[i] = (first + i) % bench.in_use;
        bench.in_set[set[i]] = pieces == count;
        piston(bytes + i * bench.width, set[i], bench.n);
    }
    bench.console->store(set, count, bytes, pieces);
    settle(1);
    bench.console->idle();
    figures.pistons += pieces == count ? count : 0;
    figures.given_up += pieces < count;
    figures.pauses += chip_use.nanoseconds - begun;
    figures.longest_pause = longer(figures.longest_pause, chip_use.nanoseconds - begun);
}

/* Formats the chip: to the bench, a set of all pistons that stores silence. */
static void format(void) {
    bench.n = 0;
    memset(bench.in_set, 1, sizeof bench.in_set);
    figures.formats++;
    bench.console->format();
    settle(1);
}

/* Memory holds anything when power comes back. */
static int start(uint32_t width) {
    memset(bench.console->memory, (int)chip_chance(256), bench.console->memory_bytes);
    bench.is_up = 0;
    return bench.console->power_up(width);
}

static void power_up(void) {
    const uint64_t begun = chip_use.nanoseconds;
    const int came_to = start(bench.width);
    if (came_to == REFUSED) {
        driver_gives_up("the chip is refused");
    }
    if (came_to == READY) {
        figures.longest_start = longer(figures.longest_start, chip_use.nanoseconds - begun);
    }
    bench.is_up = 1;
    check_whole();
}

/* A chip of the other width is refused, and nothing on it altered. */
static void check_other_width(void) {
    struct chip_use before = chip_use;
    if (start(BPCC_WIDTH_32 + BPCC_WIDTH_64 - bench.width) != REFUSED) {
        driver_gives_up("a chip of the other width is not refused");
    }
    before.nanoseconds = chip_use.nanoseconds;
    if (memcmp(&before, &chip_use, sizeof before) != 0) {
        driver_gives_up("a chip of the other width is altered");
    }
}

/* Power fails at a byte by chance: far more are erased than programmed, and some errors show at an erasure's end alone. */
static void cut_somewhere(void) {
    const uint32_t times = chip_chance(4) == 0 ? 5 : 1;
    switch (chip_chance(3)) {
    case 0: chip_cut(CHIP_CUT_ANYWHERE, chip_chance(20000 * times)); break;
    case 1: chip_cut(CHIP_CUT_IN_A_PROGRAM, chip_chance(2000 * times)); break;
    default: chip_cut(CHIP_CUT_NEAR_AN_END, chip_chance(4 * times)); break;
    }
}

/* Powers up and stores sets until power fails; now and then the chip is formatted again. */
static void play_until_cut(void) {
    if (setjmp(chip_dies) != 0) {
        figures.cuts++;
        figures.cuts_erasing += (uint32_t)chip_use.is_erasing;
        figures.cuts_at_power_up += !bench.is_up;
        return;
    }
    bench.in_use = chip_chance(2) == 0 ? PAGES : IN_USE;
    cut_somewhere();
    power_up();
    if (chip_chance(20) == 0) {
        chip_cut(CHIP_CUT_IN_A_PROGRAM, chip_chance(6000));
        format();
    }
    for (;;) {
        store_set();
    }
}

static void new_chip(const struct console *console, uint32_t width, uint32_t seed) {
    memset(&bench, 0, sizeof bench);
    memset(&figures, 0, sizeof figures);
    bench.console = console;
    bench.width = width;
    bench.in_use = IN_USE;
    chip_new(seed);
}

/* Rows of a table with a column for each console. */
static void row(const char *name, unsigned long rings, unsigned long halves) {
    printf("  %-40s%14lu%14lu\n", name, rings, halves);
}

static void row_of_parts(const char *name, double rings, double halves) {
    printf("  %-40s%14.2f%14.2f\n", name, rings, halves);
}

/* Cuts a console off so many times, and powers it up once more. */
static struct figures cut_off(const struct console *console, uint32_t width, uint32_t cuts, uint32_t seed) {
    new_chip(console, width, seed);
    while (figures.cuts < cuts) {
        play_until_cut();
    }
    chip_cut(CHIP_HOLDS, 0);
    power_up();
    check_other_width();
    power_up();
    return figures;
}

static void try_cuts(uint32_t width, uint32_t cuts, uint32_t seed) {
    const struct figures rings = cut_off(&ring_console, width, cuts, seed), halves = cut_off(&halves_console, width, cuts, seed);
    row("power cuts", rings.cuts, halves.cuts);
    row("  in an erasure", rings.cuts_erasing, halves.cuts_erasing);
    row("  at power-up", rings.cuts_at_power_up, halves.cuts_at_power_up);
    row("pistons stored", rings.pistons, halves.pistons);
    row("sets given up", rings.given_up, halves.given_up);
    row("formatted again, or begun to be", rings.formats, halves.formats);
    row_of_parts("longest start, ms", (double)rings.longest_start / 1e6, (double)halves.longest_start / 1e6);
}

/* What a console costs: how the chip was used. */
static struct figures store_sets(const struct console *console, uint32_t width, uint32_t seed, struct chip_use *use) {
    uint32_t i;
    new_chip(console, width, seed);
    power_up();
    memset(&chip_use, 0, sizeof chip_use);
    for (i = 0; i < SETS; i++) {
        store_set();
    }
    *use = chip_use;
    return figures;
}

static double per_byte(const struct chip_use *use, const struct figures *f, uint32_t width) {
    return (double)use->programmed / ((double)f->pistons * width);
}

static unsigned long erasures(const struct chip_use *use) {
    unsigned long sum = 0;
    int i;
    for (i = 0; i < CHIP_BLOCKS; i++) {
        sum += use->erased[i];
    }
    return sum;
}

/* The least or the most often erased block. */
static unsigned long wear(const struct chip_use *use, int most) {
    unsigned long found = use->erased[0];
    int i;
    for (i = 1; i < CHIP_BLOCKS; i++) {
        if (most ? use->erased[i] > found : use->erased[i] < found) {
            found = use->erased[i];
        }
    }
    return found;
}

static void measure(uint32_t width, uint32_t seed) {
    struct chip_use ring_use, halves_use;
    struct figures rings, halves;
    rings = store_sets(&ring_console, width, seed, &ring_use);
    if (wear(&ring_use, 1) - wear(&ring_use, 0) > WEAR_APART + 1) {
        driver_gives_up("the wear is not level");
    }
    halves = store_sets(&halves_console, width, seed, &halves_use);
    printf("  without a cut, %d sets of 1 to %d of %d pistons:\n", SETS, LARGEST_SET, IN_USE);
    row_of_parts("bytes programmed for each byte stored", per_byte(&ring_use, &rings, width), per_byte(&halves_use, &halves, width));
    row("erasures", erasures(&ring_use), erasures(&halves_use));
    row("  the least erased block", wear(&ring_use, 0), wear(&halves_use, 0));
    row("  the most erased block", wear(&ring_use, 1), wear(&halves_use, 1));
    row_of_parts("pause for a set, ms", (double)rings.pauses / SETS / 1e6, (double)halves.pauses / SETS / 1e6);
    row_of_parts("  the longest", (double)rings.longest_pause / 1e6, (double)halves.longest_pause / 1e6);
    row("bytes of memory", ring_console.memory_bytes, halves_console.memory_bytes);
}

/* Neither what is erased nor zeros pass for sealed. */
static void check_seals(void) {
    static const size_t lengths[] = {COUNT_BYTES, CLAIM_BYTES, WORD_BYTES + BPCC_WIDTH_32, WORD_BYTES + BPCC_WIDTH_64};
    uint8_t bytes[SLOT_BYTES(BPCC_MAX_WIDTH)];
    int i;
    for (i = 0; i < 8; i++) {
        memset(bytes, i < 4 ? CHIP_ERASED : 0, sizeof bytes);
        if (driver_is_sealed(bytes, lengths[i % 4])) {
            driver_gives_up("erased bytes or zeros pass for sealed");
        }
    }
}

/* A decimal number from 1 to 1,000,000,000; 0 where the word is none. */
static uint32_t number(const char *word) {
    uint32_t n = 0;
    for (; *word >= '0' && *word <= '9' && n <= 100000000; word++) {
        n = 10 * n + (uint32_t)(*word - '0');
    }
    return *word == '\0' && n <= 1000000000 ? n : 0;
}

int main(int argc, char **argv) {
    static const uint32_t widths[] = {BPCC_WIDTH_32, BPCC_WIDTH_64};
    const uint32_t cuts = argc > 1 ? number(argv[1]) : 3000, seed = argc > 2 ? number(argv[2]) : 1;
    int i;
    if (argc > 3 || cuts == 0 || seed == 0) {
        fprintf(stderr, "usage: trial [CUTS [SEED]]   (each from 1 up)\n");
        return 2;
    }
    new_chip(&ring_console, widths[0], seed);
    check_seals();
    for (i = 0; i < 2; i++) {
        printf("pistons of %lu bytes%36s%14s\n", (unsigned long)widths[i], ring_console.name, halves_console.name);
        try_cuts(widths[i], cuts, seed);
        measure(widths[i], seed);
    }
    printf("every set whole\n");
    return 0;
}
