/*
 * A console as the bench sees one: it stores sets of pistons and reads pistons, over the chip. There are two: over the library, and over
 * a plain file kept in two halves.
 */
#ifndef CONSOLE_H
#define CONSOLE_H

#include "driver.h"

/* What power-up comes to: ready; ready on a chip that was not formatted and now is; refused, a chip of other sizes or damaged, which is
 * left as it is. */
enum powered_up { READY, FORMATTED, REFUSED };

struct console {
    const char *name;

    /* All that it has in memory, which is lost when power fails. */
    void *memory;
    size_t memory_bytes;

    int (*power_up)(uint32_t width);

    /* Makes every piston silent and forgets what was stored. */
    void (*format)(void);

    /* Stores a set: of each listed page `width` bytes, one page's behind the other's. Where only some pieces of it are to be written it
     * is given up after these, and nothing of it is stored. */
    void (*store)(const uint32_t *set, uint32_t count, const uint8_t *bytes, uint32_t pieces);

    /* One piece of work ahead of need, for the time between two sets. */
    void (*idle)(void);

    /* A piston's bytes. */
    void (*read)(uint32_t page, uint8_t *bytes);
};

/* The largest set that is stored. */
enum { LARGEST_SET = PAGES < 8 ? PAGES : 8 };

extern const struct console ring_console, halves_console;

#endif
