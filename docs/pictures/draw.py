"""Draws the pictures of the documents, as SVG files beside this script.

    python3 docs/pictures/draw.py

store.svg    storing a set of two pages, and what comes back after a power cut at each point
ring.svg     a complete ring, an unfinished one, and a record that straddles a link
slot.svg     the life of a slot, and when it may be erased
layers.svg   from the firmware to the chip: what is proved, what is tested, what is believed
times.svg    how long the calls take: the table in times.txt, from tests/c/times.c
recover.svg  how long recovery takes with more slots and more pages: the table in recover.txt, from tests/c/recover_times.c

Either all six are written or, where a table is unreadable or malformed, none. The same tables give the same bytes.
"""

import functools
import itertools
import math
import sys
import textwrap
from html import escape
from pathlib import Path

HERE = Path(__file__).resolve().parent
WIDTH = 880
FONTS = "Helvetica, Arial, 'Liberation Sans', 'DejaVu Sans', sans-serif"
PAPER, PALE, RULE, GREY, INK = "#ffffff", "#f1f3f5", "#b8c0c8", "#5f6b76", "#1f2933"
BLUE, SKY, ORANGE, SAND = "#0b5fa5", "#e3effa", "#b8500a", "#fdeee0"


# Shapes: each gives the text of one or more SVG elements.

def attributes(**given):
    """XML attributes: an underscore stands for a hyphen, a number has at most one decimal, None is left out."""
    shown = {name: f"{round(value, 1):g}" if isinstance(value, (int, float)) else value for name, value in given.items()}
    return " ".join(f'{name.replace("_", "-")}="{value}"' for name, value in shown.items() if value is not None)


def text(x, y, rows, fill=INK, size=12, anchor=None, bold=False):
    """Rows of text, the base line of the first at y; a single row may be given as a string."""
    style = attributes(x=x, font_size=size, fill=fill, text_anchor=anchor, font_weight="bold" if bold else None)
    rows = [rows] if isinstance(rows, str) else rows
    return "\n".join(f'<text {attributes(y=y + i * (size + 4))} {style}>{escape(row)}</text>' for i, row in enumerate(rows))


middle = functools.partial(text, anchor="middle")


def box(x, y, w, h, fill=PAPER, stroke=INK, dash=None, radius=4):
    return f"<rect {attributes(x=x, y=y, width=w, height=h, rx=radius, fill=fill, stroke=stroke, stroke_dasharray=dash)}/>"


def line(points, stroke=INK, dash=None, width=1.5, fill="none"):
    joined = " ".join(f"{round(x, 1):g},{round(y, 1):g}" for x, y in points)
    return f'<polyline points="{joined}" {attributes(fill=fill, stroke=stroke, stroke_width=width, stroke_dasharray=dash)}/>'


def dot(x, y, fill, stroke, radius=4):
    return f"<circle {attributes(cx=x, cy=y, r=radius, fill=fill, stroke=stroke, stroke_width=1.5)}/>"


def arrow(points, stroke=INK, dash=None):
    """A line through the points, level or upright at its end, with a head at the last of them."""
    (x0, y0), (x1, y1) = points[-2:]
    dx, dy = ((x1 > x0) - (x1 < x0)) * 8, ((y1 > y0) - (y1 < y0)) * 8
    head = [(x1, y1), (x1 - dx + dy / 2, y1 - dy - dx / 2), (x1 - dx - dy / 2, y1 - dy + dx / 2)]
    return line([*points[:-1], (x1 - dx, y1 - dy)], stroke, dash) + "\n" + line(head, "none", fill=stroke)


def tag(x, y, word, fill, ink, stroke, width=70):
    """A word in a small coloured field whose upper left corner is (x, y)."""
    return box(x, y, width, 18, fill, stroke, radius=9) + "\n" + middle(x + width / 2, y + 13, word, ink, bold=True)


def picture(height, title, description, parts):
    """A whole file: title and description, a light ground, the heading, the parts."""
    return "\n".join([
        f'<svg xmlns="http://www.w3.org/2000/svg" width="{WIDTH}" height="{height}" viewBox="0 0 {WIDTH} {height}" '
        f'role="img" aria-labelledby="title desc" font-family="{FONTS}">',
        f'<title id="title">{escape(title)}</title>', f'<desc id="desc">{escape(description)}</desc>',
        box(0, 0, WIDTH, height, PAPER, "none", radius=None), text(20, 32, title, size=17, bold=True), *parts, "</svg>", ""])


# Storing a set. Time runs from LEFT to END, a step of the set in each column; slots 10 and 11 are stored at TENTH and ELEVENTH.
LEFT, STEP, END = 118, 124, 866
TENTH, ELEVENTH = LEFT + 2.5 * STEP, LEFT + 4.5 * STEP


def steps():
    """The calls, and the programming that follows a write."""
    parts = [text(20, 82, ["calls", "(library)"], GREY), text(20, 142, ["programming", "(driver)"], GREY),
             middle(LEFT + 5.5 * STEP, 141, ["the set", "is stored"], BLUE, 13, bold=True),
             arrow([(LEFT, 184), (END, 184)], GREY), text(END, 177, "time", GREY, anchor="end")]
    calls, programs = (62, SKY, BLUE), (122, PALE, GREY)
    for column, ((y, *colours), *rows) in enumerate([(calls, "launch", "pages 2, 5"), (calls, "write page 2,", "slot 10: done 0"),
                                                     (programs, "program", "slot 10"), (calls, "write page 5,", "slot 11: done 1"),
                                                     (programs, "program", "slot 11")]):
        parts += [box(LEFT + STEP * column + 7, y, STEP - 14, 44, *colours), middle(LEFT + STEP * (column + 0.5), y + 19, rows)]
    return parts


def cuts():
    """Power cuts in and between the steps, what each brings back, and what recovery finds."""
    parts = [text(20, 208, ["a power cut", "brings back"], GREY), text(20, 262, "recovery finds", GREY),
             box(LEFT, 216, ELEVENTH - LEFT, 22, PALE, RULE, radius=0), box(ELEVENTH, 216, END - ELEVENTH, 22, BLUE, BLUE, radius=0)]
    bolt = [(2, -20), (-5, -9), (0, -9), (-2, 0), (5, -12), (0, -12)]
    for place in [0.12, 0.5, 1, 1.5, 2, 2.25, 2.75, 3, 3.5, 4, 4.25, 4.75, 5, 5.5]:
        x = LEFT + STEP * place
        word, ink = ("new", PAPER) if x > ELEVENTH else ("old", INK)
        parts += [line([(x + dx, 210 + dy) for dx, dy in bolt], "none", fill=ORANGE), middle(x, 231, word, ink)]
    finds = [(LEFT, TENTH, INK, ["no new record:", "pages 2 and 5 at version 0"]),
             (TENTH, ELEVENTH, INK, ["a link to page 5, version 1, which is", "not there: both stay at version 0"]),
             (ELEVENTH, END, BLUE, ["the ring complete:", "both at version 1"])]
    return parts + [middle((a + b) / 2, 262, rows, ink, bold=ink == BLUE) for a, b, ink, rows in finds]


def chip():
    """What four slots hold at each time: version 0 all along, version 1 once it is stored."""
    parts = [text(20, 308, "on the chip", GREY)]
    for y, page in [(318, 2), (362, 5)]:
        parts += [text(20, y + 22, f"slot {page}"), box(LEFT, y, END - LEFT, 36, PALE, RULE),
                  middle((LEFT + END) / 2, y + 22, f"page {page}, version 0")]
    for y, number, stored, page, following in [(406, 10, TENTH, 2, 5), (450, 11, ELEVENTH, 5, 2)]:
        parts += [text(20, y + 22, f"slot {number}"), box(LEFT, y, stored - LEFT, 36, PAPER, RULE, "4 3"),
                  middle((LEFT + stored) / 2, y + 22, "blank", GREY), box(stored, y, END - stored, 36, SKY, BLUE),
                  middle((stored + END) / 2, y + 14.5, [f"page {page}, version 1", f"→ page {following}, version 1"])]
    return parts


def store():
    moments = [line([(x, 166), (x, 492)], GREY, "2 3") for x in (TENTH, ELEVENTH)]
    note = ["A cut while a slot is programmed leaves that slot as it was or stored whole: with slot 10 the set is old either way, with slot 11",
            "old or new. The driver programs after the call has answered; until a slot is programmed only the images in RAM have it, and a",
            "cut loses them. So the set is stored when slot 11 is programmed, not when the call answers."]
    return picture(564, "Storing pages 2 and 5 together: all old or all new, wherever power fails",
                   "A timeline: launch, write page 2, program slot 10, write page 5, program slot 11. A power cut at any point before slot 11 is "
                   "stored brings back both old pages; at any point after it, both new ones. Below, what slots 2, 5, 10 and 11 hold at each time.",
                   [*moments, *steps(), *cuts(), *chip(), text(20, 516, note, GREY)])


# Rings.
CELL, ROW = 32, 26
PLAIN, FIRM, LOOSE = (PALE, RULE), (SKY, BLUE), (SAND, ORANGE)


def table(x, y, rows):
    """Slots from 0 up: of each its five words, a digit each, none where it is blank, and the colours of its cells."""
    places = [x + 60 + CELL * (i + 0.5) for i in range(5)]
    parts = [middle(at, y - 6, name, GREY) for at, name in zip(places, ["p", "v", "c", "np", "nv"])]
    for number, (words, (fill, stroke)) in enumerate(rows):
        top = y + ROW * number
        parts += [text(x, top + 17, f"slot {number}", INK if words else GREY)]
        parts += [box(at - CELL / 2, top, CELL, ROW - 4, fill, stroke, None if words else "4 3", radius=0) for at in places]
        parts += [middle(at, top + 16, word) for at, word in zip(places, words)]
    return parts


def link(x, y, start, target, out, stroke):
    """An arrow at the right of a table at (x, y): from one slot to the one that its link names; to none, it leads out."""
    edge, level = x + 60 + 5 * CELL, y + ROW * start + ROW / 2 - 2
    if target is None:
        return arrow([(edge, level), (edge + out, level)], stroke, "4 3")
    end = y + ROW * target + ROW / 2 - 7
    return arrow([(edge, level + 5), (edge + out, level + 5), (edge + out, end), (edge, end)], stroke)


def panel(x, y, w, h, title, colour, rows, links, *more):
    """A framed table with its title and links, and more."""
    at = (x + 14, y + 58)
    return [box(x, y, w, h, PAPER, RULE, radius=6), text(x + 14, y + 24, title, colour, 14, bold=True), *table(*at, rows),
            *[link(*at, *one) for one in links], *more]


def small(x, y, title, colour, rows, links, above, beside, finds):
    """A panel with what is said of the formatted records, of the ring, and of what recovery finds."""
    return panel(x, y, 414, 208, title, colour, [("00000", PLAIN), ("10010", PLAIN), *rows], [(0, 0, 14, GREY), (1, 1, 14, GREY), *links],
                 text(x + 274, y + 72, above, GREY), text(x + 274, y + 126, beside, colour), text(x + 14, y + 188, finds))


def axis(x, y):
    """The versions of page 1: the one that slot 3 links to, and those between c and v of slots 4 and 6."""
    at = [x + 64 * version for version in range(4)]
    parts = [line([(at[0], y), (at[3], y)], GREY), middle((at[0] + at[3]) / 2, y + 40, "versions of page 1", GREY)]
    for version, place in enumerate(at):
        parts += [line([(place, y - 4), (place, y + 4)], GREY), middle(place, y + 20, str(version))]
    for c, v, level, colour, rows in [(0, 2, y - 76, BLUE, ["slot 4 straddles the", "link: c = 0 < 1 < v = 2"]),
                                      (2, 3, y - 32, GREY, ["slot 6, with c = 2,", "does not"])]:
        parts += [line([(at[c], level), (at[v], level)], colour, width=3), dot(at[c], level, PAPER, colour),
                  dot(at[v], level, colour, colour), text(at[v] + 12, level - 4, rows, colour)]
    return [*parts, arrow([(at[1], y - 112), (at[1], y - 6)], ORANGE, "4 3"),
            middle(at[1], y - 120, "slot 3's link: version 1, never written", ORANGE)]


def straddled(x, y):
    says = [("committed", INK), ("obsolete, may be erased", GREY), ("obsolete, may be erased", GREY), ("exposed, abandoned", ORANGE),
            ("obsolete, but needed", BLUE), ("committed", INK), ("committed", INK)]
    note = ["Slot 3, page 0's newest record, links to page 1, version 1; page 1's newest is 3. Slot 4's set was launched while page 1 was at",
            "version 0: version 1 was never committed, and page 0 stays at version 0. Slot 4 is obsolete, yet erase refuses it (12) while slot 3",
            "is there: without it nothing straddles the link, recovery takes version 1 for one replaced and erased, and half a set comes back."]
    return panel(x, y, 848, 324, "Straddled link: not committed, and slot 4 must stay to show it", ORANGE,
                 [("00000", PLAIN), ("10010", PLAIN), ("20020", PLAIN), ("01011", LOOSE), ("12021", FIRM), ("21012", FIRM), ("13213", FIRM)],
                 [*[(slot, slot, 14, GREY) for slot in range(3)], (3, None, 30, ORANGE), (4, 5, 14, BLUE), (5, 4, 30, BLUE), (6, 6, 14, BLUE)],
                 *[text(x + 274, y + 74 + ROW * slot, word, colour) for slot, (word, colour) in enumerate(says)],
                 *axis(x + 486, y + 190), text(x + 14, y + 270, note))


def ring():
    words = "A record: its page p, its version v, the page's committed version at launch c, the next page of its set np and that page's version nv."
    return picture(632, "The records of one set point at each other in a ring",
                   "Two records that point at each other: committed. One record whose link leads to a version that is not there: not committed. "
                   "A link to a version that was never written, and a record that straddles it, back pointer below and version above: not committed.",
                   [text(20, 54, words, GREY), *straddled(16, 292),
                    *small(16, 72, "Complete ring: committed", BLUE, [("01011", FIRM), ("11001", FIRM)], [(2, 3, 14, BLUE), (3, 2, 30, BLUE)],
                           ["formatted records", "point at themselves"], ["each names the", "other's version 1"],
                           "Recovery: pages 0 and 1 have committed 1, used 1."),
                    *small(450, 72, "Unfinished ring: not committed", ORANGE, [("01011", LOOSE), ("", (PAPER, RULE))], [(2, None, 30, ORANGE)],
                           ["page 1's newest", "is version 0"], ["page 1, version 1", "is not there"],
                           "Recovery: pages 0 and 1 have committed 0, used 1.")])


# The life of a slot.

def stage(x, y, w, h, name, rows, erase, fill, stroke):
    """A state of a slot: its name, what holds of it, and what erase answers."""
    ground, ink, edge = (BLUE, PAPER, BLUE) if erase == 0 else (PAPER, GREY, GREY)
    return [box(x, y, w, h, fill, stroke), text(x + 12, y + 26, name, size=14, bold=True), text(x + 12, y + 46, rows),
            tag(x + w - 80, y - 10, f"erase: {erase}", ground, ink, edge)]


def slot():
    words = "v is the record's version; committed and used are those of its page. Erase answers 0, done, or 12, refused."
    states = [*stage(24, 140, 134, 78, "blank", ["every word", "4,294,967,295"], 12, PAPER, RULE),
              *stage(266, 140, 186, 78, "exposed, in flight", ["v > committed;", "page in flight, v = used"], 12, SAND, ORANGE),
              *stage(676, 140, 180, 78, "committed", ["v = committed;", "read copies its bytes"], 12, SKY, BLUE),
              *stage(266, 318, 186, 94, "exposed, abandoned",
                     ["v > committed; page not", "in flight, or v < used;", "never gets committed"], 0, SAND, ORANGE),
              box(572, 306, 296, 214, PALE, RULE, radius=6), text(584, 330, "obsolete", size=14, bold=True), text(660, 330, "v < committed"),
              *stage(584, 356, 272, 72, "needed", ["the highest v of its page and c, and", "straddles an exposed record's link"], 12, PAPER, GREY),
              *stage(584, 470, 272, 40, "not needed", [], 0, PAPER, GREY)]
    moves = [arrow([(158, 182), (266, 182)]), middle(212, 174, "write"), middle(212, 198, "done 0", GREY),
             arrow([(52, 140), (52, 102), (720, 102), (720, 140)]), middle(386, 94, "write that completes its ring"),
             middle(386, 118, "done 1", GREY), arrow([(452, 182), (676, 182)]), middle(564, 174, "the rest of its ring is written"),
             arrow([(320, 218), (320, 318)]), text(330, 258, ["withdraw, or recover", "(after a power cut)"]),
             arrow([(720, 218), (720, 306)]), text(730, 258, ["a newer version", "is committed"]),
             arrow([(452, 368), (572, 368)]), middle(512, 344, ["a newer version", "is committed"]),
             arrow([(620, 428), (620, 470)]), text(630, 446, ["no such record is", "exposed any more"]),
             arrow([(266, 368), (116, 368), (116, 218)], BLUE), middle(191, 360, "erase", BLUE),
             arrow([(584, 490), (66, 490), (66, 218)], BLUE), middle(325, 482, "erase", BLUE)]
    note = ["After format slot i below P holds page i at version 0, committed; every other slot is blank. Erase judges its whole list on",
            "the table before the call: one slot that may not be erased refuses them all."]
    return picture(584, "The life of a slot",
                   "A write leads from blank to exposed, or to committed where it completes the ring; a withdrawal or a power cut from exposed to "
                   "abandoned; a newer committed version to obsolete, needed or not. Erase leads to blank, from abandoned and not needed only.",
                   [text(20, 56, words, GREY), *states, *moves, text(20, 548, note, GREY)])


# The layers: of each its place and height, its name, what it is, and what is known of it.
LAYERS = [
    (84, 66, "Console's firmware", ["C, yours; owns all memory and lends it"],
     [("tested", "the example console, killed at random flash steps"),
      ("believed", "buffers as stated, none overlapping; P and S stay;", "after power-up no other call before recover is done")]),
    (192, 118, "Library", ["libbpcc.a; no heap, no static data,", "no operating system; keeps nothing", "between calls"],
     [("proved", "for every input each call's whole outcome; for every", "list of calls and power cuts: sets come back whole"),
      ("tested", "the compiled archive, across the C boundary,", "against a second implementation"),
      ("believed", "the definitions; the kit's checker and compiler;", "one function stores to flash (read off the code)")]),
    (352, 70, "Buffers in RAM", ["words, contents: images of the flash", "state: working memory, filled by recover"],
     [("believed", "only these calls alter them; each call is lent them", "as the last call or power-up left them")]),
    (464, 56, "Flash driver", ["yours; programs slots from the images"],
     [("believed", "a slot is stored, or blanked, wholly or not at all,", "before the next call; nothing else alters what one reads as")]),
    (562, 56, "Chip", ["S slots: 5 words, the bytes, checksum"],
     [("believed", "a power cut in one slot leaves every other as it", "was; what is stored stays")])]
KNOWN = {"proved": (BLUE, PAPER, BLUE), "tested": (SKY, BLUE, BLUE), "believed": (SAND, ORANGE, ORANGE)}


def layer(y, height, name, says, known):
    """A layer, blue where something is proved of it, and beside it what is known."""
    colours = (SKY, BLUE) if known[0][0] == "proved" else (PALE, GREY)
    parts = [box(112, y, 276, height, *colours), text(124, y + 24, name, size=14, bold=True), text(124, y + 43, says)]
    for kind, *rows in known:
        parts += [tag(416, y + 4, kind, *KNOWN[kind], width=74), text(500, y + 17, rows)]
        y += 8 + 16 * len(rows)
    return parts


def layers():
    parts = [text(20, 56, "Proved: by machine. Tested: run, and compared. Believed: what the proof starts from.", GREY)]
    for each in LAYERS:
        parts += layer(*each)
    flows = [("calls", "answer, second number"), ("alters", "reads"), ("slots altered", "at power-up all slots"), ("stores, blanks", "reads")]
    for (y, height, *_), (below, *_), (down, up) in zip(LAYERS, LAYERS[1:], flows):
        level = (y + height + below) / 2 + 4
        parts += [arrow([(136, y + height), (136, below)]), text(144, level, down), arrow([(238, below), (238, y + height)]), text(246, level, up)]
    order = ["after each", "call that", "alters", "slots:", "program", "them,", "before the", "next call"]
    note = ["At power-up the driver loads the images, and recover fills the state from words and contents.",
            "The images are RAM on a chip that is mapped into memory, too: the driver programs a slot after the call that altered it."]
    return picture(678, "From the firmware to the chip: what is proved, tested, believed",
                   "Firmware, library, buffers in RAM, flash driver, chip. The library is proved and its compiled archive tested; what firmware, "
                   "buffers, driver and chip must do is believed, as premises, and so are the definitions, the kit's checker and its compiler.",
                   [*parts, arrow([(112, 117), (88, 117), (88, 492), (112, 492)]), text(80, 256, order, anchor="end"), text(20, 644, note, GREY)])


# The times.

def read_times(path):
    """The comment, the numbers of slots and the rows of a table of times, None for a '-' before a row's first; ValueError says what is
    wrong with it."""
    lines = [words.strip() for words in path.read_text(encoding="utf-8").splitlines() if words.strip()]
    notes = [words.lstrip("# ") for words in lines if words.startswith("#")]
    rows = [words.split() for words in lines if not words.startswith("#")]
    if not notes or len(rows) < 2 or rows[0][0] != "slots":
        raise ValueError("a line '# ...', a line 'slots ...' and rows are expected")
    slots = [int(word) for word in rows[0][1:]]
    times = {name: [None if word == "-" else float(word) for word in words] for name, *words in rows[1:]}
    if len(slots) < 2 or slots[0] < 1 or slots != sorted(set(slots)) or len(times) < len(rows) - 1:
        raise ValueError("numbers of slots that rise from 1 or above, and a name of its own for each row, are expected")
    for name, row in times.items():
        measured = list(itertools.dropwhile(lambda value: value is None, row))
        if len(row) != len(slots) or len(measured) < 2 or not all(value is not None and 0 < value < math.inf for value in measured):
            raise ValueError(f"row {name}: {len(slots)} times above 0 are expected, '-' for some of the first")
    return " ".join(notes), slots, times


def whole(table):
    """A table of times without a '-'."""
    for name, row in table[2].items():
        if None in row:
            raise ValueError(f"row {name}: no '-' is expected")
    return table


def by_pages(table, names):
    """A table of microseconds whose rows are called NAME_PAGES: its comment, the numbers of slots, and for each name the rows in
    milliseconds by their pages."""
    note, slots, rows = table
    families = {name: {} for name in names}
    for row, times in rows.items():
        name, _, pages = row.rpartition("_")
        if name not in families or not (pages.isascii() and pages.isdigit()) or int(pages) in families[name]:
            raise ValueError(f"row {row}: one of {', '.join(names)}, '_' and a number of pages of its own are expected")
        families[name][int(pages)] = [None if value is None else value / 1000 for value in times]
    if not all(families.values()):
        raise ValueError(f"rows of {' and '.join(names)} are expected")
    return note, slots, families


def duration(ms):
    """A time in the unit that suits it, with one decimal below 10."""
    name, unit = next((pair for pair in [("ms", 1), ("µs", 1e-3)] if ms > 0.999 * pair[1]), ("ns", 1e-6))
    return f"{round(ms / unit, 1 if ms < 9.95 * unit else 0):g} {name}"


def powers(times):
    """The powers of ten between which the times of all rows lie."""
    times = [ms for row in times for ms in row if ms is not None]
    low = math.floor(math.log10(min(times)))
    return low, max(low + 1, math.ceil(math.log10(max(times))))


def curves(left, right, top, bottom, slots, bounds, rows, straight=None):
    """Two logarithmic scales, and on them each row as a curve with its label behind it, the straight one dotted; and the others' labels,
    from the top."""
    low, high = bounds

    def across(n):
        return left + (right - left) * math.log(n / slots[0]) / math.log(slots[-1] / slots[0])

    def up(ms):
        return bottom - (bottom - top) * (math.log10(ms) - low) / (high - low)

    parts = []
    for n in slots:
        parts += [line([(across(n), top), (across(n), bottom)], RULE, width=1), middle(across(n), bottom + 20, f"{n:,}", GREY)]
    for ms in [10.0 ** power for power in range(low, high + 1)]:
        parts += [line([(left, up(ms)), (right, up(ms))], RULE, width=1), text(left - 10, up(ms) + 4, duration(ms), GREY, anchor="end")]
    order = sorted(rows, key=lambda label: -rows[label][-1])
    levels = itertools.accumulate([up(rows[label][-1]) for label in order], lambda above, level: max(level, above + 17))
    told = [label for label in order if label != straight]
    styles = {label: ([BLUE, ORANGE, GREY][i % 3], [None, "7 4", "2 3"][i // 3 % 3]) for i, label in enumerate(told)}
    for label, level in zip(order, levels):
        colour, dash = styles.get(label, (GREY, "2 3"))
        points = [(across(n), up(ms)) for n, ms in zip(slots, rows[label]) if ms is not None]
        dots = [dot(x, y, colour, colour, 3) for x, y in points] if label in styles else []
        parts += [line(points, colour, dash, 2), *dots, text(right + 14, level + 4, label, colour, 13)]
    return parts, told


def times(note, slots, rows):
    left, right, top, bottom = 92, 720, 100, 444
    ends = {f"{name.replace('_', ' ')}, {duration(row[-1])}": row for name, row in rows.items()}
    parts, order = curves(left, right, top, bottom, slots, powers(rows.values()), ends)
    return picture(504, "How long the calls take",
                   f"Times for volumes of {', '.join(map(str, slots))} slots, on two logarithmic scales. At {slots[-1]} slots: {'; '.join(order)}.",
                   [text(20, 56, textwrap.wrap(note, 130), GREY),
                    middle((left + right) / 2, bottom + 42, "slots S (there are at most 256 pages)", GREY), *parts])


# How long recovery takes: of each family's call its row names, its place, and what its records have.
RECOVERIES = {"recover": (76, "bpcc_recover, records of five words"), "scc_recover": (496, "scc_recover, records of four words")}


def straight_line(slots, rows):
    """The times of the fewest pages if they rose in proportion to S from the first on."""
    at, first = next((n, ms) for n, ms in zip(slots, rows[min(rows)]) if ms is not None)
    return [first * n / at for n in slots]


def recover(note, slots, families):
    top, bottom, across, straight = 130, 444, 236, "in proportion to S"
    lines = {name: straight_line(slots, rows) for name, rows in families.items()}
    bounds = powers([*lines.values(), *(row for rows in families.values() for row in rows.values())])
    parts, told = [text(20, 56, textwrap.wrap(note, 130), GREY)], []
    for name, rows in families.items():
        left, title = RECOVERIES[name]
        ends = {f"P = {pages}, {duration(row[-1])}": row for pages, row in rows.items()}
        drawn, labels = curves(left, left + across, top, bottom, slots, bounds, {**ends, straight: lines[name]}, straight)
        parts += [text(left, top - 16, title, size=14, bold=True), middle(left + across / 2, bottom + 42, "slots S", GREY), *drawn]
        told += [f"{title}: {'; '.join(labels)}"]
    return picture(504, "How long recovery takes, by slots and pages",
                   f"Times of recovery of volumes of {', '.join(map(str, slots))} slots and P pages, on two logarithmic scales, beside a line that "
                   f"rises in proportion to S. At {slots[-1]} slots, {'. '.join(told)}.", parts)


def read(name, take):
    """What a table beside this script says."""
    try:
        return take(read_times(HERE / name))
    except (OSError, ValueError) as wrong:
        sys.exit(f"draw.py: {name} cannot be drawn, and no picture is written: {wrong}")


def main():
    calls, recovery = read("times.txt", whole), read("recover.txt", lambda table: by_pages(table, RECOVERIES))
    pictures = {"store": store(), "ring": ring(), "slot": slot(), "layers": layers(), "times": times(*calls), "recover": recover(*recovery)}
    for name, svg in pictures.items():
        (HERE / f"{name}.svg").write_text(svg, encoding="utf-8", newline="\n")


if __name__ == "__main__":
    main()
