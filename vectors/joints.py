"""The drawing of the two shapes of a joint, and of how far a click reaches. Run: python3 vectors/joints.py docs/joints.svg
It writes that one file. Halves, windows and reaches are computed from the definitions of bank.py; the sheet and its pens are those of sheet.py."""
import sys

from bank import LONG, SHORT, C, falling, rising, window
from sheet import (
    CELL,
    DASHED,
    DEEP_FIRST,
    DEEP_SECOND,
    DEEP_SOUND,
    DEEP_TAIL,
    FIRST,
    GREY,
    INK,
    LEFT,
    PALE,
    RED,
    RIGHT,
    SECOND,
    SOUND,
    TAIL,
    M,
    N,
    axis,
    begin,
    cells,
    dot,
    label,
    left,
    line,
    middle,
    path,
    rect,
    text,
    write,
)

R = M // 3
# the shapes' colours and names
LOOKS = {LONG: (GREY, PALE, "long"), SHORT: (DEEP_TAIL, TAIL, "short")}

begin("The two shapes of a joint", f"N = {N},   M = N/2 = {M},   R = M/3 = {R}")

# one hop with both shapes, over half of the sheet
top, base = 112, 262
rect(LEFT, 68, M * CELL, 28, "white")
text(left(M / 2), 88, "hop b: block b falls, block b + 1 rises", 17, weight="bold")
axis(top, base, left(M))


def at(n, w):
    return middle(n), base - (base - top) * w / 2**26


for shape, (deep, _, _) in LOOKS.items():
    path([at(n, w) for n, w in enumerate(falling(shape, N))], deep, 1.3, DASHED)
    path([at(n, w) for n, w in enumerate(rising(shape, N))], deep, 1.8)
    for n, w in enumerate(rising(shape, N)):
        dot(*at(n, w), deep)
label(172, "entry n", "rising: dots", "falling: dashed")

row = base + 10
cells(row, 28, range(M), range(M), "white")
label(row + 19, "place n")
turns = [216 // N * (N - 1 - 2 * n) for n in range(M)]
assert [C(t) for t in turns] == rising(LONG, N)
cells(row + 34, 28, range(M), turns, PALE, 13)
label(row + 53, "long, 0: t of C(t)")
rise = [216 - 108 // R * (2 * j + 1) for j in range(R)]
assert [0] * R + [C(t) for t in rise] + [2**26] * R == rising(SHORT, N)
for a, words in ((0, "0"), (2 * R, "2²⁶")):
    rect(left(a), row + 68, R * CELL, 28, TAIL)
    text(left(a + R / 2), row + 87, words, 14)
cells(row + 68, 28, range(R, 2 * R), rise, TAIL, 13)
label(row + 87, "short, 1")

# the same in words, beside it
column = left(M) + 44
for i, (words, fill, weight) in enumerate(
    (
        ("Rising half, entry n of block b + 1 in hop b", INK, "bold"),
        (f"long:   C({216 // N} × ({N - 1} − 2n)), half of the sine window", GREY, "normal"),
        (f"short:   {R} zeros, C(216 − {108 // R} × (2j + 1)) for j = 0 .. {R - 1}, and {R} times 2²⁶", DEEP_TAIL, "normal"),
        (f"Falling half of block b: the mirror, entry {M - 1} − n of the rising one", INK, "bold"),
        ("", INK, "normal"),
        ("Where both blocks meet with one shape, the squares of the two halves make", INK, "normal"),
        ("2⁵² up to the rounding of the table, and the mirrored samples vanish as in", INK, "normal"),
        ("docs/block36.svg. So sound returns within the same distance at either shape,", INK, "normal"),
        ("and in any mixture.", INK, "normal"),
        ("", INK, "normal"),
        ("A block is offered with the shapes of its left and its right joint. A stream takes", INK, "normal"),
        ("it if its left shape is the right shape of the block before, or 0 for the first.", INK, "normal"),
        ("Another left shape, or a shape above 1, is refused with 8.", INK, "normal"),
    )
):
    text(column, 88 + 22 * i, words, 14, "start", fill, weight)

# a stream of blocks over eight hops, with a click in it
HOPS, CLICK_HOP, CLICK_PLACE = 8, 4, 14
CLICK = CLICK_HOP * M + CLICK_PLACE
STEP = (RIGHT - LEFT) / (HOPS * M)


def edge(place):
    return LEFT + place * STEP


def entries(b, shapes):
    """The places of block b, which covers hops b − 1 and b, and its window there."""
    return {(b - 1) * M + n: w for n, w in enumerate(window(N, shapes(b - 1), shapes(b)))}


def touched(b, shapes):
    """The places that it touches: all that its coefficients can alter."""
    return [place for place, w in entries(b, shapes).items() if w > 0]


def holding(place, shapes):
    """The blocks that touch a place, and all places that they touch."""
    blocks = [b for b in range(HOPS + 1) if place in touched(b, shapes)]
    return blocks, sorted({p for b in blocks for p in touched(b, shapes)})


def outline(b, shapes, y, height):
    """Its window, from the base line up and back, as far as the hops go."""
    places = touched(b, shapes)
    points = [(p + 0.5, w) for p, w in entries(b, shapes).items() if w > 0]
    whole = [(places[0], 0), *points, (places[-1] + 1, 0)]
    return [(edge(x), y - height * w / 2**26) for x, w in whole if 0 <= x <= HOPS * M]


def look(b):
    return (DEEP_FIRST, FIRST) if b % 2 else (DEEP_SECOND, SECOND)


def strip(y, shapes, title):
    """The hops with their joints, the blocks, and what those that hold the click reach."""
    blocks, reach = holding(CLICK, shapes)
    text(LEFT, y, title, 17, "start", weight="bold")
    for h in range(HOPS):
        deep, fill, name = LOOKS[shapes(h)]
        rect(edge(h * M), y + 12, M * STEP, 26, fill)
        text(edge((h + 0.5) * M), y + 30, f"hop {h}:   {name}, {shapes(h)}", 14, fill=deep, weight="bold")
    base = y + 154
    for b in blocks:
        path(outline(b, shapes, base, 82), look(b)[0], 1.4, f' style="fill:{look(b)[1]}"')
    for b in range(HOPS + 1):
        path(outline(b, shapes, base, 82), look(b)[0], 2.2 if b in blocks else 1.1)
    for b in range(1, HOPS):
        text(edge(b * M), y + 60, f"block {b}:   {shapes(b - 1)}, {shapes(b)}", 13, fill=look(b)[0], weight="bold" if b in blocks else "normal")
    line(LEFT, base, RIGHT, base, GREY)
    label(y + 31, "joint")
    label(y + 59, "left, right")
    label(base - 38, "windows", "filled: hold the click")
    bar = base + 8
    for b in blocks:
        places = touched(b, shapes)
        rect(edge(places[0]), bar, len(places) * STEP, 9, look(b)[1], look(b)[0])
        bar += 14
    rect(edge(reach[0]), bar, len(reach) * STEP, 14, SOUND, DEEP_SOUND)
    label(base + 20, "what they touch", "green: together")
    words = f"{len(reach)} samples, {CLICK - reach[0]} before the click and {reach[-1] - CLICK} after it"
    text(edge(reach[0]) - 12, bar + 12, words, 15, "end", DEEP_SOUND, "bold")
    line(edge(CLICK + 0.5), y + 70, edge(CLICK + 0.5), bar + 18, RED, 2.2)


def long_throughout(h):
    return LONG


def short_about_the_click(h):
    return SHORT if abs(h - CLICK_HOP) <= 1 else LONG


y = row + 144
text(LEFT, y, "How far a click reaches", 21, "start", weight="bold")
text(RIGHT, y, f"the click: place {CLICK_PLACE} of hop {CLICK_HOP}", 15, "end", RED, "bold")
words = "what is done to the coefficients of the blocks that hold the click can alter the samples that they touch, and no others"
text(RIGHT, y + 30, words, 14, "end", GREY)
strip(y + 30, long_throughout, "Every joint long")
strip(y + 264, short_about_the_click, "From long to short about the click, and back")


# a click anywhere in a hop, where it and its neighbours have one shape
def signed(number, name):
    """A number that is added to a name."""
    return name if number == 0 else f"{name} {'+' if number > 0 else '−'} {abs(number)}"


def place_of(place):
    hop, n = divmod(place, M)
    return f"hop {signed(hop - CLICK_HOP, 'h')}, place {n}"


def reaches(shape):
    """The places of a hop by the blocks that hold a click there: a list of places, and what those blocks touch, for each choice of blocks."""
    found = {}
    for n in range(M):
        blocks, reach = holding(CLICK_HOP * M + n, lambda h: shape)
        found.setdefault((tuple(blocks), reach[0], reach[-1]), []).append(n)
    return found


COLUMNS = (18, 150, 330, 520, 720, 930, 1110)
y += 502
text(LEFT, y - 10, "A click at place n of hop h, where the joints in hops h − 1, h and h + 1 have one shape", 17, "start", weight="bold")
rect(LEFT, y, RIGHT - LEFT, 118, "white", "#9a9a9a", 1, ' rx="8"')


def table_row(i, *words, weight="normal", fill=INK):
    for x, w in zip(COLUMNS, words):
        text(LEFT + x, y + 21 + 22 * i, w, 14, "start", fill, weight)


table_row(0, "joints", "click", "held by blocks", "they touch from", "to", "before the click", "after it", weight="bold")
i = 0
for shape, (deep, _, name) in LOOKS.items():
    for (blocks, first, last), places in reaches(shape).items():
        i += 1
        held = " and ".join(signed(b - CLICK_HOP, "h") for b in blocks)
        before, after = CLICK_HOP * M - first, last - CLICK_HOP * M
        where = f"n = {places[0]} .. {places[-1]}"
        table_row(i, name, where, held, place_of(first), place_of(last), signed(before, "n"), f"{after} − n", fill=deep)

write(sys.argv[1])
