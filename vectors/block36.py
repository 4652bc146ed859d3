"""The drawing of one block of thirty-six samples. Run: python3 vectors/block36.py docs/block36.svg
It writes that one file. The window, the fold partners and their signs are computed from the definitions of bank.py and held against equation (41)
of source 003. Its sheet is that of sheet.py."""
import sys

from bank import LONG, C, K, window
from sheet import (
    ARROW,
    CELL,
    DASHED,
    DEEP_FIRST,
    DEEP_SECOND,
    DEEP_SOUND,
    DEEP_TAIL,
    FIRST,
    GREY,
    INK,
    LEFT,
    PALE,
    RED,
    RIGHT,
    SECOND,
    SOUND,
    TAIL,
    M,
    N,
    axis,
    begin,
    cells,
    dot,
    label,
    left,
    line,
    middle,
    path,
    rect,
    text,
    write,
)

h = N // 4
WINDOW = window(N, LONG, LONG)


def F(j, k):
    return C(216 // N * (2 * j + 1) * (2 * k + 1))


def folded(n):
    """The sign and the j with K(n,k) = sign × F(j,k) for every k."""
    found = [(s, j) for s in (1, -1) for j in range(M) if all(K(N, n, k) == s * F(j, k) for k in range(M))]
    assert len(found) == 1
    return found[0]


FOLD = [folded(n) for n in range(N)]
# equation (41): z(j) = − y(3h−1−j) − y(3h+j) for j < h, and y(j−h) − y(3h−1−j) from h on
for j in range(M):
    assert {n: sign for n, (sign, i) in enumerate(FOLD) if i == j} == ({3 * h - 1 - j: -1, 3 * h + j: -1} if j < h else {j - h: 1, 3 * h - 1 - j: -1})

begin("One block of thirty-six samples", "N = 36,   M = N/2 = 18,   d = 216/N = 6,   both joints long")

# the two hops and the window
top, base = 132, 252
for a, fill, deep, words in (
    (0, FIRST, DEEP_FIRST, "hop b − 1 (before the first: zeros)"),
    (M, SECOND, DEEP_SECOND, "hop b (after the last: zeros)"),
):
    rect(left(a), 68, M * CELL, 28, fill)
    text(left(a) + M * CELL / 2, 88, words, 17, fill=deep, weight="bold")


def height(w):
    return base - (base - top) * w / 2**26


axis(top, base, RIGHT)
path([(middle(n), height(WINDOW[M + n])) for n in range(M)], GREY, 1.3, DASHED)
path([(middle(M + n), height(WINDOW[n])) for n in range(M)], GREY, 1.3, DASHED)
for n, w in enumerate(WINDOW):
    deep = DEEP_FIRST if n < M else DEEP_SECOND
    line(middle(n), base, middle(n), height(w), deep, 1.6)
    dot(middle(n), height(w), deep)
label(184, "window", "W(n)")
text(middle(0), 118, "block b − 1", 14, "start", GREY)
text(left(M), 118, "this block, b", 15, "middle", weight="bold")
text(middle(N - 1), 118, "block b + 1", 14, "end", GREY)

# the samples
row = base + 10
cells(row, 32, range(M), range(M), FIRST, 16)
cells(row, 32, range(M, N), range(M, N), SECOND, 16)
label(row + 21, "sample n")

# fold partners
def signs(y, size=20):
    for n, (sign, _) in enumerate(FOLD):
        text(middle(n), y, "+" if sign > 0 else "−", size, weight="bold", fill=INK if sign > 0 else RED)


signs(row + 53)
STEP, legs = 16.5, row + 61
pairs = {j: [n for n in range(N) if FOLD[n][1] == j] for j in range(M)}
for j, (a, b) in pairs.items():
    assert b == (M - 1 - a if a < M else 3 * M - 1 - a)
    y = legs + STEP * (b - a + 1) / 2
    deep = DEEP_FIRST if a < M else DEEP_SECOND
    path([(middle(a), legs), (middle(a), y), (middle(b), y), (middle(b), legs)], deep, 1.3)
    centre = (middle(a) + middle(b)) / 2
    wide = 30 if j > 9 else 22
    rect(centre - wide / 2, y - 8, wide, 16, "white", "none")
    text(centre, y + 5, f"z{j}", 13, fill=deep, weight="bold")
label(legs - 8, "sign of y(n)")
label(legs + 48, "fold partners", "two y(n) make", "one sum z(j)")
foot = legs + STEP * 9 + 25
text(left(h), foot, f"z(j) = y(j − {h}) − y({3 * h - 1} − j),   j = {h} .. {M - 1}", 16, fill=DEEP_FIRST)
text(left(3 * h), foot, f"z(j) = − y({3 * h - 1} − j) − y({3 * h} + j),   j = 0 .. {h - 1}", 16, fill=DEEP_SECOND)

# there and back
y = foot + 16
rect(LEFT, y, N * CELL, 62, PALE, "#9a9a9a", 1, ' rx="8"')
text(LEFT + 18, y + 26, "Analysis", 15, "start", weight="bold")
text(
    LEFT + 124,
    y + 26,
    "y(n) = rnd(W(n) × x(n) / 2¹⁸),   S(k) = sum over j of z(j) × F(j,k),   X(k) = rnd(S(k) / 2²⁸),   F(j,k) = C(6 × (2j + 1) × (2k + 1))",
    15,
    "start",
)
text(LEFT + 18, y + 51, "Synthesis", 15, "start", weight="bold")
text(
    LEFT + 124,
    y + 50,
    "u(j) = sum over k of X(k) × F(j,k),   U(n) = rnd(± u(j) / 2²⁶) with the sign and the j below,   V(n) = W(n) × U(n)",
    15,
    "start",
)

# a step
y += 62
text(LEFT, y + 36, "What a step adds where", 21, "start", weight="bold")
text(RIGHT, y + 36, "t0 .. t17: V(18) .. V(35) of the step before; zeros in a fresh stream, whose first hop is the run-in", 14, "end", DEEP_TAIL)
signs(y + 64, 18)
for n, (_, j) in enumerate(FOLD):
    text(middle(n), y + 80, f"u{j}", 14)
label(y + 75, "± u(j)")
row = y + 87
cells(row, 30, range(M), range(M), FIRST)
cells(row, 30, range(M, N), range(M, N), SECOND)
label(row + 20, "V(n) of block b")
for n in range(M):
    text(middle(n), row + 50, "+", 20, weight="bold")
tail = [f"t{n}" for n in range(M)]
cells(row + 56, 30, range(M), tail, TAIL, 14)
label(row + 69, "tail", "left by block b − 1")
box = row + 101
for a, words in (
    (0, "hop sample n = rnd((tail(n) + V(n)) / (36 × 2³⁰)), clamped"),
    (M, "new tail(n) = V(18 + n), neither divided nor rounded"),
):
    rect(left(a) + 6, box, M * CELL - 12, 28, "white", INK, 1, ' rx="8"')
    text(left(a) + M * CELL / 2, box + 20, words, 16)
for n in range(N):
    line(middle(n), row + (86 if n < M else 30), middle(n), box)
    line(middle(n), box + 28, middle(n), box + 47, INK, 1.2, ARROW)
row = box + 48
cells(row, 30, range(M), range(M), SOUND)
cells(row, 30, range(M, N), tail, TAIL, 14)
label(row + 20, "handed back")
text(left(h), row + 50, "the samples of hop b − 1", 16, fill=DEEP_SOUND, weight="bold")
text(left(3 * h), row + 50, "the tail that the next step adds to, for hop b", 16, fill=DEEP_TAIL, weight="bold")

# the legend, and why the mirrored samples vanish
row += 86
LINE, SECOND_COLUMN = 20, 784
text(40, row, "Legend", 16, "start", weight="bold")


def entry(i, x, words):
    text(x + 62, row + 3 + LINE * i, words, 14, "start")
    return row - 2 + LINE * i  # the middle of the line


for i, x, fills, words in (
    (1, 40, (FIRST, SECOND), "the two hops of block b"),
    (1, 264, (TAIL,), "the tail, kept in the stream"),
    (1, 530, (SOUND,), "samples handed back"),
):
    y = entry(i, x, words)
    for at, fill in enumerate(fills):
        rect(x + 54 - 24 * (len(fills) - at), y - 7, 24, 14, fill)
y = entry(2, 40, "W(n) of block b; dashed: the windows of the blocks before and after")
line(50, y + 7, 50, y - 5, DEEP_FIRST, 1.6)
dot(50, y - 5, DEEP_FIRST)
path([(62, y), (94, y)], GREY, 1.3, DASHED)
y = entry(3, 40, "the sign that y(n) has in its sum z(j), and that u(j) has at its place n")
text(56, y + 7, "+", 20, weight="bold")
text(80, y + 7, "−", 20, weight="bold", fill=RED)
y = entry(4, 40, "two fold partners: windowed samples that make one sum")
path([(52, y - 6), (52, y + 5), (86, y + 5), (86, y - 6)], DEEP_FIRST, 1.3)
for i, name, words in (
    (5, "rnd", "the nearest whole number, an exact half going away from zero"),
    (6, "C(t)", "the nearest whole number to 2²⁶ times the cosine of t/864 of a turn"),
):
    text(94, entry(i, 40, words) + 5, name, 14, "end")

text(SECOND_COLUMN, row, "Why the mirrored samples vanish", 16, "start", weight="bold")
for i, words in enumerate(
    (
        "In hop b − 1, block b brings y(n) − y(17 − n), and block b − 1 brings its",
        "y(18 + n) + y(35 − n). Both are windowed again and added. The mirrored sample,",
        "17 − n of the hop, then has the factors − W(n) × W(17 − n) and + W(n) × W(17 − n)",
        "and is gone. Sample n itself has the factor W(n)² + W(17 − n)², which is 2⁵² up to",
        "the rounding of the table. All rounding together is proved to stay below a tenth",
        "of the half unit that would change a sample: docs/ROUNDING.md.",
    ),
    1,
):
    text(SECOND_COLUMN, row + 3 + LINE * i, words, 14, "start")
write(sys.argv[1])
