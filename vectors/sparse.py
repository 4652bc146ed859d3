"""The distance of a returned sample by the sum of a block's changes, T, beside the distance by the largest change, Q, where 1, 2, 4 .. M coefficients of each block move by CHANGE units each (document 02, P11).
Prints the table of docs/ROUNDING.md and draws its picture. Run: python3 vectors/sparse.py docs/sparse.svg"""
import math
import sys

from sheet import DEEP_FIRST, DEEP_SECOND, DEEP_SOUND, DEEP_TAIL, GREY, INK, LEFT, RED, RIGHT, begin, dot, label, line, path, text, write

LENGTHS = (12, 24, 36, 72, 108, 216)
CHANGE = 1024
PENS = (DEEP_FIRST, DEEP_SECOND, DEEP_TAIL, DEEP_SOUND, RED, INK)
TOP, BASE = 120, 830


def by_largest(q):
    return (q + 8) // 16


def by_sum(n, t):
    return (t + 4 * n) // (8 * n)


def counts(n):
    """1, 2, 4 .. and M itself."""
    m = n // 2
    return [2**i for i in range(m.bit_length()) if 2**i < m] + [m]


def table():
    columns = sorted({c for n in LENGTHS for c in counts(n)})
    print("| N | by Q | by T, c = " + " | ".join(str(c) for c in columns) + " |")
    print("|---:|---:|" + "---:|" * len(columns))
    for n in LENGTHS:
        cells = [str(by_sum(n, c * CHANGE)) if c in counts(n) else "" for c in columns]
        print(f"| {n} | {by_largest(CHANGE)} | " + " | ".join(cells) + " |")


def across(count):
    return LEFT + (RIGHT - LEFT - 120) * math.log2(count) / math.log2(128)


def height(distance):
    return BASE - (BASE - TOP) * distance / 70


def axes():
    for distance in range(0, 71, 10):
        line(LEFT, height(distance), RIGHT, height(distance), "#dddddd")
        text(LEFT - 10, height(distance) + 5, distance, 14, "end", GREY)
    for i in range(8):
        line(across(2**i), BASE, across(2**i), BASE + 8, GREY)
        text(across(2**i), BASE + 28, 2**i, 14, fill=GREY)
    text((LEFT + RIGHT) / 2, BASE + 58, f"coefficients of a block that move, each by {CHANGE:,} units", 17)


def curves():
    q = by_largest(CHANGE)
    line(LEFT, height(q), RIGHT, height(q), INK, 2.4, ' stroke-dasharray="9 5"')
    text(LEFT + 8, height(q) - 12, f"by Q, the largest change: {q}", 16, "start", weight="bold")
    for n, pen in zip(LENGTHS, PENS):
        points = [(across(c), height(by_sum(n, c * CHANGE))) for c in counts(n)]
        path(points, pen, 2.4)
        for x, y in points:
            dot(x, y, pen)
        x, y = points[-1]
        line(x, y, x, BASE, pen, 1, ' stroke-dasharray="2 5"')
        text(x + 6, BASE - 12, f"M = {n // 2}", 13, "start", pen)
        text(x, y - 12, f"N = {n}", 15, fill=pen, weight="bold")


if __name__ == "__main__":
    table()
    begin("Distance by the sum of the changes", "direct analysis: (T + 4N) / 8N beside (Q + 8) / 16")
    label(height(36), "Distance", "of a returned", "sample")
    axes()
    curves()
    text(LEFT, BASE + 110, "T is the sum of the changes' sizes in a block. With all M coefficients moved alike both distances are the same;", 17, "start")
    text(LEFT, BASE + 136, "the fewer of them move, the nearer the sample returns by the sum.", 17, "start")
    write(sys.argv[1])
