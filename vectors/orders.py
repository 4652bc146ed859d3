"""The drawing of where the coefficients of a recording lie, by block and by frequency, with one band marked. Run: python3 vectors/orders.py docs/orders.svg"""
import sys

import bank
from sheet import DEEP_FIRST, DEEP_SECOND, DEEP_TAIL, FIRST, GREY, INK, LEFT, PALE, RED, RIGHT, SECOND, TAIL, begin, label, line, rect, text, write

N, H = 12, 2
M, B = N // 2, H + 1
BAND = 2
WIDE = (RIGHT - LEFT) / (B * M)
TALL = 62
PAPERS, PENS = (FIRST, SECOND, TAIL), (DEEP_FIRST, DEEP_SECOND, DEEP_TAIL)


def cell(x, y, b, k, below=None):
    """Coefficient k of block b, in its block's colour; one of the band has a red border."""
    marked = k == BAND
    rect(x, y, WIDE, TALL, PAPERS[b], RED if marked else INK, 3 if marked else 1)
    text(x + WIDE / 2, y + TALL / 2 + 7, f"X{'₀₁₂'[b]}({k})", 18, fill=PENS[b], weight="bold" if marked else "normal")
    if below is not None:
        text(x + WIDE / 2, y + TALL + 20, below, 14, fill=GREY)


def grid(y):
    """The blocks of the recording, a row each."""
    for b in range(B):
        text(LEFT + 3 * WIDE - 14, y + b * TALL + TALL / 2 + 6, f"block {b}", 16, "end", PENS[b])
        for k in range(M):
            cell(LEFT + (3 + k) * WIDE, y + b * TALL, b, k)
    for k in range(M):
        text(LEFT + (3.5 + k) * WIDE, y - 12, f"k = {k}", 15, fill=RED if k == BAND else GREY)


def memory(y, order):
    """The whole list in one order, each entry above its place."""
    rect(LEFT, y, RIGHT - LEFT, TALL, PALE)
    for b in range(B):
        for k in range(M):
            place = bank.place(order, N, H, b, k)
            cell(LEFT + place * WIDE, y, b, k, place)


def brackets(y, width, names):
    """Words under parts of the list that are so many entries wide."""
    for i, name in enumerate(names):
        start, end = LEFT + i * width * WIDE, LEFT + (i + 1) * width * WIDE
        line(start + 6, y, end - 6, y, GREY)
        text((start + end) / 2, y + 24, name, 15, fill=RED if name == f"band {BAND}" else INK)


begin("Where the coefficients of a recording lie", f"N = {N}, M = {M}, two hops, B = {B} blocks")
label(150, "Coefficients", "of three blocks")
grid(150)
text(LEFT + 10 * WIDE, 230, f"A viewer reads band {BAND}:", 17, "start", RED)
text(LEFT + 10 * WIDE, 256, "coefficient 2 of every block.", 17, "start", RED)
label(480, "By block", "place b × M + k", "order 0 in C")
memory(450, bank.BY_BLOCK)
brackets(560, M, [f"block {b}" for b in range(B)])
label(740, "By frequency", "place k × B + b", "order 1 in C")
memory(710, bank.BY_FREQUENCY)
brackets(820, B, [f"band {k}" for k in range(M)])
text(LEFT, 940, "The calls over recordings fill and take either order, and give the same samples, pages and explanations from both.", 17, "start")
text(LEFT, 966, "reorder brings one into the other, without loss.", 17, "start")
write(sys.argv[1])
