"""Writes what crates/check_page must print: python3 vectors/page.py > crates/check_page/stdout
Each page that is taken is read back from its columns and held to the coefficients that were handed in."""
import sys
from functools import reduce

from bank import BY_BLOCK, COEFFICIENT_LIMIT, HOPS, LENGTHS, OFFERED, laid, page, page_length, spectra
from recordings import NUMBERS, ORDERS, analyse_recording

SMALL = 440
LONG = 24582
SHOWN = 972
MARK = b"."
COEFFICIENT_MARK = 12345
MOST, LEAST = 536870912, -536870912
ABOVE, BELOW = MOST + 1, LEAST - 1
ENDLESS = 2**64 - 1
KINDS = ("zero", "loud", "wide", "tens")
TENS = [s * (10**d - e) for d in range(9) for e in (0, 1) for s in (1, -1)]
printed_tens = set()


def out(data):
    sys.stdout.buffer.write(data)


def total(data):
    return reduce(lambda h, b: (h * 31 + b) % 4294967291, data, 0)


def random(seed):
    while True:
        seed = (seed * 1664525 + 1013904223) % 2**32
        yield seed


def read(columns):
    """The number that stands at the right end of its columns, in the shortest form, or None for blanks."""
    text = columns.decode().lstrip(" ")
    if not text:
        return None
    assert str(int(text)) == text
    return int(text)


def read_page(N, data):
    """The coefficients of a page, read line by line from their columns. Every first line of a block bears its number, and no other line bears one."""
    coefficients = []
    for at in range(0, len(data), 81):
        line, (block, part) = data[at : at + 81], divmod(at // 81, N // 12)
        assert len(line) == 81 and line.endswith(b"\n") and line.count(b"\n") == 1
        assert read(line[:8]) == (None if part else block)
        coefficients += [read(line[c : c + 12]) for c in range(8, 80, 12)]
        assert all(line[c : c + 2] == b"  " for c in range(8, 80, 12))
    return coefficients


def printed_one(order, N, H, x, length):
    """The page of what lies in an order."""
    number, data = page(N, H, x, length, NUMBERS[order])
    if number == 0:
        assert read_page(N, data) == laid(BY_BLOCK, spectra(NUMBERS[order], N, H, x)) and len(data) == length
    buffer = MARK * length if data is None else data
    out(b"page,%s,%d,%d,%d,%d,%d,%d\n" % (order.encode(), N, H, len(x), number, length, total(buffer)))
    if number == 0:
        out(data if length <= SHOWN else data[-243:])
    return data


def printed(N, H, x, length):
    """The same numbers taken in one order and in the other: two pages."""
    for order in ORDERS:
        printed_one(order, N, H, x, length)


def made(kind, r):
    if kind == "zero":
        return 0
    if kind == "loud":
        return MOST if r >> 16 & 1 else LEAST
    if kind == "wide":
        return r % (2 * COEFFICIENT_LIMIT + 1) - COEFFICIENT_LIMIT
    p = 10 ** (r // 65536 % 9)
    return (-p, 1 - p, p - 1, p)[r // 589824 % 4]


def fill(kind, seed, count):
    return [made(kind, r) for r, _ in zip(random(seed), range(count))]


def noise(seed, span, count):
    """Samples of -span .. span - 1. Of span 0 they are as loud as can be."""
    high = [r >> 16 for r, _ in zip(random(seed), range(count))]
    return [r % (2 * span) - span if span else 32767 if r % 2 else -32768 for r in high]


def pages(N, H):
    M, length = N // 2, page_length(N, H)
    for kind in KINDS:
        x = fill(kind, N + H, (H + 1) * M)
        printed_tens.update(x if kind == "tens" else [])
        printed(N, H, x, length)
    silence, sound, loudest = [0] * (H * M), noise(N + H, 32768, H * M), noise(N + H, 0, H * M)
    for route, samples in (("direct", silence), ("direct", sound), ("direct", loudest), ("short", loudest)):
        found = []
        for order in ORDERS:
            number, x = analyse_recording(route, order, N, H, samples, (H + 1) * M)
            assert number == (0 if N in OFFERED[route] else 1)
            found.append(printed_one(order, N, H, [COEFFICIENT_MARK] * ((H + 1) * M) if x is None else x, length))
        # the same page from either order
        assert found[0] == found[1]


def put(at, v, count):
    x = fill("wide", 9, SMALL)
    x[at] = v
    return x[:count]


def every(N, H, l, p):
    """Coefficients in their range, and with the first beyond it."""
    for v in (1, BELOW):
        printed(N, H, put(0, v, l), p)


def lengths(N, H, l, p):
    """Lengths that are one off, none, or of another line or block; the stated ones last."""
    for a, b in ((l - 1, p), (l + 1, p), (0, p), (l, p - 1), (l, p + 1), (l, 0)):
        every(N, H, a, b)
    for a, b in ((l - 6, p - 81), (l + 6, p + 81), (l, p - 81), (l, p + 81), (0, 0), (l, p)):
        every(N, H, a, b)


def wrong_counts(N, M, w):
    for H in (0, HOPS + 1, 2**32 + 1, 2**63, 2**63 + 1, ENDLESS):
        for l, p in ((2 * M, 162 * w), (M, 81 * w), (0, 0)):
            every(N, H, l, p)


def long(N, H, at, v):
    x = fill("wide", 3, LONG)
    x[at] = v
    printed(N, H, x[: (H + 1) * (N // 2)], page_length(N, H))


for N in LENGTHS:
    M, w = N // 2, N // 12
    for H in (1, 2, 3):
        pages(N, H)
    for H in (1, 2):
        lengths(N, H, (H + 1) * M, (H + 1) * w * 81)
    wrong_counts(N, M, w)
    for v in (MOST, ABOVE, LEAST, BELOW, 2**31 - 1, -(2**31)):
        for at in (0, M - 1, M, 2 * M - 1, 2 * M):
            printed(N, 1, put(at, v, 2 * M), 162 * w)
for N, M, w in ((0, 0, 0), (11, 5, 0), (48, 24, 4), (ENDLESS, 36, 6), (144, 72, 12), (217, 108, 18)):
    for length in LENGTHS:
        every(N, 1, length, length // 12 * 162)
    lengths(N, 1, 2 * M + 6, 162 * w + 81)
    wrong_counts(N, M, w)
for H, at, v in ((HOPS, 24575, 7), (HOPS, 24575, ABOVE), (HOPS, 24576, ABOVE), (HOPS + 1, 24581, 7)):
    long(12, H, at, v)
for N, H in ((108, 454), (216, 226)):
    long(N, H, 0, 7)
assert printed_tens == set(TENS)
