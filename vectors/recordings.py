"""The calls over recordings, in the orders of P10 of document 02 by their names, over bank.py.
Writes what crates/check_recordings must print: python3 vectors/recordings.py > crates/check_recordings/stdout"""
from functools import cache
from operator import mul

import bank
from bank import HOPS, LENGTHS, OFFERED, ROUTES, inner

SMALL = 330
SHOWN = 54
MARK = 12345
MOST, LEAST = 536870912, -536870912
ABOVE, BELOW = MOST + 1, LEAST - 1
ENDLESS = 2**64 - 1
BLOCK, FREQUENCY = "block", "frequency"
ORDERS = BLOCK, FREQUENCY
NUMBERS = {BLOCK: bank.BY_BLOCK, FREQUENCY: bank.BY_FREQUENCY}


def analyse_recording(route, order, N, H, x, length):
    return bank.analyse_recording(route, N, H, x, length, NUMBERS[order])


def synthesise_recording(order, N, H, X, length):
    return bank.synthesise_recording(N, H, X, length, NUMBERS[order])


def reorder(to, N, H, X, length):
    return bank.reorder(N, H, NUMBERS[to], X, length)


# What the program does.


@cache
def rows(N):
    """K(n,k), a list over k for each n."""
    return [[bank.K(N, n, k) for k in range(N // 2)] for n in range(N)]


@cache
def columns(N):
    """K(n,k), a list over n for each k."""
    return list(zip(*rows(N)))


def quick_S(N, y):
    return [sum(map(mul, y, column)) for column in columns(N)]


def quick_U(N, X):
    return [bank.rnd(sum(map(mul, X, row)), 2**26) for row in rows(N)]


def quicken():
    """Has bank's calls sum over lists: thousands of blocks then take a minute or two, not an hour."""
    # the last parts of the double route among them
    for N in (4, 8, *LENGTHS):
        block = noise(N, N, 32768)
        assert quick_S(N, block) == bank.S(N, block)
        assert quick_U(N, block[: N // 2]) == bank.U(N, block[: N // 2])
    bank.S, bank.U = quick_S, quick_U
    bank.L = cache(bank.L)


def line(word, *fields):
    print(",".join([word] + [str(f) for f in fields]))


def random(seed):
    while True:
        seed = (seed * 1664525 + 1013904223) % 2**32
        yield seed >> 16


def noise(count, seed, span):
    """Samples of -span .. span - 1. Of span 0 they are as loud as can be."""
    if span == 0:
        return [32767 if r % 2 else -32768 for r, _ in zip(random(seed), range(count))]
    return [r % (2 * span) - span for r, _ in zip(random(seed), range(count))]


def change(c, seed, span):
    return [v + r % (2 * span + 1) - span for r, v in zip(random(seed), c)]


@cache
def weights(count):
    """What each of so many entries counts in a running sum of 31 times the sum before and the entry, modulo 2^32."""
    powers = [1]
    while len(powers) < count:
        powers.append(powers[-1] * 31 % 2**32)
    return powers[::-1]


def shown(entries):
    """The entries, or the length and the sum of many."""
    if len(entries) <= SHOWN:
        return entries
    positive = [2 * v if v >= 0 else 1 - 2 * v for v in entries]
    return [len(entries), sum(map(mul, positive, weights(len(entries)))) % 2**32]


def analysed(route, order, N, H, x, out):
    number, written = analyse_recording(route, order, N, H, x, len(out))
    out = out if written is None else written
    line(route, order, N, H, len(x), number, *shown(out))
    return out


def synthesised(order, N, H, c, out):
    number, written = synthesise_recording(order, N, H, c, len(out))
    out = out if written is None else written
    line("synthesis", order, N, H, len(c), number, *shown(out))
    return out


def brought(to, N, H, c, out):
    number, written = reorder(to, N, H, c, len(out))
    out = out if written is None else written
    line("reorder", to, N, H, len(c), number, *shown(out))
    return out


def viewed(N, H, out):
    part = inner(N, H, out)
    line("inner", N, H, len(part), *shown(part))


def back(order, N, H, x, c):
    out = synthesised(order, N, H, c, [MARK] * len(x))
    part = inner(N, H, out)
    line("differ", sum(v != w for v, w in zip(part, x)) if len(part) == len(x) else len(x))
    viewed(N, H, out)
    return out


def recorded(route, N, H, x):
    """By block c, and by frequency d."""
    marks = [MARK] * ((H + 1) * (N // 2))
    c = analysed(route, BLOCK, N, H, x, marks)
    first = back(BLOCK, N, H, x, c)
    d = analysed(route, FREQUENCY, N, H, x, marks)
    assert back(FREQUENCY, N, H, x, d) == first
    little = change(c, 3, 7)
    d = brought(FREQUENCY, N, H, little, d)
    back(FREQUENCY, N, H, x, d)
    c = brought(BLOCK, N, H, d, change(little, 5, 32768))
    assert c == little or not 1 <= H <= HOPS
    d = change(d, 4, 5000)
    c = brought(BLOCK, N, H, d, c)
    back(BLOCK, N, H, x, c)
    d = d[:-1] + [ABOVE]
    c = brought(BLOCK, N, H, d, c)
    back(FREQUENCY, N, H, x, d)


def noisy(route, N, H, span):
    recorded(route, N, H, noise(H * (N // 2), N + H, span))


def clicked(route, N, H):
    """Silence but for a click in the first sample and one in the last."""
    recorded(route, N, H, [32767] + [0] * (H * (N // 2) - 2) + [-32768])


def put(at, v):
    c = change([0] * SMALL, 9, 30000)
    return c[:at] + [v] + c[at + 1 :]


def every(N, H, l, m):
    """Every call on l samples and m coefficients, these in range and with one that is not."""
    x = noise(l, 5, 32768)
    for order in ORDERS:
        for route in ROUTES:
            analysed(route, order, N, H, x, [MARK] * m)
        for v in (1, BELOW):
            synthesised(order, N, H, put(0, v)[:m], [MARK] * l)
    viewed(N, H, x)


def exchange(N, H, m, l):
    """From m coefficients, in range and with one that is not, to l in the other order."""
    for v in (1, BELOW):
        for to in ORDERS:
            brought(to, N, H, put(0, v)[:m], [MARK] * l)


def lengths(N, H, l, m):
    """Lengths that are one off, none, or one in place of the other; the stated ones last."""
    for a, b in ((l - 1, m), (l + 1, m), (0, m), (l, m - 1), (l, m + 1), (l, 0)):
        every(N, H, a, b)
    for a, b in ((l - 1, m - 1), (l + 1, m + 1), (0, 0), (m, l), (l, l), (m, m), (l, m)):
        every(N, H, a, b)
    for a, b in ((m - 1, m), (m + 1, m), (0, m), (m, m - 1), (m, m + 1), (m, 0), (m - 1, m - 1), (m + 1, m + 1), (0, 0), (m, m)):
        exchange(N, H, a, b)


def wrong_counts(N, M):
    for H in (0, HOPS + 1, 2**32 + 1, 2**63, 2**63 + 1, ENDLESS):
        for l, m in ((M, 2 * M), (0, M), (0, 0)):
            every(N, H, l, m)
        for m in (2 * M, 0):
            exchange(N, H, m, m)


def main():
    quicken()
    for N in LENGTHS:
        M = N // 2
        for route in [route for route in ROUTES if N in OFFERED[route]]:
            for H, span in ((1, 32768), (2, 32768), (3, 32768), (1, 1), (2, 100), (1, 0), (3, 0)):
                noisy(route, N, H, span)
            for H in (1, 2, 3, HOPS):
                clicked(route, N, H)
            for H in (HOPS, 0, HOPS + 1):
                noisy(route, N, H, 32768)
        for H in (1, 2):
            lengths(N, H, H * M, (H + 1) * M)
        wrong_counts(N, M)
        for v in (MOST, ABOVE, LEAST, BELOW, 2**31 - 1, -(2**31)):
            for at in (0, M - 1, M, 2 * M, 3 * M - 1, 3 * M):
                for order in ORDERS:
                    synthesised(order, N, 2, put(at, v)[: 3 * M], [MARK] * (2 * M))
                for to in ORDERS:
                    brought(to, N, 2, put(at, v)[: 3 * M], [MARK] * (3 * M))
    for N, M in ((0, 0), (11, 5), (48, 24), (ENDLESS, 36), (144, 72), (217, 108)):
        for length in LENGTHS:
            every(N, 2, length, 3 * (length // 2))
        lengths(N, 2, 2 * M + 1, 3 * M + 1)
        wrong_counts(N, M)


if __name__ == "__main__":
    main()
