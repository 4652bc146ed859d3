"""How far the coefficients of the short and of the double route lie from the defined ones, in units of 1/64: python3 vectors/deviation.py
Before the last rounding a coefficient is off by the roundings of rB and rC, each by 1/2 at most times its weight, and by what the tables are off; with
the worst signs and the loudest samples that is a bound for every block and every pair of shapes. A search shows how near blocks come to it."""
import random
from fractions import Fraction
from itertools import product

import bank
from bank import DOUBLE_LENGTHS, SHAPES, SHORT_LENGTHS, C, K, rnd, split, window, y
from recordings import quicken

CLIMBS, MOVES, BLOCKS = 10, 8000, 2000


def places(N, n):
    return N // 3 - 1 - n, 2 * N // 3 - 1 - n, N - 1 - n


def turned(N, n):
    """What a, b and c are multiplied by in the three parts, unrounded."""
    s, sign = 2 * (216 // N) * (2 * n + 1), -1 if (n + N // 12) % 2 == 0 else 1
    by_e_and_f = (C(216 - s), -(C(s - 72) + C(s + 72))), (sign * C(s), sign * (C(144 - s) + C(288 - s)))
    return [(1, -1, 1)] + [(Fraction(q - p, 2**26), Fraction(p + q, 2**26), Fraction(2 * p, 2**26)) for p, q in by_e_and_f]


def linear(N, splits):
    """For each number that comes out of a part of N inputs after so many splits: what each input counts in it without rounding, and the weights of the
    roundings, by size."""
    if splits == 0:
        return [([K(N, n, k) for n in range(N)], []) for k in range(N // 2)]
    inner, parts = linear(N // 3, splits - 1), [[], [], []]
    for part, (row, weights) in product(range(3), inner):
        whole = [0] * N
        for n, v in enumerate(row):
            for place, w in zip(places(N, n), turned(N, n)[part]):
                whole[place] = v * w
        # a - b + c is not rounded
        parts[part].append((whole, weights + [abs(v) for v in row if part > 0]))
    out, (A, B, G) = [], parts
    for (main, main_weights), (b, b_weights), (d, d_weights) in zip(A, B, G[::-1]):
        out.append(([v + w for v, w in zip(b, d)], b_weights + d_weights))
        out.append(([2 * v for v in main], [2 * v for v in main_weights]))
        out.append(([v - w for v, w in zip(b, d)], b_weights + d_weights))
    return out


def bound(N, splits):
    """The most that a coefficient is off before the last rounding."""
    scale, most = 2**splits, 0
    windows = [window(N, *shapes) for shapes in product(SHAPES, SHAPES)]
    loudest = [rnd(32768 * max(entries), 2**18) for entries in zip(*windows)]
    for k, (row, weights) in enumerate(linear(N, splits)):
        tables = sum(abs(v - scale * K(N, n, k)) * loudest[n] for n, v in enumerate(row))
        most = max(most, tables + Fraction(sum(weights), 2))
    return most / (2**28 * scale)


def unrounded(N, splits, inputs):
    """The same numbers with rB and rC rounded, as a route has them."""
    if splits == 0:
        return bank.S(N, inputs)
    A, B, G = (unrounded(N // 3, splits - 1, part) for part in split(N, inputs))
    return [z for a, b, d in zip(A, B, G[::-1]) for z in (b + d, 2 * a, b - d)]


def off(N, splits, shapes, x):
    """Of each coefficient, how far it is off before the last rounding, and after it."""
    inputs, b = y(N, *shapes, x), 2 ** (28 + splits)
    pairs = list(zip(unrounded(N, splits, inputs), bank.S(N, inputs)))
    return [(abs(z / b - s / 2**28), abs(rnd(z, b) - rnd(s, 2**28))) for z, s in pairs]


def climb(N, splits, rng, k):
    """Changes one sample at a time and keeps what is no worse for coefficient k."""
    x = [rng.choice((-32768, 32767)) if rng.randrange(2) else rng.randint(-32768, 32767) for _ in range(N)]
    best = off(N, splits, (0, 0), x)[k]
    most = best[1]
    for _ in range(MOVES):
        n, near = rng.randrange(N), rng.choice((32, 65535))
        changed = x[:n] + [max(-32768, min(32767, x[n] + rng.randint(-near, near)))] + x[n + 1 :]
        now = off(N, splits, (0, 0), changed)[k]
        most = max(most, now[1])
        if now[0] >= best[0]:
            x, best = changed, now
    return best[0], most


def blocks(N, rng):
    """Random and loud blocks, and impulses."""
    for b in range(BLOCKS):
        yield [rng.choice((-32768, 32767)) if b % 2 else rng.randint(-32768, 32767) for _ in range(N)]
    for n, size in product(range(N), (-32768, 32767, 1, -1, 12345)):
        yield [size if i == n else 0 for i in range(N)]


if __name__ == "__main__":
    quicken()
    print("| route | before the last rounding, at most | found by climbing | after it, at most | found by climbing | by random, loud and lone samples |")
    print("|---|---:|---:|---:|---:|---:|")
    for N, splits in [(N, 1) for N in SHORT_LENGTHS] + [(N, 2) for N in DOUBLE_LENGTHS]:
        rng, most = random.Random(N), bound(N, splits)
        met = max(units for x in blocks(N, rng) for shapes in product(SHAPES, SHAPES) for _, units in off(N, splits, shapes, x))
        found = [climb(N, splits, rng, rng.randrange(N // 2)) for _ in range(CLIMBS)]
        assert max(size for size, _ in found) <= most and max(units for _, units in found) <= int(most + 1)
        name = f"{'short' if splits == 1 else 'double'}, N = {N}"
        print(f"| {name} | {float(most):.2f} | {max(s for s, _ in found):.2f} | {int(most + 1)} | {max(u for _, u in found)} | {met} |")
