"""Writes what crates/check_blocks must print: python3 vectors/blocks.py > crates/check_blocks/stdout"""
from functools import reduce

import halves
from bank import LENGTHS, LONG, ROUTES, SHORT, UNITS, K, analyse

ROOM = 220
SHOWN = 40
MARK = 12345
MOST, LEAST = 32767, -32768
SPANS = (32768, 4096, 100, 2)
LONG_JOINTS = (LONG, LONG)
SHORT_JOINTS = ((LONG, SHORT), (SHORT, LONG), (SHORT, SHORT))
# shapes above 1, and such that are 0 or 1 in 8, 16 or 31 bits
WRONG_JOINTS = ((2, 0), (0, 2), (2, 2), (2, 1), (1, 2), (256, 0), (0, 257), (65536, 1), (1, 65537), (2**31, 0), (0, 2**31 + 1), (2**32 - 1, 2**32 - 1))


def total(entries):
    """A running sum of 31 times the sum before and the entry, modulo 2^32."""
    return reduce(lambda h, v: (31 * h + 2 * abs(v) + (v < 0)) % 2**32, entries, 0)


def shown(entries):
    """The entries, or the length and the sum of many."""
    return entries if len(entries) <= SHOWN else [len(entries), total(entries)]


def put(x, i, v):
    return x[:i] + [v] + x[i + 1 :]


def each_route(N, joints, x, l, m):
    """Every route on the first l entries of x, between joints of two shapes, and a buffer of m marks."""
    answers = {route: analyse(route, N, *joints, x[:l], m) for route in ROUTES}
    for route, (number, out) in answers.items():
        assert out is None or all(abs(v - w) <= UNITS[route] for v, w in zip(out, answers["direct"][1]))
        fields = [N, *joints, l, number] + shown([MARK] * m if out is None else out)
        print(",".join([route] + [str(f) for f in fields]))


def block(N, joints, x):
    each_route(N, joints, x, N, N // 2)


def noise(seed, span):
    x = []
    for _ in range(ROOM):
        seed = (seed * 1664525 + 1013904223) % 2**32
        x.append((seed >> 16) % (2 * span) - span)
    return x


def driven(N, k, low, high):
    return [high if K(N, n, k) > 0 else low for n in range(N)]


def steadies(N, joints, low, high):
    for x in ([low], [high], [low, high], [high, low]):
        block(N, joints, x * (ROOM // len(x)))


def impulse(N, joints, n, low, high):
    for v in (low, high):
        block(N, joints, put([0] * ROOM, n, v))


def drives(N, joints, low, high):
    for k in range(N // 2):
        block(N, joints, driven(N, k, low, high))
        block(N, joints, driven(N, k, high, low))


def noises(N, joints, count):
    for b in range(count):
        block(N, joints, noise(100 * N + b, SPANS[b % 4]))


def two_values(N, low, high):
    steadies(N, LONG_JOINTS, low, high)
    for n in range(N):
        impulse(N, LONG_JOINTS, n, low, high)
    drives(N, LONG_JOINTS, low, high)


def shaped(N, joints):
    """A block that has a short joint. Its thirds are of R entries: zeros, the sine rise and ones, and their mirror."""
    R = N // 6
    steadies(N, joints, LEAST, MOST)
    for n in (0, R - 1, R, 2 * R - 1, 2 * R, 3 * R - 1):
        impulse(N, joints, n, LEAST, MOST)
        impulse(N, joints, N - 1 - n, LEAST, MOST)
    drives(N, joints, LEAST, MOST)
    noises(N, joints, 8)


def wrong_lengths(N, M, joints):
    x = noise(N, 32768)
    for l, m in ((N - 1, M), (N + 1, M), (N, M - 1), (N, M + 1), (N - 1, M - 1), (N + 1, M + 1)):
        each_route(N, joints, x, l, m)
    for l, m in ((0, 0), (0, M), (N, 0), (M, N), (M, M), (N, N)):
        each_route(N, joints, x, l, m)


def named(N):
    x = noise(5, 32768)
    for length in LENGTHS:
        each_route(N, LONG_JOINTS, x, length, length // 2)


def untabled(N, l, m):
    named(N)
    each_route(N, LONG_JOINTS, noise(6, 32768), l, m)
    each_route(N, LONG_JOINTS, noise(7, 32768), 0, 0)
    each_route(N, LONG_JOINTS, noise(8, 32768), 80, 80)
    each_route(N, (2, LONG), noise(6, 32768), l, m)
    each_route(N, (SHORT, 2), noise(7, 32768), 0, 0)


for N in LENGTHS:
    block(N, LONG_JOINTS, [0] * ROOM)
    two_values(N, LEAST, MOST)
    two_values(N, -1, 1)
    noises(N, LONG_JOINTS, 40)
    for joints in SHORT_JOINTS:
        shaped(N, joints)
    for joints in WRONG_JOINTS:
        block(N, joints, noise(9, 32768))
    for joints in (LONG_JOINTS, (SHORT, SHORT), (2, LONG), (SHORT, 2)):
        wrong_lengths(N, N // 2, joints)
    named(N)
for N, l, m in ((0, 1, 1), (11, 11, 5), (13, 13, 6), (48, 48, 24), (2**64 - 1, 80, 40), (107, 107, 53), (144, 144, 72), (217, 217, 108), (432, 216, 108)):
    untabled(N, l, m)
for N in LENGTHS:
    for _, (i, v, j, w) in halves.found(N):
        block(N, LONG_JOINTS, put(put([0] * ROOM, i, v), j, w))
