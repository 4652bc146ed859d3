"""Writes what crates/check_values must print: python3 vectors/values.py > crates/check_values/stdout"""
from bank import LENGTHS, SHAPES, SHORT_LENGTHS, C, K, L, W, clamp, falling, rising, rnd



def ends(N):
    """Halves of N × 2^30, one beside them, and the ends of a sum at N."""
    h = N * 2**29
    return [h - 1, h, h + 1, -h - 1, -h, -h + 1, N * 2**55, -N * 2**55]


# sums around zero, halves of either sign of every divisor, one beside them, and the ends of a sum; those of P4's lengths last, so that the others keep their places
SUMS = [0, 1, -1]
for k in (18, 26, 28, 29):
    h = 2 ** (k - 1)
    SUMS += [h - 1, h, h + 1, -h - 1, -h, -h + 1, 3 * h, -3 * h]
SUMS += [a for N in LENGTHS[:4] for a in ends(N)]
SUMS += [32767, 32768, -32768, -32769, 1234567890123456789, -1234567890123456789]
SUMS += [a for N in LENGTHS[4:] for a in ends(N)]
SUMS = list(dict.fromkeys(SUMS))


def line(word, *fields):
    print(",".join([word] + [str(f) for f in fields]))


line("", *LENGTHS)
for k in (18, 26, 28, 29):
    for a in SUMS:
        if abs(a) <= 2**62:
            line("shift", k, a, rnd(a, 2**k))
for i, a in enumerate(SUMS):
    if abs(a) <= 2**25:
        line("clamp", i, a, clamp(a))
for t in range(1800):
    line("C", t, C(t))
for N in LENGTHS:
    for a in [a for a in SUMS if abs(a) <= N * 2**55]:
        line("scale", N, a, clamp(rnd(a, N * 2**30)))
    line("W", *[W(N, n) for n in range(N)])
    for shape in SHAPES:
        line("rise", shape, *rising(shape, N))
        line("fall", shape, *falling(shape, N))
    for n in range(N):
        line("K", *[K(N, n, k) for k in range(N // 2)])
    if N in SHORT_LENGTHS:
        for n in range(N // 3):
            line("L", *[L(N, n, k) for k in range(N // 6)])
