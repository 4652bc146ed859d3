"""P14 of document 02, numbers for the plotting desk, as plainly as it is written, over bank.py; it shares no code with the crates. A float is its 64-bit
pattern, a whole number.
Writes what crates/check_floats must print: python3 vectors/floats.py > crates/check_floats/stdout"""
from fractions import Fraction
from itertools import product
from struct import pack, unpack

from bank import COEFFICIENT_LIMIT, LENGTHS, beyond
from recordings import line

# Definitions. X is a block's M coefficients.


def value(pattern):
    """The exact value of the float that has this pattern."""
    return Fraction(*unpack("<d", pack("<Q", pattern))[0].as_integer_ratio())


def pattern(c):
    """The pattern of the float equal to c/64, +0.0 for 0: a sign, an exponent counted from -1023 on, and 52 bits behind the leading one."""
    if c == 0:
        return 0
    top = abs(c).bit_length() - 1
    # 2^top is the leading one of c, and 2^(top - 6) that of c/64
    found = ((c < 0) << 63) + ((top - 6 + 1023) << 52) + ((abs(c) - 2**top) << (52 - top))
    assert value(found) == Fraction(c, 64)
    return found


def highest_and_lowest(X):
    pair = pattern(max(X)), pattern(min(X))
    values = [value(pattern(c)) for c in X]
    highest, lowest = map(value, pair)
    assert highest in values and lowest in values and all(lowest <= v <= highest for v in values)
    return [*pair]


# The calls, as in bank.py.


def refusal(N, X, length, due):
    """The number for calls on a block whose output has this length, and should have the one that is due."""
    if N not in LENGTHS:
        return 1
    if len(X) != N // 2 or length != due:
        return 2
    return 3 if beyond(X) else 0


def floats(N, X, length):
    refused = refusal(N, X, length, N // 2)
    return refused, None if refused else [pattern(c) for c in X]


def highest_lowest(N, X, length):
    refused = refusal(N, X, length, 2)
    return refused, None if refused else highest_and_lowest(X)


# The cases of crates/check_floats. Every buffer holds 9.0 before a call.

MARK = pattern(9 * 64)
PRIME = 1000003
MOST, ABOVE = COEFFICIENT_LIMIT, COEFFICIENT_LIMIT + 1
KINDS = 8
ROOM = 108


def values():
    """About every power of two, at either sign."""
    powers = [z for e in range(30) for size in (2**e, 2**e - 1, 2**e + 1) for z in (size, -size)]
    for c in [0, 1, -1, *[z for z in powers if abs(z) <= MOST], MOST, -MOST]:
        line("value", c, pattern(c))


def block(kind, M):
    if kind < 3:
        return [(0, MOST, -MOST)[kind]] * M
    X = [(k * 7919 + 13) % PRIME - 500001 for k in range(M)]
    put = {3: (), 4: ((0, MOST), (M - 1, -MOST)), 5: ((M - 1, MOST), (0, -MOST)), 6: ((M // 2, ABOVE),), 7: ((0, -ABOVE),)}
    for k, c in put[kind]:
        X[k] = c
    return X


def by_value(number, pair):
    """The number, and the two patterns, 0 beside a refusal."""
    return number, *(pair or (0, 0))


def blocks():
    for N, kind in product(LENGTHS, range(KINDS)):
        M = N // 2
        X = block(kind, M)
        number, written = floats(N, X, M)
        found = sum((k + 1) * (b % PRIME) for k, b in enumerate(written or [MARK] * M)) % PRIME
        pair_number, pair = highest_lowest(N, X, 2)
        assert number == pair_number == (3 if kind >= 6 else 0)
        line("block", N, kind, number, found, *by_value(pair_number, pair))


def answered(number, written, length):
    """The number, and whether so many entries are all left as they were."""
    return number, int((written or [MARK] * length) == [MARK] * length)


def refusals():
    for n in (0, 1, 11, 12, 13, 24, 36, 72, 108, 144, 216, 217, 432):
        m = min(n // 2, ROOM)
        about = max(m - 1, 0), m, m + 1
        for lx, lo, lp, bad in product(about, about, (1, 2, 3), (0, 1)):
            X = [5] * lx
            if bad and X:
                X[-1] = ABOVE
            line("refused", n, lx, lo, lp, bad, *answered(*floats(n, X, lo), lo), *answered(*highest_lowest(n, X, lp), lp), *by_value(*highest_lowest(n, X, 2)))


def main():
    values()
    blocks()
    refusals()


if __name__ == "__main__":
    main()
