"""Finds blocks that meet an exact half below zero, stage by stage, and coefficients that do: python3 vectors/halves.py. Random blocks hardly ever meet one.
A block has the sample v at place i, w at place j, and zeros elsewhere; its coefficients differ from those of the rule before P5, by which a half went up.
What is found stands in blocks.py and stream.py, and in the programs that they are for."""
import bank
from bank import DOUBLE_LENGTHS, LENGTHS, LONG, ROUTES, SHORT_LENGTHS, C, K, L, W, rnd

SAMPLES = range(-32768, 32768)


def upward(a, b):
    """The rule before P5."""
    return (2 * a + b) // (2 * b)


def by_the_rule_before(call, *arguments):
    bank.rnd = upward
    try:
        return call(*arguments)
    finally:
        bank.rnd = rnd


def shows(route, N, i, v, j, w):
    x = [0] * N
    x[i], x[j] = v, w
    call = ROUTES[route], N, LONG, LONG, x
    return call[0](*call[1:]) != by_the_rule_before(*call)


def windowed(N, i):
    """y at place i by its sample."""
    return {v: rnd(W(N, i) * v, 2**18) for v in SAMPLES}


def pairs(first, second, b):
    """v and w whose numbers together make an exact half by b, below zero."""
    by_rest = {}
    for v, z in first.items():
        by_rest.setdefault(z % b, v)
    for w, z in second.items():
        v = by_rest.get((b // 2 - z) % b)
        if v is not None and first[v] + z < 0:
            yield v, w


def in_y(N):
    for i in range(N):
        for v in SAMPLES:
            if v < 0 and W(N, i) * v % 2**18 == 2**17:
                for w in range(1, 200):
                    yield i, v, (i + 1) % N, w


def in_X(N, places):
    for k in places:
        for j in range(N):
            for i in range(j):
                first, second = ({v: y * K(N, at, k) for v, y in windowed(N, at).items()} for at in (i, j))
                for v, w in pairs(first, second, 2**28):
                    yield i, v, j, w


def turn(N, n, a, b, c):
    """What rB(n) and rC(n) round."""
    e, f, s = 2 * c - a + b, a + b, 2 * (216 // N) * (2 * n + 1)
    return e * C(216 - s) - f * (C(s - 72) + C(s + 72)), e * C(s) + f * (C(144 - s) + C(288 - s))


def in_turn(N, which):
    """rB for 0, rC for 1, at n = 0: samples at the places of a and of c."""
    i, j = N // 3 - 1, N - 1
    first = {v: turn(N, 0, y, 0, 0)[which] for v, y in windowed(N, i).items()}
    second = {w: turn(N, 0, 0, 0, y)[which] for w, y in windowed(N, j).items()}
    for v, w in pairs(first, second, 2**26):
        yield i, v, j, w


def lone(N, at, y):
    """Of a part with the input y at one place and zeros elsewhere: where its three parts have an input, and a - b + c, rB, and rC with its sign there."""
    third = N // 3
    n = third - 1 - at % third
    a, b, c = (y if at // third == which else 0 for which in range(3))
    rB, rC = (rnd(z, 2**26) for z in turn(N, n, a, b, c))
    return n, (a - b + c, rB, -rC if (n + N // 12) % 2 == 0 else rC)


def in_last(N, sign):
    """B(k) + D(k) for 1, B(k) - D(k) for -1: samples at two places of a, b or c that share no rounding."""
    third = N // 3

    def part(at, y, k):
        n, (_, rB, signed) = lone(N, at, y)
        return L(N, n, k) * rB + sign * L(N, n, N // 6 - 1 - k) * signed

    for k in range(N // 6):
        for i in range(1, third):
            for j in range(i):
                first, second = ({v: part(at, y, k) for v, y in windowed(N, at).items()} for at in (i, j))
                for v, w in pairs(first, second, 2**29):
                    yield i, v, j, w


def in_second_turn(N, part, which):
    """rB for 0, rC for 1, at n = 0 of the split of a part: samples at the places of its a and its c, one in the block's a and one in its c."""
    third = N // 3
    i, j = third - third // 3, 2 * third
    first = {v: turn(third, 0, lone(N, i, y)[1][part], 0, 0)[which] for v, y in windowed(N, i).items()}
    second = {w: turn(third, 0, 0, 0, lone(N, j, y)[1][part])[which] for w, y in windowed(N, j).items()}
    for v, w in pairs(first, second, 2**26):
        yield i, v, j, w


def scaled(N, at, y, k):
    """What comes out at k, by the double route, of a part with the input y at one place and zeros elsewhere."""
    if N % 12:
        return y * K(N, at, k)
    n, (main, rB, signed) = lone(N, at, y)
    if k % 3 == 1:
        return 2 * scaled(N // 3, n, main, k // 3)
    B, D = scaled(N // 3, n, rB, k // 3), scaled(N // 3, n, signed, N // 6 - 1 - k // 3)
    return B + D if k % 3 == 0 else B - D


def in_out(N, rest):
    """What the double route rounds to coefficient 3k + rest: samples at two places that share no rounding."""
    for k in range(rest, N // 2, 3):
        for j in range(N):
            for i in range(j):
                if (i - j) % (N // 9):
                    first, second = ({v: scaled(N, at, y, k) for v, y in windowed(N, at).items()} for at in (i, j))
                    for v, w in pairs(first, second, 2**30):
                        yield i, v, j, w


def found(N):
    """By stage, a block that meets its half."""
    stages = [("y", "direct", in_y(N)), ("X", "direct", in_X(N, range(N // 2)))]
    if N in SHORT_LENGTHS:
        # A(k) is what X(3k + 1) rounds
        stages += [("A", "short", in_X(N, range(1, N // 2, 3))), ("rB", "short", in_turn(N, 0)), ("rC", "short", in_turn(N, 1)), ("B + D", "short", in_last(N, 1)), ("B - D", "short", in_last(N, -1))]
    if N in DOUBLE_LENGTHS:
        for part, name in enumerate(("a - b + c", "rB", "rC")):
            stages += [(f"rB of {name}", "double", in_second_turn(N, part, 0)), (f"rC of {name}", "double", in_second_turn(N, part, 1))]
        stages += [(f"X(3k + {rest})", "double", in_out(N, rest)) for rest in range(3)]
    return [(stage, next(c for c in candidates if shows(route, N, *c))) for stage, route, candidates in stages]


def in_U(N):
    """What coefficient 0 is so that its product makes a half at place M of the block, which the tail shows, above zero or below."""
    z = K(N, N // 2, 0)
    return 2**25 // (z & -z)


if __name__ == "__main__":
    for N in LENGTHS:
        for stage, block in found(N):
            print(N, stage, *block)
        print(N, "U", in_U(N))
