"""Document 01, with P1, P2, P4 to P7, P10 and P12 of document 02, in exact whole numbers, as plainly as they are written: with steps.py, which has P8, shares.py,
which has P9, coarsest.py, which has P13, and floats.py, which has P14, the source of every stored output. It shares no table, folding or rounding with the crates."""
from fractions import Fraction
from functools import cache
from math import factorial, floor

LENGTHS = (12, 24, 36, 72, 108, 216)
# those at which the short route is offered, and those of the double route
SHORT_LENGTHS = (12, 24, 36, 72)
DOUBLE_LENGTHS = (36, 72)
STORAGE = 108
P = Fraction(3141592653589793, 10**15)


def rnd(a, b):
    """The nearest whole number to a/b, an exact half going away from zero: by size, with the sign of a."""
    size = (abs(a) + b // 2) // b
    return -size if a < 0 else size


def series(t):
    """C(t) for t = 0 to 216, by the cosine series through u^20/20!."""
    u = 2 * P * t / 864
    total = sum((-1) ** i * u ** (2 * i) / factorial(2 * i) for i in range(11))
    return floor(67108864 * total + Fraction(1, 2))


QUARTER = [series(t) for t in range(217)]


@cache
def C(t):
    t %= 864
    if t <= 216:
        return QUARTER[t]
    return -C(432 - t) if t <= 432 else C(864 - t)


def W(N, n):
    return C(216 // N * (N - 2 * n - 1))


# The shapes of a joint.
LONG, SHORT = 0, 1
SHAPES = (LONG, SHORT)


def rising(shape, N):
    """The M entries of the half that rises over a joint."""
    if shape == LONG:
        return [W(N, n) for n in range(N // 2)]
    R = N // 6
    # the sine of (2j + 1)/(8R) of a turn is the cosine of a quarter less that
    return [0] * R + [C(216 - 108 // R * (2 * j + 1)) for j in range(R)] + [2**26] * R


def falling(shape, N):
    """Its mirror."""
    return rising(shape, N)[::-1]


@cache
def window(N, left, right):
    """The N entries for a block, by the shapes of its left joint and its right one."""
    return rising(left, N) + falling(right, N)


def K(N, n, k):
    return C(216 // N * (2 * n + 1 + N // 2) * (2 * k + 1))


def L(N, n, k):
    return C(3 * (216 // N) * (2 * n + 1 + N // 6) * (2 * k + 1))


def clamp(z):
    return max(-32768, min(32767, z))


# Analysis. x is a block of N samples, y its N windowed samples.


def y(N, left, right, x):
    return [rnd(w * x[n], 2**18) for n, w in enumerate(window(N, left, right))]


def S(N, y):
    return [sum(y[n] * K(N, n, k) for n in range(N)) for k in range(N // 2)]


def direct(N, left, right, x):
    return [rnd(s, 2**28) for s in S(N, y(N, left, right, x))]


def split(N, y):
    """The three parts of N inputs, N/3 each: a - b + c, rB, and rC with its sign."""
    d, third = 216 // N, N // 3
    main, rB, rC = [], [], []
    for n in range(third):
        a, b, c = y[third - 1 - n], y[2 * third - 1 - n], y[N - 1 - n]
        e, f, s = 2 * c - a + b, a + b, 2 * d * (2 * n + 1)
        main.append(a - b + c)
        rB.append(rnd(e * C(216 - s) - f * (C(s - 72) + C(s + 72)), 2**26))
        rC.append(rnd(e * C(s) + f * (C(144 - s) + C(288 - s)), 2**26))
    signed = [-rC[n] if (n + N // 12) % 2 == 0 else rC[n] for n in range(third)]
    return main, rB, signed


def short(N, left, right, x):
    main, rB, signed = split(N, y(N, left, right, x))
    third, sixth = N // 3, N // 6
    A = [sum(L(N, n, k) * main[n] for n in range(third)) for k in range(sixth)]
    B = [sum(L(N, n, k) * rB[n] for n in range(third)) for k in range(sixth)]
    G = [sum(L(N, n, k) * signed[n] for n in range(third)) for k in range(sixth)]
    X = [0] * (N // 2)
    for k in range(sixth):
        D = G[sixth - 1 - k]
        X[3 * k] = rnd(B[k] + D, 2**29)
        X[3 * k + 1] = rnd(A[k], 2**28)
        X[3 * k + 2] = rnd(B[k] - D, 2**29)
    return X


def scaled(N, y):
    """What comes out of a part of N inputs: split while N divides by 12, each split doubling it, and else its own sums."""
    if N % 12:
        return S(N, y)
    A, B, G = (scaled(N // 3, part) for part in split(N, y))
    out = []
    for k in range(N // 6):
        D = G[N // 6 - 1 - k]
        out += [B[k] + D, 2 * A[k], B[k] - D]
    return out


def double(N, left, right, x):
    return [rnd(z, 2**30) for z in scaled(N, y(N, left, right, x))]


ROUTES = {"direct": direct, "short": short, "double": double}
OFFERED = {"direct": LENGTHS, "short": SHORT_LENGTHS, "double": DOUBLE_LENGTHS}
# how far from the direct coefficients those of a route may lie
UNITS = {"direct": 0, "short": 16, "double": 32}


# Synthesis. X is a block's M coefficients.


def U(N, X):
    return [rnd(sum(X[k] * K(N, n, k) for k in range(N // 2)), 2**26) for n in range(N)]


def V(N, left, right, X):
    return [w * u for w, u in zip(window(N, left, right), U(N, X))]


def next_hop(N, tail, left, right, X):
    """The hop and the new tail of M entries."""
    M, v = N // 2, V(N, left, right, X)
    return [clamp(rnd(tail[n] + v[n], N * 2**30)) for n in range(M)], v[M:]


# Whole recordings, at long joints. x is a recording's H × M samples.


def blocks(N, x):
    """Its H + 1 blocks. With a hop of zeros put before it and one after it, block b covers its hops b - 1 and b."""
    silence = [0] * (N // 2)
    padded = silence + x + silence
    return [padded[at : at + N] for at in range(0, len(x) + 1, N // 2)]


def analysed(N, x, route="direct"):
    """The coefficients of its blocks."""
    return [ROUTES[route](N, LONG, LONG, block) for block in blocks(N, x)]


def hops(N, spectra):
    """The hops that come back from the coefficients of its blocks, stepped from a fresh stream. The run-in, that of block 0, is dropped."""
    returned, tail = [], [0] * (N // 2)
    for X in spectra:
        hop, tail = next_hop(N, tail, LONG, LONG, X)
        returned.append(hop)
    return returned[1:]


# Orders in memory. X is the (H + 1) × M coefficients of a recording; spectra are its blocks, a list of M coefficients for each.

BY_BLOCK, BY_FREQUENCY = 0, 1
ORDERS = (BY_BLOCK, BY_FREQUENCY)


def laid(order, spectra):
    """The coefficients in this order: block after block, or coefficient k of all blocks after coefficient k - 1 of all of them."""
    return [c for row in (spectra if order == BY_BLOCK else zip(*spectra)) for c in row]


def place(order, N, H, b, k):
    """Where coefficient k of block b lies."""
    return b * (N // 2) + k if order == BY_BLOCK else k * (H + 1) + b


def spectra(order, N, H, X):
    """The blocks of what lies in this order."""
    return [[X[place(order, N, H, b, k)] for k in range(N // 2)] for b in range(H + 1)]


# Pages. X is the (H + 1) × M coefficients of a recording, by block.

LINE = 81


def page_length(N, H):
    return (H + 1) * (N // 12) * LINE


def page_lines(N, X):
    """The lines of a page: a block's number in 8 columns, blank but on its first line, and six coefficients in 12 each."""
    M = N // 2
    for at in range(0, len(X), 6):
        number = str(at // M) if at % M == 0 else ""
        yield number.rjust(8) + "".join(str(c).rjust(12) for c in X[at : at + 6]) + "\n"


# The calls. Each gives its number and what it writes; None: every buffer and stream is left as it was.
# A stream is N, the number of the block that it expects (2^32 for none), the shape of the left joint that it expects, and the STORAGE entries of its tail.
# A buffer that is only written stands as its length.

COEFFICIENT_LIMIT = 536870912
HOPS = 4095


def tail_limit(N):
    return N // 2 * 2**55


def beyond(X):
    return any(abs(c) > COEFFICIENT_LIMIT for c in X)


def analyse(route, N, left, right, x, length):
    if N not in OFFERED[route]:
        return 1, None
    if left not in SHAPES or right not in SHAPES:
        return 8, None
    if len(x) != N or length != N // 2:
        return 2, None
    return 0, ROUTES[route](N, left, right, x)


def fresh(N):
    if N not in LENGTHS:
        return 1, (0, 0, LONG, [0] * STORAGE)
    return 0, (N, 0, LONG, [0] * STORAGE)


def step(stream, b, left, right, X, length):
    """The number, the hop and the stream to go on with. X is offered as block b, with the shapes of its joints."""
    N, expected, shape, tail = stream
    if N not in LENGTHS or any(abs(t) > tail_limit(N) for t in tail[: N // 2]):
        return 4, None, stream
    # b has 32 bits: every b differs from an expected number beyond them, or below 0
    if b != expected:
        return 7, None, stream
    # so does every left shape from one beyond SHAPES
    if left not in SHAPES or right not in SHAPES or left != shape:
        return 8, None, stream
    if len(X) != N // 2 or length != N // 2:
        return 2, None, stream
    if beyond(X):
        return 3, None, stream
    hop, new = next_hop(N, tail, left, right, X)
    return 0, hop, (N, expected + 1, right, new + tail[N // 2 :])


def counted(H, order):
    """An order that is none is answered as a number of hops that is none."""
    return 1 <= H <= HOPS and order in ORDERS


def analyse_recording(route, N, H, x, length, order=BY_BLOCK):
    if N not in OFFERED[route]:
        return 1, None
    M = N // 2
    if not counted(H, order) or len(x) != H * M or length != (H + 1) * M:
        return 2, None
    return 0, laid(order, analysed(N, x, route))


def recording_refusal(N, H, order, lists, rest_kept):
    """The number for calls on the coefficients of a recording, each list of which has as many; rest_kept: all else that is 2 is as it should be."""
    if N not in LENGTHS:
        return 1
    if not counted(H, order) or any(len(X) != (H + 1) * (N // 2) for X in lists) or not rest_kept:
        return 2
    return 3 if any(beyond(X) for X in lists) else 0


def synthesise_recording(N, H, X, length, order=BY_BLOCK):
    if refused := recording_refusal(N, H, order, [X], length == H * (N // 2)):
        return refused, None
    return 0, [s for hop in hops(N, spectra(order, N, H, X)) for s in hop]


def page(N, H, X, length, order=BY_BLOCK):
    """The number and the page's bytes."""
    if refused := recording_refusal(N, H, order, [X], length == page_length(N, H)):
        return refused, None
    return 0, "".join(page_lines(N, laid(BY_BLOCK, spectra(order, N, H, X)))).encode()


def reorder(N, H, to, X, length):
    """The coefficients in the order `to`, from the other one."""
    if refused := recording_refusal(N, H, to, [X], length == (H + 1) * (N // 2)):
        return refused, None
    return 0, laid(to, spectra(BY_BLOCK + BY_FREQUENCY - to, N, H, X))


def inner(N, H, out):
    """The part of out, which lies at its start: the whole of it, or the empty one."""
    if N not in LENGTHS or not 1 <= H <= HOPS or len(out) != H * (N // 2):
        return []
    return out


# The calls over a state, in place and of include/dapplescree.h: N, the expected number, the expected shape and then the tail. A state is returned as it
# then stands.

STATE = 3 + STORAGE


def state_of(stream):
    N, expected, shape, tail = stream
    return [N, expected, shape] + tail


def stream_fresh(N, state):
    number, stream = fresh(N)
    if number:
        return number, state
    if len(state) != STATE:
        return 2, state
    return 0, state_of(stream)


def stream_step(state, b, left, right, X, length):
    if len(state) != STATE:
        return 2, None, state
    number, hop, stream = step((*state[:3], state[3:]), b, left, right, X, length)
    return number, hop, state_of(stream)


# The listing program.


def number(field):
    """The number that a field writes, or None where it is not of the form."""
    digits = field.removeprefix(b"-")
    if not 1 <= len(digits) <= 5 or any(c not in b"0123456789" for c in digits):
        return None
    if digits[:1] == b"0" and field != b"0":
        return None
    return int(field)


def listing_verdict(data):
    """The number and the line, counted from 1, that turns a listing away; the line is 0 for its size. 0 and 0 where it is taken."""
    if len(data) > 65536:
        return 6, 0
    *lines, rest = data.split(b"\n")
    if not lines:
        return 5, 1
    N = number(lines[0])
    if N is None:
        return 5, 1
    if N not in LENGTHS:
        return 1, 1
    for at, line in enumerate(lines[1:], 2):
        hop = [number(field) for field in line.split(b",")]
        if len(hop) != N // 2 or any(s is None or not -32768 <= s <= 32767 for s in hop):
            return 5, at
    return (5, len(lines) + 1) if rest else (0, 0)


def listed(data):
    """N and the samples of a listing that is taken."""
    first, *lines = data.split(b"\n")[:-1]
    return number(first), [number(field) for line in lines for field in line.split(b",")]


def refusal_line(number, line):
    return b"refused,%d,%d\n" % (number, line)


def listing(data):
    """What round-trip prints for the bytes of its standard input."""
    refused, at = listing_verdict(data)
    if refused:
        return refusal_line(refused, at)
    N, samples = listed(data)
    rows = [["hop"] + [f"s{n}" for n in range(N // 2)]]
    rows += [[h] + hop for h, hop in enumerate(hops(N, analysed(N, samples)))]
    return "".join(",".join(str(f) for f in row) + "\n" for row in rows).encode()
