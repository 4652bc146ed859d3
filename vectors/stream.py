"""Writes what crates/check_stream must print: python3 vectors/stream.py > crates/check_stream/stdout"""
from functools import reduce

import halves
from bank import LENGTHS, LONG, SHAPES, SHORT, STATE, STORAGE, UNITS, K, analyse, fresh, next_hop, state_of, step, stream_fresh, stream_step, tail_limit, window
from played import route_of, sound

ROOM = 112
SHOWN = 40
SHOWN_TAIL = 18
MARK = 12345
MOST, LEAST = 536870912, -536870912
ABOVE, BELOW = MOST + 1, LEAST - 1
EVEN, ODD, EVERY = 1, 2, 3
SPANS = (1048576, 6000000, 5000, MOST)
# an entry of a tail that is heard in the samples
HEARD = 2**40
# the last number of a block, and the one that forged streams expect
LAST = 2**32 - 1
FORGED = 5
# numbers of blocks in the order in which they are offered
ORDERED = tuple(range(16))
SHUFFLED = (3, 1, 0, 2, 0, 3, 1, 2, 3)
REPEATED = (0, 0, 1, 1, 0, 2)
LATE = (1, 2, 0, 2, 1, 2)
MISSING = (0, 2, 3, 2)
AROUND_LAST = (LAST - 1, 0, LAST, 0, LAST)
AROUND_MIDDLE = (2**31, 2**31 - 1, 2**31)
# the shapes of the joints before blocks 0 to 16, of which the last is again the first: each of the SPANS meets each pair of shapes
JOINTS = (0, 1, 1, 0, 0, 0, 1, 1, 1, 1, 0, 0, 1, 0, 0, 1, 0)
# blocks that are played back, and the spans of their samples, 0 for the loudest
PLAYED = 48
SOUND_SPANS = (32768, 0, 100, 2)


def line(word, *fields):
    print(",".join([word] + [str(f) for f in fields]))


def total(entries):
    """A running sum of 31 times the sum before and the entry, modulo 2^32."""
    return reduce(lambda h, v: (31 * h + 961 * (abs(v) >> 32) + 2 * abs(v) + (v < 0)) % 2**32, entries, 0)


def shown(entries):
    """The entries, or the length and the sum of many."""
    return entries if len(entries) <= SHOWN else [len(entries), total(entries)]


def show_stream(word, state):
    line(word, *state[: 3 + SHOWN_TAIL], total(state[3 + SHOWN_TAIL :]))


def show_out(number, hop, l):
    line("out", number, *shown([MARK] * l if hop is None else hop))


def offer_as(stream, b, left, right, x, m, l):
    """A step on the first m entries of x and a buffer of l marks, as block b between joints of these shapes, and the stream to go on with."""
    number, hop, stream = step(stream, b, left, right, x[:m], l)
    show_out(number, hop, l)
    show_stream("stream", state_of(stream))
    return stream


def offer_to(stream, right, x, m, l):
    """The same as the block and behind the joint that the stream expects."""
    return offer_as(stream, stream[1], stream[2], right, x, m, l)


def offer(stream, x, m, l):
    return offer_to(stream, LONG, x, m, l)


def offer_in_place(state, b, left, right, x, m, l):
    number, hop, state = stream_step(state, b, left, right, x[:m], l)
    show_out(number, hop, l)
    show_stream("state", state)
    return state


def noise(seed, span):
    x = []
    for _ in range(ROOM):
        seed = (seed * 1664525 + 1013904223) % 2**32
        x.append(seed % (2 * span + 1) - span)
    return x


def loud(signs):
    return [LEAST if signs >> k % 2 & 1 else MOST for k in range(ROOM)]


def put(x, k, v):
    return x[:k] + [v] + x[k + 1 :]


def made(N):
    number, stream = fresh(N)
    line("fresh", N, number)
    show_stream("stream", state_of(stream))


def made_in_place(N, *sizes):
    for size in sizes:
        number, state = stream_fresh(N, [7] * size)
        line("fresh", N, number)
        show_stream("state", state)


def other(shape):
    return SHORT if shape == LONG else LONG


def damaged(left, right, x, M, kind):
    """What a refused step is handed: the shapes of its joints, a block, how many entries of it, and how many marks."""
    return (
        (left, right, x, M - 1, M),
        (left, right, x, M, M + 1),
        (left, right, put(x, M - 1, ABOVE), M, M),
        (left, right, put(x, 0, BELOW), M, M - 1),
        (other(left), right, x, M, M),
        (2, right, x, M, M),
        (left, 2, x, M, M),
        (left, 2**32 - 1, x, M, M),
    )[kind]


def refused_as(stream, b, left, right, x, M, kind):
    return offer_as(stream, b, *damaged(left, right, x, M, kind))


def refused(stream, x, M, kind):
    return refused_as(stream, stream[1], stream[2], LONG, x, M, kind)


def joints(b):
    """The shapes of the joints of block b."""
    return JOINTS[b % 16], JOINTS[b % 16 + 1]


def long(N, M):
    stream = refused(fresh(N)[1], loud(0), M, 2)
    for b in range(12):
        x = noise(100 * N + b, SPANS[b % 4])
        stream = offer_to(stream, joints(b)[1], x, M, M)
        stream = refused(stream, x, M, b % 8)


def block(N, b):
    return noise(200 * N + b % 100, SPANS[b % 4])


def beside(stream, M, order):
    """Blocks by their numbers, in place, a damaged one before each of them, and by value."""
    N, state = stream[0], state_of(stream)
    for i, b in enumerate(order):
        x = block(N, b)
        state = offer_in_place(state, b, *damaged(*joints(b), x, M, (i + i // 8) % 8))
        state = offer_in_place(state, b, *joints(b), x, M, M)
        stream = offer_as(stream, b, *joints(b), x, M, M)
        assert state == state_of(stream)


def in_order(N, M, order):
    """What P6 says of a fresh stream: it takes blocks 0, 1, 2 .., refuses the others with 7, and returns the hops of those that it took."""
    stream, tail, taken = fresh(N)[1], [0] * M, 0
    for b in order:
        x = block(N, b)[:M]
        number, hop, stream = step(stream, b, *joints(b), x, M)
        if b == taken:
            expected, tail = next_hop(N, tail, *joints(b), x)
            taken += 1
            assert (number, hop) == (0, expected)
        else:
            assert number == 7


def orders(N, M):
    for order in (ORDERED, SHUFFLED, REPEATED, LATE, MISSING):
        in_order(N, M, order)
        beside(fresh(N)[1], M, order)
    for expected, order in ((LAST, AROUND_LAST), (2**31 - 1, AROUND_MIDDLE)):
        beside(alike(N, expected, joints(expected)[0], 0), M, order)


def played(N, M):
    """Blocks analysed and played back, each after one that has the other left shape: what P7 says of any mixture, with P12's distance."""
    stream = fresh(N)[1]
    for b in range(PLAYED):
        hop = sound(N, b, SOUND_SPANS)
        number, X = analyse(route_of(N, b), N, *joints(b), hop + sound(N, b + 1, SOUND_SPANS), M)
        left, right = joints(b)
        wrong = step(stream, b, other(left), right, X, M)
        assert wrong == (8, None, stream)
        taken, returned, stream = step(stream, b, left, right, X, M)
        line("back", N, b, left, right, number, wrong[0], taken, sum(v != w for v, w in zip(hop, returned)))
        units = max(UNITS[route_of(N, b)], UNITS[route_of(N, max(b - 1, 0))])
        assert b == 0 or all(abs(v - w) <= (units + 8) // 16 for v, w in zip(hop, returned))


def unexpected(N, M):
    x = noise(13, 1000000)
    stream = offer(fresh(N)[1], x, M, M)
    for kind in range(8):
        stream = refused_as(stream, (0, 2)[kind % 2], LONG, LONG, x, M, kind)
    offer(stream, x, M, M)


def misshapen(N, M):
    x = noise(14, 1000000)
    stream = offer_to(fresh(N)[1], SHORT, x, M, M)
    for kind, (left, right) in enumerate(((0, 0), (2, 1), (1, 2), (0, 2**32 - 1))):
        stream = refused_as(stream, 1, left, right, x, M, kind)
    offer(stream, x, M, M)


def wrong(stream, x, M, size):
    """Steps on buffers of which one or both have another size than M."""
    for m, l in ((M, size), (size, M), (size, size)):
        stream = offer(stream, x, m, l)
    return stream


def sizes(N, M):
    x = noise(11, 1000000)
    stream = offer(fresh(N)[1], x, M, M)
    for size in (0, M - 1, M + 1):
        stream = wrong(stream, x, M, size)
    offer(stream, x, M, M)


def furthest(N, shape):
    """Two blocks, one after the other, that drive the sample which goes furthest."""

    def gain(n):
        return window(N, shape, shape)[n] * sum(abs(K(N, n, k)) for k in range(N // 2))

    def signs(n):
        return [LEAST if K(N, n, k) < 0 else MOST for k in range(N // 2)]

    n = max(range(N // 2), key=lambda n: gain(N // 2 + n) + gain(n))
    return signs(N // 2 + n), signs(n)


def extremes(N, M, shape):
    assert furthest(N, shape) == (loud(EVERY)[:M], loud(ODD)[:M])
    stream = fresh(N)[1]
    for signs in (0, EVERY, EVERY, ODD, ODD, ODD, 0, EVEN):
        stream = offer_to(stream, shape, loud(signs), M, M)
    offer(stream, [0] * ROOM, M, M)


def limit(N, M, v):
    x = noise(7, 1000000)
    first, last = put(x, 0, v), put(x, M - 1, v)
    stream = offer(fresh(N)[1], first, M, M)
    stream = offer(stream, last, M, M)
    stream = wrong(stream, first, M, M - 1)
    stream = wrong(stream, last, M, M + 1)
    offer(stream, x, M, M)


def limit_places(N, M):
    stream = fresh(N)[1]
    for k in range(M):
        for v in (ABOVE, BELOW):
            stream = offer(stream, put(loud(0), k, v), M, M)


def alike(N, expected, shape, v):
    return N, expected, shape, [v] * STORAGE


def forged(N, m, rest, i, v):
    offer((N, FORGED, LONG, put([rest] * STORAGE, i, v)), noise(9, 1000000), m, m)


def forged_in_place(N, m, rest, i, v):
    offer_in_place([N, FORGED, LONG] + put([rest] * STORAGE, i, v), FORGED, LONG, LONG, noise(9, 1000000), m, m)


def forged_first(N, m, v):
    stream = offer(alike(N, FORGED, LONG, v), loud(0), 0, m)
    stream = offer(stream, put(loud(0), 0, ABOVE), m, m)
    stream = offer(stream, put(loud(0), 0, BELOW), m, 0)
    offer_as(stream, FORGED + 1, LONG, LONG, loud(0), m, m)
    offer_as(alike(N, 2**32, LONG, v), 0, LONG, LONG, loud(0), m, m)
    offer_as(alike(N, FORGED, 2, v), FORGED + 1, 2, 2, loud(0), m, m)


def quiet_in_place(state, size, b, left, right, m):
    """A step in place on the first entries of a state, so many of them."""
    offer_in_place(state[:size], b, left, right, noise(9, 1000000), m, m)


def forged_state(N, expected, shape, v):
    return [N, expected, shape] + [v] * (ROOM - 3)


def sized(N, expected, v, size, b, m):
    quiet_in_place(forged_state(N, expected, LONG, v), size, b, LONG, LONG, m)


def first_in_place(N, m, v):
    sized(N, FORGED, v, STATE, FORGED, m)
    sized(N, FORGED, v, STATE, FORGED + 1, m)
    sized(N, -1, v, STATE, LAST, m)
    sized(N, FORGED, v, STATE - 1, FORGED + 1, m)
    quiet_in_place(forged_state(N, FORGED, -1, v), STATE, FORGED + 1, 2, 2, m)


def state_sizes(N, M):
    for size in (0, 1, M + 3, STATE - 1, STATE + 1, STATE):
        sized(N, FORGED, HEARD, size, FORGED, M)


def forged_shapes(N, M):
    """Remembered shapes that no block has, and 1."""
    for shape, left in ((1, 0), (1, 1), (2, 0), (2, 1), (2, 2), (2**32 - 1, 0), (2**32 - 1, 1), (2**32 - 1, 2**32 - 1)):
        offer_as(alike(N, FORGED, shape, 7), FORGED, left, LONG, noise(9, 1000000), M, M)
    offer_as(alike(N, FORGED, 2, 7), FORGED, LONG, LONG, loud(0), 0, M)
    offer_as(alike(N, FORGED, 2, 7), FORGED + 1, LONG, LONG, loud(0), M, M)
    for shape, left in ((1, 0), (1, 1), (2, 0), (2, 1), (2, 2), (-1, 0), (-1, 1), (-1, 2**32 - 1), (2**32, 0), (2**32 + 1, 1), (-(2**32), 0), (1 - 2**32, 1), (2**63 - 1, 1), (2**63 - 1, 2**32 - 1), (-(2**63), 0)):
        quiet_in_place(forged_state(N, FORGED, shape, 7), STATE, FORGED, left, LONG, M)
    quiet_in_place(forged_state(N, FORGED, -1, 7), STATE, FORGED, LONG, LONG, 0)
    quiet_in_place(forged_state(N, FORGED, -1, 7), STATE, FORGED + 1, LONG, LONG, M)
    quiet_in_place(forged_state(N, FORGED, -1, 7), STATE - 1, FORGED, LONG, LONG, M)


def strays(N, M):
    for expected, b in ((2**32, 0), (2**32 + 5, 5), (2**63, 0), (2**64 - 1, LAST)):
        offer_as(alike(N, expected, LONG, HEARD), b, LONG, LONG, noise(9, 1000000), M, M)
    for expected, b in ((2**32, 0), (2**32 + 5, 5), (2**63 - 1, LAST), (-1, LAST), (-5, 5), (-(2**32), 0), (-(2**63), 0)):
        sized(N, expected, HEARD, STATE, b, M)


def tails(N, M):
    most = tail_limit(N)
    above, least, below = most + 1, -most, -most - 1
    forged(N, M, most, 0, most)
    forged(N, M, least, 0, least)
    forged(N, M, most, M - 1, least)
    for i, v in ((0, above), (0, below), (M - 1, above), (M - 1, below), (M - 1, -(2**63)), (M - 1, 2**63 - 1)):
        forged(N, M, 0, i, v)
    forged_first(N, M, above)
    forged_first(N, M, below)
    offer(alike(N, FORGED, LONG, most), loud(ODD), M, M)
    offer(alike(N, FORGED, LONG, least), loud(EVEN), M, M)
    for i in range(M):
        for v in (above, below):
            forged(N, M, 0, i, v)
    forged_in_place(N, M, most, M - 1, least)
    for i, v in ((0, above), (0, below), (M - 1, above), (M - 1, below)):
        forged_in_place(N, M, 0, i, v)
    first_in_place(N, M, above)
    first_in_place(N, M, below)


def kept(N, M, v):
    stream = offer_to((N, FORGED, LONG, [0] * M + [v] * (STORAGE - M)), SHORT, noise(9, 1000000), M, M)
    stream = refused(stream, noise(10, 1000000), M, 2)
    stream = offer_to(stream, SHORT, loud(ODD), M, M)
    stream = refused(stream, loud(EVEN), M, 1)
    offer(stream, noise(12, 1000000), M, M)


for N in LENGTHS:
    made(N)
    made_in_place(N, 0, 1, STATE - 1, STATE + 1, STATE)
for N in (0, 11, 48, 2**64 - 1, 107, 144, 217, 432):
    made(N)
    made_in_place(N, 0, STATE)
    forged(N, 0, 0, 0, 0)
    forged(N, 18, 0, 3, 5)
    forged_first(N, 24, 0)
for N in (0, 11, 48, 107, 144, 217, 432, 2**32 + 12, -1, -12, -(2**63)):
    first_in_place(N, 18, 0)
for N in LENGTHS:
    long(N, N // 2)
    orders(N, N // 2)
    played(N, N // 2)
    unexpected(N, N // 2)
    misshapen(N, N // 2)
    forged_shapes(N, N // 2)
    strays(N, N // 2)
    sizes(N, N // 2)
    for shape in SHAPES:
        extremes(N, N // 2, shape)
    for v in (MOST, ABOVE, LEAST, BELOW, 2**31 - 1, -(2**31)):
        limit(N, N // 2, v)
    limit_places(N, N // 2)
    state_sizes(N, N // 2)
for N in LENGTHS:
    tails(N, N // 2)
for N in LENGTHS[:-1]:
    for i, v in ((N // 2, -(2**63)), (STORAGE - 1, 2**63 - 1)):
        forged(N, N // 2, 0, i, v)
        forged_in_place(N, N // 2, 0, i, v)
        kept(N, N // 2, v)
for N in LENGTHS:
    differ = 0
    for c in (halves.in_U(N), -halves.in_U(N)):
        x = put([0] * ROOM, 0, c)
        call = step, fresh(N)[1], 0, LONG, LONG, x[: N // 2], N // 2
        differ += step(*call[1:]) != halves.by_the_rule_before(*call)
        offer(fresh(N)[1], x, N // 2, N // 2)
    assert differ
for N in LENGTHS:
    for t in (-N * 2**29, N * 2**29):
        offer(alike(N, FORGED, LONG, t), [0] * ROOM, N // 2, N // 2)
