"""Prints calls and their answers, one to a line, for differential/: python3 vectors/calls.py [rounds] [seed]
Fields are parted by semicolons, entries of a list by commas. '=' says that a buffer is left as it was."""
import random
import sys
from itertools import product

import bank
import coarsest
import floats
import shares
import steps
from bank import COEFFICIENT_LIMIT, HOPS, LENGTHS, ORDERS, ROUTES, SHAPES, SHORT_LENGTHS, STATE, STORAGE, page_length, tail_limit
from recordings import quicken

rounds = int(sys.argv[1]) if len(sys.argv) > 1 else 25
rng = random.Random(int(sys.argv[2]) if len(sys.argv) > 2 else 1)
LAST = 2**32 - 1


def line(*fields):
    print(";".join("=" if f is None else ",".join(map(str, f)) if isinstance(f, (list, bytes)) else str(f) for f in fields))


def samples(count):
    top = rng.choice([0, 1, 3, 100, 5000, 32767])
    shape = rng.randrange(5)
    if shape == 0:
        return [rng.choice([-32768, 32767]) for _ in range(count)]
    if shape == 1:
        at, size = rng.randrange(max(count, 1)), rng.choice([-32768, -1, 1, 32767])
        return [size if n == at else 0 for n in range(count)]
    return [rng.randint(-top - 1, top) for _ in range(count)]


def coefficients(count):
    top = rng.choice([0, 1, 40, 10**4, 10**6, 150994944, COEFFICIENT_LIMIT])
    if rng.randrange(4) == 0:
        return [rng.choice([-top, top]) for _ in range(count)]
    return [rng.randint(-top, top) for _ in range(count)]


def spoil(x):
    """Puts one coefficient beyond its limit."""
    if x:
        x[rng.randrange(len(x))] = rng.choice([COEFFICIENT_LIMIT + 1, -COEFFICIENT_LIMIT - 1, 2**31 - 1, -(2**31)])
    return x


def near_N(N):
    return rng.choice([N] * 9 + [0, 11, 48, 144, 2**64 - 1])


def near(length):
    return max(0, rng.choice([length] * 8 + [length - 1, length + 1, 0, 2 * length]))


def lengths(H, M):
    """Those of the samples and of the coefficients of H hops, or others, or each in place of the other."""
    pair = [near(H * M), near((H + 1) * M)]
    return pair[::-1] if rng.randrange(12) == 0 else pair


def near_hops(H):
    return rng.choice([H] * 24 + [0, H + 1, H - 1, HOPS + 1, 2**32 + H, 2**63, 2**63 + H, 2**64 - 1])


def near_order():
    return rng.choice([*ORDERS] * 12 + [2, 3, 2**31, LAST])


def near_shape(shape):
    """A shape, mostly this one, or a number that is none."""
    return rng.choice([shape] * 40 + [*SHAPES, 2, 3, 2**31, LAST])


def state(N):
    limit = tail_limit(N)
    top = rng.choice([0, N * 2**29, N * 2**45, limit])
    tail = [rng.randint(-top, top) for _ in range(N // 2)]
    case = rng.randrange(12)
    at = rng.randrange(N // 2)
    if case == 0:
        tail[at] = rng.choice([limit, -limit])
    if case == 1:
        tail[at] = rng.choice([limit + 1, -limit - 1, 2**63 - 1, -(2**63)])
    rest = [rng.randint(-(2**63), 2**63 - 1) for _ in range(STORAGE - N // 2)]
    first = rng.choice([0, 48, 144, -1, -N, N + 2**32, -(2**63)]) if case == 2 else N
    expected = rng.choice([0, 1, rng.randint(0, LAST), LAST])
    if case == 5:
        expected = rng.choice([LAST + 1, LAST + 2, 2**63 - 1, -1, -LAST, -(2**32), -(2**63)])
    shape = rng.choice(SHAPES)
    if case == 6:
        shape = rng.choice([2, 3, LAST + 1, LAST + 2, 2**63 - 1, -1, -2, -(2**32), -(2**63)])
    whole = [first, expected, shape] + tail + rest
    return whole[:-1] if case == 3 else whole + [7] if case == 4 else whole


def near_number(state):
    """The number that a state expects, or what its low 32 bits are, or another."""
    low = state[1] % 2**32
    return rng.choice([low] * 9 + [(low + 1) % 2**32, (low - 1) % 2**32, 0, LAST])


def stepped(before, M):
    """Prints a step, and gives the state to go on with."""
    number, x, length = near_number(before), coefficients(near(M)), near(M)
    shapes = near_shape(before[2] % 2**32), near_shape(rng.choice(SHAPES))
    if rng.randrange(6) == 0:
        spoil(x)
    answer = bank.stream_step(before, number, *shapes, x, length)
    line("stream_step", before, number, *shapes, x, length, *answer)
    return answer[2]


def table(M):
    """A step table that is taken, or with a line left out, repeated or moved, or with a byte damaged, or without its last line feed."""
    cuts = sorted(rng.sample(range(1, M), rng.choice([0, 1, min(4, M - 1), M - 1])))
    starts, ends = [0, *cuts], [*cuts, M]
    lines = [b"%d,%d,%d\n" % (a, b - 1, rng.choice([1, 2, 3, 16, 999, rng.randint(1, 65536), 65535, 65536])) for a, b in zip(starts, ends)]
    case, at = rng.randrange(14), rng.randrange(len(lines))
    if case == 0:
        lines.pop(at)
    if case == 1:
        lines.insert(at, lines[at])
    if case == 2:
        rng.shuffle(lines)
    if case == 3:
        fields = [rng.choice([z, z + 1, z - 1, M, 0, -1, 65537]) for z in (starts[at], ends[at] - 1, 7)]
        lines[at] = b"%d,%d,%d\n" % tuple(fields)
    data = b"".join(lines)
    place, byte = rng.randrange(len(data) + 1), bytes([rng.choice([*b"0123456789,-\n", 32, 13, 43, 0, rng.randrange(256)])])
    if case == 4:
        return data[:place] + byte + data[place:]
    if case == 5:
        return data[:place] + byte + data[place + 1 :]
    if case == 6:
        return data[:place] + data[place + 1 :]
    return data[:-1] if case == 7 else data


def near_levels(count):
    ends = [-(2**31), 2**31 - 1, -1, 0, 1]
    return [rng.choice([*ends, rng.randint(-(2**31), 2**31 - 1), rng.randint(-40000, 40000)]) for _ in range(count)]


def step_tables(N, n):
    """Prints the calls over step tables."""
    M = N // 2
    data, x, length = table(M), coefficients(near(M)), near(M)
    if rng.randrange(6) == 0:
        spoil(x)
    line("quantise", n, data, x, length, *steps.quantise(n, data, x, length))
    data, levels, length = table(M), near_levels(near(M)), near(M)
    line("dequantise", n, data, levels, length, *steps.dequantise(n, data, levels, length))
    data, route, length = table(M), rng.choice([0, 0, 0, 1, 1, 1, 2, 2, 2, 3, LAST]), near(1)
    line("told_distance", n, route, data, length, *steps.told_distance(n, route, data, length))


def stepped_levels(before, M):
    """Prints a step on levels, and gives the state to go on with."""
    b, data, levels, length = near_number(before), table(M), near_levels(near(M)), near(M)
    shapes = near_shape(before[2] % 2**32), near_shape(rng.choice(SHAPES))
    answer = steps.stream_step_levels(before, b, *shapes, data, levels, length)
    line("stream_step_levels", before, b, *shapes, data, levels, length, *answer)
    return answer[2]


def near_place(place, M):
    """A place of a hop of M samples, or a number that is none; of a recording of M hops a hop."""
    return rng.choice([place] * 24 + [0, M - 1, M, M + 1, 2 * M - 1, 2**32 + place, 2**63, 2**64 - 1])


def changed(x):
    """The same but for a few coefficients, or others, or the same."""
    kind = rng.randrange(4)
    if kind == 0:
        return coefficients(len(x))
    few = set(rng.sample(range(len(x)), min(len(x), (0, 1, 3)[kind - 1])))
    return [c if k not in few else rng.choice([COEFFICIENT_LIMIT, -COEFFICIENT_LIMIT, -c, c // 2]) for k, c in enumerate(x)]


def shared(N, n):
    """Prints a call on shares."""
    M = N // 2
    lists = [y for x in (coefficients(M), coefficients(M)) for y in (x, changed(x))]
    at = rng.randrange(4)
    if rng.randrange(6) == 0:
        lists[at] = spoil(lists[at][:])
    at = rng.randrange(4)
    if rng.randrange(3) == 0:
        lists[at] = (2 * lists[at])[: near(M)]
    shape, place, length = near_shape(rng.choice(SHAPES)), near_place(rng.randrange(M), M), near(3)
    line("largest_share", n, shape, *lists, place, length, *shares.name_share(n, shape, *lists, place, length))


def many(H, M):
    """The coefficients of a recording of H hops, or of another length, now and then with one beyond its limit."""
    x = coefficients(near((H + 1) * M))
    return spoil(x) if rng.randrange(6) == 0 else x


def as_floats(N, n):
    """Prints the calls that give floats, as their patterns."""
    for call, room in ((floats.floats, N // 2), (floats.highest_lowest, 2)):
        x, length = coefficients(near(N // 2)), near(room)
        if rng.randrange(6) == 0:
            spoil(x)
        line(call.__name__, n, x, length, *call(n, x, length))


def recorded(N, n):
    """Prints the calls over recordings."""
    M = N // 2
    for route in ROUTES:
        H, order = rng.choice([1, 2, 3, 5]), near_order()
        count, length = lengths(H, M)
        x, named = samples(count), near_hops(H)
        line("analyse_recording", route, n, named, order, x, length, *bank.analyse_recording(route, n, named, x, length, order))
    H, order = rng.choice([1, 2, 3, 5]), near_order()
    length, count = lengths(H, M)
    x, named = coefficients(count), near_hops(H)
    if rng.randrange(6) == 0:
        spoil(x)
    line("synthesise_recording", n, named, order, x, length, *bank.synthesise_recording(n, named, x, length, order))
    H, order = rng.choice([1, 2, 3, 11]), near_order()
    x, named, length = many(H, M), near_hops(H), near(page_length(N, H))
    line("page", n, named, order, x, length, *bank.page(n, named, x, length, order))
    for H in (1, 2, 3):
        x, named, to, length = many(H, M), near_hops(H), near_order(), near((H + 1) * M)
        line("reorder", n, named, to, x, length, *bank.reorder(n, named, to, x, length))


def shared_recording(N, n):
    """Prints a call on shares over a recording."""
    M, H = N // 2, rng.choice([1, 2, 3, 5])
    original = coefficients((H + 1) * M)
    lists, at = [original, changed(original)], rng.randrange(2)
    if rng.randrange(6) == 0:
        lists[at] = spoil(lists[at][:])
    if rng.randrange(4) == 0:
        lists[at] = (2 * lists[at])[: near((H + 1) * M)]
    named, order, length = near_hops(H), near_order(), near(3)
    hop, place = near_place(rng.randrange(H), H), near_place(rng.randrange(M), M)
    line("largest_share_recording", n, named, order, *lists, hop, place, length, *shares.name_share_recording(order, n, named, *lists, hop, place, length))


def searched(N):
    """Prints calls for the coarsest step of one recording, which is mostly as it should be. By the step found every sample lies within D."""
    H = rng.randint(1, 216 // N)
    count, n, named = H * (N // 2), N, H
    if rng.randrange(3) == 0:
        count, n, named = near(count), near_N(N), near_hops(H)
    x = samples(count)
    for _ in range(4):
        D = rng.choice([*range(4)] * 4 + [rng.randrange(33), rng.randrange(33), 31, 32, 33, LAST])
        budget, length = rng.choice([0, 1, 2, 7] * 4 + [60, 2000, 2**32, 2**64 - 1]), rng.choice([3] * 12 + [0, 2, 4])
        number, found = coarsest.find_step(n, named, x, D, budget, length)
        assert number or coarsest.passes(n, tuple(x), D, found[0])
        line("coarsest_step", n, named, x, D, budget, length, number, found)


for t in range(-1200, 3000):
    line("C", t, bank.C(t))
for N in LENGTHS:
    for shapes in product(SHAPES, SHAPES):
        for n, w in enumerate(bank.window(N, *shapes)):
            line("W", N, *shapes, n, w)
# those of the last parts of the double route too
for N in (4, 8, *LENGTHS):
    for n in range(N):
        for k in range(N // 2):
            line("K", N, n, k, bank.K(N, n, k))
for N in SHORT_LENGTHS:
    for n in range(N // 3):
        for k in range(N // 6):
            line("L", N, n, k, bank.L(N, n, k))

# every n up to two beyond the longest, twice the longest, and numbers that pass for 12 or -1 where upper bits are lost; 39 is a state with the tail of N = 72 alone
for n in [*range(219), 432, 2**32 + 12, 2**63 + 12, 2**64 - 1]:
    for length in (0, 39, STATE - 1, STATE, STATE + 1):
        before = [rng.randint(-(2**63), 2**63 - 1) for _ in range(length)]
        line("stream_fresh", n, before, *bank.stream_fresh(n, before))

for _ in range(rounds):
    for N in LENGTHS:
        M = N // 2
        n = near_N(N)
        for route in ROUTES:
            for shapes in product(SHAPES, SHAPES):
                shapes, x, length = [near_shape(shape) for shape in shapes], samples(near(N)), near(M)
                line("analyse", route, n, *shapes, x, length, *bank.analyse(route, n, *shapes, x, length))
        for _ in range(3):
            stepped(stepped(state(N), M), M)
        now = bank.stream_fresh(N, [0] * STATE)[1]
        for _ in range(4):
            now = stepped(now, M)
        recorded(N, n)
        for _ in range(6):
            step_tables(N, n)
            stepped_levels(stepped_levels(state(N), M), M)
            shared(N, n)
            shared_recording(N, n)
            as_floats(N, n)

# a search is up to a thousand trials
quicken()
for _ in range(rounds // 2):
    for N in LENGTHS:
        searched(N)
