"""Writes what crates/check_levels must print: python3 vectors/levels.py > crates/check_levels/stdout
What a coefficient moves by is held to half its step, and what is played back to the distance that its tables tell."""
from functools import reduce

from bank import COEFFICIENT_LIMIT, LENGTHS, LONG, SHORT, STATE, STORAGE, analyse, fresh, state_of, stream_fresh, tail_limit
from noise import ROOM, noise, random
from played import route_of, sound
from steps import ROUTE_NAMES, dequantise, quantise, report, steps, stream_step_levels, told, told_distance, verdict

TEXT = 2048
LONG_TEXT = 40000
SHOWN = 6
MARK = 12345
MOST, LEAST = COEFFICIENT_LIMIT, -COEFFICIENT_LIMIT
ABOVE, BELOW = MOST + 1, LEAST - 1
BLOCKS = 16
SWEEPS = 607
# random tables at each length, how often a byte of each is changed, and what it is changed to
RANDOM = 18
CHANGES = 8
DAMAGE = b"0123456789,-\n \r+"
HEARD = 2**40
FORGED = 5
ENDLESS = 2**64 - 1
# the shapes of the joints before blocks 0 to 16
JOINTS = (0, 1, 1, 0, 0, 0, 1, 1, 1, 1, 0, 0, 1, 0, 0, 1, 0)
SOUND_SPANS = (32768, 0, 100, 2000)
# lines that are none: fields missing or too many, bytes that are no part of a number, numbers not in their form, numbers out of range
MALFORMED = (
    (b"\n", b",\n", b",,\n", b"0\n", b"0,H\n", b"0,H,3,\n", b"0,H,3,4\n", b",H,3\n", b"0,,3\n", b"0,H,\n", b"0;H;3\n", b"0,H,3"),
    (b" 0,H,3\n", b"0, H,3\n", b"0,H,3 \n", b"0,H,3\r\n", b"\t0,H,3\n", b"0,H,3\x00\n", b"0,\xffH,3\n", b"0,H,3.\n", b"0,H,1e3\n", b"first,last,step\n", b"x"),
    (b"+0,H,3\n", b"0,+H,3\n", b"0,H,+3\n", b"00,H,3\n", b"0,0H,3\n", b"0,H,03\n", b"-0,H,3\n", b"0,-0,3\n", b"0,H,-0\n", b"--1,H,3\n", b"0,H,-\n", b"0,H,100000\n", b"0,H,4294967299\n"),
    (b"0,H,0\n", b"0,H,-1\n", b"0,H,65537\n", b"0,H,99999\n", b"0,H,-65535\n", b"-1,H,3\n", b"-H,H,3\n", b"I,H,3\n", b"0,-1,3\n", b"0,M,3\n", b"M,M,3\n", b"0,W,3\n", b"0,B,3\n", b"65536,W,3\n"),
)
# what stands before and behind such a line
FRAMES = ((b"", b""), (b"", b"0,E,1\n"), (b"0,0,1\n", b"1,E,65536\n"), (b"0,E,3\n", b""), (b"0,H,3\nH,E,2\n", b""), (b"1,E,2\n", b"0,0,1\n"))
# tables, and the number and the line of each for every M
CAUSES = (
    (b"", 10, 0), (b"1,E,2\n", 10, 1), (b"1,E,2\n0,0,2\n", 10, 1), (b"E,E,2\nE,E,2\n", 10, 1), (b"I,E,1\n0,H,1\n", 10, 1),
    (b"0,0,1\n", 10, 0), (b"0,H,1\n", 10, 0), (b"0,D,1\n", 10, 0), (b"0,0,1\n2,E,1\n1,1,1\n", 10, 2), (b"0,0,1\n2,3,1\n3,E,1\n", 10, 2),
    (b"0,1,1\n1,1,1\n3,E,1\n", 11, 2), (b"0,E,1\n0,E,1\n", 11, 2), (b"0,E,1\nE,E,1\n", 11, 2), (b"0,H,3\nH,E,2\nE,E,0\n", 9, 3),
    (b"0,H,3\nH,E,2\nE,E,1", 9, 3), (b"1,H,3\nI,E,2\n\n", 9, 3), (b"0,H,3\nI,D,2\n", 10, 0), (b"0,E,1\n\n0,E,1\n", 9, 2),
)
TAKEN = (b"0,E,1\n", b"0,E,2\n", b"0,E,3\n", b"0,E,65536\n", b"0,D,1\nE,E,65535\n", b"0,0,47\n1,E,46\n")
TELLINGS = (b"0,E,15\n", b"0,E,16\n", b"0,H,17\nI,E,1\n", b"0,H,1\nI,E,47\n", b"0,E,48\n", b"0,E,1023\n", b"0,E,1024\n", b"0,E,65519\n", b"0,E,65520\n")
# tables that a distance is told for, and one for each cause
TOLD_INTO = (b"0,E,1\n", b"0,H,65536\nI,E,2\n", b"0,E,65537\n", b"", b"0,E,2\nE,E,2\n")
# lengths as they are typed, other numbers, some of which are 12 where a sign or upper bits are lost, and bytes that are no number
TYPED = (b"12", b"24", b"36", b"72", b"108", b"216")
TYPED_NUMBERS = (b"0", b"1", b"48", b"144", b"-12", b"-1", b"268", b"65548", b"-65524", b"4294967308")
TYPED_BYTES = (b"", b"-", b"012", b"000012", b"-0", b"+12", b" 12", b"12 ", b"12\n", b"12\x00", b"12,", b"12.0", b"0x0c", b"\xff12", b"twelve")
TYPED_WITH = (b"0,5,2\n", b"0,53,3\n", b"0,5,0\n", b"", b"0,2,1\n2,5,1\n")
LEVELLED = (b"0,E,1\n", b"0,E,2\n", b"0,E,3\n", b"0,E,7\n", b"0,E,65535\n", b"0,E,65536\n", b"0,H,3\nI,E,65536\n", b"0,0,2\n1,E,1\n")


def line(word, *fields):
    print(",".join([word] + [str(f) for f in fields]))


def total(entries):
    """A running sum of 31 times the sum before and the entry, modulo 2^32."""
    return reduce(lambda h, v: (31 * h + 961 * (abs(v) >> 32) + 2 * (abs(v) % 2**32) + (v < 0)) % 2**32, entries, 0)


def total_bytes(data):
    return reduce(lambda h, b: (h * 31 + b) % 4294967291, data, 0)


def shown(entries):
    """The entries, or the length and the sum of many."""
    return entries if len(entries) <= SHOWN else [len(entries), total(entries)]


def text(M, template):
    """A table for M coefficients, with each capital as the number of its place."""
    places = {"M": M, "E": M - 1, "D": M - 2, "H": M // 2 - 1, "I": M // 2, "W": 65536 + M - 1, "B": 256 + M - 1}
    return b"".join(str(places[chr(b)]).encode() if chr(b) in places else bytes([b]) for b in template)


def step_at(base, k):
    return min(base + k, 65536) if base else (1, 2, 3, 65536)[k % 4]


def lines(M, base, missing=None, doubled=None):
    """A line for each coefficient, but one that is missing and one that stands twice."""
    return b"".join(b"%d,%d,%d\n" % (k, k, step_at(base, k)) * (k != missing) * (1 + (k == doubled)) for k in range(M))


def show_report(typed, data):
    print(report(typed, data).decode(), end="")


def judge(N, M, data, number=None, at=None):
    found = verdict(M, data)
    assert number in (None, found[0]) and at in (None, found[1]) and len(data) <= (LONG_TEXT if data.count(b"\n") > M + 1 else TEXT)
    calls = [f(N, data, [77] * M, M)[0] for f in (quantise, dequantise)]
    assert N not in LENGTHS or calls == [found[0]] * 2
    line("table", N, len(data), total_bytes(data), *[field for route in ROUTE_NAMES for field in told(route, N, data)], *calls)
    show_report(str(N).encode(), data)


def joint(N, M, j):
    for first, number in ((j + 1, 0), (j, 11), (0, 11), (j + 2, 10)):
        # the table ends before a line that would start behind it
        judge(N, M, text(M, b"0,%d,3\n%d,E,2\n" % (j, first)), number if first < M else 9, 2 if first >= M or number else 0)


def spoilt_lines(N, M, j):
    judge(N, M, lines(M, 1, missing=j), 10, j + 1 if j < M - 1 else 0)
    judge(N, M, lines(M, 1, doubled=j), 11, j + 2)
    judge(N, M, lines(M, 1, missing=j, doubled=M - 1 - j))


def tables(N, M):
    for group in MALFORMED:
        for wrong in group:
            for before, after in FRAMES:
                judge(N, M, text(M, before + wrong + after), 9, before.count(b"\n") + 1)
    for template, number, at in CAUSES:
        judge(N, M, text(M, template), number, at)
    for j in range(M):
        joint(N, M, j)
        spoilt_lines(N, M, j)
    for template in TAKEN:
        judge(N, M, text(M, template), 0, 0)
    for base in (0, 1, 65536, 65430):
        judge(N, M, lines(M, base), 0, 0)
    for template in TELLINGS:
        judge(N, M, text(M, template), 0, 0)
    many = text(M, b"0,E,65536\n") * 3000
    judge(N, M, many, 11, 2)
    judge(N, M, many + text(M, b"0,E,0\n"), 9, 3001)


def alternating(even, odd):
    return [even, odd] * (ROOM // 2)


def block(N, b):
    if b < 4:
        return noise(100 * N + b, (3, 1000, 6000000, MOST)[b])
    return alternating(*((MOST, LEAST), (LEAST, MOST), (MOST - 1, LEAST + 1))[b - 4])


def level_block(N, b):
    if b in (0, 5):
        return noise(100 * N + b, 2**30 - 1 if b == 0 else 8193)
    ends = {1: (2**31 - 1, -(2**31)), 2: (-(2**31), 2**31 - 1), 3: (8192, -8192), 4: (8191, -8191), 6: (178956971, -178956971), 7: (2**28, -(2**28) - 1)}
    return alternating(*ends[b])


def quantised(N, data, x, c, l):
    """The buffer of l marks afterwards."""
    number, levels = quantise(N, data, x[:c], l)
    levels = [MARK] * l if levels is None else levels
    line("levels", number, *shown(levels))
    return number, levels


def restored(N, data, levels, c, l):
    number, back = dequantise(N, data, levels[:c], l)
    back = [MARK] * l if back is None else back
    assert number or all(abs(v) <= MOST for v in back)
    line("back", number, *shown(back))
    return back


def through(N, M, data, x):
    number, levels = quantised(N, data, x, M, M)
    back = restored(N, data, levels, M, M)
    assert number or all(abs(v - w) <= step // 2 for v, w, step in zip(x, back, steps(M, data)))


def levelled(N, M, data):
    for b in range(7):
        through(N, M, data, block(N, b))
    for b in range(8):
        restored(N, data, level_block(N, b), M, M)


def put(x, k, v):
    return x[:k] + [v] + x[k + 1 :]


def sizes(N, M, data):
    x = noise(9, 1000)
    for c, l in ((M - 1, M), (M + 1, M), (M, M - 1), (M, M + 1), (M - 1, M - 1), (0, M), (M, 0), (0, 0)):
        quantised(N, data, x, c, l)
        quantised(N, data, put(x, 0, ABOVE), c, l)
        restored(N, data, x, c, l)
    for k, v in ((0, BELOW), (M - 1, ABOVE), (M, ABOVE)):
        through(N, M, data, put(x, k, v))


def tell_tables(N, M):
    """The told distance by the number of a route, into none, one or two of two places, which are both shown afterwards."""
    for template in TOLD_INTO:
        for route in (0, 1, 2, 3, 2**32 - 1):
            fields = []
            for length in range(3):
                number, written = told_distance(N, route, text(M, template), length)
                fields += [number, *(written or [MARK]), MARK]
            line("tell", N, route, *fields)


def pick(r, count):
    return (r >> 16) % count


def random_text(M, seed, reach, largest):
    """A table that is taken: lines of up to reach coefficients, and steps up to largest."""
    r, first, made = seed, 0, b""
    while first < M:
        r = random(r)
        last = min(first + pick(r, reach), M - 1)
        r = random(r)
        made += b"%d,%d,%d\n" % (first, last, 1 + pick(r, largest))
        first = last + 1
    return made


def random_tables(N, M):
    met = set()
    for t in range(RANDOM):
        seed = r = 1000 * N + t
        data = random_text(M, seed, (3, M // 2, 2 * M)[t % 3], (65536, 300, 4)[t // 3 % 3])
        judge(N, M, data, 0, 0)
        through(N, M, data, noise(seed, MOST))
        judge(N, M, data[: pick(random(seed), len(data) + 1)])
        for _ in range(CHANGES):
            r = random(random(r))
            # behind the last byte it is one more
            at = pick(r, len(data) + 1)
            changed = data[:at] + DAMAGE[pick(random(r), 16) :][:1] + data[at + 1 :]
            judge(N, M, changed)
            met.add(verdict(M, changed)[0])
    assert met == {0, 9, 10, 11}


def typed_with(typed, data):
    line("typed", len(typed), total_bytes(typed))
    show_report(typed, data)


def table_of(M, kind):
    """The tables of a stream: five that are taken, and then 9, 10, 11, 9 and 10."""
    if kind == 2:
        return lines(M, 0)
    templates = {0: b"0,E,1\n", 1: b"0,H,3\nI,E,64\n", 3: b"0,E,65536\n", 4: b"0,E,777\n", 5: b"0,E,0\n", 6: b"", 7: b"0,H,1\nH,E,1\n", 8: b"0,E,1", 9: b"1,E,1\n"}
    return text(M, templates[kind])


def show_out(number, hop, l):
    hop = [MARK] * l if hop is None else hop
    line("out", number, *shown(hop))
    return number, hop


def offer(state, b, left, right, M, kind, x, c, l):
    """A step on the first c entries of x and a buffer of l marks, by value, and the stream to go on with, as a state."""
    number, hop, state = stream_step_levels(state, b, left, right, table_of(M, kind), x[:c], l)
    number, hop = show_out(number, hop, l)
    line("stream", *state[:3], total(state[3:]))
    return number, hop, state


def offer_in_place(state, b, left, right, M, kind, x, c, l):
    number, hop, state = stream_step_levels(state, b, left, right, table_of(M, kind), x[:c], l)
    show_out(number, hop, l)
    line("state", len(state), total(state))
    return state


# kinds of damage, and the number that each leads to
DAMAGES = (7, 8, 8, 9, 10, 9, 10, 11, 2, 2, 2, 2, 2, 2)


def damaged(b, left, right, M, kind, x, d):
    """What a refused step is handed: its number and shapes, the table's kind, the levels, and the lengths."""
    levels = {3: M - 1, 4: 0, 8: M - 1, 9: M + 1, 10: 0}.get(d, M)
    hop = {5: M - 1, 11: M - 1, 12: M + 1, 13: 0}.get(d, M)
    other = SHORT if left == LONG else LONG
    return 77 if d == 0 else b, other if d < 2 else left, 2 if d == 2 else right, M, 5 + d % 5 if d < 8 else kind, x, levels, hop


def stored(N, b):
    return level_block(N, b % 8) if b % 5 == 4 else noise(200 * N + b, (1000000, 100000, 100, 100)[b % 5])


def stepped(N, M):
    stream, state = state_of(fresh(N)[1]), stream_fresh(N, [7] * STATE)[1]
    for b in range(BLOCKS):
        sound = b, JOINTS[b], JOINTS[b + 1], M, b % 5, stored(N, b)
        wrong = damaged(*sound, b % 14)
        same = offer_in_place(state, *wrong)
        assert same == state
        state = offer_in_place(state, *sound, M, M)
        number, _, same = offer(stream, *wrong)
        assert number == DAMAGES[b % 14] and same == stream
        number, _, stream = offer(stream, *sound, M, M)
        assert number == 0 and stream == state


def forged(N, M, v):
    state, x = [N, FORGED, LONG] + [v] * STORAGE, noise(3, 1000)
    for b, left, right, kind, c, l in ((5, 0, 0, 1, M, M), (6, 0, 0, 1, M, M), (5, 1, 2, 1, M, M), (5, 0, 0, 5, M, M), (5, 0, 0, 6, 0, M), (5, 0, 0, 7, M, 0), (5, 0, 0, 1, 0, 0)):
        offer(state, b, left, right, M, kind, x, c, l)


def forged_in_place(N, M, v):
    state, x = [N, FORGED, LONG] + [v] * (ROOM - 3), noise(3, 1000)
    for size, b, left, kind, c in (
        (STATE, 5, 0, 1, M), (STATE, 6, 1, 5, M), (STATE, 5, 1, 6, M), (STATE, 5, 0, 7, 0), (STATE, 5, 0, 1, 0), (STATE - 1, 5, 0, 1, M), (STATE + 1, 6, 1, 5, M), (0, 5, 0, 1, M),
    ):
        offer_in_place(state[:size], b, left, LONG, M, kind, x, c, M)


def played(N, M):
    """Blocks analysed, stored as levels, each by its own table, and played back: within the distance told for the coarser table of the two blocks of a hop,
    by the route that tells more."""
    state = state_of(fresh(N)[1])
    for b in range(BLOCKS):
        shapes, hop, data = JOINTS[b : b + 2], sound(N, b, SOUND_SPANS), table_of(M, b % 5)
        number, X = analyse(route_of(N, b), N, *shapes, hop + sound(N, b + 1, SOUND_SPANS), M)
        assert number == 0
        number, levels = quantised(N, data, X, M, M)
        assert number == 0
        number, returned, state = offer(state, b, *shapes, M, b % 5, levels, M, M)
        assert number == 0
        if b:
            both = [(route, table_of(M, kind % 5)) for route in {route_of(N, b), route_of(N, b - 1)} for kind in (b, b - 1)]
            distance = max(told(route, N, table)[1] for route, table in both)
            assert all(abs(v - w) <= distance for v, w in zip(hop, returned))


for N, beyond in zip(LENGTHS, (1, 0, -1, 1, -1, 1)):
    M = N // 2
    tables(N, M)
    random_tables(N, M)
    tell_tables(N, M)
    for template in LEVELLED:
        levelled(N, M, text(M, template))
    for base in (0, 1, 65430):
        levelled(N, M, lines(M, base))
    levelled(N, M, text(M, b"0,E,1\n0,0,1\n"))
    for template in (b"0,E,2\n", b"0,E,2", b"0,D,2\n", b"0,E,2\n0,E,2\n"):
        sizes(N, M, text(M, template))
    stepped(N, M)
    # a tail that is heard, and one at its limit or one beyond it
    limit = (tail_limit(N) + abs(beyond)) * (-1 if beyond < 0 else 1)
    for v in (HEARD, limit):
        forged(N, M, v)
    for v in (HEARD, limit):
        forged_in_place(N, M, v)
    played(N, M)
for N, M in ((0, 6), (11, 6), (48, 24), (144, 72), (217, 108), (ENDLESS, 36)):
    for template in (b"0,E,2\n", b"0,E,0\n", b""):
        judge(N, M, text(M, template))
    for template in (b"0,E,2\n", b"x"):
        sizes(N, M, text(M, template))
    tell_tables(N, M)
forged(48, 24, 0)
forged_in_place(-12, 6, 0)
for typed in TYPED + TYPED_NUMBERS + TYPED_BYTES:
    for data in TYPED_WITH:
        typed_with(typed, data)
# every step at both ends of the range
swept = set()
for t in range(SWEEPS):
    data = lines(108, 108 * t + 1)
    for x in (alternating(MOST, LEAST), alternating(LEAST, MOST)):
        swept.update(zip(steps(108, data), x))
        through(216, 108, data, x)
assert swept == {(step, end) for step in range(1, 65537) for end in (MOST, LEAST)}
