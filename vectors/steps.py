"""P8 of document 02, step tables that customers edit, with P12's distance, as plainly as they are written, over bank.py.
M is how many coefficients a block has, data the bytes of a table. It shares no code with the crates."""
from bank import COEFFICIENT_LIMIT, LENGTHS, OFFERED, STATE, UNITS, beyond, number, refusal_line, rnd, stream_step

LARGEST_STEP = 65536
# as they are numbered for C
ROUTE_NAMES = ("direct", "short", "double")


def entry(M, line):
    """First, last and step of a line without its line feed, or None where it is no such line."""
    numbers = [number(field) for field in line.split(b",")]
    if len(numbers) != 3 or None in numbers:
        return None
    first, last, step = numbers
    if not 1 <= step <= LARGEST_STEP or first < 0 or first > last or last > M - 1:
        return None
    return first, last, step


def verdict(M, data):
    """The number and the line, counted from 1, that turns the table away. 0 and 0 where it is taken; 10 and 0 where the end is missing."""
    *lines, rest = data.split(b"\n")
    for at, line in enumerate(lines, 1):
        if entry(M, line) is None:
            return 9, at
    if rest:
        return 9, len(lines) + 1
    previous = -1
    for at, line in enumerate(lines, 1):
        first, last, _ = entry(M, line)
        if first <= previous:
            return 11, at
        if first > previous + 1:
            return 10, at
        previous = last
    return (0, 0) if previous == M - 1 else (10, 0)


def steps(M, data):
    """The step of each coefficient by a table that is taken: that of the line that covers it."""
    assert verdict(M, data) == (0, 0)
    entries = [entry(M, line) for line in data.split(b"\n")[:-1]]
    covering = [[step for first, last, step in entries if first <= k <= last] for k in range(M)]
    assert all(len(found) == 1 for found in covering)
    return [found[0] for found in covering]


def level(X, step):
    return rnd(X, step)


def back(level, step):
    return max(-COEFFICIENT_LIMIT, min(COEFFICIENT_LIMIT, level * step))


def told(route, N, data):
    """The number and the distance, 0 beside a refusal."""
    if N not in OFFERED[route]:
        return 1, 0
    refused, _ = verdict(N // 2, data)
    if refused:
        return refused, 0
    Q = max(steps(N // 2, data)) // 2 + UNITS[route]
    return 0, (Q + 8) // 16


def report(typed, data):
    """What step-table prints for a length as it is typed and the bytes of a table."""
    N = number(typed)
    if N not in LENGTHS:
        return refusal_line(1, 0)
    refused, at = verdict(N // 2, data)
    if refused:
        return refusal_line(refused, at)
    rows = [("taken", max(steps(N // 2, data)))] + [(route, told(route, N, data)[1]) for route in ROUTE_NAMES if N in OFFERED[route]]
    return "".join("%s,%d\n" % row for row in rows).encode()


# The calls, as in bank.py: each gives its number and what it writes, or None, and a buffer that is only written stands as its length.


def refusal(N, data):
    return verdict(N // 2, data)[0] if N in LENGTHS else 1


def quantise(N, data, X, length):
    if refused := refusal(N, data):
        return refused, None
    if len(X) != N // 2 or length != N // 2:
        return 2, None
    if beyond(X):
        return 3, None
    return 0, [level(c, step) for c, step in zip(X, steps(N // 2, data))]


def dequantise(N, data, levels, length):
    if refused := refusal(N, data):
        return refused, None
    if len(levels) != N // 2 or length != N // 2:
        return 2, None
    return 0, [back(l, step) for l, step in zip(levels, steps(N // 2, data))]


def told_distance(N, route, data, length):
    """By the number of a route, into an array."""
    if route >= len(ROUTE_NAMES):
        return 1, None
    refused, distance = told(ROUTE_NAMES[route], N, data)
    if refused or length != 1:
        return refused or 2, None
    return 0, [distance]


def stream_step_levels(state, b, left, right, data, levels, length):
    """A step on what the levels come back as, with the causes of the table behind those of the stream, the number and the shapes."""
    if len(state) != STATE:
        return 2, None, state
    # a block of silence shows whether anything before the table refuses
    M = state[0] // 2 if state[0] in LENGTHS else 0
    refused, _, _ = stream_step(state, b, left, right, [0] * M, M)
    refused = refused or verdict(M, data)[0]
    if refused:
        return refused, None, state
    if len(levels) != M or length != M:
        return 2, None, state
    return stream_step(state, b, left, right, dequantise(state[0], data, levels, M)[1], M)
