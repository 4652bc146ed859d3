"""Writes what crates/check_coarsest must print: python3 vectors/trials.py > crates/check_coarsest/stdout
With a distance and a budget it prints what coarsest-step does for the listing on standard input:
python3 vectors/trials.py 0 2000 < crates/coarsest_step/stdin > crates/coarsest_step/stdout"""
import sys
from functools import reduce

from bank import HOPS, LENGTHS
from coarsest import LARGEST, LARGEST_DISTANCE, coarsest_step, distance, find_step, report, search, sure
from recordings import ENDLESS, MARK, line, noise, quicken

DISTANCES = range(LARGEST_DISTANCE + 1)
ABOVE = LARGEST_DISTANCE + 1


# The search with a stand-in for a trial.

SEARCH_BUDGETS = (0, 1, 2, 17, 1008, 1009, 2000, 2**32, ENDLESS)


def stand_ins(D):
    """The word and the numbers of each, and which steps pass."""
    for most in (1024, 1023, 1022, 1008, 1007, 600, 17, 16, 32 * D + 16, 32 * D + 15):
        yield ("up", most), lambda step: step <= most
    for one in (1024, 600, 32 * D + 16, 32 * D + 15, 1):
        yield ("only", one), lambda step: step == one
    for other in (0, 1):
        yield ("every", other), lambda step: step % 2 == other
    yield ("never",), lambda step: False


def searches():
    for D in DISTANCES:
        for case, passes in stand_ins(D):
            found = [search(passes, D, budget) for budget in SEARCH_BUDGETS]
            # as many trials as there are steps end a search
            assert all(untried == 0 for _, _, untried in found[5:])
            line(*case, D, *[field for answer in found for field in answer])


# Recordings. A kind of sound is its number.

BUDGETS = (0, 1, 2, 2000)
SOME = (0, 1, 2, 3, 5, 31, 32)
KINDS = 9
# recordings of few samples that return far away by the largest step, as far as is said: found by trying many
FAR = (
    (12, 12, (-1462, -1627, 1031, 1032, -1458, -197)),
    (12, 13, (-1115, -1120, -1771, -1127, -90, -31, -41, -653, -42, -33, -656, -6)),
    (24, 9, (-423, -436, 705, -73, 501, -1463, -1357, 670, -828, -539, 498, 440)),
)


def sound(kind, count, seed):
    """Silence, loud sound, quiet noise, and clicks in the first sample and in the last."""
    if kind in (3, 4, 5, 6):
        return noise(count, seed, {3: 0, 4: 32768, 5: 1, 6: 5}[kind])
    alternating = {0: (0, 0), 1: (32767, -32768), 2: (32767, 32767)}
    if kind in alternating:
        return [alternating[kind][i % 2] for i in range(count)]
    return [-32768] + [0] * (count - 1) if kind == 7 else [0] * (count - 1) + [7]


def at(kind, N, x, D):
    H = len(x) // (N // 2)
    answers = [coarsest_step(N, H, x, D, budget) for budget in BUDGETS]
    line("recording", kind, N, H, D, *[field for answer in answers for field in answer])
    return answers


def recorded(kind, N, x, distances):
    for D in distances:
        none, one, _, full = at(kind, N, x, D)
        assert none == (0, sure(D), 0, LARGEST - sure(D)) and full[3] == 0
        # no recording has every step above the sure one fail
        assert D == LARGEST_DISTANCE or full[1] > sure(D)
        # silence passes at the first trial
        assert kind or D == LARGEST_DISTANCE or full == one == (0, LARGEST, 1, 0)
        # that the sure step passes is not looked at by the search
        assert distance(N, tuple(x), sure(D)) <= D


def recordings():
    for N in LENGTHS:
        for kind in range(KINDS):
            for H in (1, 2, 3) if N < 36 else (1 + kind % 3,):
                recorded(kind, N, sound(kind, H * (N // 2), N + H), DISTANCES if N < 36 else SOME)
    for N, farthest, x in FAR:
        assert distance(N, x, LARGEST) == farthest
        recorded(KINDS, N, x, DISTANCES)
    at(KINDS + 1, 12, [0] * (6 * HOPS - 1) + [32767], 1)


# Refusals. They are made with few trials.

BUDGET = 3


def asked(N, H, count, D, room=3):
    """Both calls on so many samples, and the second into the first `room` of four numbers, which are all shown afterwards."""
    x = noise(count, 7, 32768)
    answer = coarsest_step(N, H, x, D, BUDGET)
    number, written = find_step(N, H, x, D, BUDGET, room)
    assert room != 3 or (number, *(written or [0, 0, 0])) == answer
    line("asked", N, H, count, D, room, *answer, number, *(written or [MARK] * 3), MARK)
    return answer[0], number


def tabled(N, H):
    count = H * (N // 2)
    for wrong in (count - 1, count + 1, 0):
        assert asked(N, H, wrong, 1) == (2, 2)
    asked(N, H, count, 1)
    for D in (0, 31, LARGEST_DISTANCE, ABOVE, 256, 65537, 2**31, 2**32 - 1):
        assert asked(N, H, count, D) == ((12, 12) if D > LARGEST_DISTANCE else (0, 0))
    for room in range(5):
        assert asked(N, H, count, 1, room) == (0, 0 if room == 3 else 2)
    for hops, l in ((0, count), (0, 0), (H - 1, count), (H + 1, count), (HOPS + 1, count), (2**32 + H, count), (2**63 + H, count), (2**63, 0), (ENDLESS, 0)):
        assert asked(N, hops, l, 1) == (2, 2)


def causes():
    """Every choice of the causes, at three hops of N = 24: the first in their order is answered."""
    for choice in range(32):
        n, hops, length, room, D = [choice >> bit & 1 for bit in range(5)]
        found = asked(24 + n, HOPS + 1 if hops else 3, 36 - length, LARGEST_DISTANCE + D, 3 + room)
        by_value = 1 if n else 2 if hops or length else 12 if D else 0
        assert found == (by_value, 2 if room and by_value != 1 else by_value)


def untabled(n, m):
    for count, D, room in ((2 * m, 1, 3), (2 * m - 1, 1, 3), (2 * m, ABOVE, 3), (2 * m, 1, 2)):
        assert asked(n, 2, count, D, room) == (1, 1)
    assert asked(n, 0, 0, 2**32 - 1, 0) == (1, 1)


def refusals():
    for N, H in ((12, 3), (12, HOPS), (24, 1), (36, 2), (72, 2), (108, 1), (216, 2)):
        tabled(N, H)
    for D in (1, ABOVE):
        assert asked(12, HOPS + 1, 6 * (HOPS + 1), D) == (2, 2)
    causes()
    for n, m in ((0, 6), (11, 5), (13, 6), (48, 24), (144, 72), (217, 108), (ENDLESS, 36)):
        untabled(n, m)


# The command.

SAMPLE = b"12\n0,0,0,0,0,0\n7,-8,32767,-32768,1,0\n5,5,5,5,5,5\n"
TYPED_DISTANCES = (b"0", b"1", b"2", b"4", b"9", b"10", b"31", b"32")
# distances that are too large, and bytes that are none
WRONG_DISTANCES = (
    b"33", b"320", b"65536", b"99999", b"100000", b"4294967296", b"-1", b"-0", b"00", b"032", b"+1", b" 1", b"1 ", b"1\n", b"1\x00", b"1.0", b"-", b"x", b"",
)
WITH_BUDGETS = (b"0", b"1", b"2000", b"999999999999999999")
TYPED_BUDGETS = (b"2", b"10", b"900", b"1009", b"65536", b"99999", b"100000", b"4294967296", b"100000000000000000")
WRONG_BUDGETS = (
    b"1000000000000000000", b"9999999999999999999", b"18446744073709551617", b"-1", b"-0", b"00", b"01", b"+1", b" 1", b"1 ", b"1\n", b"1\x00", b"1e3", b"-", b"x", b"",
)
# listings that are turned away, with the number and the line of each
WRONG_LISTINGS = (
    (b"", 5, 1), (b"12", 5, 1), (b"012\n", 5, 1), (b"11\n", 1, 1), (b"0\n", 1, 1), (b"144\n0,0,0,0,0,0\n", 1, 1), (b"12\n\n", 5, 2), (b"12\n1,2,3,4,5\n", 5, 2),
    (b"12\n1,2,3,4,5,6,7\n", 5, 2), (b"12\n1,2,3,4,5,6\n1,2,3,4,5,32768\n", 5, 3), (b"12\n1,2,3,4,5,6\n-32769,2,3,4,5,6\n", 5, 3),
    (b"12\n1,2,3,4,5,6\n1,2,3,4,5,6\n1,2,x,4,5,6\n", 5, 4), (b"12\n1,2,3,4,5,6", 5, 2), (b"\xff", 5, 1),
)
# the pair of samples that a hop repeats, and its last pair
HOP_PAIRS = ((b"-3,20000,", b"-1,0\n"), (b"700,-8,", b"32767,9\n"), (b"0,1,", b"-32768,-100\n"))


def is_budget(typed):
    """A whole number of 1 to 18 digits, with no zero before it."""
    digits = 1 <= len(typed) <= 18 and all(c in b"0123456789" for c in typed)
    return digits and (typed == b"0" or typed[:1] != b"0")


def bytes_fields(data):
    return len(data), reduce(lambda h, b: (h * 31 + b) % 4294967291, data, 0)


def printed(typed, budget, data, refused=None):
    line("typed", *bytes_fields(typed), int(is_budget(typed)), *bytes_fields(budget), int(is_budget(budget)), *bytes_fields(data))
    text = report(typed, int(budget) if is_budget(budget) else 0, data)
    assert refused in (None, text)
    print(text.decode(), end="")


def listed(budget, data, refused=None):
    for typed, own in ((b"0", None), (b"1", None), (b"33", b"refused,12,0\n"), (b"", b"refused,12,0\n")):
        printed(typed, budget, data, refused or own)


def many(count):
    """So many hops and one that is not like them, with few trials."""
    data = b"12\n" + b"0,1,0,0,1,0\n" * count + b"9,9,0,9,0,9\n"
    assert len(data) <= 65536
    listed(b"3", data, b"refused,2,0\n" if count >= HOPS else None)


def commands():
    for typed in TYPED_DISTANCES + WRONG_DISTANCES:
        for budget in WITH_BUDGETS:
            printed(typed, budget, SAMPLE, b"refused,12,0\n" if typed in WRONG_DISTANCES else None)
    for budget in TYPED_BUDGETS + WRONG_BUDGETS:
        assert is_budget(budget) == (budget in TYPED_BUDGETS)
        printed(b"0", budget, SAMPLE, b"step,trials,untried\n15,0,1009\n" if budget in WRONG_BUDGETS else None)
    for data, number, at_line in WRONG_LISTINGS:
        listed(b"9", data, b"refused,%d,%d\n" % (number, at_line))
    for N in LENGTHS:
        listed(b"9", b"%d\n" % N, b"refused,2,0\n")
    for N in LENGTHS:
        data = b"%d\n" % N
        for pair, last in HOP_PAIRS:
            data += pair * (N // 4 - 1) + last
            listed(b"2000", data)
    for count in (HOPS - 1, HOPS, 5460):
        many(count)
    whole = b"12\n" + bytes(65534)
    listed(b"9", whole[:-1], b"refused,5,2\n")
    listed(b"9", whole, b"refused,6,0\n")


def main():
    quicken()
    searches()
    recordings()
    refusals()
    commands()


if __name__ == "__main__":
    if len(sys.argv) == 3:
        typed, budget = [word.encode() for word in sys.argv[1:]]
        assert is_budget(budget)
        sys.stdout.buffer.write(report(typed, int(budget), sys.stdin.buffer.read()))
    else:
        main()
