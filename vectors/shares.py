"""P9 of document 02, which coefficient moved a sample, with its call over recordings of P10, as plainly as they are written, over bank.py and recordings.py;
it shares no code with the crates.
Writes what crates/check_shares must print: python3 vectors/shares.py > crates/check_shares/stdout
`python3 vectors/shares.py near` prints the near ties as the lines of that program."""
import sys
from functools import cache
from itertools import product
from math import gcd

import bank
from bank import COEFFICIENT_LIMIT, HOPS, LENGTHS, LONG, SHAPES, SHORT, K, beyond, clamp, falling, rising, rnd
from noise import ROOM, noise, random
from recordings import FREQUENCY, NUMBERS, ORDERS

# Definitions. first and second are the original coefficients of the two blocks that cover a sample, the earlier block first, and first_changed and
# second_changed the changed ones.


@cache
def factors(N, shape, place):
    """K × W of each coefficient at a sample, of the earlier block and of the later one, and their two W."""
    M, w = N // 2, (falling(shape, N)[place], rising(shape, N)[place])
    return [[K(N, i, k) * w[block] for k in range(M)] for block, i in enumerate((M + place, place))], w


def shares(N, shape, first, first_changed, second, second_changed, place):
    """All shares of a sample, those of the earlier block first."""
    (earlier, later), _ = factors(N, shape, place)
    changes = [after - before for before, after in zip(first + second, first_changed + second_changed)]
    return [abs(change * factor) for change, factor in zip(changes, earlier + later)]


def largest(N, shape, *blocks_and_place):
    """Whether any share is not zero, and then the block and the coefficient of the first of the largest ones."""
    found = shares(N, shape, *blocks_and_place)
    at = found.index(max(found))
    return (True, at // (N // 2), at % (N // 2)) if found[at] else (False, 0, 0)


def sample(N, shape, first, second, place):
    """The sample that comes back from the coefficients of its two blocks."""
    _, w = factors(N, shape, place)
    sums = [sum(c * K(N, i, k) for k, c in enumerate(x)) for x, i in ((first, N // 2 + place), (second, place))]
    return clamp(rnd(sum(v * rnd(s, 2**26) for v, s in zip(w, sums)), N * 2**30))


# The calls, as in bank.py.


def refusal(N, shape, lists, place, lengths_kept=True):
    if N not in LENGTHS:
        return 1
    if shape not in SHAPES:
        return 8
    if any(len(x) != N // 2 for x in lists) or place >= N // 2 or not lengths_kept:
        return 2
    return 3 if any(beyond(x) for x in lists) else 0


def largest_share(N, shape, first, first_changed, second, second_changed, place):
    """The number, whether any share is not zero, the block and the coefficient; all else is 0 beside a refusal."""
    if refused := refusal(N, shape, (first, first_changed, second, second_changed), place):
        return refused, False, 0, 0
    named = largest(N, shape, first, first_changed, second, second_changed, place)
    assert named[0] or sample(N, shape, first, second, place) == sample(N, shape, first_changed, second_changed, place)
    return 0, *named


def name_share(N, shape, first, first_changed, second, second_changed, place, length):
    """The same into room for three numbers, for C."""
    lists = first, first_changed, second, second_changed
    if refused := refusal(N, shape, lists, place, length == 3):
        return refused, None
    return 0, [int(part) for part in largest(N, shape, *lists, place)]


# The calls over recordings: original and changed are the coefficients of its blocks, in the order named.


def recording_refusal(N, H, order, original, changed, hop, place, lengths_kept=True):
    return bank.recording_refusal(N, H, order, [original, changed], hop < H and place < N // 2 and lengths_kept)


def largest_recording(order, N, H, original, changed, hop, place):
    """Of the blocks that cover a hop, which are those of its number and of one more."""
    lists = [[X[bank.place(order, N, H, b, k)] for k in range(N // 2)] for b in (hop, hop + 1) for X in (original, changed)]
    any_share, block, k = largest(N, LONG, *lists, place)
    return (True, hop + block, k) if any_share else (False, 0, 0)


def largest_share_recording(order, N, H, original, changed, hop, place):
    if refused := recording_refusal(N, H, order, original, changed, hop, place):
        return refused, False, 0, 0
    return 0, *largest_recording(order, N, H, original, changed, hop, place)


def name_share_recording(order, N, H, original, changed, hop, place, length):
    if refused := recording_refusal(N, H, order, original, changed, hop, place, length == 3):
        return refused, None
    return 0, [int(part) for part in largest_recording(order, N, H, original, changed, hop, place)]


# Near ties: two coefficients and their changes, whose shares differ and are the same number in 64-bit floats.

# the largest change, and how many near ties of each kind are taken at a length
WHOLE = 2 * COEFFICIENT_LIMIT
NEAR = 4


def convergents(a, b):
    """The best fractions for a/b, as pairs."""
    before, pair = (0, 1), (1, 0)
    while b:
        part = a // b
        before, pair = pair, tuple(part * p + q for p, q in zip(pair, before))
        yield pair
        a, b = b, a % b


def within(a, b):
    """The largest changes d and e for which d × a is one more than e × b, or None."""
    if gcd(a, b) != 1 or a == b:
        return None
    d = pow(a, -1, b)
    e = (d * a - 1) // b
    times = min((WHOLE - d) // b, (WHOLE - e) // a)
    return (d + times * b, e + times * a) if times >= 0 else None


def same_float(a, b):
    return a != b and float(a) == float(b)


def chosen(found):
    """The best of each kind. What is found is a kind, a rank, of which the least is best, and a near tie."""
    kinds = [[near for kind, _, near in sorted(found) if kind == one] for one in (0, 1)]
    return [near for kind in kinds for near in kind[:NEAR]]


def near_within(N):
    """In one block: change times K differs by 1, so that the shares differ by W. The lower coefficient has more, or the higher one."""
    M, found = N // 2, []
    for place, block in product(range(M), (0, 1)):
        shape = (place + block) % 2
        _, w = factors(N, shape, place)
        sizes = [abs(K(N, M * (1 - block) + place, k)) for k in range(M)]
        ranked = []
        for j, apart in product(range(M), (-2, -1, 1, 2)):
            k = (j + apart) % M
            changes = within(sizes[j], sizes[k])
            if w[block] and changes and same_float(changes[0] * sizes[j], changes[1] * sizes[k]):
                ranked.append((int(j > k), -changes[0] * sizes[j], (N, shape, place, block, j, changes[0], block, k, changes[1])))
        # one of each kind at a place
        found += [min(r for r in ranked if r[0] == kind) for kind in {r[0] for r in ranked}]
    return chosen(found)


def near_between(N):
    """In two blocks: the changes' quotient is the best for that of their factors. The earlier block has more, or the later one."""
    M, found = N // 2, []
    # about the middle of the joint, where both W are large
    for shape, place in product(SHAPES, range(M // 2 - 2, M // 2 + 2)):
        (earlier, later), w = factors(N, shape, place)
        ranked = []
        for (j, a), (k, b) in product(enumerate(map(abs, earlier)), enumerate(map(abs, later))):
            for d, e in convergents(b, a) if all(w) else ():
                if d <= WHOLE and e <= WHOLE and same_float(d * a, e * b):
                    ranked.append((int(d * a < e * b), abs(d * a - e * b), (N, shape, place, 0, j, d, 1, k, e)))
        found += [min(r for r in ranked if r[0] == kind) for kind in {r[0] for r in ranked}]
    return chosen(found)


def near_ties(N):
    return near_within(N) + near_between(N)


# The cases of crates/check_shares. A block is its original coefficients and its changed ones.

MARK = 12345
EARLIER, LATER = 0, 1
NOISES = 48
SPANS = (1, 3, 1000, 6000000, 150000000, COEFFICIENT_LIMIT)
ABOVE, BELOW = COEFFICIENT_LIMIT + 1, -COEFFICIENT_LIMIT - 1


def offer(case, N, shape, place, earlier, later, p, q, r, s, room):
    """The calls on the first p, q, r and s coefficients of four, and the first `room` of four numbers, which are all shown afterwards."""
    lists = earlier[0][:p], earlier[1][:q], later[0][:r], later[1][:s]
    answer = largest_share(N, shape, *lists, place)
    number, named = name_share(N, shape, *lists, place, room)
    assert room != 3 or (number, named or [0, 0, 0]) == (answer[0], [*answer[1:]])
    left = [*(named or [MARK] * 3), MARK]
    word, *fields = case
    print(",".join([word] + [str(int(f)) for f in (*fields, N, shape, place, *answer, number, *left)]))
    return answer


def asked(case, N, shape, place, earlier, later):
    M = N // 2
    return offer(case, N, shape, place, earlier, later, M, M, M, M, 3)


@cache
def quiet(seed):
    return [noise(seed, COEFFICIENT_LIMIT)] * 2


def noisy(seed, span):
    return noise(2 * seed, span), noise(2 * seed + 1, span)


def put(x, k, v):
    return x[:k] + [v] + x[k + 1 :]


def change(k, d):
    """What coefficient k goes from and to: up at an even one, down at an odd one."""
    return (-(d // 2), d - d // 2)[:: 1 if k % 2 == 0 else -1]


def moved(block, k, d):
    return [put(x, k, v) for x, v in zip(block, change(k, d))]


def all_moved(d):
    return [[change(k, d)[i] for k in range(ROOM)] for i in (0, 1)]


def at_place(N, shape, place):
    answer = asked(("still",), N, shape, place, quiet(1), quiet(2))
    assert answer == (0, False, 0, 0)
    for d, e in ((1, 0), (0, 1), (1, 1), (WHOLE, 0), (0, WHOLE), (WHOLE, WHOLE)):
        _, any_share, block, _ = asked(("alike", d, e), N, shape, place, all_moved(d), all_moved(e))
        # a block is named unless it does not change or its W is 0
        heard = [bool(c and w) for c, w in zip((d, e), factors(N, shape, place)[1])]
        assert any_share == any(heard) and (not any_share or heard[block])


def moved_in(changes):
    """The two blocks with coefficients moved: a list of block, coefficient and change."""
    blocks = [quiet(1), quiet(2)]
    for block, k, d in changes:
        blocks[block] = moved(blocks[block], k, d)
    return blocks


def ones(N):
    M = N // 2
    for k in range(M):
        place = (7 * k + 3) % M
        for shape, block, d in ((LONG, EARLIER, 1), (LONG, LATER, WHOLE), (SHORT, EARLIER, WHOLE), (SHORT, LATER, 1)):
            answer = asked(("one", block, k, d), N, shape, place, *moved_in([(block, k, d)]))
            assert answer == ((0, True, block, k) if factors(N, shape, place)[1][block] else (0, False, 0, 0))


def pair(N, shape, place, a, j, d, b, k, e):
    return asked(("pair", a, j, d, b, k, e), N, shape, place, *moved_in([(a, j, d), (b, k, e)]))


def beside(N, shape, place, a, j, d, b, k, e):
    """Equal shares, and one more on either side."""
    rows, _ = factors(N, shape, place)
    assert abs(d * rows[a][j]) == abs(e * rows[b][k])

    def due(named):
        return (0, True, *named) if rows[a][j] else (0, False, 0, 0)

    assert pair(N, shape, place, a, j, d, b, k, e) == due(min((a, j), (b, k)))
    assert pair(N, shape, place, a, j, d + 1, b, k, e) == due((a, j))
    assert pair(N, shape, place, a, j, d, b, k, e + 1) == due((b, k))


def tied(N, shape, place, block, j, k):
    """Each of two coefficients changes by 15 times the other's K."""
    i = N // 2 * (1 - block) + place
    beside(N, shape, place, block, j, 15 * abs(K(N, i, k)), block, k, 15 * abs(K(N, i, j)))


def tied_blocks(N, shape, place, k):
    """With a coefficient of the earlier block whose K is W of the later one, if there is any."""
    M, (fall, rise) = N // 2, factors(N, shape, place)[1]
    for j in [j for j in range(M) if abs(K(N, M + place, j)) == rise][:1]:
        beside(N, shape, place, EARLIER, j, 15 * abs(K(N, place, k)), LATER, k, 15 * fall)


def ties(N):
    M = N // 2
    for place in range(M):
        j = 5 * place % M
        k = (j + 1 + place % (M - 1)) % M
        for block in (EARLIER, LATER):
            tied(N, place % 2, place, block, j, k)
        for shape in SHAPES:
            tied_blocks(N, shape, place, 3 * place % M)


def noises(N):
    for t in range(NOISES):
        seed, span = 100 * N + 2 * t, SPANS[t // 2 % 6]
        place = (random(seed) >> 16) % (N // 2)
        asked(("noise", t), N, t % 2, place, noisy(seed, span), noisy(seed + 1, span))


def spoilt(which, k, v):
    """Two blocks with coefficient k of one of their four lists put in place of its own."""
    lists = [*noisy(3, 1000), *noisy(4, 1000)]
    if which is not None:
        lists[which] = put(lists[which], k, v)
    return lists[:2], lists[2:]


def sized(N, *lengths):
    return offer(("sized", *lengths), N, SHORT, 1, *spoilt(None, 0, 0), *lengths)


def wrong_lengths(N):
    M = N // 2
    for length in (M - 1, M + 1, 0):
        for at in range(4):
            assert sized(N, *put([M] * 4, at, length), 3)[0] == 2
        assert sized(N, *[length] * 4, 3)[0] == 2


def limits(N):
    M = N // 2
    for k, v in ((0, ABOVE), (M - 1, BELOW), (N // 4, 2**31 - 1), (1, -(2**31)), (M, ABOVE), (0, ABOVE - 1), (M - 1, BELOW + 1)):
        for which in range(4):
            answer = asked(("beyond", which, k, v), N, LONG, 1, *spoilt(which, k, v))
            assert answer[0] == (3 if k < M and abs(v) > COEFFICIENT_LIMIT else 0)


def causes(N):
    """Every choice of the causes: the first in their order is answered."""
    M = N // 2
    for choice in range(64):
        n, shape, length, place, room, v = [choice >> bit & 1 for bit in range(6)]
        blocks = spoilt(3, 0, BELOW if v else 0)
        answer = offer(("causes", choice), N + n, 2 if shape else SHORT, M if place else M - 1, *blocks, *[M - length] * 4, 4 if room else 3)
        assert answer[0] == (1 if n else 8 if shape else 2 if length or place else 3 if v else 0)


def refusals(N):
    M = N // 2
    for shape in (2, 3, 256, 65537, 2**31, 2**32 - 1):
        assert asked(("shape",), N, shape, 1, *spoilt(None, 0, 0))[0] == 8
    for place in (M - 1, M, M + 1, N - 1, 2**32, 2**64 - 1):
        assert asked(("place",), N, LONG, place, *spoilt(None, 0, 0))[0] == (0 if place < M else 2)
    wrong_lengths(N)
    for room in (0, 1, 2, 4):
        sized(N, M, M, M, M, room)
    limits(N)
    causes(N)


def offered(N):
    for shape in SHAPES:
        for place in range(N // 2):
            at_place(N, shape, place)
    ones(N)
    ties(N)
    noises(N)
    refusals(N)


def untabled(n, m):
    lists = [m] * 4
    sized(n, *lists, 3)
    sized(n, 0, 0, 0, 0, 0)
    for shape, place, blocks in ((2, m, spoilt(None, 0, 0)), (LONG, 0, spoilt(0, 0, ABOVE))):
        assert offer(("untabled",), n, shape, place, *blocks, *lists, 3)[0] == 1


# The cases over recordings. A case is its word and fields behind 'recording'.

# room for the coefficients of one hop too many at the shortest length
MANY = 24582


@cache
def many(seed, span):
    x = []
    for _ in range(MANY):
        seed = random(seed)
        x.append(seed % (2 * span + 1) - span)
    return x


def lend(case, order, N, H, hop, place, x, y, p, q, room=3):
    """The calls on the first p and q of two lists, and the first `room` of four numbers, which are all shown afterwards."""
    lists = x[:p], y[:q]
    answer = largest_share_recording(NUMBERS[order], N, H, *lists, hop, place)
    number, named = name_share_recording(NUMBERS[order], N, H, *lists, hop, place, room)
    assert room != 3 or (number, named or [0, 0, 0]) == (answer[0], [*answer[1:]])
    left = [*(named or [MARK] * 3), MARK]
    word, *fields = case
    fields = [int(f) for f in fields] + [order] + [int(f) for f in (N, H, hop, place, *answer, number, *left)]
    print(",".join(["recording", word] + [str(f) for f in fields]))
    return answer


def at_hop(order, N, H, hop):
    M = N // 2
    l = (H + 1) * M
    for span, place in ((COEFFICIENT_LIMIT, 0), (1000, M - 1)):
        assert lend(("noise", span), order, N, H, hop, place, many(5, span), many(6, span), l, l)[2] in (hop, hop + 1)
    x, answers = many(7, COEFFICIENT_LIMIT), []
    assert lend(("still",), order, N, H, hop, 1, x, x, l, l) == (0, False, 0, 0)
    for place, b, k in ((0, hop, M - 1), (M - 1, hop + 1, 0), (1, (hop + 2) % (H + 1), M // 2)):
        y = put(x, bank.place(NUMBERS[order], N, H, b, k), 0)
        answers.append(lend(("one", b, k), order, N, H, hop, place, x, y, l, l))
        assert answers[-1] == ((0, True, b, k) if b in (hop, hop + 1) else (0, False, 0, 0))
    return answers


def over(N, H):
    for hop in (0, H // 2, H - 1):
        # one change has the same answer from either order
        by_block, by_frequency = [at_hop(order, N, H, hop) for order in ORDERS]
        assert by_block == by_frequency


def sized_recording(order, N, H, hop, place, p, q, room=3):
    return lend(("sized", p, q, room), order, N, H, hop, place, many(3, 1000), many(4, 1000), p, q, room)[0]


def beyond_recording(order, N, H, l, at, v):
    x, y = many(3, 1000), many(4, 1000)
    due = 3 if at < l and abs(v) > COEFFICIENT_LIMIT else 0
    assert lend(("original", at, v), order, N, H, 0, 1, put(x, at, v), y, l, l)[0] == due
    assert lend(("changed", at, v), order, N, H, 0, 1, x, put(y, at, v), l, l)[0] == due


def refused_recording(order, N, H):
    M = N // 2
    l = (H + 1) * M
    for hop, place in ((H, 0), (H + 1, 0), (2**32, 0), (2**64 - 1, 0), (0, M), (0, M + 1), (0, 2**64 - 1)):
        assert sized_recording(order, N, H, hop, place, l, l) == 2
    assert sized_recording(order, N, H, H - 1, M - 1, l, l) == 0
    for hops in (0, H - 1, H + 1, 2**32 + H, 2**63 + H):
        assert sized_recording(order, N, hops, 0, 0, l, l) == 2
    assert sized_recording(order, N, 2**64 - 1, 0, 0, 0, 0) == 2
    for p, q in ((l - 1, l), (l + 1, l), (0, l), (l, l - 1), (l, l + 1), (l, 0)):
        assert sized_recording(order, N, H, 0, 0, p, q) == 2
    for room in (0, 2, 4):
        assert sized_recording(order, N, H, 0, 0, l, l, room) == 0
    for at, v in ((0, BELOW), (l - 1, ABOVE), (l // 2, -(2**31)), (l, ABOVE), (0, BELOW + 1), (l - 1, ABOVE - 1)):
        beyond_recording(order, N, H, l, at, v)


def causes_recording():
    """Every choice of the causes, at three hops of N = 24, of which the last is meant: the first in their order is answered."""
    for choice, order in product(range(64), ORDERS):
        n, hop, length, place, room, v = [choice >> bit & 1 for bit in range(6)]
        y = put(many(4, 1000), 0, BELOW if v else 0)
        answer = lend(("causes", choice), order, 24 + n, 3, 2 + hop, 11 + place, many(3, 1000), y, 48 - length, 48 - length, 3 + room)
        assert answer[0] == (1 if n else 2 if hop or length or place else 3 if v else 0)


def untabled_recording(n, m):
    answers = [sized_recording(order, n, 2, 0, 0, 3 * m, 3 * m) for order in ORDERS]
    assert answers + [sized_recording(FREQUENCY, n, 0, 9, 9, 0, 0, 4)] == [1] * 3


def over_recordings():
    for N, H in ((12, 1), (12, 2), (12, 3), (12, HOPS), (24, 2), (36, 3), (72, 3), (72, 681), (108, 2), (216, 1), (216, 3), (216, 226)):
        over(N, H)
    for N, H in ((12, 3), (12, HOPS), (72, 2), (216, 3)):
        for order in ORDERS:
            refused_recording(order, N, H)
    for order in ORDERS:
        assert sized_recording(order, 12, HOPS + 1, 0, 0, MANY, MANY) == 2
    causes_recording()
    for n, m in ((0, 6), (13, 6), (48, 24), (144, 72), (217, 108), (2**64 - 1, 36)):
        untabled_recording(n, m)


def main():
    for N in LENGTHS:
        offered(N)
    for n, m in ((0, 6), (11, 5), (13, 6), (48, 24), (144, 72), (217, 108), (432, 108), (2**64 - 1, 36)):
        untabled(n, m)
    for N in LENGTHS:
        for near in near_ties(N):
            pair(*near)
    over_recordings()


if __name__ == "__main__":
    if sys.argv[1:] == ["near"]:
        for N in LENGTHS:
            for near in near_ties(N):
                print(f"    pair{near};")
    else:
        main()
