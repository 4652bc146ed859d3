"""Writes the numbers that the code lends. Nothing rests on it: each table is proved equal to its definition where it is lent.
python3 vectors/tables.py blocks > crates/blocks/src/numbers.rt, the same for windows and split, and spots > crates/level/specs/Spots.antt. `rt fmt` lays them out.

A block's places are paired so: the odd numbers of 1 to 8 M - 1 that divide by no 3 are a group by multiplication, place j stands for 2 j + 1 and its mirrors, and its
partner is w (2 j + 1), w being 1 in the turn's powers of two and -1 in its powers of three. The pairs of M lie over those of M/3, pair k over pair k mod L."""
import sys
from functools import cache
from bank import LENGTHS, LONG, SHORT, SHORT_LENGTHS, C, falling, rising

# the numbers of places: of a block that is summed by itself, and of one that is summed by its third
SINGLE, THREEFOLD = (2, 4), (6, 12, 18, 36, 54, 108)
# what is added to a place where what lies there is turned
TURNED = 128


def meet(a, m, b, n):
    """The number below m n that is a modulo m and b modulo n."""
    return next(x for x in range(m * n) if (x - a) % m == 0 and (x - b) % n == 0)


def powers(M):
    """M as a power of two times a power of three."""
    two = M & -M
    return two, M // two


def spot(t, M):
    """The place of an odd number, with its turn."""
    t %= 8 * M
    t = min(t, 8 * M - t)
    return (4 * M - t - 1) // 2 + TURNED if t > 2 * M else (t - 1) // 2


@cache
def near_numbers(M):
    """The odd numbers of the pairs' first places, in order."""
    two, three = powers(M)
    if three == 1:
        return [2 * j + 1 for j in range(M)]
    if three == 3:
        return [meet(r, 8 * two, 1, 3) for r in near_numbers(M // 3)]
    return [(r + k * (8 * M // 3)) % (8 * M) for k in range(3) for r in near_numbers(M // 3)]


def partner(M):
    two, three = powers(M)
    return 1 if three == 1 else meet(1, 8 * two, -1, three)


def spots(M):
    """The two places of each pair."""
    return [spot(u, M) for u in near_numbers(M)], [spot(partner(M) * u, M) for u in near_numbers(M)]


def kernel(M, sign):
    d, w = 108 // M, partner(M)
    return [[C(d * u * v) + sign * C(d * w * u * v) for v in near_numbers(M)] for u in near_numbers(M)]


def places(M):
    """Where the sum of each place stands in the line of the pairs' sums, their differences and every third's."""
    near, far = spots(M)
    line = near + far + [3 * i + 1 for i in range(M // 3)]
    return [next(i + (TURNED if e >= TURNED else 0) for i, e in enumerate(line) if e % TURNED == j) for j in range(M)]


def row(values):
    return f"[{', '.join(map(str, values))}]"


def rows(matrix):
    return f"[{', '.join(map(row, matrix))}]"


def fields(name, kind, values):
    return f"pub static {name}: {kind} = {name_of(kind)} {{\n" + "".join(f"    {field}: {value},\n" for field, value in values) + "};\n"


def name_of(kind):
    return kind.split("<")[0]


def blocks():
    yield "// The tables of each block's pairs: `vectors/tables.py` writes these numbers, and the functions that lend them prove them.\nuse level::Level;\n"
    for M in SINGLE:
        yield f"pub static KERNEL_{M}: [[i32; {M}]; {M}] = {rows(kernel(M, 1))};\n"
    for M in THREEFOLD:
        near, far = spots(M)
        yield fields(f"LEVEL_{M}", f"Level<{len(near)}>", [("near", row(near)), ("far", row(far)), ("plus", rows(kernel(M, 1))), ("minus", rows(kernel(M, -1)))])
    for M in THREEFOLD:
        yield f"pub static OF_{M}: [u8; {M}] = {row(places(M))};\n"


def windows():
    yield "// The halves of the joints of each length: `vectors/tables.py` writes these numbers, and the calls that lend them prove them.\nuse crate::Halves;\n"
    for N in LENGTHS:
        halves = [("rise", rising(LONG, N)), ("short_rise", rising(SHORT, N)), ("fall", falling(LONG, N)), ("short_fall", falling(SHORT, N))]
        yield fields(f"HALVES_{N}", f"Halves<{N // 2}>", [(field, row(values)) for field, values in halves])


def split():
    yield (
        "// The cosines beside e and f in rB(n) and rC(n), n from 0 to N/3 - 1, fB with its sign changed: `vectors/tables.py` writes these numbers, and the calls that\n"
        "// lend them prove them.\nuse crate::Cosines;\n"
    )
    for N in SHORT_LENGTHS:
        angles = [2 * (216 // N) * (2 * n + 1) for n in range(N // 3)]
        cosines = [
            ("eb", [C(216 - t) for t in angles]),
            ("fb", [-(C(t - 72) + C(t + 72)) for t in angles]),
            ("ec", [C(t) for t in angles]),
            ("fc", [C(144 - t) + C(288 - t) for t in angles]),
        ]
        yield fields(f"COSINES_{N}", f"Cosines<{N // 3}>", [(field, row(values)) for field, values in cosines])


def spot_lists():
    yield "-- Where the two places of each pair lie, by the length of the block: `vectors/tables.py` writes them.\nuse Rattle.std.specs.Prelude.{List, [], ◌∷◌, ℕ}\n"
    for M in SINGLE + THREEFOLD:
        for side, found in zip(("near", "far"), spots(M)):
            yield f"unfoldable pub {side}_{M} : List ℕ\n{side}_{M} = {' ∷ '.join(map(str, found))} ∷ []\n"


print("\n".join({"blocks": blocks, "windows": windows, "split": split, "spots": spot_lists}[sys.argv[1]]()), end="")
