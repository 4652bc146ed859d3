"""How much of the rounding reaches a sample. Run: python3 vectors/rounding.py docs/rounding.svg
It writes that one file and prints the figures of docs/ROUNDING.md: each stage's bound beside the largest found by search, in exact whole numbers."""
import random
import sys
from fractions import Fraction

from bank import LENGTHS, K, W, rnd

STAGES = ("y", "power", "X", "gram", "U")
# the stages that the proof bounds only together where two blocks meet
BLOCKS = ("X", "gram", "U")
ROWS = (*STAGES, "blocks", "all")
NAMES = {
    "y": "rounding of y",
    "power": "window's power",
    "X": "rounding of X",
    "gram": "kernel's gram",
    "U": "rounding of U",
    "blocks": "X, gram and U",
    "all": "all together",
}


def bounds(N):
    """The bounds as shares of the half unit, from the constants in the laws of crates/reconstruction/specs."""
    M = N // 2
    R, F, G, B = 3 * 2**25, 2**17, 2**27, 2**15  # JointLaws: both halves of the joint, rounding of y, power, a sample
    off = {"X": Fraction(M, 2), "gram": Fraction(N, 8), "U": Fraction(1, 2)}  # how far one block's U(n) is off
    E = 3 * N + 4  # BlockLaws, Near with A = 0: the same, eight times
    assert 8 * sum(off.values()) == E
    parts = {"y": M * 2 * R * F, "power": M * G * B} | {stage: R * size * 2**21 for stage, size in off.items()}
    parts["blocks"] = 2**18 * R * E
    parts["all"] = 2**18 * R * E + M * (2 * R * F + G * B)  # JointLaws, meet
    assert parts["blocks"] == sum(parts[stage] for stage in BLOCKS) and parts["all"] == sum(parts[stage] for stage in STAGES)
    return {row: Fraction(part) / (2**21 * (N << 29)) for row, part in parts.items()}


def excess(a, k):
    """2^k × rnd(a / 2^k) − a."""
    return (rnd(a, 1 << k) << k) - a


class Joint:
    """Two blocks over three hops, and one place n of the hop that they share. Every part below is counted in 1/2^54 of what the last division gets,
    so that all are whole numbers; the half unit is then N × 2^83."""

    def __init__(self, N, n):
        self.N, self.M, self.n = N, N // 2, n
        M = self.M
        self.window = [W(N, i) for i in range(N)]
        self.kernel = [[K(N, i, k) for k in range(M)] for i in range(N)]
        # for each block: where it starts, the place of the sample in it, the mirrored place and its sign
        self.blocks = [(0, M + n, N - 1 - n, 1), (M, n, M - 1 - n, -1)]

    def half(self):
        return self.N << 83

    def load(self, x):
        self.x = list(x)
        self.y = [[rnd(self.window[i] * x[at + i], 2**18) for i in range(self.N)] for at, *_ in self.blocks]
        self.S = [[sum(y[i] * self.kernel[i][k] for i in range(self.N)) for k in range(self.M)] for y in self.y]

    def put(self, b, i, value):
        """Changes sample i of block b, one that the other block does not cover."""
        self.x[self.blocks[b][0] + i] = value
        new = rnd(self.window[i] * value, 2**18)
        change = new - self.y[b][i]
        self.y[b][i] = new
        self.S[b] = [s + change * c for s, c in zip(self.S[b], self.kernel[i])]

    def parts(self):
        """Each stage's part of what is too much in tail + V; their sum is the whole."""
        N, x, parts, E = self.N, self.x, dict.fromkeys(STAGES, 0), 0
        for (start, m, mirror, sign), y, S in zip(self.blocks, self.y, self.S):
            w, row = self.window[m], self.kernel[m]
            X = [rnd(s, 2**28) for s in S]
            T = sum(a * c for a, c in zip(X, row))
            E += w * rnd(T, 2**26)
            parts["U"] += w * excess(T, 26) << 28
            parts["X"] += w * sum(((a << 28) - s) * c for a, s, c in zip(X, S, row))
            parts["gram"] += w * (sum(s * c for s, c in zip(S, row)) - (N << 50) * (y[m] + sign * y[mirror]))
            parts["y"] += (w * N << 32) * (
                (y[m] << 18) - self.window[m] * x[start + m] + sign * ((y[mirror] << 18) - self.window[mirror] * x[start + mirror])
            )
        s = x[self.M + self.n]
        parts["power"] = (N << 32) * (sum(self.window[m] ** 2 for _, m, *_ in self.blocks) - 2**52) * s
        assert sum(parts.values()) == (E << 54) - (N << 84) * s
        assert rnd(E, N << 30) == s
        return parts

    def part_of(self, b, stage):
        """What block b brings to the part of X, or to E."""
        w, row, S = self.window[self.blocks[b][1]], self.kernel[self.blocks[b][1]], self.S[b]
        T = sum(rnd(s, 2**28) * c for s, c in zip(S, row))
        if stage == "all":
            return w * rnd(T, 2**26)
        return w * ((T << 28) - sum(s * c for s, c in zip(S, row)))

    def room(self):
        """The part of X if every coefficient lay at a half, with the worst signs, in units of 2^27."""
        return sum(self.window[m] * sum(map(abs, self.kernel[m])) for _, m, *_ in self.blocks)

    def loudest_for_gram(self):
        """The loudest samples of which each pushes the gram part upward."""
        push = [0] * (3 * self.M)
        for start, m, mirror, sign in self.blocks:
            w, row = self.window[m], self.kernel[m]
            for i in range(self.N):
                defect = sum(c * e for c, e in zip(row, self.kernel[i])) - (self.N << 50) * ((i == m) + sign * (i == mirror))
                push[start + i] += w * defect * self.window[i]
        return [32767 if p > 0 else -32768 for p in push]


SAMPLES = range(-32768, 32768)


def y_largest(joint):
    """The largest part of y over all recordings, and the samples that give it: two samples matter, and each is tried with every value."""
    N, n, M = joint.N, joint.n, joint.M
    r, f = joint.window[n], joint.window[M - 1 - n]
    own = [r * excess(r * s, 18) + f * excess(f * s, 18) for s in SAMPLES]
    mirrored = [f * excess(r * s, 18) - r * excess(f * s, 18) for s in SAMPLES]
    top = max(own), max(mirrored)
    part = (N << 32) * max(sum(top), -min(own) - min(mirrored))
    return part, {M + n: SAMPLES[own.index(top[0])], N - 1 - n: SAMPLES[mirrored.index(top[1])]}


def climb(joint, rng, x, moves, stage, near):
    """Changes one sample at a time and keeps what is no worse. The hop that both blocks cover stays, so each block climbs by itself; changes stay
    near the start."""
    joint.load(x)
    N, M = joint.N, joint.M
    for b, places in ((0, range(M)), (1, range(M, N))):
        best = joint.part_of(b, stage)
        for _ in range(moves):
            i = rng.choice(places)
            at = joint.blocks[b][0] + i
            old = joint.x[at]
            joint.put(b, i, max(-32768, min(32767, x[at] + rng.randint(-near, near))))
            now = joint.part_of(b, stage)
            if now >= best:
                best = now
            else:
                joint.put(b, i, old)
    return joint.parts()


def search(N, rng):
    """The largest share found of each stage, and of all together."""
    M = N // 2
    joints = [Joint(N, n) for n in range(M)]
    half = joints[0].half()
    found = dict.fromkeys(ROWS, 0)

    def note(parts):
        sums = {"blocks": sum(parts[stage] for stage in BLOCKS), "all": sum(parts.values())}
        for row, part in (parts | sums).items():
            found[row] = max(found[row], abs(part))

    kinds = (
        lambda: [rng.randint(-32768, 32767) for _ in range(3 * M)],
        lambda: [rng.choice((-32768, 32767)) for _ in range(3 * M)],
        lambda: [rng.randint(-3, 3) for _ in range(3 * M)],
    )
    for joint in joints:
        found["y"] = max(found["y"], y_largest(joint)[0])
        loudest = joint.loudest_for_gram()
        for x in (loudest, [-1 - s for s in loudest], *(kind() for kind in kinds for _ in range(2000 // N))):
            joint.load(x)
            note(joint.parts())

    # climbs where the kernel and the window leave the most room: for X alone, and for all from the loudest samples with those of y in place
    for joint in sorted(joints, key=Joint.room)[-3:]:
        fixed = y_largest(joint)[1]
        loudest = [fixed.get(at, s) for at, s in enumerate(joint.loudest_for_gram())]
        for _ in range(3):
            note(climb(joint, rng, kinds[0](), 300_000 // N, "X", 65535))
            note(climb(joint, rng, loudest, 300_000 // N, "all", 2000))
    return {stage: Fraction(size, half) for stage, size in found.items()}


def hundredths(share):
    return f"{float(100 * share):.2f}"


def percent(share):
    return f"{hundredths(share)} %"


def table(results):
    print("| stage | " + " | ".join(f"N = {N}" for N in LENGTHS) + " |")
    print("|---|" + "---:|" * len(LENGTHS))
    for row in ROWS:
        cells = " | ".join(f"{hundredths(results[N][row])} of {hundredths(bounds(N)[row])}" for N in LENGTHS)
        print(f"| {NAMES[row]} | {cells} |")


def limits():
    """What X and U cannot pass, with the true sizes of window and kernel in place of the laws' bounds on them."""
    for N in LENGTHS:
        joints = [Joint(N, n) for n in range(N // 2)]
        halves = Fraction(max(joint.room() for joint in joints) << 27, N << 83)
        ends = Fraction(max(sum(joint.window[m] for _, m, *_ in joint.blocks) for joint in joints), 2 * (N << 29))
        print(f"N = {N}: X at most {percent(halves)}, U at most {percent(ends)}")


COLOURS = {"y": "#1f77b4", "power": "#66717e", "X": "#d1495b", "gram": "#3a7d44", "U": "#c98a1b", "blocks": "#8a4f7d", "all": "#1a1a1a"}
DASHED = ' stroke-dasharray="4 3"'


def picture(results):
    width, left, right = 1040, 250, 1000
    scale = (right - left) / 10  # a tenth of the half unit across
    out = []

    def text(x, y, words, size=14, anchor="start", fill="#1a1a1a", weight="normal", more=""):
        look = f'font-size="{size}" text-anchor="{anchor}" fill="{fill}" font-weight="{weight}"{more}'
        out.append(f'<text x="{x:.1f}" y="{y:.1f}" {look}>{words}</text>')

    def rect(x, y, w, h, fill, stroke="none", more=""):
        out.append(f'<rect x="{x:.1f}" y="{y:.1f}" width="{w:.1f}" height="{h:.1f}" fill="{fill}" stroke="{stroke}"{more}/>')

    def line(x1, y1, x2, y2, stroke, more=""):
        out.append(f'<line x1="{x1:.1f}" y1="{y1:.1f}" x2="{x2:.1f}" y2="{y2:.1f}" stroke="{stroke}"{more}/>')

    text(30, 36, "How much of the rounding reaches a sample", 22, weight="bold")
    text(30, 60, "Shares of the half unit, N × 2²⁹, that would change a returned sample. Direct analysis, coefficients unchanged", 15, fill="#555555")
    # the whole half unit, and the tenth of it that is enlarged
    whole, most = bounds(12)["all"], max(results[N]["all"] for N in LENGTHS)
    y, end = 84, left + 0.1 * (right - left)
    text(left - 14, y + 18, "the half unit", 15, "end", weight="bold")
    rect(left, y, right - left, 26, "#f1f1f1", "#777777")
    rect(left, y, float(whole) * (right - left), 26, "#c9c9c9", "#777777")
    rect(left, y, float(most) * (right - left), 26, "#1a1a1a")
    text(end + 12, y + 18, f"all together, N = 12. Grey: proved, at most {percent(whole)}. Black: found, {percent(most)}", 15)
    y = 148
    for x1, x2 in ((left, left), (end, right)):
        line(x1, 110, x2, y, "#999999", DASHED)
    base = y + len(LENGTHS) * (len(ROWS) * 22 + 22) + 6
    for i in range(11):
        x = left + i * scale
        line(x, y, x, base, "#dddddd")
        text(x, base + 20, f"{i} %", 13, "middle", "#555555")
    y += 12
    for N in LENGTHS:
        text(30, y + 16, f"N = {N}", 17, weight="bold")
        for row in ROWS:
            bound, most = bounds(N)[row], results[N][row]
            text(left - 14, y + 15, NAMES[row], 14, "end", weight="bold" if row in ("blocks", "all") else "normal")
            rect(left, y + 2, float(bound) * 100 * scale, 17, "#ffffff", COLOURS[row])
            rect(left, y + 2, float(most) * 100 * scale, 17, COLOURS[row])
            # beside the bar, or in its empty part where that is long
            after = most if row in ("blocks", "all") else bound
            halo = ' stroke="#ffffff" stroke-width="4" paint-order="stroke"' if after == bound else ""
            text(left + float(after) * 100 * scale + 8, y + 15, f"{percent(most)} of {percent(bound)}", 13, fill="#333333", more=halo)
            y += 22
        y += 22
    y = base + 36
    for x, fill, more, words in (
        (30, "#555555", "", "largest found by search"),
        (290, "#ffffff", "", "proved bound"),
    ):
        rect(x, y, 30, 14, fill, "#555555", more)
        text(x + 40, y + 12, words, 14, fill="#333333")
    height = base + 68
    head = (
        f'<svg xmlns="http://www.w3.org/2000/svg" viewBox="0 0 {width} {height:.0f}" width="{width}" height="{height:.0f}" '
        'font-family="DejaVu Sans, Verdana, Helvetica, Arial, sans-serif">'
    )
    return "\n".join([head, f'<rect width="{width}" height="{height:.0f}" fill="white"/>', *out, "</svg>", ""])


if __name__ == "__main__":
    for a in (0, 1, -1, 2**17, -(2**17), 3 * 2**17, -3 * 2**17 + 1):
        assert excess(a, 18) == 2**18 * rnd(a, 2**18) - a
    results = {N: search(N, random.Random(N)) for N in LENGTHS}
    for N in LENGTHS:
        assert all(results[N][row] <= bounds(N)[row] for row in ROWS)
    table(results)
    limits()
    with open(sys.argv[1], "w", encoding="utf-8", newline="\n") as file:
        file.write(picture(results))
