"""A sound to look at, and the picture of what examples/spectrogram.c writes. The picture needs matplotlib (Debian's python3-matplotlib).

    python3 examples/spectrogram.py sound | target/spectrogram 216 | python3 examples/spectrogram.py picture marked > docs/spectrogram.svg

`sound` writes 16-bit samples, raw and little-endian: a steady hum, a rising sweep, and one click at a joint, in the middle of the hop that two blocks
share, so that both show it. `picture` reads the lines block,k,value of any recording and writes an SVG: blocks from left to right, coefficients
upward, the darker the farther from 0. `picture marked`, for that sound alone, also writes the words hum, sweep and click where it has them."""
import math
import struct
import sys

N = 216
M = N // 2
HOPS = 120
HOP_LENGTHS = (6, 12, 18, 36, 54, 108)

# where the sound has them, in blocks and coefficients: the hum's coefficient, the first and last of the sweep, the hop of the click
HUM, SWEEP, CLICK = 12, (28, 100), 40
HUM_HEIGHT, SWEEP_HEIGHT, CLICK_HEIGHT, CLICK_SAMPLES = 300, 300, 24000, 3
# hum and sweep come and go over so many samples: an abrupt start would look like a click
FADE = 4 * M


def failed(message):
    print(f"spectrogram.py: {message}", file=sys.stderr)
    sys.exit(2)


def sample(i):
    """Coefficient k stands for a wave that turns by (k + 1/2) / N in a sample; the sweep's turns are those of a rate that rises evenly."""
    length = HOPS * M
    fade = min(1, i / FADE, (length - 1 - i) / FADE)
    hum = HUM_HEIGHT * math.sin(2 * math.pi * (HUM + 0.5) / N * i)
    turns = (SWEEP[0] + 0.5 + (SWEEP[1] - SWEEP[0]) * i / (2 * length)) / N * i
    sweep = SWEEP_HEIGHT * math.sin(2 * math.pi * turns)
    since = i - (CLICK * M + M // 2)
    click = CLICK_HEIGHT / (since + 1) if 0 <= since < CLICK_SAMPLES else 0
    return round(fade * (hum + sweep) + click)


def sound():
    sys.stdout.buffer.write(struct.pack(f"<{HOPS * M}h", *map(sample, range(HOPS * M))))


def read():
    """The blocks of standard input, each a list of its values without their signs."""
    lines = sys.stdin.read().split()
    if lines[:1] != ["block,k,value"]:
        failed("the first line is not block,k,value")
    blocks = []
    for number, line in enumerate(lines[1:], 2):
        try:
            block, k, value = line.split(",")
            if int(k) == 0:
                blocks.append([])
            if (int(block), int(k)) != (len(blocks) - 1, len(blocks[-1])):
                raise ValueError
            blocks[-1].append(abs(float(value)))
        except (ValueError, IndexError):
            failed(f"line {number} is not the next coefficient")
    if not blocks or len(blocks[0]) not in HOP_LENGTHS or any(len(block) != len(blocks[0]) for block in blocks):
        failed("there is no block, or one is not whole")
    return blocks


def mark(axes):
    """The words of the sound, in red: hum and sweep above their lines, the click above the two blocks that show it."""
    look = {"color": "#b00020", "va": "bottom"}
    axes.text(90, HUM + 2, "hum", ha="center", **look)
    axes.text(80, SWEEP[0] + (SWEEP[1] - SWEEP[0]) * 80 / HOPS + 4, "sweep", ha="right", **look)
    axes.text(CLICK + 0.5, M, f"click: blocks {CLICK} and {CLICK + 1}", ha="center", **look)


def picture(marked):
    import matplotlib
    from matplotlib.colors import LogNorm
    from matplotlib.figure import Figure

    blocks = read()
    up = len(blocks[0])
    if marked and (len(blocks), up) != (HOPS + 1, M):
        failed("marks are for the sound of this script, at N = 216")
    # tones span four powers of ten, up to the first that no value is beyond
    most = 10.0 ** math.ceil(math.log10(max(map(max, blocks)) or 1))
    # the same file at every run
    matplotlib.rcParams.update({"svg.hashsalt": "spectrogram", "svg.fonttype": "none"})
    figure = Figure(figsize=(10, 6.4), layout="constrained")
    axes = figure.subplots()
    tones = axes.imshow(list(zip(*blocks)), origin="lower", aspect="auto", interpolation="none", cmap="Blues", norm=LogNorm(most / 10**4, most, clip=True))
    axes.set(xlabel="block", ylabel="coefficient k")
    axes.set_title(f"The coefficients of a recording, N = {2 * up}", pad=24)
    figure.colorbar(tones, label="|value|")
    if marked:
        mark(axes)
    figure.savefig(sys.stdout.buffer, format="svg", metadata={"Date": None})


if sys.argv[1:] == ["sound"]:
    sound()
elif sys.argv[1:] in (["picture"], ["picture", "marked"]):
    picture(len(sys.argv) == 3)
else:
    failed("the argument is sound, picture, or picture marked")
