"""What check_stream and check_levels play back: the sound of a hop, and the route by which a block is analysed."""
from bank import DOUBLE_LENGTHS, SHORT_LENGTHS
from noise import random


def sound(N, h, spans):
    """Hop h, as loud as its span; a span of 0 stands for the two loudest samples."""
    r, span, x = 300 * N + h, spans[h % 4], []
    for _ in range(N // 2):
        r = random(r)
        x.append((r >> 16) % (2 * span) - span if span else 32767 if r >> 16 & 1 else -32768)
    return x


def route_of(N, b):
    if b % 3 == 2 and N in SHORT_LENGTHS:
        return "short"
    return "double" if b % 3 == 1 and N in DOUBLE_LENGTHS else "direct"
