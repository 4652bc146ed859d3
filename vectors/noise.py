"""Numbers at random, as the programs check_levels and check_shares make them too (report::noise)."""

# room for the coefficients of a block, and for buffers that are too long
ROOM = 112


def random(r):
    return (r * 1664525 + 1013904223) % 2**32


def noise(seed, span):
    """As many coefficients as there is room for, each from -span to span."""
    x = []
    for _ in range(ROOM):
        seed = random(seed)
        x.append(seed % (2 * span + 1) - span)
    return x
