"""P13 of document 02, the coarsest step for a recording, as plainly as it is written, over bank.py and steps.py. x is a recording's samples, D the allowed
distance. It shares no code with the crates. Whoever asks for long searches calls recordings.quicken first."""
from functools import cache

from bank import HOPS, LENGTHS, analysed, hops, listed, listing_verdict, number, refusal_line
from steps import back, level

LARGEST = 1024
LARGEST_DISTANCE = 32


# A trial. What is found of a recording is kept, so that one table of distances by step answers for every D and every budget: x is a tuple here.


@cache
def spectra(N, x):
    """The coefficients of its blocks."""
    return analysed(N, list(x))


@cache
def distance(N, x, step):
    """How far the farthest sample lies from its own where every coefficient was stored by this step."""
    stored = [[back(level(c, step), step) for c in X] for X in spectra(N, x)]
    returned = [s for hop in hops(N, stored) for s in hop]
    return max(abs(r - s) for r, s in zip(returned, x, strict=True))


def passes(N, x, D, step):
    return distance(N, x, step) <= D


# The search, by whatever tells of a step whether it passes.


def sure(D):
    return min(LARGEST, 32 * D + 15)


def search(passes, D, budget):
    """The step, the trials made, and how many untried steps lie above that step."""
    above = range(LARGEST, sure(D), -1)
    for trials, step in enumerate(above[:budget], 1):
        if passes(step):
            return step, trials, 0
    made = min(budget, len(above))
    return sure(D), made, len(above) - made


def coarsest(N, x, D, budget):
    kept = tuple(x)
    return search(lambda step: passes(N, kept, D, step), D, budget)


# The calls, as in bank.py.


def refusal(N, H, x, D, room_kept=True):
    if N not in LENGTHS:
        return 1
    if not 1 <= H <= HOPS or len(x) != H * (N // 2) or not room_kept:
        return 2
    return 12 if D > LARGEST_DISTANCE else 0


def coarsest_step(N, H, x, D, budget):
    """The number, the step, the trials and the untried; all else is 0 beside a refusal."""
    if refused := refusal(N, H, x, D):
        return refused, 0, 0, 0
    return 0, *coarsest(N, x, D, budget)


def find_step(N, H, x, D, budget, length):
    """The same into room for three numbers, for C."""
    if refused := refusal(N, H, x, D, length == 3):
        return refused, None
    return 0, [*coarsest(N, x, D, budget)]


# The command.


def typed_distance(typed):
    """The distance as it is typed; what is none is above the largest."""
    D = number(typed)
    return LARGEST_DISTANCE + 1 if D is None or D < 0 else D


def report(typed, budget, data):
    """What coarsest-step prints for a distance as it is typed, a budget and the bytes of a listing."""
    refused, at = listing_verdict(data)
    if not refused:
        N, x = listed(data)
        refused, *found = coarsest_step(N, len(x) // (N // 2), x, typed_distance(typed), budget)
    if refused:
        return refusal_line(refused, at)
    return b"step,trials,untried\n%d,%d,%d\n" % tuple(found)
