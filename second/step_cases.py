"""Calls for comparing another program's arithmetic steps with these.

In a bundle stand the step's number (one byte) and its arguments (eight bytes each, but
four of an angle; before the words of the doubled area their count, one byte). A call is
answered by number, place and value.
"""

from itertools import islice, product
from math import gcd, isqrt
from random import Random
from typing import Callable, Iterable, Iterator, NamedTuple

from . import documents, steps
from .bundle import line, number
from .ranges import (
    ANGLE, CIRCLE, COMBINED, DISTANCE, ELEVATION, FACTOR, GRID_DISTANCE, LEGS, MISCLOSURE, OFFSET,
    PASSED_CLOSURE, QUADRANT, TESTED_CLOSURE, TOTAL, Range,
)
from .steps import FACTOR_ONE

SEED = 4
INSIDE = 3
AREA = 15

# What an argument's word can hold: signed or not, of 64 bits or of 32.
SIGNED = Range(-1 << 63, (1 << 63) - 1)
COUNT = Range(0, (1 << 64) - 1)
TURN = Range(0, (1 << 32) - 1)


class Argument(NamedTuple):
    """The stated range of an argument, and what its word can hold."""

    good: Range
    held: Range


ANY_ANGLE = Argument(ANGLE, TURN)
W = Argument(MISCLOSURE, SIGNED)
CLOSURE = Argument(PASSED_CLOSURE, SIGNED)
ANY_CLOSURE = Argument(TESTED_CLOSURE, SIGNED)
S = Argument(TOTAL, COUNT)
N = Argument(LEGS, COUNT)
GRID = Argument(GRID_DISTANCE, COUNT)


class Step(NamedTuple):
    """A step, and its arguments in the order of a call."""

    answer: Callable[..., steps.Answer]
    arguments: tuple[Argument, ...]


def angle_share(w: int, angle_no: int, legs: int) -> steps.Answer:
    """The share of W at an angle: in a call the part stands before the whole, as for a closure."""
    return steps.angle_share(w, legs, angle_no)


STEPS = {
    1: Step(steps.sea_level_factor, (Argument(ELEVATION, SIGNED),)),
    2: Step(steps.combined_factor, (Argument(FACTOR, COUNT), Argument(FACTOR, COUNT))),
    3: Step(steps.grid_distance, (Argument(DISTANCE, COUNT), Argument(COMBINED, COUNT))),
    4: Step(steps.first_azimuth, (ANY_ANGLE, ANY_ANGLE)),
    5: Step(steps.next_azimuth, (ANY_ANGLE, ANY_ANGLE)),
    6: Step(steps.misclosure, (ANY_ANGLE, ANY_ANGLE)),
    7: Step(steps.misclosure_passes, (W, N)),
    8: Step(steps.balanced_azimuth, (ANY_ANGLE, W)),
    9: Step(steps.closure_share, (CLOSURE, S, S)),
    10: Step(angle_share, (W, N, N)),
    11: Step(steps.latitude, (GRID, ANY_ANGLE)),
    12: Step(steps.departure, (GRID, ANY_ANGLE)),
    13: Step(steps.closure_passes, (ANY_CLOSURE, ANY_CLOSURE, S)),
    14: Step(steps.precision_number, (CLOSURE, CLOSURE, S)),
    # again, with the table of sines lent
    16: Step(steps.latitude, (GRID, ANY_ANGLE)),
    17: Step(steps.departure, (GRID, ANY_ANGLE)),
}


class Call(NamedTuple):
    """A step's number and what it is called with."""

    step: int
    arguments: tuple[int, ...]


def word(value: int, held: Range) -> bytes:
    """A value in as many bytes as its word has."""
    return number(value, (held.high - held.low).bit_length() // 8)


def packed(call: Call) -> bytes:
    """A call as it stands in a bundle."""
    if call.step == AREA:
        count, held = number(len(call.arguments), 1), len(call.arguments) * [SIGNED]
    else:
        count, held = b"", [argument.held for argument in STEPS[call.step].arguments]
    return number(call.step, 1) + count + b"".join(map(word, call.arguments, held))


# The calls


def values(chance: Random, argument: Argument) -> list[int]:
    """Both bounds with their neighbours, the ends of the word, the numbers about zero, and some inside."""
    low, high = argument.good
    bounds = [bound + near for bound in (low, high, 0) for near in (-1, 0, 1)]
    inside = [chance.randint(low, high) for _ in range(INSIDE)]
    return sorted({value for value in (*bounds, *inside, *argument.held) if argument.held.holds(value)})


def at_bounds(chance: Random) -> Iterator[Call]:
    """Every step with every such value of each argument beside every one of the others."""
    for number, step in STEPS.items():
        choices = [values(chance, argument) for argument in step.arguments]
        yield from (Call(number, arguments) for arguments in product(*choices))


def parts_of_a_whole(chance: Random) -> Iterator[Call]:
    """Shares whose part lies about both ends of its whole, and at its half."""
    for number, more in ((9, 0), (10, 1)):
        amounts, _, wholes = (values(chance, argument) for argument in STEPS[number].arguments)
        for amount, whole in product(amounts, wholes):
            full = whole + more
            parts = {0, 1, full // 2, full - 1, full, full + 1}
            yield from (Call(number, (amount, part, whole)) for part in sorted(parts) if COUNT.holds(part))


def halves() -> Iterator[Call]:
    """Amounts that lie just between two whole numbers, on both sides of zero."""
    for amount in (-25_999, -3, -1, 1, 3, 25_999):
        yield from (Call(9, (amount, whole // 2, whole)) for whole in (2, 6, 10, 1_300_000_000))
        yield from (Call(10, (amount, j, n)) for n, j in ((1, 1), (3, 2), (5, 3), (63, 32)))
    for factor in (9_985_000, 9_995_000, 10_005_000, 10_015_000):
        yield from (Call(3, (distance, factor)) for distance in (1_000, 3_000, 19_999_000))
    for azimuth in range(0, CIRCLE, QUADRANT):
        for distance in (5, 15, 10, 20_099_995):
            yield from (Call(number, (distance, azimuth)) for number in (11, 12))


def factors_with(over: int) -> Iterator[tuple[int, int]]:
    """Every two factors whose product is so much over a whole number of ten-millionths, of those
    that have no divisor in common with ten million."""
    for sea_level in range(FACTOR.low, FACTOR.high + 1):
        if gcd(sea_level, FACTOR_ONE) == 1:
            scale = over * pow(sea_level, -1, FACTOR_ONE) % FACTOR_ONE
            both = ((sea_level, scale), (sea_level, scale + FACTOR_ONE))
            yield from (pair for pair in both if FACTOR.holds(pair[1]))


def combined_factors() -> Iterator[Call]:
    """Products half a ten-millionth over and as near to that as can be on either side, and the
    factors of a yard at 7,000 feet, whose product is not their sum less one."""
    halves_over = product((9_995_000, 10_005_000), (9_991_000, 9_999_000, 10_001_000))
    just_below, just_above = (islice(factors_with(over), 5) for over in (4_999_999, 5_000_001))
    for pair in (*halves_over, *just_below, *just_above, (9_996_653, 10_001_989)):
        yield Call(2, pair)
    yield Call(1, (7_000,))


def about_the_limits(chance: Random) -> Iterator[Call]:
    """Misclosures, closures and precision numbers at their limits and one past."""
    for n in range(LEGS.low, LEGS.high + 1):
        for size in (100 * (n + 1), 100 * (n + 1) + 1):
            yield from (Call(7, (w, n)) for w in (-size, size))
    for total in [50_000, 4_000_030, 1_300_000_000, *(chance.randint(*TOTAL) for _ in range(50))]:
        most = total**2 // 50_000**2
        north = chance.randint(0, isqrt(most))
        east = isqrt(most - north**2)
        for pair in ((north, east), (-east, north), (north, -east - 1), (east + 1, north)):
            yield Call(13, (*pair, total))
            yield Call(14, (*pair, total))
    for size in (1, 2, 7, 80, 25_999):
        for precision in (1, 2, 4_999, 5_000, 5_001, 1_300_000_000 // (10 * size)):
            total = 10 * size * precision
            yield from (Call(14, (size, 0, total + more)) for more in (-1, 0, 1))
            yield from (Call(14, (0, -size, total + more)) for more in (-1, 0, 1))


def areas(chance: Random) -> Iterator[Call]:
    """Words of every count about the limits; offsets of any size, at their bound and one beyond it."""
    for words in (0, 1, 2, 3, 4, 5, 6, 7, 8, 32, 126, 127, 128, 129, 130, 255):
        for most in (3, 200_000, OFFSET.high):
            yield Call(AREA, tuple(chance.randint(-most, most) for _ in range(words)))
        yield Call(AREA, tuple(chance.choice(OFFSET) for _ in range(words)))
    for words in (2, 8, 128):
        for place in (0, 1, words // 2, words - 1):
            for value in (OFFSET.low - 1, OFFSET.low, OFFSET.high, OFFSET.high + 1, *SIGNED):
                offsets = [chance.randint(*OFFSET) for _ in range(words)]
                yield Call(AREA, (*offsets[:place], value, *offsets[place + 1:]))


def carried(to_mark: int, first: int, *later: int) -> Iterator[Call]:
    """The azimuths of all legs, each from the one before."""
    yield Call(4, (to_mark, first))
    before = steps.first_azimuth(to_mark, first).value
    for angle in later:
        yield Call(5, (before, angle))
        before = steps.next_azimuth(before, angle).value


PRINTED: dict[str, Callable[..., Iterable[Call]]] = {
    "sea_level_factor": lambda *given: [Call(1, given)],
    "combined_factor": lambda *given: [Call(2, given)],
    "grid_distance": lambda *given: [Call(3, given)],
    "course": lambda *given: [Call(11, given), Call(12, given)],
    "carried_azimuths": carried,
    "angle_shares": lambda w, angles: [Call(10, (w, j, angles - 1)) for j in range(1, angles + 1)],
    "closure_shares": lambda north, east, part, whole: [Call(9, (closure, part, whole)) for closure in (north, east)],
    "precision_number": lambda *given: [Call(14, given)],
    "doubled_area": lambda *given: [Call(AREA, given)],
}


def of_the_documents() -> Iterator[Call]:
    """Every single step that the source documents work out; their sines are among the angles of sine_cases."""
    for name, calls in PRINTED.items():
        for place in documents.single_steps()[name]:
            for case in place.cases:
                yield from calls(*case.given)


def cases() -> list[Call]:
    """All calls of the bundle, in its order."""
    chance = Random(SEED)
    return [
        *at_bounds(chance),
        *parts_of_a_whole(chance),
        *halves(),
        *combined_factors(),
        *about_the_limits(chance),
        *areas(chance),
        *of_the_documents(),
    ]


# The answers


def expected(call: Call) -> str:
    """Number, place and value of one answer."""
    if call.step == AREA:
        return line(steps.doubled_area(call.arguments))
    return line(STEPS[call.step].answer(*call.arguments))
