"""The public arithmetic steps of the rules, each by itself.

Every step tests its own inputs and gives refusal 4, place 0, outside the range
stated with it; none leans on its caller. The two tests answer 1 for passed and
0 for failed, with number 0: only a whole traverse turns a failure into a refusal.
"""

from fractions import Fraction
from typing import NamedTuple, Sequence

from . import root, sines
from .ranges import (
    ANGLE, CIRCLE, COMBINED, DISTANCE, ELEVATION, FACTOR, GRID_DISTANCE, HALF_CIRCLE, LEGS,
    MISCLOSURE, OFFSET, PASSED_CLOSURE, Range, STATIONS, TESTED_CLOSURE, TOTAL,
)
from .rounding import nearest

OUT_OF_RANGE = 4
EARTH_RADIUS = 20_906_000
FACTOR_ONE = 10_000_000
TENTHS_PER_ANGLE = 100
LEAST_PRECISION = 50_000


class Answer(NamedTuple):
    """What a step answers: a refusal's number and place, or zeros and the value."""

    number: int
    place: int
    value: int


REFUSED = Answer(OUT_OF_RANGE, 0, 0)


def answered(value: int) -> Answer:
    return Answer(0, 0, value)


# Distances


def sea_level_factor(elevation: int) -> Answer:
    """The factor that brings a distance down from its elevation to sea level."""
    if not ELEVATION.holds(elevation):
        return REFUSED
    factor = Fraction(EARTH_RADIUS, EARTH_RADIUS + elevation)
    return answered(nearest(FACTOR_ONE * factor))


def combined_factor(sea_level: int, scale: int) -> Answer:
    """Both factors in one: their product."""
    if not (FACTOR.holds(sea_level) and FACTOR.holds(scale)):
        return REFUSED
    factor = Fraction(sea_level, FACTOR_ONE) * Fraction(scale, FACTOR_ONE)
    return answered(nearest(FACTOR_ONE * factor))


def grid_distance(distance: int, combined: int) -> Answer:
    """The measured distance as it lies on the grid."""
    if not (DISTANCE.holds(distance) and COMBINED.holds(combined)):
        return REFUSED
    return answered(nearest(Fraction(distance * combined, FACTOR_ONE)))


# Sines


def sine(angle: int) -> Answer:
    """The table's sine, in units of the ninth decimal."""
    return answered(sines.sine(angle)) if ANGLE.holds(angle) else REFUSED


def cosine(angle: int) -> Answer:
    """The table's cosine, in units of the ninth decimal."""
    return answered(sines.cosine(angle)) if ANGLE.holds(angle) else REFUSED


# Azimuths


def first_azimuth(to_mark: int, angle: int) -> Answer:
    """The azimuth of leg 1, turned off from the starting mark."""
    if not (ANGLE.holds(to_mark) and ANGLE.holds(angle)):
        return REFUSED
    return answered((to_mark + angle) % CIRCLE)


def next_azimuth(before: int, angle: int) -> Answer:
    """The azimuth of a later leg, or the closing one, turned off from the
    backsight along the leg before."""
    if not (ANGLE.holds(before) and ANGLE.holds(angle)):
        return REFUSED
    return answered((before + HALF_CIRCLE + angle) % CIRCLE)


def misclosure(carried: int, given: int) -> Answer:
    """W, carried less given, brought above minus half a circle and to at most
    half a circle, so that azimuths on both sides of zero stay near each other."""
    if not (ANGLE.holds(carried) and ANGLE.holds(given)):
        return REFUSED
    turned = (carried - given) % CIRCLE
    return answered(turned - CIRCLE if turned > HALF_CIRCLE else turned)


def misclosure_passes(w: int, legs: int) -> Answer:
    """1 where W is at most ten seconds for each of the n + 1 angles, else 0."""
    if not (MISCLOSURE.holds(w) and LEGS.holds(legs)):
        return REFUSED
    return answered(int(abs(w) <= TENTHS_PER_ANGLE * (legs + 1)))


def running_share(amount: int, part: int, whole: int) -> int:
    """The share of an amount at a part of a whole, for seconds as for feet.

    Taken on the running part, so that the share at the whole is the amount.
    """
    return nearest(Fraction(amount * part, whole))


def angle_share(w: int, legs: int, angle_no: int) -> Answer:
    """The share of W at the j-th of the n + 1 angles (j from 0, before them all)."""
    if not (MISCLOSURE.holds(w) and LEGS.holds(legs) and Range(0, legs + 1).holds(angle_no)):
        return REFUSED
    return answered(running_share(w, angle_no, legs + 1))


def balanced_azimuth(carried: int, share: int) -> Answer:
    """The carried azimuth less its share of W."""
    if not (ANGLE.holds(carried) and MISCLOSURE.holds(share)):
        return REFUSED
    return answered((carried - share) % CIRCLE)


# Legs


def along(distance: int, ninth_decimals: int) -> int:
    """Minus a grid distance times a sine, in hundredths of a foot, rounded once.

    Minus, because azimuths start at south while northings and eastings grow
    towards north and east.
    """
    return nearest(Fraction(-distance * ninth_decimals, 10 * sines.UNIT))


def latitude(distance: int, azimuth: int) -> Answer:
    """How far a leg runs north."""
    if not (GRID_DISTANCE.holds(distance) and ANGLE.holds(azimuth)):
        return REFUSED
    return answered(along(distance, sines.cosine(azimuth)))


def departure(distance: int, azimuth: int) -> Answer:
    """How far a leg runs east."""
    if not (GRID_DISTANCE.holds(distance) and ANGLE.holds(azimuth)):
        return REFUSED
    return answered(along(distance, sines.sine(azimuth)))


# Closure and compass rule


def closure_passes(north: int, east: int, total: int) -> Answer:
    """1 where the closure is good enough for the distance run, else 0."""
    if not (TESTED_CLOSURE.holds(north) and TESTED_CLOSURE.holds(east) and TOTAL.holds(total)):
        return REFUSED
    return answered(int(LEAST_PRECISION**2 * (north**2 + east**2) <= total**2))


def closure_share(closure: int, part: int, whole: int) -> Answer:
    """The share of a closure at a station, by the distance run so far."""
    if not (PASSED_CLOSURE.holds(closure) and TOTAL.holds(whole) and Range(0, whole).holds(part)):
        return REFUSED
    return answered(running_share(closure, part, whole))


def precision_number(north: int, east: int, total: int) -> Answer:
    """The largest P for which P closing lengths are within the distance run; 0
    where nothing is left to close."""
    if not (PASSED_CLOSURE.holds(north) and PASSED_CLOSURE.holds(east) and TOTAL.holds(total)):
        return REFUSED
    length_squared = 100 * (north**2 + east**2)
    return answered(root.whole_root(total**2 // length_squared) if length_squared else 0)


def doubled_area(words: Sequence[int]) -> Answer:
    """Twice the area round the stations, clockwise positive.

    The words are northing and easting of each station, taken from one origin.
    """
    stations = list(zip(words[0::2], words[1::2]))
    if len(words) % 2 or not STATIONS.holds(len(stations)):
        return REFUSED
    if not all(OFFSET.holds(word) for word in words):
        return REFUSED
    following = stations[1:] + stations[:1]
    return answered(sum(n * e_on - n_on * e for (n, e), (n_on, e_on) in zip(stations, following)))
