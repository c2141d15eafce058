"""The corners as they stand with nothing rounded, to hold the sheet against.

The customer asks how far an adjusted corner may stand from the unrounded one.
Balanced azimuths and grid distances are taken as the desk has them; from there
on sines are exact, the compass rule is the same, and nothing is rounded.
"""

from fractions import Fraction
from itertools import accumulate
from typing import Sequence

from . import desk
from .sines import exact_cosine, exact_sine
from .tape import Fields

PER_LEG = Fraction(55, 100)
ONCE = Fraction(1, 2)
THOUSANDTHS_IN_HUNDREDTH = 10


def balanced_run(start: int, end: int, ways: Sequence[Fraction], run: Sequence[int]) -> list[Fraction]:
    """One coordinate of every station, by the compass rule, unrounded."""
    stations = list(accumulate(ways, initial=Fraction(start)))
    closure = stations[-1] - end
    return [station - closure * Fraction(part, run[-1]) for station, part in zip(stations, run)]


def unrounded(fields: Fields) -> list[tuple[Fraction, Fraction]]:
    """Northing and easting of stations 0 to n, in hundredths of a foot."""
    distances = desk.grid_distances(fields)
    azimuths = desk.balanced_azimuths(fields)
    run = list(accumulate(distances, initial=0))
    hundredths = [Fraction(distance, THOUSANDTHS_IN_HUNDREDTH) for distance in distances]
    north = [-way * exact_cosine(azimuth) for way, azimuth in zip(hundredths, azimuths)]
    east = [-way * exact_sine(azimuth) for way, azimuth in zip(hundredths, azimuths)]
    return list(zip(
        balanced_run(fields.start.northing, fields.close.northing, north, run),
        balanced_run(fields.start.easting, fields.close.easting, east, run),
    ))


def bound(legs: int, station: int) -> Fraction:
    """How far the sheet may stand from the unrounded corner, in hundredths.

    Nothing at the two fixed points; elsewhere so much for each leg on the side
    of the station with more legs, and a half once.
    """
    if station in (0, legs):
        return Fraction(0)
    return PER_LEG * max(station, legs - station) + ONCE
