"""A printed figure beside the desk's, and how many of them are equal.

The documents print some figures with fewer decimals than the desk and some with
more. Two figures are called equal where they are the same to the last decimal that
both have: the one with more decimals, rounded to those of the other, is the other.
"""

from fractions import Fraction
from typing import NamedTuple, Optional, Sequence

from .rounding import nearest


class Kind(NamedTuple):
    """What is compared: its name, its unit and the decimals that the desk gives it."""

    title: str
    unit: str
    decimals: int


MISCLOSURE = Kind("angular misclosures W", "seconds", 1)
CLOSURE = Kind("closures", "feet", 2)
PRECISION = Kind("precision numbers", "", 0)
AREA = Kind("doubled areas", "square feet", 4)
COORDINATE = Kind("adjusted coordinates", "feet", 2)
AZIMUTH = Kind("balanced azimuths", "seconds", 1)
DISTANCE = Kind("grid distances", "feet", 3)
COURSE = Kind("latitudes and departures", "feet", 2)


class Figure(NamedTuple):
    """A printed figure and the desk's, each in units of its own last decimal."""

    kind: Kind
    name: str
    printed: int
    decimals: int
    desk: int

    @property
    def most_decimals(self) -> int:
        return max(self.decimals, self.kind.decimals)

    @property
    def difference(self) -> int:
        """Printed less desk's, in units of the last decimal that either has."""
        finer = self.most_decimals
        return self.printed * 10**(finer - self.decimals) - self.desk * 10**(finer - self.kind.decimals)

    @property
    def equal(self) -> bool:
        """Whether they are the same to the last decimal that both have."""
        common = min(self.decimals, self.kind.decimals)

        def rounded(amount: int, decimals: int) -> int:
            return nearest(Fraction(amount, 10**(decimals - common)))

        return rounded(self.printed, self.decimals) == rounded(self.desk, self.kind.decimals)

    @property
    def size(self) -> Fraction:
        """How large the difference is, in whole seconds or feet."""
        return Fraction(abs(self.difference), 10**self.most_decimals)


class Tally(NamedTuple):
    """How many figures were compared, how many are equal, and the worst of the others."""

    compared: int
    equal: int
    worst: Optional[Figure]


def differing(figures: Sequence[Figure]) -> list[Figure]:
    return [figure for figure in figures if not figure.equal]


def tally(figures: Sequence[Figure]) -> Tally:
    """The first of the largest differences stands for all of that size."""
    others = differing(figures)
    worst = max(others, key=lambda figure: figure.size, default=None)
    return Tally(len(figures), len(figures) - len(others), worst)


def by_kind(figures: Sequence[Figure]) -> dict[Kind, list[Figure]]:
    """Figures by what they are, in the order in which the kinds first come."""
    kinds: dict[Kind, list[Figure]] = {}
    for figure in figures:
        kinds.setdefault(figure.kind, []).append(figure)
    return kinds
