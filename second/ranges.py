"""The ranges that docs/RULES.md states, in its own units.

Angles are tenths of a second, distances thousandths of a foot, coordinates
hundredths of a foot, factors ten-millionths. The tape and the arithmetic steps
take their limits from this one place, because the rules state most of them
once for both.
"""

from typing import NamedTuple


class Range(NamedTuple):
    """The whole numbers from low to high, both included."""

    low: int
    high: int

    def holds(self, value: int) -> bool:
        return self.low <= value <= self.high


def size_up_to(most: int) -> Range:
    """Either sign, up to a size."""
    return Range(-most, most)


CIRCLE = 12_960_000
HALF_CIRCLE = CIRCLE // 2
QUADRANT = CIRCLE // 4

# docs/RULES.md, "The tape".
MINUTE = Range(0, 5_400)
FACTOR = Range(9_990_000, 10_010_000)
ELEVATION = Range(-1_000, 20_000)
COORDINATE = Range(0, 1_000_000_000)
ANGLE = Range(0, CIRCLE - 1)
DISTANCE = Range(1_000, 20_000_000)
ROWS = Range(0, 600)
LEGS = Range(1, 64)

# "Distances".
COMBINED = Range(9_980_000, 10_020_010)

# "Azimuths and legs".
GRID_DISTANCE = Range(0, 20_100_000)
MISCLOSURE = size_up_to(HALF_CIRCLE)

# "Closure and compass rule", "Doubled area".
TOTAL = Range(1, 1_300_000_000)
TESTED_CLOSURE = size_up_to(1_200_000_000)
PASSED_CLOSURE = size_up_to(26_000)
OFFSET = size_up_to(130_000_000)
STATIONS = Range(1, 64)
