"""Which angle or distance is wrong, where 8 or 9 refuse: `python3 -m second.blunder < TAPE`.

Each angle, or each distance, is changed in turn as if it alone were wrong. A small closure after
the change says that this one accounts for the refusal; docs/REFUSALS.md says how to read the lines.
bin/find-blunder takes field notes too.
"""

import sys
from fractions import Fraction
from math import isqrt
from typing import Iterator, Sequence

from . import desk, steps
from .desk import Point
from .notes import circle
from .ranges import CIRCLE
from .rounding import nearest
from .sheet import LONGEST_INPUT, refused_line, signed, unsigned
from .tape import Fields, read_tape

# An angle may be off by 10 seconds, a position by one part in 5,000 (docs/RULES.md).
TENTHS_AN_ANGLE = 100
PARTS = 5_000

UNIT = 10**9  # of a sine

ACCEPTED = "accepted: the misclosure and the closure are within what is allowed"
TAKES = "second.blunder takes a tape on standard input, no argument; bin/find-blunder takes notes"


def size(way: Point) -> str:
    """How long a way is, in feet to the nearest hundredth."""
    return unsigned((isqrt(4 * (way.northing**2 + way.easting**2)) + 1) // 2, 2)


def closure(fields: Fields, azimuths: Sequence[int]) -> Point:
    """The end that these azimuths of the legs lead to, less the fixed end."""
    end = Point(fields.start.northing, fields.start.easting)
    for way in map(desk.course, desk.grid_distances(fields), azimuths):
        end = end.plus(way)
    return end.less(Point(fields.close.northing, fields.close.easting))


def angle_lines(fields: Fields, w: int) -> Iterator[str]:
    """The position closure where the whole of W is taken from one angle alone."""
    carried = desk.carried_azimuths(fields)[:-1]
    for turned in range(len(carried) + 1):
        azimuths = carried[:turned] + [(azimuth - w) % CIRCLE for azimuth in carried[turned:]]
        name = f"angle of leg {turned + 1}" if turned < len(carried) else "closing angle"
        left = size(closure(fields, azimuths))
        yield f"{name} less W: the position closure is {left} feet"


def distance_lines(fields: Fields, missed: Point) -> Iterator[str]:
    """What is left of the closure where one distance is changed as well as can be."""
    for number, azimuth in enumerate(desk.balanced_azimuths(fields), start=1):
        # the leg's direction in units of the ninth decimal, northing and easting
        north, east = -desk.sure(steps.cosine(azimuth)), -desk.sure(steps.sine(azimuth))
        along = nearest(Fraction(missed.northing * north + missed.easting * east, UNIT))
        across = nearest(Fraction(missed.northing * east - missed.easting * north, UNIT))
        change, left = signed(-along, 2), unsigned(across, 2)
        yield f"distance of leg {number} by {change}: the position closure is {left} feet"


def angular(fields: Fields, w: int) -> str:
    """W in seconds, then in degrees, minutes and seconds, and its limit."""
    angles = len(fields.legs) + 1
    parts = ("-" if w < 0 else "+") + circle(abs(w))
    limit = TENTHS_AN_ANGLE * angles // 10
    return f"W={signed(w, 1)} seconds ({parts}); {angles} angles may miss by {limit}"


def limit_of_position(fields: Fields) -> str:
    """By how much a traverse of this length may miss its fixed end."""
    total = sum(desk.grid_distances(fields))
    return f"{unsigned(total, 3)} feet may miss by {unsigned(total // PARTS, 3)}"


def position_lines(fields: Fields) -> Iterator[str]:
    """The position closure by the balanced azimuths, its limit, and the search for a distance."""
    missed = closure(fields, desk.balanced_azimuths(fields))
    north, east = (signed(amount, 2) for amount in missed)
    yield f"N={north} E={east}: {size(missed)} feet; {limit_of_position(fields)}"
    yield from distance_lines(fields, missed)


def lines(fields: Fields) -> Iterator[str]:
    """Whether a tape that reads is accepted, how it closes, and the search for one blunder.

    Distances are searched only where the angles close: by angles that do not, no leg has a
    direction to go by.
    """
    w = desk.misclosure(fields)
    if not desk.adjust(fields, 0).number:
        yield ACCEPTED
    yield angular(fields, w)
    if desk.sure(steps.misclosure_passes(w, len(fields.legs))):
        yield from position_lines(fields)
    else:
        yield limit_of_position(fields)
    if w:
        yield from angle_lines(fields, w)


def search(tape: bytes) -> str:
    """The search in a tape, or the line of a refusal that comes before 8."""
    reading = read_tape(tape)
    if reading.number:
        return refused_line(reading.number)
    return "".join(f"{line}\n" for line in lines(reading.fields))


def is_text(given: bytes) -> bool:
    """Whether the first byte is one that a text may start with; a tape starts with 5 or 1."""
    return given[:1] >= b" " or given[:1] in (b"\t", b"\n", b"\r")


def main(words: Sequence[str]) -> None:
    """Standard input to standard output; no accepted tape is longer than what is read."""
    if words:
        sys.exit(TAKES)
    given = sys.stdin.buffer.read(LONGEST_INPUT)
    if is_text(given):
        sys.exit(f"this is no tape: {TAKES}")
    sys.stdout.write(search(given))


if __name__ == "__main__":
    main(sys.argv[1:])
