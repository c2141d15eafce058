"""The traverse: from a tape to adjusted coordinates (docs/RULES.md, "Azimuths and legs" and
"Closure and compass rule")."""

from itertools import accumulate
from typing import NamedTuple, Sequence

from . import steps
from .tape import KIND_BY_RECORD, NO_ROOM, Close, Fields, read_tape

MISCLOSURE_TOO_LARGE, CLOSURE_TOO_LARGE = 8, 9
LEAST_WORDS = 130


class Point(NamedTuple):
    """A place on the grid, or a way across it, in hundredths of a foot."""

    northing: int
    easting: int

    def plus(self, way: "Point") -> "Point":
        return Point(self.northing + way.northing, self.easting + way.easting)

    def less(self, way: "Point") -> "Point":
        return Point(self.northing - way.northing, self.easting - way.easting)


class Traverse(NamedTuple):
    """All that the desk answers; zeros and no coordinates beside a refusal."""

    number: int
    place: int
    legs: int = 0
    misclosure: int = 0
    closure_north: int = 0
    closure_east: int = 0
    precision: int = 0
    doubled_area: int = 0
    loop: bool = False
    coordinates: tuple[Point, ...] = ()


def sure(answer: steps.Answer) -> int:
    """The value of a step that a tape in range cannot make refuse."""
    if answer.number:
        raise AssertionError("a step refused figures of a tape that was read")
    return answer.value


# The figures of the legs


def both_factors(fields: Fields) -> tuple[int, int]:
    """The sea level factor of the elevation, and the scale factor of the latitude's row."""
    project = fields.project
    scale = next(row.factor for row in fields.rows if row.minute == project.latitude)
    return sure(steps.sea_level_factor(project.elevation)), scale


def combined_factor(fields: Fields) -> int:
    """Sea level and scale in one, for the whole traverse."""
    return sure(steps.combined_factor(*both_factors(fields)))


def grid_distances(fields: Fields) -> list[int]:
    """The distance of each leg on the grid."""
    combined = combined_factor(fields)
    return [sure(steps.grid_distance(leg.distance, combined)) for leg in fields.legs]


def carried_azimuths(fields: Fields) -> list[int]:
    """The azimuth of each leg as carried by the angles, then the closing one."""
    first, *later = [leg.angle for leg in fields.legs]
    azimuths = [sure(steps.first_azimuth(fields.start.azimuth, first))]
    for angle in [*later, fields.close.angle]:
        azimuths.append(sure(steps.next_azimuth(azimuths[-1], angle)))
    return azimuths


def misclosure(fields: Fields) -> int:
    """W: the closing azimuth as carried less the one given."""
    return sure(steps.misclosure(carried_azimuths(fields)[-1], fields.close.azimuth))


def balanced_azimuths(fields: Fields) -> list[int]:
    """The azimuth of each leg less its share of W."""
    w, n = misclosure(fields), len(fields.legs)
    carried = carried_azimuths(fields)[:n]
    return [
        sure(steps.balanced_azimuth(azimuth, sure(steps.angle_share(w, n, j))))
        for j, azimuth in enumerate(carried, start=1)
    ]


def course(distance: int, azimuth: int) -> Point:
    """A leg's latitude and departure."""
    return Point(sure(steps.latitude(distance, azimuth)), sure(steps.departure(distance, azimuth)))


# The stations


def preliminary(fields: Fields, distances: Sequence[int]) -> list[Point]:
    """The stations before adjustment, the start among them."""
    start = Point(fields.start.northing, fields.start.easting)
    courses = map(course, distances, balanced_azimuths(fields))
    return list(accumulate(courses, Point.plus, initial=start))


def adjusted(stations: Sequence[Point], closure: Point, distances: Sequence[int]) -> list[Point]:
    """The stations less their shares of the closure.

    By grid distances run so far, so that the last station comes out as fixed.
    """
    run = list(accumulate(distances, initial=0))

    def share(part: int) -> Point:
        return Point(*(sure(steps.closure_share(amount, part, run[-1])) for amount in closure))

    return [station.less(share(part)) for station, part in zip(stations, run)]


def is_loop(fields: Fields) -> bool:
    """Whether both fixed points are one; azimuths and marks do not matter."""
    start, close = fields.start, fields.close
    return (start.northing, start.easting) == (close.northing, close.easting)


def area_round(stations: Sequence[Point]) -> int:
    """Twice the area inside a loop, from offsets to its first station."""
    offsets = [station.less(stations[0]) for station in stations[:-1]]
    return sure(steps.doubled_area([word for offset in offsets for word in offset]))


# The whole


def adjust(fields: Fields, close_place: int) -> Traverse:
    """Balance and adjust a tape that was read, or refuse it at its close."""
    w, n = misclosure(fields), len(fields.legs)
    if not sure(steps.misclosure_passes(w, n)):
        return Traverse(MISCLOSURE_TOO_LARGE, close_place)
    distances = grid_distances(fields)
    stations = preliminary(fields, distances)
    closure = stations[-1].less(Point(fields.close.northing, fields.close.easting))
    if not sure(steps.closure_passes(*closure, sum(distances))):
        return Traverse(CLOSURE_TOO_LARGE, close_place)
    final = adjusted(stations, closure, distances)
    loop = is_loop(fields)
    return Traverse(
        number=0,
        place=0,
        legs=n,
        misclosure=w,
        closure_north=closure.northing,
        closure_east=closure.easting,
        precision=sure(steps.precision_number(*closure, sum(distances))),
        doubled_area=area_round(final) if loop else 0,
        loop=loop,
        coordinates=tuple(final),
    )


def traverse(tape: bytes, lent_words: int) -> Traverse:
    """The adjusted traverse of a tape, or the refusal that comes first."""
    if lent_words < LEAST_WORDS:
        return Traverse(NO_ROOM, 0)
    reading = read_tape(tape)
    if reading.number:
        return Traverse(reading.number, reading.place)
    return adjust(reading.fields, len(tape) - KIND_BY_RECORD[Close].length)
