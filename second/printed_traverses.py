"""The printed figures of the documents' traverses beside the desk's.

They are compared in two ways. First with what the desk makes of the whole tape, where
a difference early on shows in all that follows. Then step by step, each step from what
the document itself prints before it (`replayed`): that tells where differences begin.
"""

from itertools import accumulate
from typing import Iterator, Optional

from . import desk
from .desk import Point
from .documents import Course, Worked
from .figures import (
    AREA, AZIMUTH, CLOSURE, COORDINATE, COURSE, DISTANCE, MISCLOSURE, PRECISION, Figure, Kind,
)
from .tape import write_tape

CLOSING = {
    "misclosure": (MISCLOSURE, "misclosure W, seconds"),
    "closure_north": (CLOSURE, "closure in northing, feet"),
    "closure_east": (CLOSURE, "closure in easting, feet"),
    "precision": (PRECISION, "precision number"),
    "doubled_area": (AREA, "doubled area, square feet"),
}
LEG = {"azimuth": AZIMUTH, "distance": DISTANCE, "latitude": COURSE, "departure": COURSE}


def answer(worked: Worked) -> desk.Traverse:
    """What the desk makes of a worked traverse."""
    return desk.traverse(write_tape(worked.fields), desk.LEAST_WORDS)


def courses(worked: Worked) -> list[Course]:
    """The legs as the desk works them out."""
    distances = desk.grid_distances(worked.fields)
    azimuths = desk.balanced_azimuths(worked.fields)
    return [
        Course(azimuth, distance, *desk.course(distance, azimuth))
        for distance, azimuth in zip(distances, azimuths)
    ]


def compared(
    worked: Worked, kind: Kind, field: str, name: str, printed: Optional[int], own: int
) -> Iterator[Figure]:
    """One figure, or none where the document does not print it."""
    if printed is not None:
        yield Figure(kind, name, printed, worked.published.decimals.get(field, kind.decimals), own)


# From the whole tape


def of_whole(worked: Worked, field: str, own: int) -> Iterator[Figure]:
    """One figure of the traverse as a whole."""
    kind, name = CLOSING[field]
    return compared(worked, kind, field, name, getattr(worked.published, field), own)


def of_closing(worked: Worked) -> list[Figure]:
    """What is printed of the traverse as a whole."""
    own = answer(worked)
    return [figure for field in CLOSING for figure in of_whole(worked, field, getattr(own, field))]


def of_places(worked: Worked, own: list[Point]) -> list[Figure]:
    """Northing and easting of the adjusted stations.

    The two ends are left out: they are fixed, and would be equal whatever the desk did.
    """
    places = list(zip(worked.stations, worked.published.stations, own))[1:-1]
    return [
        figure
        for name, printed, place in places
        for field in Point._fields
        for figure in compared(
            worked, COORDINATE, field, f"{field} of {name}", getattr(printed, field), getattr(place, field))
    ]


def of_stations(worked: Worked) -> list[Figure]:
    return of_places(worked, list(answer(worked).coordinates))


def of_legs(worked: Worked) -> list[Figure]:
    """What is printed of each leg."""
    legs = zip(worked.stations[1:], worked.published.legs, courses(worked), strict=True)
    return [
        figure
        for name, printed, own in legs
        for field, kind in LEG.items()
        for figure in compared(
            worked, kind, field, f"{field} to {name}", getattr(printed, field), getattr(own, field))
    ]


def of_traverse(worked: Worked) -> list[Figure]:
    return [*of_closing(worked), *of_stations(worked), *of_legs(worked)]


# From what is printed before


def finer(worked: Worked, field: str, printed: Optional[int], own: int) -> int:
    """A printed figure in the desk's units; the desk's own where none is printed."""
    if printed is None:
        return own
    decimals = LEG[field].decimals
    return printed * 10**(decimals - worked.published.decimals.get(field, decimals))


def printed_runs(worked: Worked) -> list[tuple[int, int]]:
    """Grid distance and azimuth of each leg, as the document goes on with them."""
    return [
        tuple(
            finer(worked, field, getattr(printed, field), getattr(own, field))
            for field in ("distance", "azimuth")
        )
        for printed, own in zip(worked.published.legs, courses(worked))
    ]


def replayed_courses(worked: Worked) -> list[Figure]:
    """Latitudes and departures from the printed azimuths and grid distances."""
    legs = zip(worked.stations[1:], worked.published.legs, printed_runs(worked), strict=True)
    return [
        figure
        for name, printed, run in legs
        for field, own in zip(("latitude", "departure"), desk.course(*run))
        for figure in compared(worked, COURSE, field, f"{field} to {name}", getattr(printed, field), own)
    ]


def replayed_stations(worked: Worked) -> list[Figure]:
    """Closures and adjusted stations from the printed latitudes and departures."""
    start, close = worked.fields.start, worked.fields.close
    ways = [Point(leg.latitude, leg.departure) for leg in worked.published.legs]
    stations = list(accumulate(ways, Point.plus, initial=Point(start.northing, start.easting)))
    closure = stations[-1].less(Point(close.northing, close.easting))
    distances = [distance for distance, _ in printed_runs(worked)]
    closures = [
        figure
        for field, own in zip(("closure_north", "closure_east"), closure)
        for figure in of_whole(worked, field, own)
    ]
    return [*closures, *of_places(worked, desk.adjusted(stations, closure, distances))]


def replayed(worked: Worked) -> list[Figure]:
    """Every step that can be taken from printed figures alone."""
    adjusted = replayed_stations(worked) if worked.published.stations else []
    return [*replayed_courses(worked), *adjusted]
