"""The figures of docs/CORNER.md: how far corners stand from the unrounded ones.

That no corner stands further off than its bound is proved elsewhere. Made here is
what shows it to a surveyor: the bound for some numbers of legs, one worked
traverse, and a picture of many. All is exact until it is printed, and no printed
error is smaller than the true one.

`python3 -m second.corner table`, `worked` or `plot` prints one of them; `check`
says where docs/CORNER.md or docs/corner.svg is not what is made here, and `write`
makes both so.
"""

import sys
from fractions import Fraction
from functools import lru_cache
from math import ceil
from random import Random
from typing import Iterator, NamedTuple, Sequence

from . import desk, documents, drawing, tapes
from .page import DOCS, Sections, all_filled, markdown, read, stale
from .ranges import CIRCLE, HALF_CIRCLE, LEGS
from .sheet import plain, signed
from .tape import Close, Fields, Leg, Project, Row, Start, read_tape, write_tape
from .unrounded import bound, unrounded

PAGE = DOCS / "CORNER.md"
PICTURE = DOCS / "corner.svg"

WORKED = "wanda_mason"
SIZES = (4, 8, 16, 32, 64)
DECIMALS = 3

GENERATED = 400
WALKS_OF_EACH_SIZE = 3
COMMON_LENGTHS = (100_000, 2_000_000)
LONGEST_HALF_WAY = 19_999_995
MIDDLE = 500_000_000


class Corner(NamedTuple):
    """A station as the sheet has it; less the unrounded one, and its bound, in hundredths."""

    place: desk.Point
    off_north: Fraction
    off_east: Fraction
    bound: Fraction

    @property
    def errors(self) -> tuple[Fraction, Fraction]:
        return abs(self.off_north), abs(self.off_east)


Stations = list[Corner]


def corners(fields: Fields) -> Stations:
    """Every station of a traverse, the fixed ones too; none where the desk refuses it."""
    answer = desk.traverse(write_tape(fields), desk.LEAST_WORDS)
    if answer.number:
        return []
    return [
        Corner(place, place.northing - north, place.easting - east, bound(answer.legs, station))
        for station, (place, (north, east))
        in enumerate(zip(answer.coordinates, unrounded(fields), strict=True))
    ]


# Figures in print


def decimal(amount: Fraction, decimals: int) -> str:
    """An amount that needs no more decimals than these; else an error, never a rounding."""
    units = amount * 10**decimals
    if units.denominator != 1:
        raise ValueError(f"{amount} has more than {decimals} decimals")
    return plain(units.numerator, decimals)


def away(amount: Fraction, decimals: int) -> int:
    """An amount in units of its last decimal, rounded away from zero so as never to understate it."""
    units = ceil(abs(amount) * 10**decimals)
    return units if amount > 0 else -units


def off(amount: Fraction) -> str:
    """How far a coordinate is off, with its sign; a bare 0 only where it is nothing."""
    return signed(away(amount, DECIMALS), DECIMALS) if amount else "0"


def table() -> str:
    """The largest and the smallest bound of traverses of several sizes."""
    head = ("legs", "next to an end, hundredths", "feet", "in the middle, hundredths", "feet")

    def both(hundredths: Fraction) -> tuple[str, str]:
        return decimal(hundredths, 2), decimal(hundredths / 100, 4)

    return markdown(head, [
        (str(legs), *both(bound(legs, 1)), *both(bound(legs, legs // 2))) for legs in SIZES
    ])


def worked() -> str:
    """The worked traverse, station by station."""
    example = documents.load(WORKED)
    head = ("station", "northing", "off", "easting", "off", "bound")
    return markdown(head, [
        (name, plain(corner.place.northing, 2), off(corner.off_north),
         plain(corner.place.easting, 2), off(corner.off_east),
         decimal(corner.bound, 2) if corner.bound else "0")
        for name, corner in zip(example.stations, corners(example.fields), strict=True)
    ])


# Many traverses


def generated() -> Iterator[Stations]:
    """What the maker of tapes makes: lines and loops, tiny legs and the longest."""
    for seed in range(GENERATED):
        yield corners(read_tape(tapes.accepted(seed)).fields)


def common_walk(chance: Random, legs: int) -> Stations:
    """An accepted walk of so many legs, of any courses and common lengths."""
    while True:
        courses = [chance.randrange(CIRCLE) for _ in range(legs)]
        lengths = [chance.randint(*COMMON_LENGTHS) for _ in range(legs)]
        stations = corners(tapes.walk(chance, courses, lengths))
        if stations:
            return stations


def of_every_size() -> Iterator[Stations]:
    """Some walks of each number of legs."""
    for legs in range(LEGS.low, LEGS.high + 1):
        chance = Random(legs)
        for _ in range(WALKS_OF_EACH_SIZE):
            yield common_walk(chance, legs)


def leaning(legs: int, station: int) -> Fields:
    """A traverse that pushes one station about as far off as any can.

    Due south to the station and due north from it, every length half way between
    two hundredths: each latitude is rounded by a half, and all these halves move
    the station south. There are no more legs before it than after it. The errors
    after it count by the part of the whole distance that lies before it, so the
    legs before are long and those after short, though 25 feet together: on less,
    no closure that passes has a share that is rounded by a half. The closure is the
    largest whose share lacks no more than that half, and so is rounded up to all.
    """
    before, after = station, legs - station
    short = 5 + max(1_000, 25_000 // after // 10 * 10)
    measured = [LONGEST_HALF_WAY] * before + [short] * after
    whole = sum(measured)
    closure = min(whole // 50_000, whole // (2 * after * short))
    azimuths = [0] * before + [HALF_CIRCLE] * after
    *angles, closing_angle = tapes.angles_for(0, [*azimuths, 0])
    fields = Fields(
        rows=(Row(0, 10_000_000),),
        project=Project(0, 0),
        start=Start(MIDDLE, MIDDLE, 0),
        legs=tuple(map(Leg, angles, measured)),
        close=Close(closing_angle, MIDDLE, MIDDLE, 0),
    )
    reached = desk.preliminary(fields, desk.grid_distances(fields))[-1]
    return fields._replace(close=fields.close._replace(northing=reached.northing - closure))


def made_to_lean() -> Iterator[Stations]:
    """For each number of legs, one that leans at its middle and one that leans next to an end."""
    for legs in range(2, LEGS.high + 1):
        for station in sorted({1, legs // 2}):
            yield corners(leaning(legs, station))


@lru_cache(maxsize=None)
def cloud() -> dict[str, list[Stations]]:
    """Every accepted traverse of the picture, by what it is."""
    example = documents.load(WORKED)
    return {
        "made to lean one way": list(made_to_lean()),
        "random courses": [*filter(None, generated()), *of_every_size()],
        f"{example.stations[0]} to {example.stations[-1]}": [corners(example.fields)],
    }


# The picture


def points(traverses: Sequence[Stations]) -> list[tuple[Fraction, Fraction]]:
    """Bound and error of both coordinates of every station between the fixed points."""
    return [
        (corner.bound, error)
        for stations in traverses for corner in stations[1:-1] for error in corner.errors
    ]


def nearness(traverses: Sequence[Stations]) -> Fraction:
    """The largest part of its bound that any error takes."""
    return max(error / limit for limit, error in points(traverses))


def printed_nearness(traverses: Sequence[Stations]) -> str:
    return plain(away(nearness(traverses), DECIMALS), DECIMALS)


def label(name: str, traverses: Sequence[Stations]) -> str:
    """A line of the legend."""
    counted = "1 traverse" if len(traverses) == 1 else f"{len(traverses)} traverses"
    return f"{name}: {counted}, largest error/bound {printed_nearness(traverses)}"


def caption(traverses: Sequence[Stations]) -> list[str]:
    """How many in all, and how near to the bound."""
    sizes = [len(stations) - 1 for stations in traverses]
    return [
        f"{len(traverses)} accepted traverses of {min(sizes)} to {max(sizes)} legs,"
        f" {len(points(traverses)) // 2:,} stations between their fixed points,",
        f"northing and easting of each. Largest error/bound of all: {printed_nearness(traverses)}.",
    ]


def plot() -> str:
    """Errors against bounds, with the line that none may pass."""
    kinds = cloud()
    looks = (("#ea8a3a", 2), ("#2563eb", 2), ("#111827", 5))
    return drawing.picture(
        title="How far corners stand from the unrounded ones",
        across="bound at the station, hundredths of a foot",
        up="error of northing or easting, hundredths of a foot",
        limit="error = bound: no corner stands above this line",
        series=[
            drawing.Series(label(name, traverses), colour, size, points(traverses))
            for (name, traverses), (colour, size) in zip(kinds.items(), looks, strict=True)
        ],
        caption=caption([stations for traverses in kinds.values() for stations in traverses]),
    )


# The page


MAKER = "second.corner"
SECTIONS: Sections = {"table": table, "worked": worked}


def differences(page: str, picture: str) -> list[str]:
    """What is wrong with a page and its picture, a line for each fault."""
    faults = stale(page, "docs/CORNER.md", MAKER, SECTIONS)
    if picture != plot():
        faults.append("docs/corner.svg: not what python3 -m second.corner plot makes")
    return faults


def check() -> None:
    """End with 1, and say why, where the page or the picture is not what is made here."""
    faults = differences(read(PAGE), read(PICTURE))
    if faults:
        sys.exit("\n".join([*faults, "to make them anew: python3 -m second.corner write"]))


def write() -> None:
    """Put what is made here into the page, and the picture beside it."""
    PAGE.write_text(all_filled(read(PAGE), MAKER, SECTIONS), encoding="utf-8")
    PICTURE.write_text(plot(), encoding="utf-8")


def main(wanted: str) -> None:
    """Print one of the three, or check or write the page."""
    printed = {**SECTIONS, "plot": plot}
    if wanted in printed:
        sys.stdout.write(printed[wanted]())
    elif wanted == "check":
        check()
    elif wanted == "write":
        write()
    else:
        sys.exit("wanted: table, worked, plot, check or write")


if __name__ == "__main__":
    main(sys.argv[1] if len(sys.argv) == 2 else "")
