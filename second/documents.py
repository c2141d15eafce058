"""Figures of the source documents as data, in `documents/`: worked traverses, single
steps, and rows of zone tables.

Records and fields are named as on the tape and stand in the tape's units, so that
loading is no more than naming them; a missing or misspelt field is an error. Beside
what goes into the desk stands what the document prints, which may differ from the
desk's figures since the documents round and reduce in their own ways (`why` says how),
and what another exact program made of the desk's own rules.
"""

import json
from pathlib import Path
from typing import Any, NamedTuple, Optional

from .desk import Point
from .tape import Close, Fields, Leg, Project, Row, Start

FOLDER = Path(__file__).parent / "documents"
STEPS, ZONES = "steps", "zone_rows"


class Course(NamedTuple):
    """A leg as worked out: balanced azimuth, grid distance and where it leads."""

    azimuth: Optional[int] = None
    distance: Optional[int] = None
    latitude: Optional[int] = None
    departure: Optional[int] = None


class Published(NamedTuple):
    """What a document prints of a traverse; None, or no stations, where it prints nothing.

    Each figure is in units of its last printed decimal, which is the desk's own
    unless `decimals` names the figure.
    """

    legs: tuple[Course, ...]
    stations: tuple[Point, ...]
    decimals: dict[str, int]
    misclosure: Optional[int] = None
    closure_north: Optional[int] = None
    closure_east: Optional[int] = None
    precision: Optional[int] = None
    doubled_area: Optional[int] = None


class Rules(NamedTuple):
    """What another exact program makes of the tape by the desk's rules."""

    legs: tuple[Course, ...]
    sheet: str


class Worked(NamedTuple):
    """A traverse that a document works out: where it stands, its tape, what comes of it."""

    document: str
    what: str
    title: str
    place: str
    date: Optional[str]
    where: str
    notes: tuple[str, ...]
    stations: tuple[str, ...]
    fields: Fields
    published: Published
    why: tuple[str, ...]
    rules: Rules


class Case(NamedTuple):
    """A single step: what goes in, what is printed, what the rules give."""

    given: tuple[int, ...]
    published: tuple[int, ...]
    rules: tuple[int, ...]
    at: str


class Cases(NamedTuple):
    """Single steps of one kind from one place of a document."""

    document: str
    where: str
    decimals: Optional[int]
    why: str
    cases: tuple[Case, ...]


class Constants(NamedTuple):
    """What a zone's grid is laid out by."""

    C: int
    Rb: int
    constant: int
    central_meridian: int


class ZoneRow(NamedTuple):
    """A printed line of a zone's table."""

    minute: int
    radius: int
    y: Optional[int]
    difference: Optional[int]
    factor: int


class Zone(NamedTuple):
    """A zone's table, or the part of it that a document prints."""

    zone: str
    document: str
    where: str
    constants: Constants
    rows: tuple[ZoneRow, ...]


def read(name: str) -> dict[str, Any]:
    """One file as it stands."""
    return json.loads((FOLDER / f"{name}.json").read_text(encoding="utf-8"))


# Traverses


def names() -> list[str]:
    """What `load` can be asked for."""
    return sorted(path.stem for path in FOLDER.glob("*.json") if path.stem not in (STEPS, ZONES))


def fields_of(tape: dict[str, Any]) -> Fields:
    """The tape's fields from its part of a file."""
    return Fields(
        rows=tuple(Row(**row) for row in tape["rows"]),
        project=Project(**tape["project"]),
        start=Start(**tape["start"]),
        legs=tuple(Leg(**leg) for leg in tape["legs"]),
        close=Close(**tape["close"]),
    )


def courses_of(legs: list[dict[str, int]]) -> tuple[Course, ...]:
    return tuple(Course(**leg) for leg in legs)


def published_of(said: dict[str, Any]) -> Published:
    """The printed figures; what a file leaves out is not printed."""
    stations = tuple(Point(**place) for place in said["stations"])
    rest = {name: value for name, value in said.items() if name not in ("legs", "stations")}
    return Published(courses_of(said["legs"]), stations, **{"decimals": {}, **rest})


def rules_of(said: dict[str, Any]) -> Rules:
    return Rules(courses_of(said["legs"]), "".join(f"{line}\n" for line in said["sheet"]))


def load(name: str) -> Worked:
    """The worked traverse of one file."""
    said = read(name)
    return Worked(
        document=said["document"],
        what=said["what"],
        title=said["title"],
        place=said["place"],
        date=said["date"],
        where=said["where"],
        notes=tuple(said["notes"]),
        stations=tuple(said["stations"]),
        fields=fields_of(said["tape"]),
        published=published_of(said["published"]),
        why=tuple(said["why"]),
        rules=rules_of(said["rules"]),
    )


# Single steps


def case_of(said: dict[str, Any]) -> Case:
    return Case(
        given=tuple(said["given"]),
        published=tuple(said["published"]),
        rules=tuple(said["rules"]),
        at=said.get("at", ""),
    )


def cases_of(said: dict[str, Any]) -> Cases:
    return Cases(
        document=said["document"],
        where=said["where"],
        decimals=said.get("decimals"),
        why=said.get("why", ""),
        cases=tuple(map(case_of, said["cases"])),
    )


def single_steps() -> dict[str, tuple[Cases, ...]]:
    """The documents' single steps by kind."""
    return {kind: tuple(map(cases_of, places)) for kind, places in read(STEPS)["steps"].items()}


# Zone tables


def zone_of(said: dict[str, Any]) -> Zone:
    return Zone(
        zone=said["zone"],
        document=said["document"],
        where=said["where"],
        constants=Constants(**said["constants"]),
        rows=tuple(ZoneRow(**dict(zip(said["columns"], row, strict=True))) for row in said["rows"]),
    )


def zones() -> dict[str, Zone]:
    """The zone tables by the zone's name."""
    return {said["zone"]: zone_of(said) for said in read(ZONES)["zones"]}
