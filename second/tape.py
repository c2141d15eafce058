"""The tape: its kinds as data, its reading and its writing (docs/RULES.md, "The tape", "Nine
refusals" and "The writer")."""

from typing import NamedTuple, Optional, Union

from .ranges import (
    ANGLE, COORDINATE, DISTANCE, ELEVATION, FACTOR, LEGS, MINUTE, ROWS, Range,
)

NO_ROOM, CUT_SHORT, WRONG_KIND, OUT_OF_RANGE = 1, 2, 3, 4
WRONG_ROW, TOO_MANY_LEGS, NO_ROW_FOR_LATITUDE = 5, 6, 7


class Row(NamedTuple):
    """A line of the zone's table."""

    minute: int
    factor: int


class Project(NamedTuple):
    """What holds for the whole traverse."""

    latitude: int
    elevation: int


class Start(NamedTuple):
    """The fixed point left from, and the azimuth to its mark."""

    northing: int
    easting: int
    azimuth: int


class Leg(NamedTuple):
    """An angle right and the distance measured after it."""

    angle: int
    distance: int


class Close(NamedTuple):
    """The closing angle, the fixed point reached, the azimuth to its mark."""

    angle: int
    northing: int
    easting: int
    azimuth: int


Record = Union[Row, Project, Start, Leg, Close]


class Field(NamedTuple):
    """How many bytes a number takes, and which values are good."""

    size: int
    range: Range
    signed: bool = False


class Kind(NamedTuple):
    """A kind byte and what stands after it."""

    byte: int
    record: type
    fields: tuple[Field, ...]

    @property
    def length(self) -> int:
        """The kind byte and the body."""
        return 1 + sum(field.size for field in self.fields)


KINDS = (
    Kind(5, Row, (Field(2, MINUTE), Field(4, FACTOR))),
    Kind(1, Project, (Field(2, MINUTE), Field(2, ELEVATION, signed=True))),
    Kind(2, Start, (Field(4, COORDINATE), Field(4, COORDINATE), Field(4, ANGLE))),
    Kind(3, Leg, (Field(4, ANGLE), Field(4, DISTANCE))),
    Kind(4, Close, (Field(4, ANGLE), Field(4, COORDINATE), Field(4, COORDINATE), Field(4, ANGLE))),
)
KIND_BY_BYTE = {kind.byte: kind for kind in KINDS}
KIND_BY_RECORD = {kind.record: kind for kind in KINDS}

# What may stand after what; None is the beginning of the tape.
MAY_FOLLOW = {
    None: (Row, Project),
    Row: (Row, Project),
    Project: (Start,),
    Start: (Leg,),
    Leg: (Leg, Close),
    Close: (),
}

# How many of a kind there may be, and the refusal for one more.
MOST = {Row: (ROWS.high, WRONG_ROW), Leg: (LEGS.high, TOO_MANY_LEGS)}


class Fields(NamedTuple):
    """All that a tape says."""

    rows: tuple[Row, ...]
    project: Project
    start: Start
    legs: tuple[Leg, ...]
    close: Close


class Reading(NamedTuple):
    """A refusal's number and place, or zeros and the fields."""

    number: int
    place: int
    fields: Optional[Fields]


class Written(NamedTuple):
    """A refusal's number and place, or zeros and where the next record goes."""

    number: int
    place: int
    next_place: int


# One record


def decode(kind: Kind, tape: bytes, place: int) -> Record:
    """The record of a known kind whose whole body is on the tape."""
    values = []
    at = place + 1
    for field in kind.fields:
        values.append(int.from_bytes(tape[at:at + field.size], "big", signed=field.signed))
        at += field.size
    return kind.record(*values)


def encode(record: Record) -> bytes:
    """The record's bytes, with no test of its ranges."""
    kind = KIND_BY_RECORD[type(record)]
    body = (
        value.to_bytes(field.size, "big", signed=field.signed)
        for field, value in zip(kind.fields, record)
    )
    return bytes([kind.byte]) + b"".join(body)


def in_range(record: Record) -> bool:
    """Whether every field of the record is good."""
    fields = KIND_BY_RECORD[type(record)].fields
    return all(field.range.holds(value) for field, value in zip(fields, record))


# Reading


class Book:
    """The records read so far, by kind, and the kind read last."""

    def __init__(self) -> None:
        self.records = {kind.record: [] for kind in KINDS}
        self.last = None

    def enter(self, record: Record) -> None:
        self.last = type(record)
        self.records[self.last].append(record)

    def fields(self) -> Fields:
        """The fields of a tape that has been read to its end."""
        (project,), (start,), (close,) = (self.records[k] for k in (Project, Start, Close))
        return Fields(tuple(self.records[Row]), project, start, tuple(self.records[Leg]), close)


def refusal_before_body(book: Book, tape: bytes, place: int) -> int:
    """What can be said of a record before its fields are looked at, or 0."""
    kind = KIND_BY_BYTE.get(tape[place])
    if kind is None or kind.record not in MAY_FOLLOW[book.last]:
        return WRONG_KIND
    if kind.record in MOST:
        most, refusal = MOST[kind.record]
        if len(book.records[kind.record]) == most:
            return refusal
    return CUT_SHORT if place + kind.length > len(tape) else 0


def refusal_of_record(book: Book, record: Record) -> int:
    """What can be said against a record that is there in whole, or 0."""
    if not in_range(record):
        return OUT_OF_RANGE
    rows = book.records[Row]
    if isinstance(record, Row) and rows and record.minute != rows[-1].minute + 1:
        return WRONG_ROW
    if isinstance(record, Project) and all(row.minute != record.latitude for row in rows):
        return NO_ROW_FOR_LATITUDE
    return 0


def read_tape(tape: bytes) -> Reading:
    """The fields of a tape, or the first of refusals 2 to 7 that it meets.

    Every one of them is placed at the first byte of the record under test; a
    tape that ends too early between records is refused at its length.
    """
    book = Book()
    place = 0
    while place < len(tape):
        number = refusal_before_body(book, tape, place)
        if number:
            return Reading(number, place, None)
        kind = KIND_BY_BYTE[tape[place]]
        record = decode(kind, tape, place)
        number = refusal_of_record(book, record)
        if number:
            return Reading(number, place, None)
        book.enter(record)
        place += kind.length
    if book.last is not Close:
        return Reading(CUT_SHORT, len(tape), None)
    return Reading(0, 0, book.fields())


# Writing


def write_record(record: Record, lent: bytearray, place: int) -> Written:
    """Write one record into the rest of the lent bytes, from a place on.

    A refusal leaves the lent bytes as they are, and no answer touches a byte
    outside the record.
    """
    length = KIND_BY_RECORD[type(record)].length
    if not 0 <= place <= len(lent) - length:
        return Written(NO_ROOM, 0, 0)
    if not in_range(record):
        return Written(OUT_OF_RANGE, place, 0)
    lent[place:place + length] = encode(record)
    return Written(0, 0, place + length)


def records_of(fields: Fields) -> list[Record]:
    """The records in tape order."""
    return [*fields.rows, fields.project, fields.start, *fields.legs, fields.close]


def write_tape(fields: Fields) -> bytes:
    """The tape that says these fields; a field out of range is an error here."""
    records = records_of(fields)
    lent = bytearray(sum(KIND_BY_RECORD[type(record)].length for record in records))
    place = 0
    for record in records:
        number, _, place = write_record(record, lent, place)
        if number:
            raise ValueError(f"a tape cannot say {record}")
    return bytes(lent)
