"""Field notes: a traverse as text, turned into a tape and back (docs/NOTES.md).

`python3 -m second.notes < NOTES` writes the tape to standard output, or the first
slip to standard error; `python3 -m second.notes back < TAPE` writes the notes.
"""

import re
import sys
from typing import Iterator, NamedTuple, NoReturn, Optional, Sequence

from .sheet import plain
from .tape import Close, Fields, Leg, Project, Record, Row, Start
from .tape import encode, in_range, read_tape, records_of


class Slip(Exception):
    """What is wrong with a text, in the words of docs/NOTES.md."""


class Refused(Exception):
    """A tape that does not read: number and place."""


# The numbers of a line


class Item(NamedTuple):
    """A number that a line has: what it is, its decimals, what it stays below."""

    name: str
    decimals: int
    below: Optional[int] = None
    signed: bool = False


def parts_of(what: str) -> tuple[Item, Item, Item]:
    """Degrees, minutes and seconds."""
    return (
        Item(f"the degrees of the {what}, a whole number", 0),
        Item(f"the minutes of the {what}, a whole number below 60", 0, 60),
        Item(f"the seconds of the {what}, below 60 with at most 1 decimal", 1, 600),
    )


LATITUDE = parts_of("latitude")[:2]
AZIMUTH = parts_of("azimuth")
ANGLE = parts_of("angle")
FACTOR = (Item("the scale factor, with at most 7 decimals", 7),)
ELEVATION = (Item("the mean elevation in feet, a whole number", 0, signed=True),)
NORTHING = (Item("the northing in feet, with at most 2 decimals", 2),)
EASTING = (Item("the easting in feet, with at most 2 decimals", 2),)
DISTANCE = (Item("the distance in feet, with at most 3 decimals", 3),)

# How many of its last item's units each item of a field is worth.
WORTH = {
    LATITUDE: (60, 1), AZIMUTH: (36_000, 600, 1), ANGLE: (36_000, 600, 1),
    FACTOR: (1,), ELEVATION: (1,), NORTHING: (1,), EASTING: (1,), DISTANCE: (1,),
}


class Line(NamedTuple):
    """What a word makes of its line: the record, its fields, the message of its ranges."""

    record: type
    fields: tuple[tuple[Item, ...], ...]
    ranges: str


LINES = {
    b"row": Line(
        Row, (LATITUDE, FACTOR),
        "a row has a latitude of 0 00 to 90 00 and a scale factor of 0.9990000 to 1.0010000",
    ),
    b"project": Line(
        Project, (LATITUDE, ELEVATION),
        "a project has a mean latitude of 0 00 to 90 00 and a mean elevation of -1000 to 20000 feet",
    ),
    b"start": Line(
        Start, (NORTHING, EASTING, AZIMUTH),
        "a start has coordinates of 0.00 to 10000000.00 feet and an azimuth below 360 degrees",
    ),
    b"leg": Line(
        Leg, (ANGLE, DISTANCE),
        "a leg has an angle below 360 degrees and a distance of 1.000 to 20000.000 feet",
    ),
    b"close": Line(
        Close, (ANGLE, NORTHING, EASTING, AZIMUTH),
        "a close has an angle and an azimuth below 360 degrees"
        " and coordinates of 0.00 to 10000000.00 feet",
    ),
}
WORD_BY_RECORD = {line.record: word.decode() for word, line in LINES.items()}

NUMBER = re.compile(rb"([0-9]+)(?:\.([0-9]+))?")
SIGNED = re.compile(rb"(-?[0-9]+)(?:\.([0-9]+))?")

# What the reading of a tape whose records are all in range may refuse.
REFUSALS = {
    2: "the notes end before the close (refusal 2)",
    3: "out of order: rows come first, then one project, one start, 1 to 64 legs and one close"
    " (refusal 3)",
    5: "each row is one minute above the row before, and there are at most 600 rows (refusal 5)",
    6: "this is the 65th leg, and there are at most 64 (refusal 6)",
    7: "no row has the mean latitude (refusal 7)",
}


# From text to tape

# The byte-order mark of UTF-8, which some editors write before a text.
BOM = b"\xef\xbb\xbf"


def without_bom(text: bytes) -> bytes:
    """The text after a byte-order mark; `tape_of` takes a mark for a part of the first word."""
    return text.removeprefix(BOM)


def slip_at(number: int, what: str) -> NoReturn:
    """The slip of a line, counted from 1; 0 is the end of the text."""
    raise Slip(f"line {number}: {what}" if number else f"end of the text: {what}")


def said_lines(text: bytes) -> Iterator[tuple[int, list[bytes]]]:
    """The lines that say something: number and words."""
    ended = text.split(b"\n")
    for number, line in enumerate(ended, 1):
        if number < len(ended) and line.endswith(b"\r"):
            line = line[:-1]
        words = re.split(rb"[ \t]+", line.partition(b"#")[0].strip(b" \t"))
        if words != [b""]:
            yield number, words


def item_value(number: int, item: Item, word: Optional[bytes]) -> int:
    """What a word says of an item, in units of its last decimal."""
    if word is None:
        slip_at(number, f"expected {item.name}; the line ends before it")
    said = (SIGNED if item.signed else NUMBER).fullmatch(word)
    if said is None:
        slip_at(number, f"expected {item.name}; this is no such number")
    decimals = said[2] or b""
    if len(decimals) > item.decimals:
        slip_at(number, f"expected {item.name}; this has too many decimals")
    value = int(said[1] + decimals.ljust(item.decimals, b"0"))
    if item.below is not None and value >= item.below:
        slip_at(number, f"expected {item.name}; this is 60 or more")
    return value


def line_record(number: int, words: Sequence[bytes]) -> Record:
    """The record of one line."""
    line = LINES.get(words[0])
    if line is None:
        slip_at(number, "expected row, project, start, leg or close")
    after = iter(words[1:])
    values = [
        sum(worth * item_value(number, item, next(after, None))
            for item, worth in zip(field, WORTH[field]))
        for field in line.fields
    ]
    if next(after, None) is not None:
        slip_at(number, "expected the end of the line; text stands behind the last number")
    record = line.record(*values)
    if not in_range(record):
        slip_at(number, f"out of range: {line.ranges}")
    return record


def tape_of(text: bytes) -> bytes:
    """The tape that a text says; the first slip is raised."""
    tape = b""
    line_by_place = {}
    for number, words in said_lines(text):
        line_by_place[len(tape)] = number
        tape += encode(line_record(number, words))
    reading = read_tape(tape)
    if reading.number:
        slip_at(line_by_place.get(reading.place, 0), REFUSALS[reading.number])
    return tape


# From tape to text


def circle(tenths: int) -> str:
    """Degrees, minutes and seconds."""
    minutes, rest = divmod(tenths, 600)
    return f"{minutes // 60} {minutes % 60:02d} {rest // 10:02d}.{rest % 10}"


def latitude(minutes: int) -> str:
    return f"{minutes // 60} {minutes % 60:02d}"


def spelt(field: tuple[Item, ...], value: int) -> str:
    """The words of one field."""
    if field in (AZIMUTH, ANGLE):
        return circle(value)
    if field == LATITUDE:
        return latitude(value)
    return str(value) if field == ELEVATION else plain(value, field[0].decimals)


def record_line(record: Record) -> str:
    word = WORD_BY_RECORD[type(record)]
    fields = LINES[word.encode()].fields
    return " ".join((word, *map(spelt, fields, record))) + "\n"


def text_of_fields(fields: Fields) -> bytes:
    return "".join(map(record_line, records_of(fields))).encode()


def text_of(tape: bytes) -> bytes:
    """The canonical notes of a tape; a refusal is raised."""
    reading = read_tape(tape)
    if reading.number:
        raise Refused(reading.number, reading.place)
    return text_of_fields(reading.fields)


def main(wanted: Sequence[str]) -> None:
    """Notes to tape, or back."""
    given = sys.stdin.buffer.read()
    try:
        made = text_of(given) if wanted == ["back"] else tape_of(without_bom(given))
        sys.stdout.buffer.write(made)
    except Slip as slip:
        sys.exit(str(slip))
    except Refused as refusal:
        sys.exit("REFUSED {} at byte {}".format(*refusal.args))


if __name__ == "__main__":
    main(sys.argv[1:])
