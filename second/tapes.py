"""Makers of tapes to try the desk with; the same tapes on every run.

`accepted` makes traverses that close, or nearly: inside, at and just past both
limits. `damaged` yields short good tapes with every systematic fault, so that
each refusal, each place and the order of the tests come to light. `edges` yields
what chance seldom makes: every number of legs, both limits met exactly, rows and
elevations from end to end, and several faults on one tape.
"""

from itertools import accumulate, combinations, count
from math import isqrt
from pathlib import Path
from random import Random
from typing import Callable, Iterator, Sequence

from . import desk, steps
from .ranges import CIRCLE, COORDINATE, DISTANCE, ELEVATION, FACTOR, HALF_CIRCLE, LEGS
from .ranges import MINUTE, QUADRANT, ROWS, Range
from .tape import KIND_BY_RECORD, KINDS, Close, Fields, Leg, Project, Record, Row, Start
from .tape import encode, records_of, write_tape

DEGREE = CIRCLE // 360
THIRD = CIRCLE // 3
EXAMPLES = Path(__file__).parent.parent / "examples"


def examples() -> dict[str, bytes]:
    """The tapes of the examples by name."""
    return {path.stem: path.read_bytes() for path in sorted(EXAMPLES.glob("*.tape"))}


# The sheet that the rules print whole


def printed_fields() -> Fields:
    """The tape of the printed sheet: a loop of four legs about a square."""
    return Fields(
        rows=(Row(2650, 10_000_572), Row(2651, 10_000_528)),
        project=Project(2650, 1_196),
        start=Start(5_000_000, 200_000_000, 0),
        legs=(
            Leg(180 * DEGREE, 1_000_000),
            Leg(270 * DEGREE, 1_000_020),
            Leg(270 * DEGREE, 1_000_010),
            Leg(270 * DEGREE, 1_000_000),
        ),
        close=Close(90 * DEGREE + 5, 5_000_000, 200_000_000, 0),
    )


# Choosing figures


def edged(chance: Random, values: Range) -> int:
    """Any value of a range, its two ends far more often than others."""
    return chance.choice((values.low, values.high, *(chance.randint(*values) for _ in range(4))))


def either_sign(chance: Random, size: int) -> int:
    return chance.choice((-size, size))


def azimuth(chance: Random) -> int:
    """Any azimuth, with whole minutes, the four quarters and their neighbours among them."""
    quarter = QUADRANT * chance.randrange(4)
    return chance.choice((
        chance.randrange(CIRCLE),
        chance.randrange(CIRCLE),
        600 * chance.randrange(CIRCLE // 600),
        quarter,
        (quarter + chance.choice((-1, 1))) % CIRCLE,
    ))


def distances(chance: Random, count: int) -> list[int]:
    """Distances of one sort of survey: tiny, common, all sorts, or the longest."""
    sort = chance.choice((
        Range(1_000, 3_000), Range(50_000, 900_000), Range(200_000, 2_000_000),
        DISTANCE, Range(19_990_000, 20_000_000),
    ))
    return [edged(chance, sort) for _ in range(count)]


def leg_count(chance: Random, least: int) -> int:
    return chance.choice((least, 2, 3, 4, chance.randint(5, 16), chance.randint(least, 64), 64))


def zone(chance: Random) -> tuple[tuple[Row, ...], Project]:
    """Rows and a project whose latitude has a row, often the first or the last."""
    count = chance.choice((1, 1, 2, 2, 3, 3, 4, 5, 8, chance.randint(1, 600), 600))
    first = edged(chance, Range(MINUTE.low, MINUTE.high - count + 1))
    rows = tuple(Row(first + i, edged(chance, FACTOR)) for i in range(count))
    latitude = edged(chance, Range(first, first + count - 1))
    return rows, Project(latitude, edged(chance, ELEVATION))


def misclosure(chance: Random, legs: int) -> int:
    """W inside its limit, at it, or one tenth past it."""
    limit = 100 * (legs + 1)
    inside = [chance.randint(0, limit) for _ in range(4)]
    return either_sign(chance, chance.choice((0, 1, *inside, limit, limit + 1)))


def closure(chance: Random, total: int) -> desk.Point:
    """A closure inside its limit, at it, or just past it."""
    most = total**2 // 50_000**2
    one = chance.randint(0, isqrt(most))
    other = isqrt(most - one**2)
    inside = [chance.randint(0, other) for _ in range(4)]
    pair = [one, chance.choice((*inside, other, other + 1))]
    chance.shuffle(pair)
    small = [min(2, isqrt(most)), 0]
    sizes = chance.choice(([0, 0], small, pair, pair, pair, pair))
    return desk.Point(*(either_sign(chance, size) for size in sizes))


def start_for(chance: Random, way: int) -> int:
    """A coordinate to start at, so that the way from it ends in range too."""
    least = COORDINATE.low - min(0, way)
    most = COORDINATE.high - max(0, way)
    nearby = chance.randint(1, 1_000)
    return chance.choice((least, least + nearby, most - nearby, most, chance.randint(least, most)))


# Traverses that close


def angles_for(to_mark: int, carried: Sequence[int]) -> list[int]:
    """The angles right that carry these azimuths."""
    first = (carried[0] - to_mark) % CIRCLE
    later = [(on - before + HALF_CIRCLE) % CIRCLE for before, on in zip(carried, carried[1:])]
    return [first, *later]


def carrying(
    azimuths: Sequence[int], measured: Sequence[int], w: int, marks: tuple[int, int],
    over: tuple[tuple[Row, ...], Project],
) -> Fields:
    """A tape of misclosure W whose balanced azimuths are the given ones, start and end at 0, 0.

    Each angle carries its share of W, which balancing then takes away again.
    """
    n = len(azimuths)
    to_mark, to_closing_mark = marks
    shares = [steps.angle_share(w, n, j).value for j in range(1, n + 2)]
    targets = [*azimuths, to_closing_mark]
    carried = [(target + share) % CIRCLE for target, share in zip(targets, shares)]
    *angles, closing_angle = angles_for(to_mark, carried)
    legs = tuple(map(Leg, angles, measured))
    return Fields(*over, Start(0, 0, to_mark), legs, Close(closing_angle, 0, 0, to_closing_mark))


def occupied(chance: Random, azimuths: Sequence[int], measured: Sequence[int]) -> Fields:
    """The same, with a misclosure, marks and rows by chance."""
    w = misclosure(chance, len(azimuths))
    marks = azimuth(chance), azimuth(chance)
    return carrying(azimuths, measured, w, marks, zone(chance))


def moved(chance: Random, fields: Fields, way: desk.Point) -> Fields:
    """The tape with fixed points that lie the given way apart, both in range."""
    start = desk.Point(*(start_for(chance, part) for part in way))
    end = start.plus(way)
    return fields._replace(
        start=fields.start._replace(northing=start.northing, easting=start.easting),
        close=fields.close._replace(northing=end.northing, easting=end.easting),
    )


def leaving(chance: Random, fields: Fields, left: desk.Point) -> Fields:
    """The tape closed on a point that leaves a given closure."""
    carried_to = desk.preliminary(fields, desk.grid_distances(fields))[-1]
    return moved(chance, fields, carried_to.less(left))


def walk(chance: Random, azimuths: Sequence[int], measured: Sequence[int]) -> Fields:
    """A walk along these legs, closed on a point that leaves a chosen closure."""
    fields = occupied(chance, azimuths, measured)
    return leaving(chance, fields, closure(chance, sum(desk.grid_distances(fields))))


def line_of(chance: Random, n: int) -> Fields:
    """A random walk of n legs."""
    return walk(chance, [azimuth(chance) for _ in range(n)], distances(chance, n))


def line(chance: Random) -> Fields:
    """A random walk of any number of legs."""
    return line_of(chance, leg_count(chance, least=1))


def ring(chance: Random, n: int) -> tuple[list[int], list[int]]:
    """n azimuths and distances that come back to where they began.

    Legs go in opposite pairs, one triple at 120 degrees makes an odd number.
    In order of azimuth they run clockwise, backwards the other way round, and
    shuffled any way.
    """
    legs = []
    for distance in distances(chance, n // 2):
        odd_one = n % 2 == 1 and not legs
        turns = (0, THIRD, 2 * THIRD) if odd_one else (0, HALF_CIRCLE)
        first = azimuth(chance)
        legs += [((first + turn) % CIRCLE, distance) for turn in turns]
    legs.sort(reverse=chance.choice((False, True)))
    if chance.randrange(3) == 0:
        chance.shuffle(legs)
    return [leg[0] for leg in legs], [leg[1] for leg in legs]


def strained(chance: Random, measured: Sequence[int]) -> list[int]:
    """Distances changed a little, so that a ring closes well, barely or not quite."""
    slack = sum(measured) // 5_000
    each = slack // len(measured)
    evenly = [chance.randint(-each, each) for _ in measured]
    at_one = [either_sign(chance, slack + chance.choice((-20, -5, 0, 5)))]
    changes = chance.choice(([0] * len(measured), evenly, evenly, at_one + [0] * (len(measured) - 1)))
    return [
        min(max(distance + change, DISTANCE.low), DISTANCE.high)
        for distance, change in zip(measured, changes)
    ]


def loop_of(chance: Random, n: int) -> Fields:
    """A ring of n legs that starts and closes on one point."""
    azimuths, measured = ring(chance, n)
    fields = occupied(chance, azimuths, strained(chance, measured))
    return moved(chance, fields, desk.Point(0, 0))


def loop(chance: Random) -> Fields:
    """A ring of any number of legs."""
    return loop_of(chance, leg_count(chance, least=2))


def accepted(seed: int) -> bytes:
    """A tape that reads, and is accepted or near one of the two limits."""
    chance = Random(seed)
    return write_tape(chance.choice((line, line, loop))(chance))


# Damage


def joined(records: Sequence[Record]) -> bytes:
    """The bytes of any records in any order, good or not."""
    return b"".join(map(encode, records))


def good_tapes() -> list[Fields]:
    """Short tapes to damage: the printed one, the shortest, and one below sea level."""
    printed = printed_fields()
    shortest = printed._replace(rows=printed.rows[:1], legs=printed.legs[:1])
    low = Fields(
        rows=(Row(5_398, 9_990_000), Row(5_399, 10_010_000), Row(5_400, 9_999_412)),
        project=Project(5_399, -123),
        start=Start(1_000_000_000, 0, 12_959_999),
        legs=(Leg(0, 1_000), Leg(12_959_999, 20_000_000)),
        close=Close(1, 0, 1_000_000_000, 12_345_678),
    )
    return [printed, shortest, low]


def field_values(size: int, signed: bool, values: Range) -> list[int]:
    """Both bounds, one beyond each that the bytes can hold, and the bytes' own ends."""
    bits = 8 * size
    held = Range(-(1 << bits - 1), (1 << bits - 1) - 1) if signed else Range(0, (1 << bits) - 1)
    wanted = (values.low, values.low - 1, values.high, values.high + 1, *held)
    return sorted({value for value in wanted if held.holds(value)})


def at_field_bounds(records: Sequence[Record]) -> Iterator[bytes]:
    """Each field of each record at each bound and one beyond."""
    for i, record in enumerate(records):
        for j, field in enumerate(KIND_BY_RECORD[type(record)].fields):
            for value in field_values(field.size, field.signed, field.range):
                changed = type(record)(*record[:j], value, *record[j + 1:])
                yield joined([*records[:i], changed, *records[i + 1:]])


def places_of(records: Sequence[Record]) -> list[int]:
    """The place of each record, then the tape's length."""
    return list(accumulate((len(encode(record)) for record in records), initial=0))


def with_other_kinds(records: Sequence[Record]) -> Iterator[bytes]:
    """Each kind byte from 0 to 12 at each record's place and after the close."""
    tape = joined(records)
    for place in places_of(records):
        for kind in range(13):
            yield tape[:place] + bytes([kind]) + tape[place + 1:]


def cut(tape: bytes) -> Iterator[bytes]:
    """The tape cut at every byte, the empty tape first."""
    for length in range(len(tape)):
        yield tape[:length]


def with_record_more_or_less(records: Sequence[Record]) -> Iterator[bytes]:
    """Each record left out, and a record of each kind put in at each place.

    This doubles project and start, closes before any leg and repeats rows.
    """
    first_of_kind = {type(record): record for record in reversed(records)}
    for i in range(len(records)):
        yield joined([*records[:i], *records[i + 1:]])
    for i in range(len(records) + 1):
        for kind in KINDS:
            yield joined([*records[:i], first_of_kind[kind.record], *records[i:]])


def with_two_faults(records: Sequence[Record]) -> Iterator[bytes]:
    """A field out of range in one record and an unknown kind at another."""
    tape, places = joined(records), places_of(records)[:-1]
    for field_fault in places:
        for kind_fault in places:
            broken = bytearray(tape)
            broken[field_fault + 1:field_fault + 5] = b"\xff" * 4
            broken[kind_fault] = 9
            yield bytes(broken)


def with_faults_in_one_record(records: Sequence[Record]) -> Iterator[bytes]:
    """Every record with a bad first field and cut short, or of unknown kind and cut short."""
    tape, places = joined(records), places_of(records)
    for place, end in zip(places, places[1:]):
        yield tape[:place + 1] + b"\xff" * (end - place - 2)
        yield tape[:place + 1] + b"\xff" * (end - place - 1)
        yield tape[:place] + b"\x09"


def after_close(tape: bytes) -> Iterator[bytes]:
    """Bytes after the close, few and many."""
    for more in (b"\x00", b"\xff", tape[-17:], tape):
        yield tape + more


def row_successions(good: Fields) -> Iterator[bytes]:
    """Rows that skip, repeat or go back a minute, and faults beside that."""
    rest = records_of(good)[len(good.rows):]
    last = good.project.latitude
    for minute in (last - 1, last, last + 1, last + 2, 0, 5_400, 5_401):
        for factor in (FACTOR.low - 1, FACTOR.high):
            yield joined([Row(last, 10_000_000), Row(minute, factor), *rest])


def latitudes(good: Fields) -> Iterator[bytes]:
    """A latitude at the first and the last row, one beyond each, and no rows at
    all; then the same with an elevation out of range."""
    rows = [Row(100 + i, 10_000_000) for i in range(3)]
    rest = records_of(good)[len(good.rows) + 1:]
    for zone_rows in (rows, []):
        for latitude in (0, 99, 100, 102, 103, 5_400):
            for elevation in (ELEVATION.low, ELEVATION.low - 1):
                yield joined([*zone_rows, Project(latitude, elevation), *rest])


def many_rows(good: Fields) -> Iterator[bytes]:
    """600 rows exactly; a 601st that is good, out of range, repeated or cut short."""
    rows = [Row(minute, 10_000_000) for minute in range(600)]
    rest = [good.project._replace(latitude=599), *records_of(good)[len(good.rows) + 1:]]
    full = joined(rows)
    yield full + joined(rest)
    yield full + joined([Row(600, 10_000_000), *rest])
    yield full + joined([Row(600, FACTOR.high + 1)])
    yield full + joined([Row(599, 10_000_000)])
    yield full + b"\x05"
    yield full


def many_legs(good: Fields) -> Iterator[bytes]:
    """64 legs exactly; a 65th that is good, out of range or cut short."""
    leg = good.legs[0]
    full = joined([*good.rows, good.project, good.start, *[leg] * LEGS.high])
    yield full + joined([good.close])
    yield full + joined([leg, good.close])
    yield full + joined([leg._replace(distance=DISTANCE.low - 1), good.close])
    yield full + encode(leg)[:-1]
    yield full + b"\x03"
    yield full


def longest(good: Fields) -> bytes:
    """As long as a tape may be."""
    rows = tuple(Row(MINUTE.high - i, FACTOR.low) for i in reversed(range(ROWS.high)))
    legs = (good.legs[0],) * LEGS.high
    return joined(records_of(good._replace(
        rows=rows, project=good.project._replace(latitude=MINUTE.high), legs=legs,
    )))


def damaged() -> Iterator[bytes]:
    """The systematic tapes: each fault by itself at each place, then several at once."""
    for good in good_tapes():
        records = records_of(good)
        tape = joined(records)
        yield tape
        yield from at_field_bounds(records)
        yield from with_other_kinds(records)
        yield from cut(tape)
        yield from with_record_more_or_less(records)
        yield from with_two_faults(records)
        yield from with_faults_in_one_record(records)
        yield from after_close(tape)
    printed = printed_fields()
    yield from row_successions(printed)
    yield from latitudes(printed)
    yield from many_rows(printed)
    yield from many_legs(printed)
    yield longest(printed)


# What chance seldom makes

# A factor of just one, so that grid distances are the measured ones.
LEVEL = (Row(2_650, 10_000_000),), Project(2_650, 0)


def first_taken(make: Callable[[Random, int], Fields], n: int) -> bytes:
    """The first of the tapes of n legs, by seed, that the desk accepts."""
    tapes = (write_tape(make(Random(seed), n)) for seed in count())
    return next(tape for tape in tapes if desk.traverse(tape, desk.LEAST_WORDS).number == 0)


def every_leg_count() -> Iterator[bytes]:
    """An accepted line and an accepted loop of every number of legs; one leg makes no loop."""
    for n in range(LEGS.low, LEGS.high + 1):
        yield first_taken(line_of, n)
        if n > 1:
            yield first_taken(loop_of, n)


def closures_about(limit: int) -> list[desk.Point]:
    """None, and four of just the greatest length in different quarters, and those one hundredth
    longer; the limit is a multiple of 5."""
    three, four = 3 * limit // 5, 4 * limit // 5
    at = [(limit, 0), (0, -limit), (-three, four), (-four, -three)]
    past = [(limit, 1), (-1, -limit), (-three - 1, four), (four, three + 1)]
    return [desk.Point(*sizes) for sizes in [(0, 0), *at, *past]]


def at_both_limits() -> Iterator[bytes]:
    """Each misclosure about its limit with each closure about its own, of few and many legs.

    Legs of 1,000 feet make the closure's limit 20 hundredths a leg, exactly. The closing mark
    lies at the circle's zero or just before it, so that W straddles zero.
    """
    for n in (1, 2, 4, LEGS.high):
        chance = Random(n)
        limit = 100 * (n + 1)
        azimuths = [(89 + 1_234_567 * i) % CIRCLE for i in range(n)]
        for i, w in enumerate((0, 1, -1, limit, -limit, limit + 1, -limit - 1)):
            marks = 5_432_100, (0, CIRCLE - 1)[i % 2]
            fields = carrying(azimuths, [1_000_000] * n, w, marks, LEVEL)
            for left in closures_about(20 * n):
                yield write_tape(leaving(chance, fields, left))


def misclosures_all_round() -> Iterator[bytes]:
    """The printed loop with W at half a circle and about it, at quarters, and at its limit below
    zero and past it."""
    printed = printed_fields()
    half = [HALF_CIRCLE, HALF_CIRCLE - 1, HALF_CIRCLE + 1]
    for w in (*half, QUADRANT, -QUADRANT, -500, -501):
        angle = (90 * DEGREE + w) % CIRCLE
        yield write_tape(printed._replace(close=printed.close._replace(angle=angle)))


def elevations_and_factors() -> Iterator[bytes]:
    """The printed loop at elevations from end to end, with the least, the printed and the greatest
    factor."""
    printed = printed_fields()
    ends = [ELEVATION.low, ELEVATION.low + 1, ELEVATION.high - 1, ELEVATION.high]
    for feet in (*ends, -123, -1, 0, 1, 950):
        for factor in (FACTOR.low, printed.rows[0].factor, FACTOR.high):
            rows = (printed.rows[0]._replace(factor=factor),)
            yield write_tape(printed._replace(rows=rows, project=Project(rows[0].minute, feet)))


def row_counts() -> Iterator[bytes]:
    """The printed loop with 0 to 600 rows, each of another factor, its latitude in the first, a
    middle and the last of them."""
    printed = printed_fields()
    yield write_tape(printed._replace(rows=()))
    for rows_count in (1, 2, 3, 17, 255, 256, 257, ROWS.high - 1, ROWS.high):
        rows = tuple(Row(i, FACTOR.low + 31 * i) for i in range(rows_count))
        for latitude in sorted({0, rows_count // 2, rows_count - 1}):
            yield write_tape(printed._replace(rows=rows, project=Project(latitude, -77)))


# Several faults at once: those that fields can have, then those of the bytes


def with_row_again(fields: Fields) -> Fields:
    return fields._replace(rows=(*fields.rows, fields.rows[-1]))


def with_factor_out(fields: Fields) -> Fields:
    large = fields.rows[0]._replace(factor=FACTOR.high + 1)
    return fields._replace(rows=(large, *fields.rows[1:]))


def with_no_row(fields: Fields) -> Fields:
    return fields._replace(project=fields.project._replace(latitude=4_000))


def with_elevation_out(fields: Fields) -> Fields:
    return fields._replace(project=fields.project._replace(elevation=ELEVATION.low - 1))


def with_start_out(fields: Fields) -> Fields:
    return fields._replace(start=fields.start._replace(easting=COORDINATE.high + 1))


def with_leg_out(fields: Fields) -> Fields:
    short = fields.legs[-1]._replace(distance=DISTANCE.low - 1)
    return fields._replace(legs=(*fields.legs[:-1], short))


def with_legs_too_many(fields: Fields) -> Fields:
    return fields._replace(legs=(*fields.legs, *[fields.legs[0]] * LEGS.high))


def with_misclosure(fields: Fields) -> Fields:
    return fields._replace(close=fields.close._replace(angle=fields.close.angle + 20_000))


def with_closure(fields: Fields) -> Fields:
    return fields._replace(close=fields.close._replace(northing=fields.close.northing + 1_000))


def with_end_cut(tape: bytes) -> bytes:
    return tape[:-2]


def with_byte_after(tape: bytes) -> bytes:
    return tape + b"\x04"


def with_close_unknown(tape: bytes) -> bytes:
    return tape[:-17] + b"\x06" + tape[-16:]


FIELD_FAULTS = (
    with_row_again, with_factor_out, with_no_row, with_elevation_out, with_start_out,
    with_leg_out, with_legs_too_many, with_misclosure, with_closure,
)
BYTE_FAULTS = (with_close_unknown, with_byte_after, with_end_cut)


def several_faults() -> Iterator[bytes]:
    """The printed tape with each one, two and three of these faults."""
    faults = (*FIELD_FAULTS, *BYTE_FAULTS)
    for number in (1, 2, 3):
        for chosen in combinations(faults, number):
            fields = printed_fields()
            for fault in FIELD_FAULTS:
                fields = fault(fields) if fault in chosen else fields
            tape = joined(records_of(fields))
            for fault in BYTE_FAULTS:
                tape = fault(tape) if fault in chosen else tape
            yield tape


def edges() -> Iterator[bytes]:
    """All of these tapes."""
    yield from every_leg_count()
    yield from at_both_limits()
    yield from misclosures_all_round()
    yield from elevations_and_factors()
    yield from row_counts()
    yield from several_faults()
