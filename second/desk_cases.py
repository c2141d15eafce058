"""Tapes for comparing another program's whole desk with this one.

In a bundle stand how many words are lent (one byte), how many bytes for the sheet (two
bytes), and the tape after its length. A case is answered by

    number place n W C_N C_E P doubled-area loop northing easting ... words-changed
    number place length bytes-changed
    what the program SHEET prints

that is the traverse with its words, the sheet step, and the sheet or the line of a refusal.
"""

from random import Random
from typing import Iterator, NamedTuple

from . import documents
from .bundle import line, number, sized
from .desk import LEAST_WORDS, traverse
from .reading_cases import cut_somewhere, one_byte_changed
from .sheet import LEAST_BYTES, printed, write_sheet
from .tape import write_tape
from .tapes import accepted, damaged, edges, examples, printed_fields, with_closure, with_misclosure

RANDOM_TAPES = 500
DAMAGED_TAPES = 300
DAMAGE_SEED = 2
WORDS_LENT = (0, 1, 10, 128, 129, 130, 131, 255)
BYTES_LENT = (0, 1, 4_095, 4_096, 4_097, 4_200)


class Case(NamedTuple):
    """A tape, and how much room is lent for its words and for its sheet."""

    tape: bytes
    words: int = LEAST_WORDS
    bytes: int = LEAST_BYTES


def packed(case: Case) -> bytes:
    """A case as it stands in a bundle."""
    return number(case.words, 1) + number(case.bytes, 2) + sized(case.tape)


# The cases


def random_damage() -> Iterator[bytes]:
    """Random tapes with one byte changed or cut short, in turn."""
    chance = Random(DAMAGE_SEED)
    for seed in range(DAMAGED_TAPES):
        tape = accepted(RANDOM_TAPES + seed)
        yield (one_byte_changed, cut_somewhere)[seed % 2](chance, tape)


def lent_rooms() -> Iterator[Case]:
    """Rooms about their limits, for tapes that are accepted and refused."""
    good = printed_fields()
    read = map(write_tape, (good, with_misclosure(good), with_closure(good)))
    for tape in (*read, b"", b"\x09"):
        for words in WORDS_LENT:
            yield Case(tape, words=words)
        for room in BYTES_LENT:
            yield Case(tape, bytes=room)


def cases() -> Iterator[Case]:
    """All cases of the bundle, in its order."""
    yield from map(Case, (write_tape(documents.load(name).fields) for name in documents.names()))
    yield from map(Case, examples().values())
    yield from lent_rooms()
    yield from map(Case, edges())
    yield from map(Case, damaged())
    yield from map(Case, map(accepted, range(RANDOM_TAPES)))
    yield from map(Case, random_damage())


# The answers


def traverse_line(case: Case) -> str:
    """All figures of the traverse, its words, and how many; on acceptance just the stations' words change, the first ones."""
    answer = traverse(case.tape, case.words)
    words = [coordinate for station in answer.coordinates for coordinate in station]
    return line((*answer[:8], int(answer.loop), *words, len(words)))


def sheet_line(case: Case) -> str:
    """What the sheet step answers, and how many of the lent bytes, zeros before, it changed."""
    lent = bytearray(case.bytes)
    sheet = write_sheet(case.tape, lent)
    return line((*sheet, case.bytes - lent.count(0)))


def expected(case: Case) -> str:
    """All that is expected of a program for one case."""
    return traverse_line(case) + sheet_line(case) + printed(case.tape)
