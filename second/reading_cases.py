"""Tapes for comparing another program's reading with this one's.

In a bundle a tape stands after its length. It is answered by number and place, as
the reading before refusals 8 and 9 tells them.
"""

from random import Random
from typing import Iterator

from .bundle import line, sized
from .tape import read_tape
from .tapes import accepted, damaged

RANDOM_TAPES = 200
DAMAGE_SEED = 1


def one_byte_changed(chance: Random, tape: bytes) -> bytes:
    """The tape with one byte turned into another."""
    place = chance.randrange(len(tape))
    other = tape[place] ^ chance.randrange(1, 256)
    return tape[:place] + bytes([other]) + tape[place + 1:]


def cut_somewhere(chance: Random, tape: bytes) -> bytes:
    """The tape cut short at any byte."""
    return tape[:chance.randrange(len(tape))]


def random_tapes() -> Iterator[bytes]:
    """Tapes that read, tapes with one byte changed and tapes cut short, in turn."""
    chance = Random(DAMAGE_SEED)
    for seed in range(RANDOM_TAPES):
        tape = accepted(seed)
        yield (tape, one_byte_changed(chance, tape), cut_somewhere(chance, tape))[seed % 3]


def cases() -> list[bytes]:
    """All tapes of the bundle, in its order."""
    return [*damaged(), *random_tapes()]


packed = sized


def expected(tape: bytes) -> str:
    """Number and place of one reading; zeros where it reads."""
    reading = read_tape(tape)
    return line((reading.number, reading.place))
