"""Texts for comparing another program's notes with this one's.

In a bundle a text stands after its length. It is answered by its tape in hexadecimal
digits, the canonical text of that tape, whether it is the text given, and what is
answered to too little room; or by the first slip.
"""

import re
from random import Random
from typing import Iterator

from .bundle import sized
from .documents import load
from .notes import LINES, Slip, said_lines, tape_of, text_of, text_of_fields
from .tape import Leg, Project, Row
from .tapes import accepted, printed_fields

CHANGE_SEED = 7
CHANGED_TEXTS = 400
RANDOM_TAPES = 24

# What may stand in the place of a number, a word or a line's end.
STRANGE = (
    b"x", b"-1", b"+1", b"-", b"1.", b".5", b"1..5", b"1.5.5", b"1e3", b"1,000", b"1_0", b"0x1", b"1\r", b"\x00",
    b"0", b"00", b"000001", b"1.0", b"1.00", b"1.000", b"1.0000000", b"1.00000000", b"59", b"59.9", b"59.95", b"60", b"60.0",
    b"359", b"360", b"90", b"91", b"999999999999999999999999", b"4294967296", b"18446744073709551616", b"0.0", b"\xc2\xb0",
)
EDGES = (
    b"row 0 00 0.9990000", b"row 90 00 1.0010000", b"row 90 00 1.001", b"row 90 01 1", b"row 0 00 0.9989999", b"row 0 00 1.0010001",
    b"row 91 00 1", b"row 90 00 1.0010000 # c", b"row 89 60 1", b"row 89 59.5 1",
    b"project 0 00 -1000", b"project 90 00 20000", b"project 0 00 -1001", b"project 0 00 20001", b"project 90 01 0", b"project 0 0 -0",
    b"project 0 0 - 5", b"project 0 0 --5", b"project 0 0 -5.0", b"project 0 0 -x", b"project 0 0 -", b"project 0 0",
    b"start 0 0 0 0 0", b"start 10000000 10000000.00 359 59 59.9", b"start 10000000.01 0 0 0 0", b"start 0 10000000.01 0 0 0",
    b"start 0 0 360 0 0", b"start 0 0 359 60 0", b"start 0 0 359 59 60", b"start 0 0 359 59 59.95", b"start -1 0 0 0 0",
    b"leg 0 0 0 1", b"leg 359 59 59.9 20000", b"leg 0 0 0 0.999", b"leg 0 0 0 20000.001", b"leg 360 0 0 1", b"leg 0 0 0 1.0005",
    b"close 0 0 0 0 0 0 0 0", b"close 359 59 59.9 10000000 10000000 359 59 59.9", b"close 360 0 0 0 0 0 0 0",
    b"close 0 0 0 10000000.01 0 0 0 0", b"close 0 0 0 0 10000000.01 0 0 0", b"close 0 0 0 0 0 360 0 0", b"close 0 0 0 0 0 0 0 0 0",
)


def base() -> list[bytes]:
    """The lines of a short good text, with a negative elevation."""
    fields = printed_fields()._replace(project=Project(2650, -7), legs=printed_fields().legs[:2])
    return text_of_fields(fields).split(b"\n")[:-1]


def joined(lines: list[bytes], end: bytes = b"\n") -> bytes:
    return b"".join(line + end for line in lines)


def shortened(text: bytes) -> bytes:
    """The text without the zeros that end its decimals."""
    return re.sub(rb"\.([0-9]*?)0+(?=[ \n])", lambda part: b"." + part[1] if part[1] else b"", text)


# Good texts


def shapes() -> Iterator[bytes]:
    """One traverse in many layouts."""
    lines = base()
    plain = joined(lines)
    yield plain
    yield plain[:-1]
    yield joined(lines, b"\r\n")
    yield joined(lines, b"\r\n")[:-2]
    yield joined(lines, b" \t \n")
    yield joined(lines, b"# comment\n")
    yield joined(lines, b" # a comment # with another, and CR\r\n")
    yield joined(lines, b"\n\n")
    yield joined(lines, b"\r\n\r\n\t\r\n")
    yield joined([b" \t" + line for line in lines])
    yield plain.replace(b" ", b"\t")
    yield plain.replace(b" ", b"  \t ")
    yield b"# head\n\n   # indented\n" + plain + b"# foot"
    yield plain + b"#"
    yield shortened(plain)
    yield shortened(plain).replace(b" 00", b" 0").replace(b"\n", b"\r\n")
    yield plain.replace(b"-7", b"7").replace(b" ", b" 000000000000000000000000")
    yield plain.replace(b"-7", b"-0000000000000000000000007")
    yield plain.replace(b"-7", b"-0")
    yield plain.replace(b"-7", b"0")


def long_texts() -> Iterator[bytes]:
    """The most rows and legs, and one more of each."""
    fields = printed_fields()
    for rows in (600, 601):
        many = tuple(Row(2000 + k, 10_000_000 + k) for k in range(rows))
        yield text_of_fields(fields._replace(rows=many, project=Project(2000 + rows - 1, 20_000)))
    for legs in (64, 65):
        yield text_of_fields(fields._replace(legs=tuple(Leg(k * 199_999, 1_000 + k) for k in range(legs))))


def tapes_as_text() -> Iterator[bytes]:
    """Canonical texts of the tapes that the other comparisons use."""
    yield text_of_fields(printed_fields())
    yield text_of_fields(load("wanda_mason").fields)
    texts = sorted(map(text_of, map(accepted, range(4 * RANDOM_TAPES))), key=len)
    yield from texts[:RANDOM_TAPES]


# Texts with a slip


def line_slips() -> Iterator[bytes]:
    """Each word of each line taken away, cut there, replaced, and followed by more."""
    lines = base()
    for at, line in enumerate(lines):
        words = line.split(b" ")
        for k in range(len(words)):
            for changed in (words[:k], words[:k] + words[k + 1:], words[:k + 1] + [b"1"] + words[k + 1:]):
                yield joined(lines[:at] + [b" ".join(changed)] + lines[at + 1:])
        for strange in STRANGE:
            k = 1 + (at * 5 + len(strange)) % (len(words) - 1)
            yield joined(lines[:at] + [b" ".join(words[:k] + [strange] + words[k + 1:])] + lines[at + 1:])
        for after in (b" x", b" 1", b" \r", b"\r", b"x"):
            yield joined(lines[:at] + [line + after] + lines[at + 1:])


def item_slips() -> Iterator[bytes]:
    """Each strange word in the place of each number of each kind of line."""
    lines = base()
    for word in LINES:
        at = next(k for k, line in enumerate(lines) if line.startswith(word + b" "))
        words = lines[at].split(b" ")
        for k in range(1, len(words)):
            for strange in STRANGE:
                yield joined(lines[:at] + [b" ".join(words[:k] + [strange] + words[k + 1:])])


def order_slips() -> Iterator[bytes]:
    """Lines taken away, doubled, swapped and put after the close."""
    lines = base()
    for at in range(len(lines)):
        yield joined(lines[:at] + lines[at + 1:])
        yield joined(lines[:at + 1] + lines[at:])
        yield joined(lines[:at])
        yield joined(lines + [lines[at]])
        yield joined([b"", b"# pushed down", b""] + lines[:at] + [b""] + lines[at + 1:])
        for other in range(at):
            swapped = list(lines)
            swapped[at], swapped[other] = lines[other], lines[at]
            yield joined(swapped)
    yield joined([b"row 44 12 1", *lines])
    yield joined([b"row 0 0 1", *lines[2:]])
    yield joined(lines[2:])


def word_slips() -> Iterator[bytes]:
    """First words that are none of the five, and texts of little or nothing."""
    for word in (b"Row", b"ROW", b"rows", b"ro", b"legs", b"traverse", b"1", b"-", b"row,", b"row\x00", b"\xef\xbb\xbfrow", b"\r"):
        yield joined([word + b" 44 10 1.0000572"] + base()[1:])
    yield from (b"", b"\n", b"\r\n", b"\r", b"#", b" ", b"\t", b"# only a comment\n", b"row", b"row\n", b"\x00", b"leg#", b"leg 1#2 3 4 5\n")


def changed_texts() -> Iterator[bytes]:
    """The short text with one byte changed, taken away or put in, and cut at each byte."""
    text = joined(base())
    chance = Random(CHANGE_SEED)
    for _ in range(CHANGED_TEXTS):
        at = chance.randrange(len(text))
        byte = bytes([chance.choice(b"0123456789.-# \t\r\nrowlegx")])
        yield chance.choice((text[:at] + byte + text[at + 1:], text[:at] + text[at + 1:], text[:at] + byte + text[at:]))
    for at in range(len(text)):
        yield text[:at]


def cases() -> list[bytes]:
    """All texts of the bundle, in its order."""
    return [
        *shapes(), *tapes_as_text(), *long_texts(), *EDGES, *line_slips(), *item_slips(), *order_slips(), *word_slips(), *changed_texts(),
    ]


packed = sized


def expected(text: bytes) -> str:
    """What is answered to one text."""
    try:
        tape = tape_of(text)
    except Slip as slip:
        return f"{slip}\n"
    back = text_of(tape)
    same = "unchanged" if back == text else "changed"
    return f"{tape.hex()}\n{back.decode('ascii')}{same}\n{short_of_room(text)}\n"


def short_of_room(text: bytes) -> str:
    """What is answered to a good text where the tape has one byte too little room: its close does not fit."""
    *_, (number, _) = said_lines(text)
    return f"line {number}: no room for the tape"
