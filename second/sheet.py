"""The text sheet, and the program that prints it (docs/RULES.md, "The sheet, and one
printed whole")."""

import sys
from typing import NamedTuple

from .desk import LEAST_WORDS, Traverse, traverse
from .tape import NO_ROOM

LEAST_BYTES = 4_096
LONGEST_INPUT = 8_192


class Sheet(NamedTuple):
    """A refusal's number and place, or zeros and the length of the text."""

    number: int
    place: int
    length: int


def unsigned(amount: int, decimals: int) -> str:
    """The size of an amount of small units, with a decimal point and no padding."""
    whole, part = divmod(abs(amount), 10**decimals)
    return f"{whole}.{part:0{decimals}d}"


def plain(amount: int, decimals: int) -> str:
    """With a minus sign where it is negative, as coordinates and areas stand."""
    return ("-" if amount < 0 else "") + unsigned(amount, decimals)


def signed(amount: int, decimals: int) -> str:
    """Always with a sign, zero with a plus, as misclosure and closures stand."""
    return ("-" if amount < 0 else "+") + unsigned(amount, decimals)


def refused_line(number: int) -> str:
    """The one line of a refusal, which names no place."""
    return f"REFUSED {number}\n"


def close_line(answer: Traverse) -> str:
    """The first line: how well the traverse closes."""
    return (
        f"CLOSE W={signed(answer.misclosure, 1)} N={signed(answer.closure_north, 2)}"
        f" E={signed(answer.closure_east, 2)} P={answer.precision}\n"
    )


def sheet_text(answer: Traverse) -> str:
    """The sheet of an accepted traverse."""
    lines = [close_line(answer)]
    for station, (northing, easting) in enumerate(answer.coordinates):
        lines.append(f"{station} {plain(northing, 2)} {plain(easting, 2)}\n")
    if answer.loop:
        lines.append(f"AREA2 {plain(answer.doubled_area, 4)}\n")
    return "".join(lines)


def printed(tape: bytes) -> str:
    """What the program prints for a tape."""
    answer = traverse(tape, LEAST_WORDS)
    return refused_line(answer.number) if answer.number else sheet_text(answer)


def write_sheet(tape: bytes, lent: bytearray) -> Sheet:
    """Write the sheet from the first lent byte on, and nothing after it.

    Too few lent bytes are refused before the tape is looked at; a refusal
    leaves the lent bytes as they are.
    """
    if len(lent) < LEAST_BYTES:
        return Sheet(NO_ROOM, 0, 0)
    answer = traverse(tape, LEAST_WORDS)
    if answer.number:
        return Sheet(answer.number, answer.place, 0)
    text = sheet_text(answer).encode("ascii")
    lent[:len(text)] = text
    return Sheet(0, 0, len(text))


def main() -> None:
    """Standard input to standard output; no accepted tape is longer than what is read."""
    tape = sys.stdin.buffer.read(LONGEST_INPUT)
    sys.stdout.buffer.write(printed(tape).encode("ascii"))


if __name__ == "__main__":
    main()
