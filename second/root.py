"""The whole root by digits, as trainees are taught it, and the parts of docs/ROOT.md.

The number is set off in pairs of digits from the right. From the left, each pair is
brought down after the remainder. The trial divisor is 20 times the root found so far,
and the next digit of the root is the largest for which trial divisor and digit, times
the digit, can be taken away. What that leaves is the next remainder.

`python3 -m second.root document` or `sheet` prints a part of docs/ROOT.md; `check` says
where that page is not what is made here, and `write` makes it so. `work NORTH EAST S`
prints the working of any closures and sum of grid distances, in feet.
"""

import re
import sys
from typing import NamedTuple, NoReturn, Sequence

from .page import DOCS, Sections, all_filled, markdown, read, stale
from .ranges import PASSED_CLOSURE, TOTAL, Range

PAGE = DOCS / "ROOT.md"
USAGE = "wanted: document, sheet, check, write, or work NORTH EAST S"


# The method


class Line(NamedTuple):
    """What a clerk does with one pair, which stands here as a number and as it is written."""

    pair: int
    written: str
    brought: int
    divisor: int
    digit: int
    product: int
    remainder: int


def pairs(number: int) -> list[str]:
    """A number set off in pairs from the right, so that the first may have one digit."""
    digits, found = str(number), []
    while digits:
        digits, pair = digits[:-2], digits[-2:]
        found.insert(0, pair)
    return found


def next_line(written: str, root: int, remainder: int) -> Line:
    """The line of the next pair, after a root found so far and its remainder."""
    pair = int(written)
    brought, divisor = 100 * remainder + pair, 20 * root
    digit = max(digit for digit in range(10) if (divisor + digit) * digit <= brought)
    product = (divisor + digit) * digit
    return Line(pair, written, brought, divisor, digit, product, brought - product)


def joined(lines: Sequence[Line]) -> int:
    """The root that the digits make; 0 before the first of them."""
    return int("".join(str(line.digit) for line in lines) or "0")


def worked(number: int) -> list[Line]:
    """The whole working, a line for each pair."""
    if number < 0:
        raise ValueError(f"{number} is negative and has no root")
    lines: list[Line] = []
    for written in pairs(number):
        lines.append(next_line(written, joined(lines), lines[-1].remainder if lines else 0))
    return lines


def whole_root(number: int) -> int:
    """The largest whole number whose square is at most this one."""
    return joined(worked(number))


# What a precision number is taken from


class Closing(NamedTuple):
    """Closures in hundredths of a foot, the sum of grid distances in thousandths."""

    north: int
    east: int
    total: int

    @property
    def is_perfect(self) -> bool:
        return self.north == self.east == 0

    def divided(self) -> tuple[int, int]:
        """The number whose root is the precision number, and the rest of its division."""
        return divmod(self.total**2, 100 * (self.north**2 + self.east**2))


# Document 002 prints closures as fixed less computed, and they stand here as it prints them.
DOCUMENT = Closing(-30, 29, 5_276_590)
SHEET = Closing(-1, 2, 4_000_030)


# The working in print


def feet(amount: int, decimals: int) -> str:
    """An amount of small units, with a comma at each thousand."""
    whole, part = divmod(abs(amount), 10**decimals)
    return f"{'-' if amount < 0 else ''}{whole:,}.{part:0{decimals}d}"


def closure(amount: int) -> str:
    """Always with a sign, as a sheet prints it."""
    return ("" if amount < 0 else "+") + feet(amount, 2)


def sentence(closing: Closing) -> str:
    """From the closures to the number whose root is taken."""
    north, east, total = closing
    number, rest = closing.divided()
    return (
        f"C_N = {closure(north)} ft, C_E = {closure(east)} ft and S = {feet(total, 3)} ft,\n"
        f"so {total:,}² / (100 × ({abs(north):,}² + {abs(east):,}²)) = {number:,}"
        f"{' and a rest, which is dropped' if rest else ''}.\n"
    )


def in_pairs(amount: int) -> str:
    return " ".join(pairs(amount))


def brought_down(line: Line) -> str:
    """The pair after its remainder; by itself, as it stands in the number, after none."""
    return in_pairs(line.brought) if line.brought > line.pair else line.written


def paper_rows(line: Line, end: int, width: int) -> list[str]:
    """What is brought down, what is taken away and a rule, all ending where the pair ends."""
    brought = brought_down(line)
    note = f"{line.divisor + line.digit} × {line.digit}"
    return [
        brought.rjust(end),
        f"{in_pairs(line.product).rjust(end).ljust(width)}   {note}",
        ("-" * len(brought)).rjust(end),
    ]


def paper(lines: Sequence[Line]) -> str:
    """The working as it is laid out on paper, root above and every figure under its pair.

    The first pair is brought down where it stands, so the number itself is its row.
    """
    root = " ".join(str(line.digit).rjust(len(line.written)) for line in lines)
    number = " ".join(line.written for line in lines)
    rows, end = [], 0
    for line in lines:
        end += len(line.written)
        rows += paper_rows(line, end, len(number))
        end += len(" ")
    last = in_pairs(lines[-1].remainder).rjust(len(number))
    return "".join(f"{row}\n" for row in (root, number, *rows[1:], last))


def table(lines: Sequence[Line]) -> str:
    """The working again, a row for each pair."""
    head = ("pair", "brought down", "trial divisor", "digit", "taken away", "remainder")
    return markdown(head, [
        (line.written, f"{line.brought:,}", f"{line.divisor:,}", str(line.digit),
         f"({line.divisor:,} + {line.digit}) × {line.digit} = {line.product:,}",
         f"{line.remainder:,}")
        for line in lines
    ])


def section(closing: Closing) -> str:
    """A part of the page: where the number comes from, the working on paper and as a table."""
    lines = worked(closing.divided()[0])
    return f"{sentence(closing)}\n```\n{paper(lines)}```\n\n{table(lines)}"


def work(closing: Closing) -> str:
    """A working for the terminal; nothing but P where there is nothing to divide by."""
    if closing.is_perfect:
        return "P = 0\n"
    lines = worked(closing.divided()[0])
    return f"{sentence(closing)}\n{paper(lines)}\nP = {joined(lines)}\n"


# The page


def document() -> str:
    return section(DOCUMENT)


def sheet() -> str:
    return section(SHEET)


MAKER = "second.root"
SECTIONS: Sections = {"document": document, "sheet": sheet}


def check() -> None:
    """End with 1, and say why, where the page is not what is made here."""
    faults = stale(read(PAGE), "docs/ROOT.md", MAKER, SECTIONS)
    if faults:
        sys.exit("\n".join([*faults, "to make it anew: python3 -m second.root write"]))


def write() -> None:
    """Put what is made here into the page."""
    PAGE.write_text(all_filled(read(PAGE), MAKER, SECTIONS), encoding="utf-8")


# The command


class Wrong(Exception):
    """What is wrong with the arguments."""


def units(text: str, name: str, decimals: int, good: Range) -> int:
    """Feet as text, in units of their last decimal."""
    found = re.fullmatch(rf"([+-]?[0-9]{{1,9}})(?:\.([0-9]{{1,{decimals}}}))?", text)
    if found:
        whole, part = found.groups(default="")
        amount = int(whole + part.ljust(decimals, "0"))
        if good.holds(amount):
            return amount
    least, most = feet(good.low, decimals), feet(good.high, decimals)
    raise Wrong(f"{name} is {least} to {most} feet, with at most {decimals} decimals, not: {text}")


def closing_of(arguments: Sequence[str]) -> Closing:
    if len(arguments) != 3:
        raise Wrong("wanted after work: NORTH EAST S, as -0.30 +0.29 5276.590")
    north, east, total = arguments
    return Closing(
        units(north, "the closure in northing", 2, PASSED_CLOSURE),
        units(east, "the closure in easting", 2, PASSED_CLOSURE),
        units(total, "the sum of grid distances", 3, TOTAL),
    )


def refuse(message: str) -> NoReturn:
    """End with 2, so that it is not taken for a page that differs."""
    print(message, file=sys.stderr)
    sys.exit(2)


def main(arguments: Sequence[str]) -> None:
    """Print a part of the page or a working, check or write the page; else end with 2."""
    wanted, *others = arguments or [""]
    try:
        if wanted == "work":
            sys.stdout.write(work(closing_of(others)))
        elif others:
            raise Wrong(USAGE)
        elif wanted in SECTIONS:
            sys.stdout.write(SECTIONS[wanted]())
        elif wanted == "check":
            check()
        elif wanted == "write":
            write()
        else:
            raise Wrong(USAGE)
    except Wrong as wrong:
        refuse(str(wrong))


if __name__ == "__main__":
    main(sys.argv[1:])
