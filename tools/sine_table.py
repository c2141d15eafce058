#!/usr/bin/env python3
"""The table of sines, made by the rule of docs/RULES.md, "Sines", with exact integers.

The nine-decimal sine of every whole minute from 0 to 90 degrees is the nearest to the exact sine:
the sine's series through the 19th power up to and including 45 degrees, the cosine's of the
complement through the 20th above, with pi = 3.14159265358979323846.

usage: tools/sine_table.py write    write the constant of the code and the list of the proofs
                                    (then `rt fmt` in crates/minutes)
       tools/sine_table.py check    say whether both are what this program makes
"""
import pathlib
import re
import sys
from fractions import Fraction
from math import factorial

PI = Fraction(314159265358979323846, 10**20)
LAST = 90 * 60
ROOT = pathlib.Path(__file__).resolve().parent.parent
CONSTANT = ROOT / "crates/minutes/src/constant.rt"
LISTED = ROOT / "crates/minutes/proofs/Listed.antt"

# what the entries stand after, in each
CONSTANT_START = "pub const MINUTES: [u32; 5401] = ["
LISTED_START = "unfoldable pub minutes : List ℕ\nminutes ="


def series(first, last, x):
    """x^first/first! - x^(first+2)/(first+2)! + .. through the power last."""
    return sum((-1) ** i * x**k / factorial(k) for i, k in enumerate(range(first, last + 1, 2)))


def exact_sine(minute):
    """The exact sine of a whole minute from 0 to 90 degrees."""
    if minute <= 45 * 60:
        return series(1, 19, minute * PI / (180 * 60))
    return series(0, 20, (LAST - minute) * PI / (180 * 60))


def nearest(x):
    """The nearest whole number to x, which is not negative; a half goes up."""
    return (2 * x.numerator + x.denominator) // (2 * x.denominator)


def table():
    """The entries, from that of 0 minutes to that of 90 degrees."""
    return [nearest(10**9 * exact_sine(minute)) for minute in range(LAST + 1)]


def halves(path, start):
    """What a file has up to the end of the text `start`, and after it."""
    before, found, after = path.read_text(encoding="utf-8").partition(start)
    if not found:
        sys.exit(f"{path.relative_to(ROOT)}: has no {start!r}")
    return before + found, after


def write(entries):
    """Writes the entries of the constant and of the list; what stands before them stays."""
    lines = "".join(f"    {entry},\n" for entry in entries)
    CONSTANT.write_text(f"{halves(CONSTANT, CONSTANT_START)[0]}\n{lines}];\n", encoding="utf-8")
    items = " ∷ ".join(map(str, entries))
    LISTED.write_text(f"{halves(LISTED, LISTED_START)[0]}\n    {items} ∷ []\n", encoding="utf-8")


def numbers(path, start):
    """The numbers of the list that opens after the text `start`."""
    return [int(n) for n in re.findall(r"\d+", halves(path, start)[1])]


def matches(path, found, entries):
    """Says of a file whether the entries found in it are those of the rule, and answers that."""
    name = path.relative_to(ROOT)
    if found == entries:
        print(f"{name}: the {len(entries)} entries that the rule makes")
        return True
    pairs = enumerate(zip(found, entries))
    wrong = next((i for i, (one, other) in pairs if one != other), min(len(found), len(entries)))
    print(f"{name}: {len(found)} entries, wrong from minute {wrong} on")
    return False


def check(entries):
    """Whether the constant and the list are those of the rule; both are looked at."""
    constant = matches(CONSTANT, numbers(CONSTANT, CONSTANT_START), entries)
    listed = matches(LISTED, numbers(LISTED, LISTED_START), entries)
    return constant and listed


if __name__ == "__main__":
    if sys.argv[1:] == ["write"]:
        write(table())
    elif sys.argv[1:] == ["check"]:
        sys.exit(0 if check(table()) else 1)
    else:
        sys.exit(__doc__)
