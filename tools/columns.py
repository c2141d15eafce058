#!/usr/bin/env python3
"""Checks that no line of the code, the definitions and the proofs (src/, specs/ and proofs/ of each
crate) has more than 100 columns. The pages are checked by tools/pages.py. Run from anywhere:
tools/columns.py; it prints the lines that are wider, and ends with 1 if there is any."""

import sys
from pathlib import Path

ROOT = Path(__file__).resolve().parent.parent
COLUMNS = 100
# The list of the table's entries, which tools/sine_table.py makes.
MADE = {"crates/minutes/proofs/Listed.antt"}
KEPT = ("crates/*/src/**/*.rt", "crates/*/specs/**/*.antt", "crates/*/proofs/**/*.antt")


def wide(path: Path) -> list[str]:
    """The lines of a file that are too wide, each with its place and its width."""
    lines = path.read_text(encoding="utf-8").splitlines()
    name = path.relative_to(ROOT).as_posix()
    if name in MADE:
        return []
    return [f"{name}:{n}: {len(line)}" for n, line in enumerate(lines, 1) if COLUMNS < len(line)]


def main() -> None:
    found = [line for kept in KEPT for path in sorted(ROOT.glob(kept)) for line in wide(path)]
    if found:
        sys.exit("\n".join([f"lines of more than {COLUMNS} columns:", *found]))


if __name__ == "__main__":
    main()
