#!/usr/bin/env python3
"""Checks what is owed of every public function of the crates in crates.txt.

It asks for nothing: its contract has no `requires`, the tool crates `whole` and `text` apart. And
any two outcomes that it allows coincide: it is named in back quotes, a method as `Type::name`, in a
comment of its crate's proofs/Single.antt, or, with its crate, as `notes::tape_of`, in
docs/EXCEPTIONS.md. Public are the functions of src/lib.rt and of its public modules, and all that
are exported to C. Run from anywhere: tools/public.py; it prints what it does not find, and ends
with 1 if there is any."""

import re
import sys
from itertools import takewhile
from pathlib import Path
from typing import NamedTuple

ROOT = Path(__file__).resolve().parent.parent
TOOLS = {"whole", "text"}


class Function(NamedTuple):
    name: str
    exported: bool
    asks: bool


def functions(source: Path) -> list[Function]:
    """The functions of a source that are marked `pub`: the name of each, whether it is exported to
    C, and whether its contract, which ends where its body begins, has a requirement."""
    found, of = [], ""
    lines = source.read_text(encoding="utf-8").splitlines()
    for number, line in enumerate(lines):
        if line.startswith("}"):
            of = ""
        elif block := re.match(r"impl (\w+)", line):
            of = f"{block[1]}::"
        elif function := re.match(r'\s*pub (extern "C" )?fn (\w+)', line):
            contract = takewhile(lambda part: part.strip() != "{", lines[number:])
            asks = any(re.search(r"\brequires\b", part.partition("//")[0]) for part in contract)
            found.append(Function(of + function[2], bool(function[1]), asks))
    return found


def modules(source: Path, folder: Path) -> list[Path]:
    """A source and its public modules, with theirs; no source, as in a program, is none."""
    if not source.is_file():
        return []
    found = [source]
    for name in re.findall(r"^pub mod (\w+);", source.read_text(encoding="utf-8"), re.M):
        found += modules(folder / f"{name}.rt", folder / name)
    return found


def public(crate: Path) -> list[Function]:
    """A crate's public functions."""
    src = crate / "src"
    open_ones = modules(src / "lib.rt", src)
    return [
        function
        for source in sorted(src.rglob("*.rt"))
        for function in functions(source)
        if function.exported or source in open_ones
    ]


def quoted(page: Path, start: str = "") -> set[str]:
    """What the lines of a page that start so have in back quotes."""
    lines = page.read_text(encoding="utf-8").splitlines() if page.is_file() else []
    read = " ".join(line for line in lines if line.lstrip().startswith(start))
    return set(re.findall(r"`([^`]+)`", read))


def main() -> None:
    exceptions = quoted(ROOT / "docs" / "EXCEPTIONS.md")
    lines = (ROOT / "crates.txt").read_text(encoding="utf-8").splitlines()
    crates = [line.split(":")[0].split()[0] for line in lines if line and line[0] != "#"]
    asking, lacking = [], []
    for crate in crates:
        laws = quoted(ROOT / "crates" / crate / "proofs" / "Single.antt", "--")
        for function in public(ROOT / "crates" / crate):
            name = f"{crate}::{function.name}"
            if function.asks and crate not in TOOLS:
                asking.append(f"{name} has a requirement")
            if function.name not in laws and name not in exceptions:
                lacking.append(f"{name}: no law in proofs/Single.antt, and no exception")
    if asking or lacking:
        sys.exit("\n".join(asking + lacking))


if __name__ == "__main__":
    main()
