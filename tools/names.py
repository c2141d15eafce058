#!/usr/bin/env python3
"""Checks that a name of the specification has one meaning: no two files of crates/*/specs/ define
the same public name. Run from anywhere: tools/names.py; it prints the names that are defined more
than once, with their files, and ends with 1 if there is any."""

import re
import sys
from collections import defaultdict
from pathlib import Path

ROOT = Path(__file__).resolve().parent.parent
# a definition, a record or a type that a file makes; what it takes over by `use` and `mod` is none
DEFINED = re.compile(r"^(?:(?:abbrev|unfoldable|opaque) )?pub (?!use |mod )(?:record |data )?(\S+)", re.M)


def main() -> None:
    files: dict[str, list[str]] = defaultdict(list)
    for path in sorted(ROOT.glob("crates/*/specs/**/*.antt")):
        for name in DEFINED.findall(path.read_text(encoding="utf-8")):
            files[name].append(path.relative_to(ROOT).as_posix())
    twice = [f"{name}: {', '.join(where)}" for name, where in files.items() if 1 < len(where)]
    if twice:
        sys.exit("\n".join(["names that are defined more than once:", *twice]))


if __name__ == "__main__":
    main()
