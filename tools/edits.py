#!/usr/bin/env python3
"""Checks the edits. docs/RULED_OUT.md lists the wrong answers that are tried: every edit under
crates/CRATE/must-fail/ and trials/CRATE/ has one row in the section of its crate, marked
(must-fail) or (trials), and no row names an edit that is not there. And each of these edits, and
each fault under faults/, fits the sources: every old text stands just once in its file, once the
texts before it are replaced, and the new text is another. Run from anywhere: tools/edits.py; it
prints what does not agree, and ends with 1 if anything does not."""

import re
import sys
from collections import Counter
from pathlib import Path

ROOT = Path(__file__).resolve().parent.parent
PAGE = ROOT / "docs" / "RULED_OUT.md"
SECTION = re.compile(r"## `(\w+)`")
LABEL = re.compile(r"`(\w+)` \((must-fail|trials)\)")
HEADING = ("edit", "---")

# the crate, where the edit is tried, and its label
Edit = tuple[str, str, str]


def tried() -> list[Edit]:
    """The edits of the repository."""
    gate = ROOT.glob("crates/*/must-fail/*.edit")
    hand = ROOT.glob("trials/*/*.edit")
    return [(path.parts[-3], "must-fail", path.stem) for path in gate] + [
        (path.parts[-2], "trials", path.stem) for path in hand
    ]


def listed() -> tuple[list[Edit], list[str]]:
    """The edits that the page has a row for, and its rows that name none."""
    found: list[Edit] = []
    wrong: list[str] = []
    crate = ""
    for number, line in enumerate(PAGE.read_text(encoding="utf-8").splitlines(), 1):
        section = SECTION.fullmatch(line)
        if section:
            crate = section.group(1)
        elif line.startswith("|"):
            cells = [cell.strip() for cell in re.split(r"(?<!\\)\|", line)[1:-1]]
            cell = cells[2] if len(cells) == 4 else ""
            label = LABEL.fullmatch(cell)
            if label:
                found.append((crate, label.group(2), label.group(1)))
            elif cell not in HEADING:
                wrong.append(f"line {number} names no edit in its third cell")
    return found, wrong


def misfits(edit: Path, folder: Path) -> list[str]:
    """What is wrong with an edit whose files are named from this folder."""
    wrong: list[str] = []
    texts: dict[Path, str] = {}
    path, old, pairs = folder, "", 0
    for line in edit.read_text(encoding="utf-8").splitlines():
        word, _, rest = line.partition(":")
        rest = rest.removeprefix(" ")
        if word == "file":
            path = folder / rest
            texts.setdefault(path, path.read_text(encoding="utf-8") if path.is_file() else "")
        elif word == "old":
            old = rest
        elif word == "new":
            pairs += 1
            text = texts.get(path, "")
            times = text.count(old) if old else 0
            if times != 1 or old == rest:
                why = "is not changed" if old == rest else f"stands {times} times"
                wrong.append(f"{old!r} {why} in {path.relative_to(ROOT)}")
            else:
                texts[path] = text.replace(old, rest)
    name = edit.relative_to(ROOT)
    return [f"{name}: {why}" for why in wrong if pairs] or [f"{name}: no edit"] * (not pairs)


def all_misfits() -> list[str]:
    """What is wrong with the edits of the repository, and with the faults."""
    crates = ROOT / "crates"
    places = [(path, path.parents[1]) for path in ROOT.glob("crates/*/must-fail/*.edit")]
    places += [(path, crates / path.parent.name) for path in ROOT.glob("trials/*/*.edit")]
    places += [(path, ROOT) for path in ROOT.glob("faults/*.edit")]
    return [line for path, folder in sorted(places) for line in misfits(path, folder)]


def main() -> None:
    there = Counter(tried())
    rows, wrong = listed()
    here = Counter(rows)
    for edit in sorted(there | here):
        crate, kind, label = edit
        if here[edit] != there[edit]:
            edits, found = there[edit], here[edit]
            wrong.append(f"{crate}: {label} ({kind}): edits {edits}, rows {found}")
    if wrong:
        wrong.insert(0, "docs/RULED_OUT.md and the edits do not agree:")
    if unfit := all_misfits():
        wrong += ["edits that do not fit the sources:", *unfit]
    if wrong:
        sys.exit("\n".join(wrong))


if __name__ == "__main__":
    main()
