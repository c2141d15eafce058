#!/usr/bin/env python3
"""Draws the floors of the house, docs/floors.svg: each crate on the floor above all that it uses. `floors.py write` makes the picture from the `use`
lines of the sources, `floors.py check` says whether it is up to date, and whether crates.txt names all that a crate uses."""

import re
import sys
from pathlib import Path
from xml.sax.saxutils import escape

ROOT = Path(__file__).resolve().parent.parent
PICTURE = ROOT / "docs" / "floors.svg"

WIDE, HIGH, GAP, RISE, EDGE = 112, 34, 18, 92, 24
INK, PAPER, LINE = "#1f2937", "#ffffff", "#9ca3af"
COLOURS = {"library": "#dbeafe", "statement": "#dcfce7", "program": "#fef3c7"}


def listed() -> dict[str, set[str]]:
    """crates.txt: each crate with what it stands on; crates of the kit left out."""
    lines = (ROOT / "crates.txt").read_text(encoding="utf-8").splitlines()
    pairs = [line.split(":") for line in lines if line and not line.startswith("#")]
    # a line may have words after the name, as `vastrudhil staticlib: desk ..` has
    stands_on = {head.split()[0]: set(below.split()) for head, below in pairs}
    return {name: below & stands_on.keys() for name, below in stands_on.items()}


def used(name: str, names: set[str]) -> set[str]:
    """The crates that the sources of a crate name themselves."""
    found: set[str] = set()
    for path in (ROOT / "crates" / name).rglob("*"):
        if path.suffix in (".rt", ".antt") and "out" not in path.parts:
            text = path.read_text(encoding="utf-8")
            found.update(re.findall(r"\bRattle\.(\w+)\.", text))
            found.update(re.findall(r"\b(\w+)::", text) if path.suffix == ".rt" else [])
    return (found & names) - {name}


def kind(name: str) -> str:
    """A program has a main; a crate without a function states and proves something about others."""
    source = ROOT / "crates" / name / "src"
    if (source / "main.rt").exists():
        return "program"
    return "library" if any("fn " in path.read_text(encoding="utf-8") for path in source.rglob("*.rt")) else "statement"


def floors(uses: dict[str, set[str]]) -> list[list[str]]:
    """The crates floor by floor, in the order of crates.txt: one floor above the highest that is used."""
    level: dict[str, int] = {}
    for name in uses:
        level[name] = 1 + max((level[below] for below in uses[name]), default=-1)
    return [[name for name in uses if level[name] == floor] for floor in range(max(level.values()) + 1)]


def needed(uses: dict[str, set[str]]) -> set[tuple[str, str]]:
    """The pairs to draw: what is also used by way of another crate is left out, or the lines would hide the picture."""
    above: dict[str, set[str]] = {}
    for name in uses:
        above[name] = set().union(*(above[below] | {below} for below in uses[name])) if uses[name] else set()
    return {
        (name, below) for name in uses for below in uses[name] if not any(below in above[other] for other in uses[name] if other != below)
    }


def picture(uses: dict[str, set[str]]) -> str:
    """The whole drawing, the ground floor at the bottom."""
    house = floors(uses)
    width = max(800, max(len(floor) for floor in house) * (WIDE + GAP) + 2 * EDGE)
    height = (len(house) - 1) * RISE + HIGH + 2 * EDGE + 40
    place = {
        name: (
            (width - len(floor) * (WIDE + GAP) + GAP) // 2 + column * (WIDE + GAP),
            height - EDGE - HIGH - 30 - row * RISE,
        )
        for row, floor in enumerate(house) for column, name in enumerate(floor)
    }
    drawn = [
        f'<svg xmlns="http://www.w3.org/2000/svg" width="{width}" height="{height}" viewBox="0 0 {width} {height}" font-family="sans-serif" font-size="13">',
        f'<rect width="{width}" height="{height}" fill="{PAPER}"/>',
    ]
    for name, below in sorted(needed(uses)):
        (x1, y1), (x2, y2) = place[name], place[below]
        drawn.append(f'<path d="M{x1 + WIDE // 2} {y1 + HIGH}L{x2 + WIDE // 2} {y2}" stroke="{LINE}" fill="none"/>')
    for name, (x, y) in place.items():
        drawn.append(f'<rect x="{x}" y="{y}" width="{WIDE}" height="{HIGH}" rx="5" fill="{COLOURS[kind(name)]}" stroke="{INK}"/>')
        drawn.append(f'<text x="{x + WIDE // 2}" y="{y + 22}" text-anchor="middle" fill="{INK}">{escape(name)}</text>')
    legend = (("library", "library: code and its proofs"), ("statement", "statement: proofs about other crates"), ("program", "program"))
    for column, (which, words) in enumerate(legend):
        x, y = EDGE + column * 260, height - 24
        drawn.append(f'<rect x="{x}" y="{y}" width="14" height="14" fill="{COLOURS[which]}" stroke="{INK}"/>')
        drawn.append(f'<text x="{x + 20}" y="{y + 12}" fill="{INK}">{words}</text>')
    return "\n".join([*drawn, "</svg>", ""])


def main(wanted: str) -> None:
    below = listed()
    uses = {name: used(name, set(below)) for name in below}
    missing = [f"crates.txt: {name} uses {', '.join(sorted(uses[name] - below[name]))}, which its line does not name" for name in uses if uses[name] - below[name]]
    made = picture(uses)
    if wanted == "write":
        PICTURE.write_text(made, encoding="utf-8")
    elif wanted == "check":
        if not PICTURE.exists() or PICTURE.read_text(encoding="utf-8") != made:
            missing.append("docs/floors.svg: not what tools/floors.py makes; to make it anew: tools/floors.py write")
    else:
        sys.exit("wanted: write or check")
    if missing:
        sys.exit("\n".join(missing))


if __name__ == "__main__":
    main(sys.argv[1] if len(sys.argv) == 2 else "")
