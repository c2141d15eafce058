#!/usr/bin/env python3
"""Draws what a traverse costs against its legs and against its rows, from the lines of the bench:

    bench/run --csv > figures.csv
    python3 bench/plot.py < figures.csv > docs/speed.svg
"""

import csv
import sys
from typing import Iterable, Iterator
from xml.sax.saxutils import escape

Curve = list[tuple[float, float]]

PANELS = {"legs": "legs (2 rows)", "rows": "rows (4 legs)"}
FORMS = {
    "own": ("proved desk, its own table of sines", "#b91c1c"),
    "lent": ("proved desk, table of sines lent", "#1d4ed8"),
    "plain C": ("plain C", "#15803d"),
}
WIDE, HIGH = 340, 240  # a panel's axes
LEFT, TOP, GAP, FOOT = 80, 48, 150, 84
INK, FAINT = "#1f2937", "#e5e7eb"
LABEL_APART = 13


def read(lines: Iterable[str]) -> tuple[str, dict[str, dict[str, Curve]]]:
    """The unit, and the curves of each panel. Nothing but refusals stands at 0: left out."""
    rows = list(csv.DictReader(lines))
    curves: dict[str, dict[str, Curve]] = {panel: {form: [] for form in FORMS} for panel in PANELS}
    for row in rows:
        if row["table"] in PANELS and float(row["at"]) > 0:
            for form, curve in curves[row["table"]].items():
                curve.append((float(row["at"]), float(row[form])))
    return rows[0]["unit"], curves


def step(most: float) -> float:
    """A round distance between lines of a grid, four to eight of them up to the most."""
    size = 1.0
    while size * 10 <= most:
        size *= 10
    return next(size * part for part in (0.1, 0.2, 0.25, 0.5, 1, 2) if size * part * 8 >= most)


def text(x: float, y: float, said: str, anchor: str = "middle", colour: str = INK) -> str:
    place = f'x="{x:.1f}" y="{y:.1f}" text-anchor="{anchor}"'
    return f'<text {place} fill="{colour}">{escape(said)}</text>'


def line(x1: float, y1: float, x2: float, y2: float, colour: str) -> str:
    return f'<line x1="{x1:.1f}" y1="{y1:.1f}" x2="{x2:.1f}" y2="{y2:.1f}" stroke="{colour}"/>'


def apart(heights: list[float]) -> list[float]:
    """The heights of labels, from the lowest up, moved as far as it takes not to overlap."""
    placed: list[float] = []
    for height in heights:
        placed.append(min(height, placed[-1] - LABEL_APART) if placed else height)
    return placed


def panel(left: float, name: str, unit: str, curves: dict[str, Curve]) -> Iterator[str]:
    """The axes, the curves, and beside each curve's end its last cost."""
    points = [point for curve in curves.values() for point in curve]
    most_x, most_y = max(x for x, _ in points), max(y for _, y in points)
    step_x, step_y = step(most_x), step(most_y)
    top_y = step_y * -(-most_y // step_y)

    def place(x: float, y: float) -> tuple[float, float]:
        return left + WIDE * x / most_x, TOP + HIGH * (1 - y / top_y)

    for count in range(round(top_y / step_y) + 1):
        x, y = place(0, count * step_y)
        yield line(x, y, x + WIDE, y, INK if count == 0 else FAINT)
        yield text(x - 6, y + 4, f"{count * step_y:,.0f}", "end")
    for count in range(int(most_x / step_x) + 1):
        x, y = place(count * step_x, 0)
        yield line(x, y, x, y + 4, INK)
        yield text(x, y + 18, f"{count * step_x:g}")
    yield line(left, TOP, left, TOP + HIGH, INK)
    yield text(left + WIDE / 2, TOP + HIGH + 38, PANELS[name])
    yield text(left, TOP - 14, f"{unit} a call", "start")

    ends = []
    for form, curve in curves.items():
        colour = FORMS[form][1]
        places = [place(x, y) for x, y in sorted(curve)]
        path = " ".join(f"{x:.1f},{y:.1f}" for x, y in places)
        yield f'<polyline points="{path}" fill="none" stroke="{colour}" stroke-width="1.8"/>'
        for x, y in places:
            yield f'<circle cx="{x:.1f}" cy="{y:.1f}" r="2.6" fill="{colour}"/>'
        ends.append((places[-1][1] + 4, f"{max(curve)[1]:,.0f}", colour))
    ends.sort(reverse=True)
    for height, (_, said, colour) in zip(apart([end[0] for end in ends]), ends):
        yield text(left + WIDE + 8, height, said, "start", colour)


def legend(y: float) -> Iterator[str]:
    x: float = LEFT
    for said, colour in FORMS.values():
        ends = f'x1="{x}" y1="{y}" x2="{x + 22}" y2="{y}"'
        yield f'<line {ends} stroke="{colour}" stroke-width="1.8"/>'
        yield text(x + 28, y + 4, said, "start")
        x += 60 + 7 * len(said)


def picture(unit: str, curves: dict[str, dict[str, Curve]]) -> str:
    wide, high = LEFT + len(PANELS) * (WIDE + GAP), TOP + HIGH + FOOT
    parts = [
        f'<svg xmlns="http://www.w3.org/2000/svg" viewBox="0 0 {wide} {high}"'
        ' font-family="sans-serif" font-size="12">',
        f"<title>What a traverse costs, in {escape(unit)} a call</title>",
        f'<rect width="{wide}" height="{high}" fill="#ffffff"/>',
    ]
    for place, name in enumerate(PANELS):
        parts += panel(LEFT + place * (WIDE + GAP), name, unit, curves[name])
    parts += legend(high - 20)
    return "\n".join([*parts, "</svg>", ""])


if __name__ == "__main__":
    sys.stdout.write(picture(*read(sys.stdin)))
