"""A picture of errors against their bounds, as SVG of plain elements.

It has its own white ground, so that it reads the same on a light page and on a
dark one. Points are put on whole pixels and each pixel is drawn once, which keeps
the file small however many points there are.
"""

from fractions import Fraction
from typing import Iterable, NamedTuple, Sequence
from xml.sax.saxutils import escape

from .rounding import nearest

# Pixels: the margins, a hundredth along each axis, and a line of text.
LEFT, RIGHT, TOP = 64, 20, 48
ACROSS, UP = 16, 12
LINE = 20

# Hundredths: how far both axes go, and from tick to tick.
MOST, TICK = 36, 5

WIDTH = LEFT + MOST * ACROSS + RIGHT
FOOT = TOP + MOST * UP
INK, GRID, GROUND = "#1f2937", "#e5e7eb", "#ffffff"


class Series(NamedTuple):
    """Points of one kind: bound and error of each, in hundredths."""

    label: str
    colour: str
    pixels: int
    points: Sequence[tuple[Fraction, Fraction]]


def pixel(bound: Fraction, error: Fraction) -> tuple[int, int]:
    """Where a point stands, across and down."""
    return LEFT + nearest(bound * ACROSS), FOOT - nearest(error * UP)


def text(x: int, y: int, words: str, anchor: str = "start", more: str = "") -> str:
    return f'<text x="{x}" y="{y}" text-anchor="{anchor}"{more}>{escape(words)}</text>\n'


def stroke(start: tuple[int, int], end: tuple[int, int], colour: str, width: int = 1) -> str:
    (x1, y1), (x2, y2) = start, end
    return f'<path d="M{x1} {y1}L{x2} {y2}" stroke="{colour}" stroke-width="{width}"/>\n'


def squares(pixels: Iterable[tuple[int, int]], size: int, colour: str) -> str:
    """A small filled square about each pixel, all in one path."""
    half = size // 2
    drawn = (f"M{x - half} {y - half}h{size}v{size}h-{size}z" for x, y in sorted(set(pixels)))
    return f'<path fill="{colour}" d="{"".join(drawn)}"/>\n'


def ticks() -> str:
    """Lines of the grid with their figures, along both axes."""
    drawn = []
    for hundredths in range(0, MOST + 1, TICK):
        x, y = pixel(Fraction(hundredths), Fraction(hundredths))
        drawn.append(stroke((x, TOP), (x, FOOT), GRID))
        drawn.append(stroke((LEFT, y), (LEFT + MOST * ACROSS, y), GRID))
        drawn.append(text(x, FOOT + LINE, str(hundredths), "middle"))
        drawn.append(text(LEFT - 8, y + 4, str(hundredths), "end"))
    return "".join(drawn)


def axes(across: str, up: str) -> str:
    """Grid, both axes and what they measure."""
    corner, end, top = (LEFT, FOOT), (LEFT + MOST * ACROSS, FOOT), (LEFT, TOP)
    middle = (TOP + FOOT) // 2
    turned = f' transform="rotate(-90 20 {middle})"'
    return (
        ticks() + stroke(corner, end, INK) + stroke(corner, top, INK)
        + text(LEFT + MOST * ACROSS // 2, FOOT + 2 * LINE, across, "middle")
        + text(20, middle, up, "middle", turned)
    )


def legend(limit: str, series: Sequence[Series]) -> str:
    """What line and points mean, up on the left, where no point can stand."""
    x, y = LEFT + 20, TOP + LINE
    drawn = [stroke((x - 8, y), (x + 8, y), INK, 2), text(x + 16, y + 4, limit)]
    for one in series:
        y += LINE
        drawn.append(squares([(x, y)], max(one.pixels, 6), one.colour))
        drawn.append(text(x + 16, y + 4, one.label))
    return "".join(drawn)


def picture(title: str, across: str, up: str, limit: str,
            series: Sequence[Series], caption: Sequence[str]) -> str:
    """The whole picture; series drawn later lie on top."""
    height = FOOT + (3 + len(caption)) * LINE
    points = [
        squares([pixel(*point) for point in one.points], one.pixels, one.colour) for one in series
    ]
    below = [text(LEFT, FOOT + (3 + i) * LINE + 4, words) for i, words in enumerate(caption)]
    return "".join([
        f'<svg xmlns="http://www.w3.org/2000/svg" width="{WIDTH}" height="{height}"'
        f' viewBox="0 0 {WIDTH} {height}" role="img" font-family="sans-serif" font-size="13"'
        f' fill="{INK}">\n',
        f"<title>{escape(title)}</title>\n",
        f'<rect width="{WIDTH}" height="{height}" fill="{GROUND}"/>\n',
        text(LEFT, TOP - LINE, title, more=' font-size="16" font-weight="bold"'),
        axes(across, up),
        *points,
        stroke((LEFT, FOOT), pixel(Fraction(MOST), Fraction(MOST)), INK, 2),
        legend(limit, series),
        *below,
        "</svg>\n",
    ])
