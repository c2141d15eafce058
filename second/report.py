"""docs/DOCUMENTS.md: the documents' printed figures beside the desk's.

The page is made whole from `documents/` and the desk, so that no figure on it is
typed by hand. `python3 -m second.report write` makes it; `check` says where
docs/DOCUMENTS.md is not what is made here.
"""

import sys
from functools import lru_cache
from itertools import repeat, zip_longest
from typing import Callable, Iterator, NamedTuple, Sequence

from . import documents, printed_steps, printed_traverses, steps
from .desk import both_factors, combined_factor
from .documents import Worked
from .figures import Figure, Kind, Tally, by_kind, differing, tally
from .page import DOCS, markdown, read
from .steps import FACTOR_ONE
from .tape import Fields, read_tape
from .tapes import examples

PAGE = DOCS / "DOCUMENTS.md"

INTRODUCTION = """\
The manuals that the rules come from work out traverses and single steps by hand. Those that were brought into
`second/documents/` are worked again here by the desk (the second program's, in Python), and the printed figure stands
beside the desk's. `python3 -m second.report write` makes this page.

- *Difference* is the printed figure less the desk's.
- Two figures are *equal* where they are the same to the last decimal that both have. Where a document prints fewer
  decimals than the desk, the desk's figure is rounded to them first, and the other way round. An equal figure has the
  difference 0.
- Closures are the computed end less the fixed one, as the desk has them. Document 002 prints them as fixed less
  computed; they are turned round here.
- The two ends of a traverse are fixed points. They are not compared, since they are equal whatever the desk does.
- A traverse with *printed grid lengths* starts from lengths that the manual has already reduced, so that angles,
  closing and adjustment are compared by themselves. The one with *taped lengths* is the same survey from the ground
  on: there the desk reduces the lengths, with one factor for all."""

STEP_BY_STEP = """\
A difference in an azimuth or a length goes on into all that is computed from it. To see where the differences begin,
each step is taken once more from what the document itself prints before it: latitudes and departures from its
azimuths and lengths, closures from its latitudes and departures, adjusted stations from its closures."""

TWO_WAYS = """\
Document 002 multiplies the sea level factor by the scale factor, or adds the two and takes one off, and says that the
result is the same. The desk multiplies. The product differs from the sum less one by the product of what the two
factors depart from one, so the ways part where that comes to half a ten-millionth."""

COUNTED_TWICE = "A survey that stands here with taped and with printed grid lengths counts twice."


# Figures in print


def amount(units: int, decimals: int) -> str:
    """A whole number of last decimals, with its point where there are any."""
    whole, part = divmod(abs(units), 10**decimals)
    return ("-" if units < 0 else "") + (f"{whole}.{part:0{decimals}d}" if decimals else str(whole))


def difference(figure: Figure) -> str:
    """Printed less desk's, with its sign; a bare 0 where they are equal."""
    if figure.equal:
        return "0"
    sign = "+" if figure.difference > 0 else ""
    return sign + amount(figure.difference, figure.most_decimals)


def three(figure: Figure) -> tuple[str, str, str]:
    """Printed, desk's, difference."""
    return (
        amount(figure.printed, figure.decimals),
        amount(figure.desk, figure.kind.decimals),
        difference(figure),
    )


def with_unit(figure: Figure) -> str:
    return " ".join(filter(None, (difference(figure), figure.kind.unit)))


def largest(count: Tally) -> str:
    return with_unit(count.worst) if count.worst else "0"


def minutes(latitude: int) -> str:
    return f"{latitude // 60}°{latitude % 60:02d}′"


def counted(count: int, thing: str) -> str:
    return f"{count:,} {thing}" if count == 1 else f"{count:,} {thing}s"


def equal_ones(count: Tally) -> str:
    return "all" if count.equal == count.compared else f"{count.equal:,} of them"


def capital(words: str) -> str:
    return words[0].upper() + words[1:]


def sentence(words: str) -> str:
    return f"{capital(words)}."


def bullets(lines: Sequence[str]) -> str:
    return "".join(f"- {line}\n" for line in lines)


def joined(parts: Sequence[str]) -> str:
    """Paragraphs, tables and lists, one empty line between them."""
    return "\n\n".join(part.rstrip("\n") for part in parts if part) + "\n"


def figures_table(name: str, figures: Sequence[Figure]) -> str:
    """A line for each figure; nothing where there are none."""
    rows = [(figure.name, *three(figure)) for figure in figures]
    return markdown((name, "printed", "desk", "difference"), rows) if rows else ""


def counts_table(name: str, kinds: dict[Kind, list[Figure]]) -> str:
    """How many of each kind, how many of them equal, and the largest difference."""
    counts = {kind.title: tally(figures) for kind, figures in kinds.items()}
    return markdown((name, "compared", "equal", "largest difference"), [
        (title, f"{count.compared:,}", f"{count.equal:,}", largest(count)) for title, count in counts.items()
    ])


# Traverses


@lru_cache(maxsize=None)
def traverses() -> tuple[Worked, ...]:
    """Every worked traverse, those of one document together."""
    return tuple(sorted(map(documents.load, documents.names()), key=lambda worked: worked.document))


def named(figures_of: Callable[[Worked], list[Figure]], some: Sequence[Worked]) -> list[Figure]:
    """Figures of several traverses, each with its traverse in its name."""
    return [
        figure._replace(name=f"{worked.title}: {figure.name}") for worked in some for figure in figures_of(worked)
    ]


def is_unreduced(worked: Worked) -> bool:
    """Whether the desk takes the lengths as they are."""
    return combined_factor(worked.fields) == FACTOR_ONE


def reduction(fields: Fields) -> str:
    """The row and the elevation by which the desk reduces lengths."""
    latitude, elevation = fields.project
    factor = next(row.factor for row in fields.rows if row.minute == latitude)
    return f"row of {minutes(latitude)} with factor {amount(factor, 7)}; elevation {elevation:,} feet"


def head(worked: Worked) -> str:
    """Where the traverse comes from, and what the tape says of it as a whole.

    A row of factor one only keeps the lengths as they are; its latitude says nothing.
    """
    place = ", ".join(filter(None, (worked.place, worked.date)))
    reduced = "factor one, elevation 0" if is_unreduced(worked) else reduction(worked.fields)
    return (
        f"{sentence(place)} Document {worked.document}, {worked.what}: {worked.where}."
        f" {counted(len(worked.fields.legs), 'leg')}; {reduced}."
    )


def stations_table(worked: Worked) -> str:
    """A line for each station; northings and eastings come by turns."""
    figures = iter(printed_traverses.of_stations(worked))
    rows = [
        (name, *three(north), *three(east))
        for (north, east), name in zip(zip(figures, figures), worked.stations[1:])
    ]
    heading = ("station", "northing printed", "desk", "difference", "easting printed", "desk", "difference")
    return markdown(heading, rows) if rows else ""


def traverse_section(worked: Worked) -> str:
    return joined([
        f"### {worked.title}",
        head(worked),
        bullets(list(map(sentence, worked.notes))),
        figures_table("closing", printed_traverses.of_closing(worked)),
        stations_table(worked),
        counts_table("of the legs", by_kind(printed_traverses.of_legs(worked))),
        "Why some differ:" if worked.why else "All figures are equal.",
        bullets(worked.why),
    ])


def replayed_section() -> str:
    """What the desk's steps make of the documents' own figures."""
    replayed = named(printed_traverses.replayed, traverses())
    count, others = tally(replayed), differing(replayed)
    return joined([
        "### The same, step by step",
        f"{STEP_BY_STEP}\nSo taken, {count.equal:,} of {counted(count.compared, 'figure')} are equal to the last digit."
        f" {COUNTED_TWICE}",
        figures_table("the others", others),
    ])


# Single steps


def differing_cases(name: str) -> Iterator[str]:
    """From where the figures come that differ, and why; then the figures."""
    for places in documents.single_steps()[name]:
        others = differing(printed_steps.of_cases(name, places))
        if others:
            yield f"Document {places.document}, {places.where}. {places.why}"
            yield figures_table("figure", others)


def steps_section(name: str) -> str:
    """How many figures of a kind of step are equal, and each of the others with its reason."""
    count = tally(printed_steps.of_step(name))
    return joined([
        f"### {capital(printed_steps.STEPS[name].kind.title)}",
        f"{counted(count.compared, 'figure')} compared, {equal_ones(count)} equal to the last digit.",
        *differing_cases(name),
    ])


# The combined factor


class Factors(NamedTuple):
    """A sea level factor and a scale factor, and whose they are."""

    name: str
    sea_level: int
    scale: int

    @property
    def by_sum(self) -> int:
        """Their sum less one, the other way of document 002."""
        return self.sea_level + self.scale - FACTOR_ONE

    @property
    def by_product(self) -> int:
        """Their product, which the desk takes."""
        return steps.combined_factor(self.sea_level, self.scale).value

    def row(self) -> tuple[str, ...]:
        """Both factors, and both ways; the product also unrounded."""
        seven = map(amount, (self.sea_level, self.scale, self.by_sum, self.by_product), repeat(7))
        return self.name, *seven, amount(self.sea_level * self.scale, 14)


def printed_factors() -> Iterator[Factors]:
    """Those of the documents: in single steps, and in the traverses with taped lengths."""
    for places in documents.single_steps()["combined_factor"]:
        yield from (Factors(case.at, *case.given) for case in places.cases)
    for worked in traverses():
        if not is_unreduced(worked):
            yield Factors(worked.title, *both_factors(worked.fields))


def two_ways_section() -> str:
    """The combined factor both ways, and in how many of the documents' cases it is the same."""
    printed = list(printed_factors())
    same = sum(factors.by_sum == factors.by_product for factors in printed)
    hills = read_tape(examples()["hill_yard"]).fields
    yard = Factors("the yard of `examples/hill_yard.txt`, at 7,000 feet", *both_factors(hills))
    return joined([
        "### The combined factor two ways",
        f"{TWO_WAYS}\nThey give the same factor in {same} of the documents' {len(printed)} cases,"
        " and a figure further on changes only where the factor does. For a yard at 7,000 feet they part.",
        markdown(
            ("of", "sea level", "scale", "sum less one", "product", "product, unrounded"),
            [factors.row() for factors in (*printed, yard)],
        ),
    ])


# The summary


def traverses_table() -> str:
    """A line for each traverse: figures, and how far adjusted coordinates stand apart."""
    rows = []
    for worked in traverses():
        count = tally(printed_traverses.of_traverse(worked))
        stations = printed_traverses.of_stations(worked)
        apart = largest(tally(stations)) if stations else "none printed"
        rows.append((worked.title, str(len(worked.fields.legs)), str(count.compared), str(count.equal), apart))
    return markdown(
        ("traverse", "legs", "figures", "equal", "largest difference of an adjusted coordinate"), rows)


def total(figures: Sequence[Figure]) -> str:
    """All figures in a few sentences."""
    count = tally(figures)
    stations = named(printed_traverses.of_stations, traverses())
    unreduced = list(filter(is_unreduced, traverses()))
    nearer = tally(named(printed_traverses.of_stations, unreduced))
    cases = sum(len(places.cases) for kind in documents.single_steps().values() for places in kind)
    furthest = tally(stations).worst
    return (
        f"**{count.compared:,} printed figures are compared, of {len(traverses())} traverses with"
        f" {len(stations) // 2} adjusted stations and of {cases} single steps; {count.equal:,} are equal to the last"
        f" digit. The largest difference of an adjusted coordinate is {with_unit(furthest)} ({furthest.name}); in the"
        f" {len(unreduced)} traverses whose lengths are not reduced it is {largest(nearer)}.** {COUNTED_TWICE}"
    )


def summary() -> str:
    of_traverses = named(printed_traverses.of_traverse, traverses())
    of_steps = [figure for name in printed_steps.STEPS for figure in printed_steps.of_step(name)]
    return joined([
        "## Summary",
        total([*of_traverses, *of_steps]),
        traverses_table(),
        counts_table("figures of traverses", by_kind(of_traverses)),
        counts_table("figures of single steps", by_kind(of_steps)),
    ])


# The page


def page() -> str:
    return joined([
        "# The documents' figures beside the desk's",
        INTRODUCTION,
        "## Traverses",
        *map(traverse_section, traverses()),
        replayed_section(),
        "## Single steps",
        *map(steps_section, printed_steps.STEPS),
        two_ways_section(),
        summary(),
    ])


def first_difference(found: str, made: str) -> int:
    """The number of the first line in which two texts differ; 0 where none does."""
    lines = zip_longest(found.split("\n"), made.split("\n"))
    return next((line for line, (one, other) in enumerate(lines, start=1) if one != other), 0)


def check() -> None:
    """End with 1, and say where, if the page is not what is made here."""
    line = first_difference(read(PAGE), page())
    if line:
        sys.exit(f"docs/DOCUMENTS.md: from line {line} on not what is made here\n"
                 "to make it anew: python3 -m second.report write")


def write() -> None:
    PAGE.write_text(page(), encoding="utf-8")


def main(wanted: str) -> None:
    if wanted == "check":
        check()
    elif wanted == "write":
        write()
    else:
        sys.exit("wanted: check or write")


if __name__ == "__main__":
    main(sys.argv[1] if len(sys.argv) == 2 else "")
