"""Pages of docs/ and the parts of them that are made by a module of this folder.

A made part is a section between two marks; the first names the module that makes it
and what to call for. All around the marks is written by hand and stays as it is.
"""

import re
from pathlib import Path
from typing import Callable, Mapping, Sequence

DOCS = Path(__file__).resolve().parent.parent / "docs"

Sections = Mapping[str, Callable[[], str]]


def read(path: Path) -> str:
    """The text of a file; nothing where there is none, which then differs from all that is made."""
    return path.read_text(encoding="utf-8") if path.exists() else ""


def markdown(head: Sequence[str], rows: Sequence[Sequence[str]]) -> str:
    """A table; names stand left, figures right."""
    rule = ["---", *["---:"] * (len(head) - 1)]
    return "".join(f"| {' | '.join(cells)} |\n" for cells in (head, rule, *rows))


def filled(page: str, maker: str, name: str, made: str) -> str:
    """The page with its one section of this maker and name made anew.

    Empty lines keep the marks out of the table in every reader of Markdown.
    """
    command = f"python3 -m {maker} {name}"
    opening, closing = f"<!-- made by {command} -->\n", "<!-- end -->\n"
    section = re.escape(opening) + "(?:(?!<!--).)*" + re.escape(closing)
    page, found = re.subn(section, lambda _: f"{opening}\n{made}\n{closing}", page, flags=re.DOTALL)
    if found != 1:
        raise ValueError(f"{found} sections marked as made by {command}, wanted 1")
    return page


def all_filled(page: str, maker: str, sections: Sections) -> str:
    """The page with every section of this maker made anew."""
    for name, make in sections.items():
        page = filled(page, maker, name, make())
    return page


def stale(page: str, title: str, maker: str, sections: Sections) -> list[str]:
    """What is wrong with the made sections of a page, a line for each fault."""
    faults = []
    for name, make in sections.items():
        try:
            same = filled(page, maker, name, make()) == page
        except ValueError as fault:
            faults.append(f"{title}: {fault}")
        else:
            if not same:
                faults.append(f"{title}: not what python3 -m {maker} {name} makes")
    return faults
