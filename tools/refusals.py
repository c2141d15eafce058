#!/usr/bin/env python3
"""Checks that each of the nine refusals has the same words wherever it is told: in the table of
docs/REFUSALS.md, at the head of the C header, in the C table of docs/VASTRUDHIL.md, in Rust's
reason(), in the proved enum of refusals, and in what the commands in bin/ say. It also checks that
a message about field notes which names a refusal's number in other words stands in
docs/REFUSALS.md. Run from anywhere: tools/refusals.py; it prints what differs, and ends with 1 if
anything does."""

import re
import sys
from pathlib import Path

ROOT = Path(__file__).resolve().parent.parent
PAGE = ROOT / "docs" / "REFUSALS.md"
HEADER = ROOT / "include" / "vastrudhil.h"
LIBRARY_PAGE = ROOT / "docs" / "VASTRUDHIL.md"
RUST = ROOT / "rust" / "src" / "lib.rs"
MESSAGES = ROOT / "crates" / "notes" / "src" / "message.rt"
ENUM = ROOT / "crates" / "answer" / "src" / "lib.rt"
COMMANDS = ROOT / "tools" / "command.sh"

Words = dict[int, str]


def text_of(place: Path) -> str:
    return place.read_text(encoding="utf-8")


def by_number(pairs: list[tuple[str, str]]) -> Words:
    """The words of each number. Those of one that stands twice are joined, so that they differ."""
    words: Words = {}
    for number, said in pairs:
        words[int(number)] = words.get(int(number), "") + said
    return words


def of_page() -> Words:
    return by_number(re.findall(r"^\| \[(\d)\]\(#refusal-\1\) \| (.*?) \|", text_of(PAGE), re.M))


def of_header() -> Words:
    return by_number(re.findall(r"^ \*   (\d)  (\w.*)$", text_of(HEADER), re.M))


def of_library_page() -> Words:
    """The C table of words, by their places in it. The first is of no refusal."""
    table = text_of(LIBRARY_PAGE).partition(" reason[10] = {\n")[2].partition("\n};\n")[0]
    return dict(list(enumerate(re.findall(r'^ +"(.*)",$', table, re.M)))[1:])


def joined(place: Path) -> str:
    """The text of a source in which a backslash at a line's end joins it with the next one."""
    return re.sub(r"\\\n\s*", "", text_of(place))


def of_rust() -> Words:
    return by_number(re.findall(r'^ +(\d) => (?:\{\s*)?"([^"]*)"', joined(RUST), re.M))


def of_enum() -> Words:
    """What the cases of the enum display; their numbers count up from 1."""
    source = joined(ENUM)
    cases = source.partition("pub enum Refusal {")[2].partition("\n}\n")[0]
    arms = source.partition("let said = match self {")[2].partition("};")[0].split("Refusal::")[1:]
    said = {arm.split(" ")[0]: "".join(re.findall(r'"([^"]*)"', arm)) for arm in arms}
    names = re.findall(r"^ +(\w+)(?: = 1)?,$", cases, re.M)
    return {number: said[name] for number, name in enumerate(names, 1) if name in said}


def of_commands() -> Words:
    return by_number(re.findall(r'^ +(\d)\) echo "(.*)" ;;', text_of(COMMANDS), re.M))


def differences(place: Path, words: Words, page: Words) -> list[str]:
    """A line for each refusal that a place tells in other words than the page, or not at all."""
    return [
        f"{place.relative_to(ROOT)}: {number} is {words.get(number, 'not there')!r},"
        f" in {PAGE.relative_to(ROOT)} {page.get(number, 'not there')!r}"
        for number in sorted({*words, *page})
        if words.get(number) != page.get(number)
    ]


def numbered() -> list[str]:
    """The messages about notes that name a refusal's number in their own words."""
    return re.findall(r'"(\w[^"]* \(refusal \d\))"', joined(MESSAGES))


def main() -> None:
    page = of_page()
    told = {
        HEADER: of_header,
        LIBRARY_PAGE: of_library_page,
        RUST: of_rust,
        ENUM: of_enum,
        COMMANDS: of_commands,
    }
    found = [] if sorted(page) == [*range(1, 10)] else [f"docs/REFUSALS.md: has {sorted(page)}"]
    for place, read in told.items():
        found += differences(place, read(), page)
    found += [
        f"docs/REFUSALS.md: has no line with {message!r}"
        for message in numbered()
        if f"{message}`" not in text_of(PAGE)
    ]
    if found:
        sys.exit("\n".join(found))


if __name__ == "__main__":
    main()
