#!/usr/bin/env python3
"""Checks the pages, every .md file of the repository outside the folders out/ and target/: every
Markdown link leads to a file, and to a heading where it names one; every page is linked from the
README or from a page that the README links; no line has more than 100 columns. Tables, code blocks,
lines that are one link and what a program makes may be wider. Run from anywhere: tools/pages.py; it
prints what it finds, and ends with 1 if there is any."""

import re
import sys
from pathlib import Path
from urllib.parse import unquote

ROOT = Path(__file__).resolve().parent.parent
README = ROOT / "README.md"
COLUMNS = 100

# Pages that a program makes whole; parts that one makes stand between two comments, below.
MADE = {"docs/DOCUMENTS.md"}
MADE_FROM, MADE_TO = "<!-- made by ", "<!-- end -->"

LINK = re.compile(r"!?\[[^\]]*\]\(\s*<?([^)<>\s]+)>?(?:\s+\"[^\"]*\")?\s*\)")
LINK_ALONE = re.compile(r"\s*(?:[-*] )?" + LINK.pattern + r"[.,;]?\s*")


def name(page: Path) -> str:
    return page.relative_to(ROOT).as_posix()


def every_page() -> list[Path]:
    """The pages of the repository, in the order of their names."""
    found = (page.relative_to(ROOT) for page in ROOT.rglob("*.md"))
    kept = (page for page in found if not {"out", "target", ".git"} & set(page.parts))
    return [ROOT / page for page in sorted(kept)]


def prose(page: Path) -> list[tuple[int, str]]:
    """The lines of a page with their numbers; blocks of code and what a program makes left out."""
    found, fenced, made, indented, blank = [], False, False, False, True
    for number, line in enumerate(page.read_text(encoding="utf-8").splitlines(), 1):
        fence = line.lstrip().startswith("```")
        made = made or line.startswith(MADE_FROM)
        indented = line.startswith("    ") and (blank or indented)
        if not (fence or fenced or made or indented):
            found.append((number, line))
        fenced = fenced != fence
        made = made and not line.startswith(MADE_TO)
        blank = not line.strip()
    return found


def links(page: Path) -> list[tuple[int, str]]:
    """The number of the line that each link begins on, and where it leads; its text may be broken
    over two lines, and what stands in back quotes is no link."""
    lines = prose(page)
    text = "\n".join(re.sub(r"`[^`]*`", lambda code: "x" * len(code[0]), line) for _, line in lines)
    return [(lines[text.count("\n", 0, link.start())][0], link[1]) for link in LINK.finditer(text)]


def outside(target: str) -> bool:
    return bool(re.match(r"[a-z]+:", target))


def file_of(page: Path, target: str) -> Path:
    path = unquote(target.partition("#")[0])
    return (page.parent / path).resolve() if path else page


def anchors(page: Path) -> set[str]:
    """The names that the headings of a page are linked by: small letters, signs left out, a hyphen
    for each blank."""
    headings = (re.fullmatch(r"#+ (.*?)\s*", line) for _, line in prose(page))
    plain = (re.sub(r"[^\w\- ]", "", heading[1].lower()) for heading in headings if heading)
    return {words.replace(" ", "-") for words in plain}


def lost(page: Path) -> list[str]:
    """The links of a page that lead nowhere, or out of the repository."""
    found = []
    for number, target in links(page):
        if outside(target):
            continue
        file, heading = file_of(page, target), target.partition("#")[2]
        if not file.is_relative_to(ROOT) or not file.exists():
            found.append(f"{name(page)}:{number}: {target}: no such file")
        elif heading and file.suffix == ".md" and heading not in anchors(file):
            found.append(f"{name(page)}:{number}: {target}: no such heading")
    return found


def linked(page: Path) -> set[Path]:
    """The pages that a page links."""
    files = {file_of(page, target) for _, target in links(page) if not outside(target)}
    return {file for file in files if file.suffix == ".md" and file.is_file()}


def unreached(pages: list[Path]) -> list[str]:
    """The pages that neither the README nor a page that it links has a link to."""
    first = linked(README)
    reached = first.union(*(linked(page) for page in first))
    return [f"{name(page)}: no link to it" for page in pages if page not in reached | {README}]


def may_be_wide(line: str) -> bool:
    """Whether a line is a row of a table, or one link."""
    return line.lstrip().startswith("|") or bool(LINK_ALONE.fullmatch(line))


def wide(page: Path) -> list[str]:
    """The lines of a page that are too wide."""
    if name(page) in MADE:
        return []
    return [
        f"{name(page)}:{number}: {len(line)} columns"
        for number, line in prose(page)
        if len(line) > COLUMNS and not may_be_wide(line)
    ]


def main() -> None:
    pages = every_page()
    wrong = [*(fault for page in pages for fault in lost(page) + wide(page)), *unreached(pages)]
    if wrong:
        sys.exit("\n".join(["the pages:", *wrong]))


if __name__ == "__main__":
    main()
