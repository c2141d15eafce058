#!/usr/bin/env python3
"""Holds docs/RULES.md and the comments of the crates together.

The first comment of every file in specs/ names the sections of the page that it states, and each of
these sections links the file. A phrase in quotation marks in a comment of specs/ or src/ stands on
the page, as it is quoted; two dots leave something out. Run from anywhere: tools/rules.py prints
what it misses, and ends with 1 if there is any."""

import re
import sys
from pathlib import Path

ROOT = Path(__file__).resolve().parent.parent
PAGE = ROOT / "docs" / "RULES.md"
NAMED = re.compile(r'docs/RULES\.md,? ((?:(?:, | and )?"[^"]+")+)')
LINKED = re.compile(r"\(\.\./(crates/[^)\s]+\.antt)\)")


def plain(text: str) -> str:
    """A text in one line, without the marks of Markdown, in small letters."""
    return " ".join(re.sub(r"[`*|]", " ", text).split()).lower()


def sections(page: str) -> dict[str, str]:
    """The sections of the page by their headings."""
    parts = re.split(r"^## (.+)$", page, flags=re.M)
    return dict(zip(parts[1::2], parts[2::2]))


def comments(path: Path) -> list[str]:
    """The comments of a file, each in one line."""
    mark = "--" if path.suffix == ".antt" else "//"
    lines = [line.strip() for line in path.read_text(encoding="utf-8").splitlines()]
    text = "\n".join(line.removeprefix(mark) if line.startswith(mark) else "" for line in lines)
    return [" ".join(block.split()) for block in re.split(r"\n{2,}", text) if block.strip()]


def wrong_heads(found: dict[str, str]) -> list[str]:
    """Files of specs/ whose first comment names no section, or one that does not link them."""
    wrong = []
    for path in sorted(ROOT.glob("crates/*/specs/*.antt")):
        name = str(path.relative_to(ROOT))
        if path.name == "Lib.antt":
            continue
        named = NAMED.search((comments(path) or [""])[0])
        if named is None:
            wrong.append(f"{name}: its first comment names no section")
            continue
        for section in re.findall(r'"([^"]+)"', named[1]):
            if name not in LINKED.findall(found.get(section, "")):
                wrong.append(f'{name}: not linked under "{section}"')
    return wrong


def wrong_phrases(page: str, found: dict[str, str]) -> list[str]:
    """Phrases that a comment quotes, and that do not stand on the page."""
    wrong = []
    for path in sorted([*ROOT.glob("crates/*/specs/*.antt"), *ROOT.glob("crates/*/src/*.rt")]):
        for comment in comments(path):
            for phrase in re.findall(r'"([^"]+)"', comment):
                parts = [plain(part).strip(" .,;:") for part in phrase.split(" ..")]
                if phrase not in found and not all(part in page for part in parts):
                    wrong.append(f'{path.relative_to(ROOT)}: "{phrase}"')
    return wrong


def main() -> None:
    text = PAGE.read_text(encoding="utf-8")
    found = sections(text)
    wrong = wrong_heads(found) + wrong_phrases(plain(text), found)
    if wrong:
        sys.exit("\n".join(["docs/RULES.md and the comments of the crates differ:", *wrong]))


if __name__ == "__main__":
    main()
