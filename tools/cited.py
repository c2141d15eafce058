#!/usr/bin/env python3
"""Checks that what the docs cite exists: every name in back quotes in docs/*.md and README.md is a path, a file of a crate, or a name that
the sources define. Run from anywhere: tools/cited.py; it prints what it does not find, and ends with 1 if there is any."""

import re
import sys
from pathlib import Path

ROOT = Path(__file__).resolve().parent.parent
DEFINED = (
    re.compile(r"^\s*(?:(?:pub|abbrev|unfoldable|record|data|ruleset)\s+)*([^\s:(){}=]+)\s*(?:\(.*\)\s*)?:(?:\s|$)", re.M),  # antt: a signature
    re.compile(r"^\s*(?:pub\s+)?(?:record|data|ruleset)\s+([^\s({:]+)", re.M),  # antt: a type or a set of rules
    re.compile(r"\b(?:fn|struct|enum|mod)\s+(\w+)"),  # Rattle and Rust
    re.compile(r"^\s*(?:pub\s+)?(\w+):\s", re.M),  # Rattle: a field
    re.compile(r"^\s*(\w+)\s*[({,]", re.M),  # Rattle: a case of an enum
    re.compile(r"^(?:def|class)\s+(\w+)|^([A-Z_]+) =", re.M),  # Python
)

# the page of the port cites what the older kit had, and unfinished work that is in the history
# alone; that of the design pass what stood before it
OLDER = {ROOT / "docs/PORT.md", ROOT / "docs/DESIGN-PASS.md"}

LANGUAGE = {"rt", "use", "search", "requires", "ensures", "result", "unfolding", "refl", "u8", "u32", "u64", "usize", "i64"}
LANGUAGE |= {"now", "old", "new", "field", "le_z", "lt_z"}  # of a reference and of a record; of ℤ
LANGUAGE |= {"Result", "Ok", "Err"}  # of the library


def sources() -> list[Path]:
    """All files of the repository that may define something."""
    return [
        path
        for folder in ("crates", "rust", "second", "tools")
        for path in (ROOT / folder).rglob("*")
        if path.suffix in (".rt", ".rs", ".antt", ".py") and not {"out", "target"} & set(path.parts)
    ]


def known() -> set[str]:
    """Every name that a source defines, every file's own name, the labels of the edits, and the goals that these name."""
    names: set[str] = set()
    edits = [*ROOT.glob("crates/*/must-fail/*.edit"), *ROOT.glob("trials/*/*.edit")]
    names.update(path.stem for path in edits)
    names.update(name for path in edits for name in re.findall(r"^new: pub (\S+) :(?: goal\.|$)", path.read_text(encoding="utf-8"), re.M))
    for path in sources():
        text = path.read_text(encoding="utf-8")
        names.add(path.name)
        for pattern in DEFINED:
            names.update(name for found in pattern.findall(text) for name in ([found] if isinstance(found, str) else found) if name)
    names.update(path.name for path in (ROOT / "tools").iterdir())
    names.update(path.name for path in (ROOT / "crates").glob("*"))
    return names | {name.strip("_◌") for name in names} | LANGUAGE


def cited(page: Path) -> list[tuple[int, str]]:
    """What a page has in back quotes, line by line; blocks of code left out."""
    found, block = [], False
    for number, line in enumerate(page.read_text(encoding="utf-8").splitlines(), 1):
        if line.startswith("```"):
            block = not block
        elif not block:
            found += [(number, quoted) for quoted in re.findall(r"`([^`]+)`", line)]
    return found


def is_name(quoted: str) -> bool:
    """Whether it is one name or path, and not a piece of code or a command."""
    return bool(re.fullmatch(r"[\w./:'◌→≤ᶻ<-]+(?:\(\))?", quoted)) and not re.fullmatch(r"[\d.,:]+|-\w+|--.*", quoted)


def stands(quoted: str, names: set[str], page: Path) -> bool:
    """Whether a path or a name is there. A name may be written after its module, as `desk::traverse`."""
    quoted = quoted.removesuffix("()").rstrip("/")
    if "NAME" in quoted or "CRATE" in quoted:
        return True
    places = (ROOT / quoted, ROOT / "crates" / quoted, page.parent / quoted, *(crate / quoted for crate in (ROOT / "crates").glob("*")))
    if any(place.exists() for place in places):
        return True
    # of a value, as `w.v` or `out.new`, the field
    field = re.fullmatch(r"(?:[a-z]|out)\.([a-z]+)", quoted)
    return all(part in names for part in ([field[1]] if field else quoted.split("::")))


def main() -> None:
    names = known()
    wrong = [
        f"{page.relative_to(ROOT)}:{number}: {quoted}"
        for page in [ROOT / "README.md", *sorted((ROOT / "docs").glob("**/*.md"))]
        if page not in OLDER
        for number, quoted in cited(page)
        if is_name(quoted) and not stands(quoted, names, page)
    ]
    if wrong:
        sys.exit("\n".join(["cited, and not found in the repository:", *wrong]))


if __name__ == "__main__":
    main()
