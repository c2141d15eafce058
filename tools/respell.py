#!/usr/bin/env python3
"""Brings this repository's own definitions and lemmas to today's spelling, once, after the kit's
port.py: words in snake case with underscores, where an older Rattle had `camelCase` and dashes.

Usage: tools/respell.py [FOLDER]

What is renamed is what specs/ and proofs/ of the listed crates declare: definitions, lemmas,
fields and rulesets. Goals and the kit's own names are not: a file that takes a name from a library
keeps it. Where a definition and a lemma would get one name, the lemma gets `_lem`. Functions of
src/, exported names, strings, inputs and outputs are left alone. Names are turned in specs/ and
proofs/, in src/ (there they stand only in clauses and `ghost use` lines), in the texts of edits,
and on the pages between backquotes. It is run once: what is
written later has its names from the start."""

import re
import sys
from collections import defaultdict
from pathlib import Path

# a name of antt: anything but blanks and what separates names
NAME = re.compile(r"[^\s(){}\[\],;.:=|`\"]+")
DECLARED = re.compile(
    r"^\s*(?:(?:unfoldable|abbrev)\s+)*(?:pub\s+)?(?:(?:record|data|ruleset)\s+)?"
    r"([^\s(){}\[\]:,;=.]+)(?:\s+[^:=]*)?\s+:(?:\s|$)"
)
RULESET = re.compile(r"^\s*(?:pub\s+)?ruleset\s+(\S+)")
BINDER = re.compile(r"[({]((?:[^\W\d][\w'-]*\s+)+):\s")
USES = re.compile(r"use ([^\s{]+)\.\{([^}]*)\}")
GOAL = re.compile(r":\s+(?:tie|goal)\.")
# what is declared as none of these: a constructor after another on one line, an alias, and names
# that an equation or a `let` binds
LOOSE = ("twosComplement", "a-row", "pos-total", "turns-first")
# a lemma that port.py has given the name of a definition, and where it is used
TURNED = {
    "word_at": ("desk/proofs/Words", "desk/proofs/Accepted", "desk/proofs/Stations"),
    "no_row": ("tape/proofs/Rows",),
    "bytes_of": ("text/proofs/Digits",),
}
WORD = re.compile(r"^[^\W\d][\w'-]*$")


def snake(name: str) -> str:
    """Today's spelling of a name."""
    plain = name.replace("-", "_")
    if plain[0].islower():
        plain = re.sub(r"(?<=[a-z0-9])([A-Z])", lambda m: "_" + m.group(1).lower(), plain)
    return plain


class Names:
    """What the crates declare, and the new name of each."""

    def __init__(self, root: Path) -> None:
        self.crates = [
            line.split(":")[0]
            for line in (root / "crates.txt").read_text().splitlines()
            if line and not line.startswith("#")
        ]
        self.proofs = [
            path
            for crate in self.crates
            for part in ("specs", "proofs")
            for path in sorted((root / "crates" / crate / part).rglob("*.antt"))
        ]
        declared: dict[str, set[Path]] = defaultdict(set)
        for path in self.proofs:
            if path.name in ("Answers.antt", "Invariants.antt"):
                continue
            for line in path.read_text().splitlines():
                if line.lstrip().startswith("--") or GOAL.search(line):
                    continue
                found = DECLARED.match(line) or RULESET.match(line)
                if found and WORD.match(found.group(1)):
                    declared[found.group(1)].add(path)
                for bound in BINDER.findall(line):
                    for name in bound.split():
                        if snake(name) != name:
                            declared[name].add(path)
        for name in LOOSE:
            declared[name].update(p for p in self.proofs if name in p.read_text())
        by_new = defaultdict(set)
        for name in declared:
            by_new[snake(name)].add(name)
        self.new: dict[str, str] = {}
        for new, names in by_new.items():
            keeps = min(names, key=lambda n: ("specs" not in str(declared[n]), "-" in n, n))
            for name in names:
                self.new[name] = new if name == keeps else new + "_lem"
        self.new = {name: new for name, new in self.new.items() if name != new}
        for name, files in TURNED.items():
            paths = [root / f"crates/{file}.antt" for file in files]
            if name in declared and paths[0] in declared[name]:
                self.new[name] = name + "_lem"
                declared[name] = set(paths)
        self.all = set(by_new)
        # a lemma in today's spelling already gives way only where it is declared: its name is also
        # that of a function, or of a folder
        self.here = {name: declared[name] for name in self.new if snake(name) == name}

    def kits(self, text: str) -> set[str]:
        """The names that a file takes from a library of the kit."""
        taken = set()
        for module, names in USES.findall(text):
            parts = module.replace("::", ".").split(".")
            if parts[0] != "Rattle" or parts[1] not in self.crates:
                taken |= {name.strip().split(" as ")[0] for name in names.split(",")}
        return taken

    def turn(self, path: Path, text: str) -> str:
        """A source with its names in the new spelling."""
        kept = self.kits(text) | {name for name in self.here if path not in self.here[name]}
        return NAME.sub(
            lambda m: m.group() if m.group() in kept else self.new.get(m.group(), m.group()), text
        )

    def turn_cited(self, text: str) -> str:
        """The same of a text that only cites names, also those that port.py has turned."""

        def one(found: re.Match) -> str:
            name = found.group()
            if name in self.new and name not in self.here:
                return self.new[name]
            return snake(name) if WORD.match(name) and snake(name) in self.all else name

        return NAME.sub(one, text)


def pages(names: Names, text: str) -> str:
    """A page with the names between backquotes turned."""
    return re.sub(r"`[^`\n]+`", lambda m: names.turn_cited(m.group()), text)


def edits(names: Names, text: str) -> str:
    """An edit with the names of its old and new texts turned."""
    return re.sub(r"(?m)^(?:old|new): .*$", lambda m: names.turn_cited(m.group()), text)


def main(words: list[str]) -> int:
    root = Path(words[0] if words else Path(__file__).resolve().parent.parent)
    names = Names(root)
    changed = 0
    for path in sorted(root.rglob("*")):
        parts = path.relative_to(root).parts
        if not path.is_file() or {"out", "target", ".git"} & set(parts):
            continue
        old = None
        if path in names.proofs or path.suffix == ".rt":
            old = path.read_text()
            new = names.turn(path, old)
        elif path.suffix == ".md":
            old = path.read_text()
            new = pages(names, old)
        elif path.suffix == ".edit":
            old = path.read_text()
            new = edits(names, old)
        if old is not None and new != old:
            path.write_text(new)
            changed += 1
    print(f"{len(names.new)} names, {changed} files")
    for name, new in sorted(names.new.items()):
        if new.endswith("_lem"):
            print(f"{name} -> {new}")
    return 0


if __name__ == "__main__":
    sys.exit(main(sys.argv[1:]))
