#!/usr/bin/env python3
"""Lists the places in the sources that docs/DESIGN-PASS.md counts, point by point.

Run from anywhere: tools/places.py [COMMIT] [POINT], as tools/places.py cdd9b92 3; without a commit
it reads the files as they are, without a point it prints how many places each point has. What it
finds are candidates by their form alone: the page says of each what became of it."""

import re
import subprocess
import sys
from collections import defaultdict
from itertools import combinations
from pathlib import Path
from typing import NamedTuple

ROOT = Path(__file__).resolve().parent.parent
# variants of an enum that stand for an Err or a None
REFUSING = {"OutOfRange", "Refused", "Wrong", "Nothing", "NotOne"}


class Function(NamedTuple):
    file: str
    name: str
    params: str
    clauses: list[str]
    body: str


def sources(commit: str | None) -> dict[str, str]:
    """The text of each source but the constant table, without comments."""
    if commit:
        names = git("ls-tree", "-r", "--name-only", commit).split()
    else:
        names = git("ls-files", "-co", "--exclude-standard").split()
    names = [n for n in names if re.fullmatch(r"crates/\w+/src/(?!constant).*\.rt", n)]
    if commit:
        texts = {name: git("show", f"{commit}:{name}") for name in names}
    else:
        texts = {name: (ROOT / name).read_text() for name in names if (ROOT / name).is_file()}
    return {name: re.sub(r"//.*", "", text) for name, text in texts.items()}


def git(*words: str) -> str:
    run = subprocess.run(["git", *words], cwd=ROOT, check=True, capture_output=True, text=True)
    return run.stdout


def closing(text: str, start: int) -> int:
    """The offset after the bracket that closes the one at an offset."""
    depth = 0
    for at in range(start, len(text)):
        depth += (text[at] in "({[") - (text[at] in ")}]")
        if depth == 0:
            return at + 1
    return len(text)


def functions(file: str, text: str) -> list[Function]:
    found = []
    for head in re.finditer(r"\bfn (\w+)(<[^(]*>)?\(", text):
        after = closing(text, head.end() - 1)
        params, at, clauses = text[head.end() : after - 1], after, []
        while clause := re.compile(r"[^{;]*?\b(requires|ensures)\b[^{]*(?=\{)").match(text, at):
            end = closing(text, clause.end())
            clauses.append(" ".join(text[clause.end() + 1 : end - 1].split()))
            at = end
        start = text.find("{", at)
        has_body = start >= 0 and ";" not in text[at:start]
        body = text[start : closing(text, start)] if has_body else ""
        found.append(Function(file, head[1], " ".join(params.split()), clauses, body))
    return found


def answers(texts: dict[str, str]) -> list[str]:
    """1: enums with a variant for a refusal or nothing, fields with a number or a fault that may be
    none, constants that number a kind, a refusal or a state, tests of such a number."""
    found = []
    for file, text in texts.items():
        for head in re.finditer(r"\benum (\w+) ", text):
            body = text[head.end() + 1 : closing(text, head.end()) - 1]
            names = set(re.findall(r"^\s*([A-Z]\w*)", body, re.M))
            if "Nothing" in names or (names & REFUSING and len(names) < 4):
                found.append(f"{file}: enum {head[1]}")
        for line in re.findall(r"^ +(?:pub )?(?:number: u32|fault: Fault|phase: u32),", text, re.M):
            found.append(f"{file}: field {line.strip()}")
        for line in re.findall(r"^(?:pub )?const [A-Z_]+: u(?:8|32) = \d;", text, re.M):
            found.append(f"{file}: {line}")
        for line in re.findall(r"^ *if (?:\w+\.)?number != 0|^.*is_fault\(.*", text, re.M):
            found.append(f"{file}: {line.strip()}")
    return found


def shape(body: str) -> tuple[str, ...]:
    """A body with each name and number made a sign for its sort."""
    body = re.sub(r'b?"[^"]*"', "S", body)
    words = re.findall(r"\w+|[^\w\s]", body)
    keep = {"if", "else", "while", "for", "in", "match", "return", "let", "mut", "as"}
    return tuple(w if w in keep or not re.match(r"\w", w) else "n" for w in words)


def twins(texts: dict[str, str]) -> list[str]:
    """2: functions whose bodies differ in names and numbers alone, and are longer than a call; and
    a function with a body of its own beside the one that is lent a table."""
    shapes, bodies = defaultdict(list), {}
    for file, text in texts.items():
        for f in functions(file, text):
            bodies[file, f.name] = shape(f.body)
            if len(shape(f.body)) > 24:
                shapes[shape(f.body)].append(f"{file}:{f.name}")
    same = [" ".join(names) for names in shapes.values() if len(names) > 1]
    lent = [
        f"{file}:{name} {name}_in"
        for (file, name), body in bodies.items()
        if (file, f"{name}_in") in bodies and "if" in body
    ]
    return same + lent


def loops(texts: dict[str, str]) -> list[str]:
    """3: every `while`."""
    return [
        f"{file}: {line.strip()}"
        for file, text in texts.items()
        for line in re.findall(r"^\s*while .*", text, re.M)
    ]


def by_hand(texts: dict[str, str]) -> list[str]:
    """4: functions that only widen, narrow, compare, copy or spell by hand."""
    signs = re.compile(r"\b256\b|\b65536\b|\b16777216\b|\b48 \+|\+ 48\b|- b'0'|4294967296")
    one = r"\w+ as \w+|\w+\[\w+\] = \w+;|let v = z\.v;.*|Whole \{ v: \w+\[\w+\] \}"
    alone = re.compile(rf"\{{\s*({one})\s*\}}", re.S)
    prints = re.compile(r"put::bytes\(|put::number\(|print\(to, b")
    return [
        f"{file}:{f.name}"
        for file, text in texts.items()
        for f in functions(file, text)
        if signs.search(f.body) or alone.fullmatch(f.body) or prints.search(f.body)
    ]


def together(texts: dict[str, str]) -> list[str]:
    """5: a clause that three or more contracts of a crate have, and two parameters that five or more
    functions of a crate take side by side."""
    clauses, pairs = defaultdict(set), defaultdict(set)
    for file, text in texts.items():
        crate = file.split("/")[1]
        for f in functions(file, text):
            for clause in f.clauses:
                if "result" not in clause and ".new" not in clause:
                    clauses[crate, clause].add(f"{file}:{f.name}")
            params = [p.strip() for p in re.split(r",(?![^<\[]*[>\]])", f.params) if ":" in p]
            for pair in combinations(params, 2):
                pairs[crate, pair].add(f"{file}:{f.name}")
    found = [f"{c}: {{ {clause} }} in {len(w)}" for (c, clause), w in clauses.items() if len(w) > 2]
    return found + [f"{c}: {', '.join(p)} in {len(w)}" for (c, p), w in pairs.items() if len(w) > 4]


def lists(texts: dict[str, str]) -> list[str]:
    """6: functions that take two lists of numbers that belong together, and structs of a buffer and
    its length."""
    found = []
    for file, text in texts.items():
        for f in functions(file, text):
            if len(re.findall(r"&(?:mut )?\[[ui]\d+\]", f.params)) > 1 and "&[u8]" not in f.params:
                found.append(f"{file}:{f.name}")
        buffers = re.findall(r"^ *let mut \w+ = \[0[ui]\d+; [A-Z_]+\];", text, re.M)
        found += [f"{file}: {line.strip()}" for line in buffers]
    return found


def switches(texts: dict[str, str]) -> list[str]:
    """7: a match whose arms are numbers or bytes and call functions, and tables of functions."""
    found = []
    for file, text in texts.items():
        for f in functions(file, text):
            arms = re.findall(r"^\s*(?:\d+|b'.') => [^,]*\(", f.body, re.M)
            if len(arms) > 2 or re.search(r"\[fn\(", f.body):
                found.append(f"{file}:{f.name}, {len(arms)} arms")
    return found


POINTS = {"1": answers, "2": twins, "3": loops, "4": by_hand, "5": together, "6": lists, "7": switches}


def main() -> None:
    words = sys.argv[1:]
    point = words.pop() if words and words[-1] in POINTS else None
    texts = sources(words[0] if words else None)
    if point:
        print("\n".join(POINTS[point](texts)))
    else:
        for name, places in POINTS.items():
            print(f"{name}: {len(places(texts))}")


main()
