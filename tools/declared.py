#!/usr/bin/env python3
"""Checks that the three places that declare the exported functions agree: include/vastrudhil.h, rust/src/sys.rs, and the crate that is
compiled, crates/vastrudhil. Nothing else would notice, since a linker knows names only. Run from anywhere: tools/declared.py [CRATE], with CRATE
for another folder of that crate; it prints a line for each difference, and ends with 1 if there is any.

Types are compared in Rust's words. A list of Rattle, `tape: &[u8]`, is two parameters elsewhere, `tape: *const u8` and `tape_len: usize`."""

import re
import sys
from itertools import zip_longest
from os.path import relpath
from pathlib import Path
from typing import NamedTuple, NoReturn

ROOT = Path(__file__).resolve().parent.parent
HEADER, RUST, CRATE = ROOT / "include" / "vastrudhil.h", ROOT / "rust" / "src" / "sys.rs", ROOT / "crates" / "vastrudhil"

C_NUMBERS = {"bool": "bool", "size_t": "usize"}
C_NUMBERS |= {f"{u}int{bits}_t": f"{u or 'i'}{bits}" for u in ("", "u") for bits in (8, 16, 32, 64)}
NUMBERS = set(C_NUMBERS.values())
NOTHING = "()"


class Declared(NamedTuple):
    """What a place declares: of each function the parameters, as `name: type`, and after them the answer; and the constants."""

    functions: dict[str, list[str]]
    constants: dict[str, str]


def unread(place: Path, what: str) -> NoReturn:
    """What this script cannot read must not be passed over."""
    sys.exit(f"{relpath(place)}: declared.py cannot read {what}")


def parts(parameters: str) -> list[str]:
    """The parameters one by one, with single spaces; the last may have a comma after it."""
    return [" ".join(part.split()) for part in parameters.split(",") if part.strip()]


def of_header(place: Path) -> Declared:
    """The C header: functions of numbers, of pointers to them, and of arrays as long as a constant says."""
    text = re.sub(r"/\*.*?\*/", " ", place.read_text(encoding="utf-8"), flags=re.S)
    constants = dict(re.findall(r"\bVAS_(\w+) = (\d+)", text))

    def parameter(part: str) -> str:
        read = re.fullmatch(r"(const )?(\w+) (\*?)(\w+)(?:\[VAS_(\w+)\])?", part)
        if not read or read[2] not in C_NUMBERS or read[5] and (read[3] or read[5] not in constants):
            unread(place, part)
        const, kind, star, name, size = read.groups()
        kind = f"[{C_NUMBERS[kind]}; {constants[size]}]" if size else C_NUMBERS[kind]
        return f"{name}: {('*const ' if const else '*mut ') if star or size else ''}{kind}"

    functions = {}
    for answer, name, parameters in re.findall(r"(\w+) (vas_\w+)\(([^()]*)\);", text):
        if name in functions or answer not in {*C_NUMBERS, "void"}:
            unread(place, f"{answer} {name}, or has read it before")
        functions[name] = [*map(parameter, parts(parameters)), C_NUMBERS.get(answer, NOTHING)]
    if not functions or len(functions) != text.count("("):
        unread(place, "all of it as functions")
    return Declared(functions, constants)


def bare(place: Path) -> str:
    """A source without its comments."""
    return re.sub(r"//[^\n]*", "", place.read_text(encoding="utf-8"))


def constants_in(text: str) -> dict[str, str]:
    """The lengths that a source names, each with its number."""
    return {name: value.replace("_", "") for name, value in re.findall(r"\bconst (\w+): usize = (\d[\d_]*);", text)}


def lent(text: str) -> dict[str, str]:
    """The lengths that a source takes by name from another crate, as `use minutes::ENTRIES;` does."""
    sources = ((name, ROOT / "crates" / crate / "src" / "lib.rt") for crate, name in re.findall(r"^use (\w+)::(\w+);", text, flags=re.M))
    return {name: named[name] for name, place in sources if place.is_file() and name in (named := constants_in(bare(place)))}


def of_code(places: list[Path], declaration: str, heads: list[str], lists: bool) -> Declared:
    """Rust, or Rattle, which has lists. A declaration has name, parameters and answer; each one has all the heads, and nothing else has any."""
    functions, constants = {}, {}
    for place in places:
        constants |= constants_in(bare(place))
    for place in places:
        text = bare(place)
        lengths = constants | lent(text)

        def parameter(part: str) -> list[str]:
            read = re.fullmatch(r"(\w+): (?:(&mut |&|\*mut |\*const )(\[?))?(\w+)(?:; (\w+))?\]?", part)
            if not read or read[4] not in NUMBERS or read[3] and not (read[5] or lists):
                unread(place, part)
            name, pointer, bracket, kind, size = read.groups()
            to = "" if not pointer else "*mut " if "mut" in pointer else "*const "
            if size:
                return [f"{name}: {to}[{kind}; {lengths.get(size, size)}]"]
            return [f"{name}: {to}{kind}"] + [f"{name}_len: usize"] * bool(bracket)

        found = re.findall(declaration, text)
        for name, parameters, answer in found:
            if name in functions or answer not in {*NUMBERS, ""}:
                unread(place, f"{name} -> {answer}, or has read it before")
            functions[name] = [one for part in parts(parameters) for one in parameter(part)] + [answer or NOTHING]
        if any(text.count(head) != len(found) for head in heads):
            unread(place, f"all that has {' or '.join(heads)} as functions")
    return Declared(functions, constants)


def differences(place: Path, functions: dict[str, list[str]], header: dict[str, list[str]]) -> list[str]:
    """A line for each function that is not there, or not in the header, and for each parameter or answer that is another."""
    found = [f"{name} is not there" for name in header if name not in functions]
    found += [f"{name} is not in the header" for name in functions if name not in header]
    for name in (name for name in header if name in functions):
        (*here, answer), (*there, header_answer) = functions[name], header[name]
        pairs = [*zip_longest(here, there, fillvalue="none"), (f"-> {answer}", f"-> {header_answer}")]
        found += [f"{name}: {mine}, in the header {theirs}" for mine, theirs in pairs if mine != theirs]
    return [f"{relpath(place)}: {line}" for line in found]


def main(crate: Path = CRATE) -> None:
    header = of_header(HEADER)
    rust = of_code([RUST], r"pub (?:safe )?fn (\w+)\(([^()]*)\)(?: -> (\w+))?;", ["fn "], lists=False)
    rattle = of_code(
        sorted((crate / "src").rglob("*.rt")),
        r"#\[unsafe\(no_mangle\)\]\s+pub extern \"C\" fn (\w+)\(([^()]*)\)(?:\s*->\s*(\w+))?",
        ["no_mangle", 'extern "C"'],
        lists=True,
    )
    found = differences(RUST, rust.functions, header.functions) + differences(crate, rattle.functions, header.functions)
    if not found and list(rust.functions) != list(header.functions):
        found.append(f"{relpath(RUST)}: not in the header's order")
    constants = rust.constants.items() ^ header.constants.items()
    found += [f"{relpath(RUST)}: {name} = {value} is here only, or in the header only" for name, value in sorted(constants)]
    if found:
        sys.exit("\n".join(found))


if __name__ == "__main__":
    main(*map(Path, sys.argv[1:2]))
