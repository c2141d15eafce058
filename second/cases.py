"""All cases for comparing another program with this one: one bundle, one output.

`python3 -m second.cases bundle` writes the bundle to standard output: each case after
the letter of its subject. `python3 -m second.cases expected` prints what is answered to
each of them, in order. Letters after either word leave out all other subjects. How a case
stands in the bundle, and how it is answered, is said by its subject's module.
"""

import sys
from typing import Iterable

from . import desk_cases, notes_cases, reading_cases, sine_cases, step_cases

SUBJECTS = {"T": reading_cases, "N": notes_cases, "D": desk_cases, "S": step_cases, "A": sine_cases}


def bundle(letter: str, cases: Iterable) -> bytes:
    """These cases of one subject, as they stand in a bundle."""
    return b"".join(letter.encode() + SUBJECTS[letter].packed(case) for case in cases)


def main(wanted: str, *letters: str) -> None:
    """Write the bundle or the answers, as wanted: of the subjects with these letters, or of all."""
    if wanted not in ("bundle", "expected") or not SUBJECTS.keys() >= set(letters):
        sys.exit(f"wanted: bundle or expected, then none or some of {' '.join(SUBJECTS)}")
    subjects = {letter: subject for letter, subject in SUBJECTS.items() if letter in (letters or SUBJECTS)}
    if wanted == "bundle":
        sys.stdout.buffer.writelines(bundle(letter, subject.cases()) for letter, subject in subjects.items())
    else:
        sys.stdout.writelines(subject.expected(case) for subject in subjects.values() for case in subject.cases())


if __name__ == "__main__":
    main(*sys.argv[1:] or [""])
