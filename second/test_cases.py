"""The one bundle that another program is compared over."""

import subprocess
import sys
import unittest
from pathlib import Path

from second.cases import SUBJECTS, bundle
from second.desk_cases import Case
from second.step_cases import Call

ROOT = Path(__file__).resolve().parent.parent


def program(*words: str) -> subprocess.CompletedProcess:
    return subprocess.run([sys.executable, "-m", "second.cases", *words], capture_output=True, cwd=ROOT)


class Cases(unittest.TestCase):
    def test_a_letter_before_each_case(self):
        self.assertEqual(bundle("T", [b"", b"ab"]), b"T\x00\x00T\x00\x02ab")
        self.assertEqual(bundle("N", [b"row"]), b"N\x00\x03row")
        self.assertEqual(bundle("D", [Case(b"")]), b"D\x82\x10\x00\x00\x00")
        self.assertEqual(bundle("S", [Call(6, (1, 2))]), b"S\x06\x00\x00\x00\x01\x00\x00\x00\x02")
        self.assertEqual(bundle("A", [258]), b"A\x00\x00\x01\x02")

    def test_how_many(self):
        counts = {letter: len(list(subject.cases())) for letter, subject in SUBJECTS.items()}
        self.assertEqual(counts, {"T": 1_428, "N": 1_994, "D": 2_854, "S": 10_699, "A": 10_000})

    def test_program_writes_the_bundle(self):
        wanted = b"".join(bundle(letter, subject.cases()) for letter, subject in SUBJECTS.items())
        self.assertEqual(program("bundle").stdout, wanted)
        self.assertLess(len(wanted), 2_100_000)

    def test_program_writes_some_subjects_in_the_order_of_the_bundle(self):
        wanted = b"".join(bundle(letter, SUBJECTS[letter].cases()) for letter in "SA")
        self.assertEqual(program("bundle", "A", "S").stdout, wanted)

    def test_program_prints_what_is_answered_of_some_subjects(self):
        wanted = "".join(SUBJECTS[letter].expected(case) for letter in "SA" for case in SUBJECTS[letter].cases())
        self.assertEqual(program("expected", "A", "S").stdout, wanted.encode())

    def test_program_asks_for_a_word(self):
        for words in ((), ("bundles",), ("expected", "X"), ("T",), ("expected", "T", "expected")):
            with self.subTest(words):
                self.assertEqual(program(*words).returncode, 1)


if __name__ == "__main__":
    unittest.main()
