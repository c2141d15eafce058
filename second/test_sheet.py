"""docs/RULES.md, "The sheet, and one printed whole"."""

import subprocess
import sys
import unittest
from pathlib import Path

from second import sheet
from second.desk import Point, Traverse
from second.tape import write_tape
from second.tapes import accepted, longest, printed_fields

ROOT = Path(__file__).resolve().parent.parent
TAPE = write_tape(printed_fields())
PRINTED = """\
CLOSE W=+0.5 N=-0.01 E=+0.02 P=178886
0 50000.00 2000000.00
1 51000.00 2000000.00
2 51000.01 2001000.01
3 50000.00 2001000.00
4 50000.00 2000000.00
AREA2 2000020.0000
"""


def program(tape: bytes) -> str:
    done = subprocess.run(
        [sys.executable, "-m", "second.sheet"], input=tape, capture_output=True, cwd=ROOT, check=True,
    )
    return done.stdout.decode("ascii")


class Amounts(unittest.TestCase):
    def test_plain(self):
        for amount, text in ((0, "0.00"), (5, "0.05"), (-5, "-0.05"), (-100, "-1.00"), (123_456, "1234.56")):
            self.assertEqual(sheet.plain(amount, 2), text)
        self.assertEqual(sheet.plain(-1, 4), "-0.0001")

    def test_signed(self):
        for amount, text in ((0, "+0.0"), (5, "+0.5"), (-5, "-0.5"), (-500, "-50.0")):
            self.assertEqual(sheet.signed(amount, 1), text)


class Text(unittest.TestCase):
    def test_printed_sheet(self):
        self.assertEqual(sheet.printed(TAPE), PRINTED)

    def test_no_area_without_a_loop(self):
        answer = Traverse(0, 0, 1, 0, 0, 0, 0, 0, False, (Point(0, -1), Point(-12_345, 7)))
        text = "CLOSE W=+0.0 N=+0.00 E=+0.00 P=0\n0 0.00 -0.01\n1 -123.45 0.07\n"
        self.assertEqual(sheet.sheet_text(answer), text)

    def test_loop_without_area_or_turned_left(self):
        for area, text in ((0, "AREA2 0.0000\n"), (-12_345, "AREA2 -1.2345\n")):
            answer = Traverse(0, 0, 1, 0, 0, 0, 0, area, True, (Point(0, 0), Point(0, 0)))
            self.assertTrue(sheet.sheet_text(answer).endswith("\n" + text))

    def test_refusals(self):
        self.assertEqual(sheet.printed(b""), "REFUSED 2\n")
        self.assertEqual(sheet.printed(TAPE + b"\x00"), "REFUSED 3\n")
        misread = printed_fields()
        misread = misread._replace(close=misread.close._replace(angle=0))
        self.assertEqual(sheet.printed(write_tape(misread)), "REFUSED 8\n")


class Lent(unittest.TestCase):
    def test_writes_the_text_and_nothing_after_it(self):
        lent = bytearray(b"\xaa" * 5_000)
        self.assertEqual(sheet.write_sheet(TAPE, lent), (0, 0, len(PRINTED)))
        self.assertEqual(lent, PRINTED.encode() + b"\xaa" * (5_000 - len(PRINTED)))

    def test_too_few_bytes_come_before_the_tape(self):
        for tape in (TAPE, b""):
            lent = bytearray(b"\xaa" * 4_095)
            self.assertEqual(sheet.write_sheet(tape, lent), (1, 0, 0))
            self.assertEqual(lent, b"\xaa" * 4_095)
        self.assertEqual(sheet.write_sheet(TAPE, bytearray(4_096)).number, 0)

    def test_refusals_are_the_tapes_and_leave_the_bytes(self):
        lent = bytearray(b"\xaa" * 4_096)
        self.assertEqual(sheet.write_sheet(TAPE[:70], lent), (2, 68, 0))
        self.assertEqual(lent, b"\xaa" * 4_096)

    def test_every_sheet_fits(self):
        for seed in range(100):
            self.assertLessEqual(len(sheet.printed(accepted(seed))), 4_096)


class Program(unittest.TestCase):
    def test_prints_the_sheet_or_the_refusal(self):
        self.assertEqual(program(TAPE), PRINTED)
        self.assertEqual(program(b""), "REFUSED 2\n")

    def test_reads_8192_bytes_at_most(self):
        too_long = longest(printed_fields()) + bytes(10_000)
        self.assertEqual(program(too_long), "REFUSED 3\n")


if __name__ == "__main__":
    unittest.main()
