"""The tapes that another program's whole desk is compared over."""

import unittest

from second.desk import traverse
from second.desk_cases import Case, cases, expected, packed
from second.tape import write_tape
from second.tapes import printed_fields

PRINTED = write_tape(printed_fields())


class Cases(unittest.TestCase):
    def test_packed(self):
        self.assertEqual(packed(Case(b"\x07\x08")), b"\x82\x10\x00\x00\x02\x07\x08")
        self.assertEqual(packed(Case(b"", words=129, bytes=4_095)), b"\x81\x0f\xff\x00\x00")

    def test_every_refusal(self):
        numbers = {traverse(case.tape, case.words).number for case in cases()}
        self.assertEqual(numbers, set(range(10)))


class Answers(unittest.TestCase):
    def test_accepted(self):
        lines = expected(Case(PRINTED)).splitlines()
        self.assertEqual(lines[:3], [
            "0 0 4 5 -1 2 178886 20000200000 1 "
            "5000000 200000000 5100000 200000000 5100001 200100001 5000000 200100000 5000000 200000000 10",
            "0 0 167 167",
            "CLOSE W=+0.5 N=-0.01 E=+0.02 P=178886",
        ])
        self.assertEqual(lines[-1], "AREA2 2000020.0000")

    def test_refused(self):
        self.assertEqual(expected(Case(b"")), "2 0 0 0 0 0 0 0 0 0\n2 0 0 0\nREFUSED 2\n")

    def test_no_room(self):
        few_words = expected(Case(PRINTED, words=129)).splitlines()
        self.assertEqual(few_words[:2], ["1 0 0 0 0 0 0 0 0 0", "0 0 167 167"])
        few_bytes = expected(Case(PRINTED, bytes=4_095)).splitlines()
        self.assertEqual(few_bytes[1], "1 0 0 0")


if __name__ == "__main__":
    unittest.main()
