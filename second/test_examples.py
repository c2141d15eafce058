"""The examples: each tape is what its notes say, each sheet what its tape gives."""

import unittest
from unittest import mock

from second import steps
from second.desk import LEAST_WORDS, combined_factor, traverse
from second.documents import load
from second.notes import tape_of
from second.sheet import printed
from second.tape import read_tape, write_tape
from second.tapes import EXAMPLES, printed_fields

NAMES = ("yard", "wanda_mason", "hill_yard", "refused")


def file_bytes(name: str, kind: str) -> bytes:
    return (EXAMPLES / f"{name}.{kind}").read_bytes()


class Examples(unittest.TestCase):
    def test_each_file_belongs_to_a_name(self) -> None:
        files = {f"{name}.{kind}" for name in NAMES for kind in ("txt", "tape", "sheet")}
        there = {path.name for path in EXAMPLES.iterdir()}
        self.assertEqual(there, files | {"README.md", "sheet.c"})

    def test_tapes_are_what_the_notes_say(self) -> None:
        for name in NAMES:
            self.assertEqual(tape_of(file_bytes(name, "txt")), file_bytes(name, "tape"))

    def test_the_tapes_of_the_rules_and_of_the_document(self) -> None:
        self.assertEqual(file_bytes("yard", "tape"), write_tape(printed_fields()))
        self.assertEqual(file_bytes("wanda_mason", "tape"), write_tape(load("wanda_mason").fields))

    def test_sheets_are_what_the_tapes_give(self) -> None:
        for name in NAMES:
            self.assertEqual(printed(file_bytes(name, "tape")).encode(), file_bytes(name, "sheet"))

    def test_the_one_in_the_hills_is_reduced_by_the_product(self) -> None:
        fields = read_tape(file_bytes("hill_yard", "tape")).fields
        self.assertEqual((fields.project.elevation, fields.rows[1].factor), (7_000, 10_001_989))
        self.assertEqual(combined_factor(fields), 9_998_641)

    def test_by_the_sum_three_of_its_corners_would_stand_a_hundredth_further_east(self) -> None:
        tape = file_bytes("hill_yard", "tape")
        corners = traverse(tape, LEAST_WORDS).coordinates
        by_sum = mock.Mock(return_value=steps.answered(9_998_642))
        with mock.patch.object(steps, "combined_factor", by_sum):
            others = traverse(tape, LEAST_WORDS).coordinates
        moved = [(two[0] - one[0], two[1] - one[1]) for one, two in zip(corners, others)]
        self.assertEqual(moved, [(0, 0), (0, 0), (0, 1), (0, 1), (0, 1), (0, 0)])

    def test_the_refused_one_is_refused_for_its_angle(self) -> None:
        self.assertEqual(file_bytes("refused", "sheet"), b"REFUSED 8\n")


if __name__ == "__main__":
    unittest.main()
