"""Tests of the field notes."""

import unittest
from pathlib import Path

from second.documents import load
from second.notes import BOM, LINES, Refused, Slip
from second.notes import tape_of, text_of, text_of_fields, without_bom
from second.notes_cases import base, cases, expected, joined, shapes, shortened
from second.tape import write_tape
from second.tapes import accepted, printed_fields

PAGE = Path(__file__).parent.parent / "docs" / "NOTES.md"


def page_block() -> bytes:
    """The example of docs/NOTES.md."""
    return PAGE.read_text(encoding="utf-8").split("```\n")[1].encode()


class Notes(unittest.TestCase):
    def slip(self, text: bytes, said: str) -> None:
        with self.assertRaises(Slip) as raised:
            tape_of(text)
        self.assertEqual(str(raised.exception), said)

    def test_the_example_of_the_page_is_the_printed_traverse(self) -> None:
        fields = printed_fields()
        self.assertEqual(tape_of(page_block()), write_tape(fields._replace(rows=fields.rows[:1])))

    def test_text_and_tape_come_back(self) -> None:
        for tape in (*map(accepted, range(60)), write_tape(load("wanda_mason").fields)):
            text = text_of(tape)
            self.assertEqual(tape_of(text), tape)
            self.assertEqual(text_of(tape_of(text)), text)

    def test_fewer_decimals(self) -> None:
        text = joined(base())
        self.assertIn(b"leg 270 00 00 1000.02\n", shortened(text))
        self.assertEqual(tape_of(shortened(text)), tape_of(text))

    def test_the_layouts_all_say_a_traverse(self) -> None:
        for text in shapes():
            self.assertEqual(len(tape_of(text)), 67)

    def test_a_byte_order_mark_is_passed_over(self) -> None:
        for text in shapes():
            self.assertEqual(without_bom(BOM + text), text)
            self.assertEqual(tape_of(without_bom(BOM + text)), tape_of(text))

    def test_only_a_whole_mark_at_the_start_and_only_one(self) -> None:
        text = joined(base())
        for kept in (text, BOM[:2] + text, text[:1] + BOM + text[1:], b" " + BOM + text, b""):
            self.assertEqual(without_bom(kept), kept)
        self.assertEqual(without_bom(BOM + BOM + text), BOM + text)
        self.slip(BOM + text, "line 1: expected row, project, start, leg or close")

    def test_slips_as_the_page_says_them(self) -> None:
        lines = base()
        self.slip(b"traverse\n", "line 1: expected row, project, start, leg or close")
        self.slip(b"\n# c\nleg 1 2 3\n", "line 3: expected the distance in feet, with at most 3 decimals; the line ends before it")
        self.slip(b"leg 1 60 3 4", "line 1: expected the minutes of the angle, a whole number below 60; this is 60 or more")
        self.slip(b"leg 1 2 3 4.0000", "line 1: expected the distance in feet, with at most 3 decimals; this has too many decimals")
        self.slip(b"leg 1 2 3 -4", "line 1: expected the distance in feet, with at most 3 decimals; this is no such number")
        self.slip(b"leg 1 2 3 4 5", "line 1: expected the end of the line; text stands behind the last number")
        self.slip(b"leg 1 2 3 0.5", "line 1: out of range: " + LINES[b"leg"].ranges)
        self.slip(joined(lines[:-1]), "end of the text: the notes end before the close (refusal 2)")
        self.slip(joined(lines[1:]), "line 2: no row has the mean latitude (refusal 7)")

    def test_every_message_stands_on_the_page(self) -> None:
        page = PAGE.read_text(encoding="utf-8")
        for text in cases():
            said = expected(text)
            if said.startswith(("line", "end of the text")):
                for part in said.strip().partition(": ")[2].removeprefix("expected ").split("; "):
                    self.assertIn(part, page)

    def test_a_refused_tape(self) -> None:
        with self.assertRaises(Refused) as raised:
            text_of(b"\x09")
        self.assertEqual(raised.exception.args, (3, 0))

    def test_canonical_text_of_the_printed_traverse(self) -> None:
        self.assertTrue(text_of_fields(printed_fields()).startswith(b"row 44 10 1.0000572\nrow 44 11 1.0000528\nproject 44 10 1196\n"))


if __name__ == "__main__":
    unittest.main()
