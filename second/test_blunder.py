"""That one blunder in the mooring lot of docs/SURVEYOR.md, or in an example, is found."""

import re
import subprocess
import sys
import unittest
from pathlib import Path

from second import blunder, tapes
from second.desk import LEAST_WORDS, traverse
from second.notes import tape_of
from second.ranges import CIRCLE
from second.tape import Close, Fields, Leg, Project, Row, read_tape, write_tape

FOLDER = Path(__file__).resolve().parent.parent
DEGREE = CIRCLE // 360
TEN_FEET = 10_000


def lot() -> Fields:
    """The notes that docs/SURVEYOR.md works: no two of its legs are parallel."""
    page = (FOLDER / "docs" / "SURVEYOR.md").read_text(encoding="utf-8")
    notes = re.search(r"```\n(# A mooring lot.*?)```", page, re.S)[1]
    return read_tape(tape_of(notes.encode())).fields


def straight() -> Fields:
    """Sixty-four legs of 1,000 feet due north, from the mark behind the start to one ahead."""
    yard = tapes.printed_fields()
    return yard._replace(
        rows=(Row(2650, 10_000_000),),
        project=Project(2650, 0),
        legs=(Leg(180 * DEGREE, 1_000_000),) * 64,
        close=Close(180 * DEGREE, 11_400_000, 200_000_000, 180 * DEGREE),
    )


def search_of(fields: Fields) -> str:
    return blunder.search(write_tape(fields))


def number(fields: Fields) -> int:
    return traverse(write_tape(fields), LEAST_WORDS).number


def suspects(fields: Fields, what: str) -> list[str]:
    """The angles, or the distances, that leave a small closure, as the lines call them."""
    said = re.findall(r"(.*): the position closure is ([\d.]+) feet\n", search_of(fields))
    return [name.split(" by ")[0] for name, left in said if what in name and float(left) < 0.1]


def with_angle(fields: Fields, leg: int, by: int) -> Fields:
    turned = fields.legs[leg]._replace(angle=(fields.legs[leg].angle + by) % CIRCLE)
    return fields._replace(legs=fields.legs[:leg] + (turned,) + fields.legs[leg + 1:])


def with_distance(fields: Fields, leg: int, by: int) -> Fields:
    taped = fields.legs[leg]._replace(distance=fields.legs[leg].distance + by)
    return fields._replace(legs=fields.legs[:leg] + (taped,) + fields.legs[leg + 1:])


def called(given: bytes, *words: str) -> "subprocess.CompletedProcess[bytes]":
    """What the search answers as a program, to words and standard input."""
    return subprocess.run(
        [sys.executable, "-m", "second.blunder", *words],
        input=given, capture_output=True, cwd=FOLDER,
    )


class Search(unittest.TestCase):
    def test_an_angle_between_the_ends_alone_leaves_a_small_closure(self) -> None:
        for leg in range(1, 5):
            for by in (DEGREE, -DEGREE // 6):
                wrong = with_angle(lot(), leg, by)
                self.assertEqual(number(wrong), 8)
                self.assertEqual(suspects(wrong, "angle"), [f"angle of leg {leg + 1} less W"])

    def test_in_a_loop_the_first_and_the_closing_angle_cannot_be_told_apart(self) -> None:
        wrong = with_angle(lot(), 0, DEGREE)
        both = ["angle of leg 1 less W", "closing angle less W"]
        self.assertEqual(suspects(wrong, "angle"), both)

    def test_a_distance_alone_leaves_a_small_closure(self) -> None:
        for leg in range(5):
            for by in (TEN_FEET, -TEN_FEET):
                wrong = with_distance(lot(), leg, by)
                self.assertEqual(number(wrong), 9)
                self.assertEqual(suspects(wrong, "distance"), [f"distance of leg {leg + 1}"])

    def test_parallel_legs_cannot_be_told_apart(self) -> None:
        wrong = with_distance(tapes.printed_fields(), 0, TEN_FEET)
        both = ["distance of leg 1", "distance of leg 3"]
        self.assertEqual(suspects(wrong, "distance"), both)

    def test_a_long_line_with_an_angle_off_by_ten_minutes_is_refused_with_9(self) -> None:
        wrong = with_angle(straight(), 4, DEGREE // 6)
        self.assertEqual(number(straight()), 0)
        self.assertEqual(number(wrong), 9)
        self.assertEqual(suspects(wrong, "angle"), ["angle of leg 5 less W"])
        self.assertEqual(suspects(wrong, "distance"), [])

    def test_the_limit_of_the_position_stands_in_the_second_line(self) -> None:
        for wrong, said in (
            (with_angle(lot(), 2, DEGREE), "1524.368 feet may miss by 0.304"),
            (with_distance(lot(), 2, TEN_FEET), "1534.368 feet may miss by 0.306"),
        ):
            self.assertEqual(search_of(wrong).splitlines()[1].split("; ")[-1], said)

    def test_an_accepted_one_is_said_to_be(self) -> None:
        first, second, *_ = search_of(lot()).splitlines()
        self.assertEqual(first, blunder.ACCEPTED)
        self.assertTrue(second.startswith("W=+9.0 seconds (+0 00 09.0); "))
        for wrong in (with_angle(lot(), 2, DEGREE), with_distance(lot(), 2, TEN_FEET)):
            self.assertTrue(search_of(wrong).startswith("W="))

    def test_w_in_degrees_minutes_and_seconds(self) -> None:
        said = blunder.angular(lot(), -4_540_980)
        self.assertEqual(said, "W=-454098.0 seconds (-126 08 18.0); 6 angles may miss by 60")

    def test_a_tape_that_does_not_read_has_its_refusal(self) -> None:
        self.assertEqual(blunder.search(b""), "REFUSED 2\n")

    def test_as_a_program(self) -> None:
        tape = (FOLDER / "examples" / "refused.tape").read_bytes()
        done = called(tape)
        self.assertEqual((done.returncode, done.stderr), (0, b""))
        self.assertEqual(done.stdout.decode(), blunder.search(tape))

    def test_what_it_takes_is_said_to_an_argument_and_to_text(self) -> None:
        notes = (FOLDER / "examples" / "refused.txt").read_bytes()
        for done in (called(b"", "examples/refused.tape"), called(notes), called(b"\n" + notes)):
            self.assertEqual((done.returncode, done.stdout), (1, b""))
            self.assertIn(blunder.TAKES, done.stderr.decode())


if __name__ == "__main__":
    unittest.main()
