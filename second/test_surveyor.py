"""That docs/SURVEYOR.md and docs/REFUSALS.md show what the programs print."""

import json
import math
import re
import unittest
from typing import Callable, Union

from second import blunder, steps
from second.desk import LEAST_WORDS, course, misclosure, sure, traverse
from second.notes import Slip, tape_of
from second.page import DOCS, read
from second.ranges import CIRCLE
from second.sheet import printed
from second.tape import Close, Leg, read_tape, write_tape

SURVEYOR = read(DOCS / "SURVEYOR.md")
REFUSALS = read(DOCS / "REFUSALS.md")
EXAMPLES = DOCS.parent / "examples"

LOT = re.search(r"```\n(# A mooring lot.*?)```", SURVEYOR, re.S)[1]
LINES = LOT.splitlines(keepends=True)
LEGS = [line for line in LINES if line.startswith("leg")]
FIRST_LEG = LINES.index(LEGS[0])


def tape(notes: str) -> bytes:
    return tape_of(notes.encode())


def slip(notes: str) -> str:
    try:
        tape(notes)
    except Slip as said:
        return str(said)
    raise AssertionError("the notes have no slip")


def by_hand(notes: str) -> list[int]:
    """P where W is taken off each angle alone, the closing angle last; 0 if there is no sheet."""
    fields = read_tape(tape(notes)).fields
    w = misclosure(fields)
    legs, close = fields.legs, fields.close
    changed = [
        fields._replace(legs=(*legs[:n], turned(leg, w), *legs[n + 1:]))
        for n, leg in enumerate(legs)
    ]
    changed.append(fields._replace(close=turned(close, w)))
    return [traverse(write_tape(copy), LEAST_WORDS).precision for copy in changed]


def turned(record: Union[Leg, Close], w: int) -> Union[Leg, Close]:
    return record._replace(angle=(record.angle - w) % CIRCLE)


def less(start: str) -> str:
    """The lot without the line that starts so."""
    return "".join(line for line in LINES if not line.startswith(start))


class Surveyor(unittest.TestCase):
    def test_the_sheet_of_the_lot(self) -> None:
        self.assertTrue(f"```\n{printed(tape(LOT))}```\n" in SURVEYOR)

    def test_from_north_at_both_ends_the_lot_is_turned_half_round(self) -> None:
        good, turned = (printed(tape(notes)) for notes in (LOT, LOT.replace(" 221 15", " 41 15")))
        pairs = [*zip(good.splitlines()[1:-1], turned.splitlines()[1:-1])]
        for one, two in pairs:
            north, east = (
                round(100 * (float(a) + float(b))) for a, b in zip(one.split()[1:], two.split()[1:])
            )
            self.assertEqual((north, east), (2 * 18_264_000, 2 * 191_825_000))
        self.assertEqual(good.splitlines()[-1], turned.splitlines()[-1])
        self.assertTrue("\n182427.97, as far south" in SURVEYOR)
        self.assertTrue(turned.splitlines()[2].startswith("1 182427.97 "))

    def test_with_northing_and_easting_exchanged_the_lot_is_only_moved(self) -> None:
        moved = printed(tape(LOT.replace("182640.00 1918250.00", "1918250.00 182640.00")))
        good = printed(tape(LOT)).splitlines()
        first, zero, *_, area = moved.splitlines()
        self.assertEqual((first, area), (good[0], good[-1]))
        self.assertEqual(zero, "0 1918250.00 182640.00")

    def test_without_a_mark_the_lot_has_the_same_sheet(self) -> None:
        start, leg, close = re.findall(r"^    ((?:start|leg|close) .*\n)", SURVEYOR, re.M)
        lines = [*LINES[:FIRST_LEG - 1], start, leg, *LEGS[1:], close]
        self.assertEqual(printed(tape("".join(lines))), printed(tape(LOT)))

    def test_the_row_of_the_file(self) -> None:
        said = re.search(r"`(\[\d[\d, ]*\])` is `(row [\d. ]+)`", SURVEYOR)
        rows = (DOCS.parent / "second" / "documents" / "zone_rows.json").read_text("utf-8")
        self.assertIn(f" {said[1]},\n", rows)
        minute, *_, factor = json.loads(said[1])
        noted = f"row {minute // 60} {minute % 60} {factor // 10**7}.{factor % 10**7:07d}"
        self.assertEqual(noted, said[2])

    def test_the_adjusted_line(self) -> None:
        one, two = (line.split() for line in printed(tape(LOT)).splitlines()[2:4])
        moved = [round(100 * (float(b) - float(a))) for a, b in zip(one[1:], two[1:])]
        self.assertEqual(moved, [10_601, 33_796])
        self.assertEqual(round(math.hypot(*moved)), 35_420)
        seconds_ = round(3_600 * math.degrees(math.atan2(*moved[::-1])))
        self.assertEqual(seconds_, (72 * 60 + 35) * 60 + 5)
        self.assertTrue("the line is √(106.01² + 337.96²) = 354.20 feet" in SURVEYOR)
        self.assertTrue("N 72°35′05″ E" in SURVEYOR)

    def test_from_north_at_one_end_it_is_refused_with_8(self) -> None:
        self.assertEqual(printed(tape(LOT.replace(" 221 15", " 41 15", 1))), "REFUSED 8\n")

    def test_between_two_points_from_north_it_is_refused_with_9(self) -> None:
        notes = (EXAMPLES / "wanda_mason.txt").read_text(encoding="utf-8")
        turned = notes.replace(" 269 13 56.3", " 89 13 56.3").replace(" 97 07 42.5", " 277 07 42.5")
        self.assertEqual(printed(tape(turned)), "REFUSED 9\n")

    def test_bearings_and_azimuths_from_north(self) -> None:
        said = re.findall(
            r"\| (?:([NS]) )?(\d+)°(\d+)′(\d+)″(?: ([EW]))? \| `([\d ]+)` \|", SURVEYOR)
        self.assertEqual(len(said), 6)
        for ns, degrees, minutes, seconds_, ew, noted in said:
            turned = 10 * (3_600 * int(degrees) + 60 * int(minutes) + int(seconds_))
            d, m, s = map(int, noted.split())
            north, east = course(1_000_000, 10 * (3_600 * d + 60 * m + s))
            # by the angle as it stands: from north, and by its quadrant
            along, across = sure(steps.cosine(turned)), sure(steps.sine(turned))
            due = (-along if ns == "S" else along, -across if ew == "W" else across)
            for amount, sine in zip((north, east), due):
                self.assertLessEqual(abs(amount * 10_000 - sine), 5_000)

    def test_the_figures_of_the_bound(self) -> None:
        legs, feet = re.findall(r"^\| (?:m|feet) \| (.*) \|$", SURVEYOR, re.M)
        for m, bound in zip(legs.split(" | "), feet.split(" | "), strict=True):
            self.assertEqual(f"{55 * int(m) + 50}", bound.replace("0.", "").lstrip("0"))


class Refusals(unittest.TestCase):
    def assert_shown(self, line: str) -> None:
        self.assertTrue(f" `{line}` |\n" in REFUSALS, line)

    def test_messages_about_notes(self) -> None:
        for notes in (
            less("close"),
            less("start"),
            LOT.replace("350.54", "35054"),
            "".join(LINES[:2]) + "row 44 22 1.0000099\n" + "".join(LINES[2:]),
            "".join([*LINES[:FIRST_LEG], *LEGS * 13, LINES[-1]]),
            LOT.replace("project 44 20", "project 44 21"),
        ):
            self.assert_shown(slip(notes))

    def test_places_on_a_tape(self) -> None:
        whole = tape(LOT)
        legs, leg, row = whole[25:-17], whole[25:34], whole[:7]
        for refused in (
            whole[:60],
            whole + whole,
            whole[:48] + b"\xff" + whole[49:],
            row + row + whole[7:],
            whole[:25] + leg * 65 + whole[-17:],
            b"\x05\x0a\x65" + whole[3:],
        ):
            reading = read_tape(refused)
            words = re.search(rf"^\| \[{reading.number}\]\(.*?\) \| (.*?) \|", REFUSALS, re.M)[1]
            self.assert_shown(f"REFUSED {reading.number} at byte {reading.place}: {words}")
        self.assertEqual(len(legs), 5 * len(leg))

    def test_the_searches(self) -> None:
        refused = (EXAMPLES / "refused.tape").read_bytes()
        for searched in (refused, tape(LOT.replace("350.54", "305.54"))):
            self.assertTrue(f"```\n{blunder.search(searched)}```\n" in REFUSALS)

    def test_a_leg_left_out_and_a_leg_written_twice(self) -> None:
        for times, said in ((0, "-87 44 04.0"), (2, "+87 44 22.0")):
            search = blunder.search(tape(LOT.replace(LEGS[2], LEGS[2] * times)))
            self.assertIn(f" seconds ({said}); ", search)
            degrees, minutes, rest = said.split()
            self.assertTrue(f"{degrees}°{minutes}′{rest[:2]}″" in REFUSALS)

    def test_the_precision_numbers_of_the_search_by_hand(self) -> None:
        row = re.search(r"^\| P \| (.*) \|$", REFUSALS, re.M)[1]
        two_minutes = LOT.replace("leg 267 44 13", "leg 267 46 13")
        self.assertEqual([*map(int, row.split(" | "))], by_hand(two_minutes))
        one, two, *others = by_hand(LOT.replace("leg 235 47 17", "leg 235 48 17"))
        self.assertTrue(f"P is {two} for leg 2 and {one} for leg 1." in REFUSALS)
        self.assertLess(max(others), one)

    def test_the_limits(self) -> None:
        self.assert_row("legs", "misclosure allowed", lambda n: 10 * (n + 1), seconds)
        self.assert_row("distance run, feet", "closure allowed, feet", lambda s: s / 5_000, float)

    def assert_row(
        self, given: str, due: str, limit: Callable[[int], float], value: Callable[[str], float]
    ) -> None:
        row, limits = (
            re.search(rf"^\| {name} \| (.*) \|$", REFUSALS, re.M)[1].split(" | ")
            for name in (given, due)
        )
        for one, two in zip(row, limits, strict=True):
            self.assertEqual(limit(int(one.replace(",", ""))), value(two))


def seconds(said: str) -> float:
    """Minutes and seconds, or seconds alone, as seconds."""
    minutes, _, rest = said.rpartition("′")
    return 60 * int(minutes or 0) + int(rest.removesuffix("″"))


if __name__ == "__main__":
    unittest.main()
