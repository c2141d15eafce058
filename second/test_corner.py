"""That the figures and the picture of docs/CORNER.md say what is so."""

import tempfile
import unittest
from contextlib import redirect_stdout
from fractions import Fraction
from io import StringIO
from pathlib import Path
from random import Random
from unittest import mock
from xml.etree import ElementTree

from second import corner, documents, drawing
from second.unrounded import bound

SVG = "{http://www.w3.org/2000/svg}"
PAGE = """\
# A page

<!-- made by python3 -m second.corner table -->
<!-- end -->

<!-- made by python3 -m second.corner worked -->
| old |
<!-- end -->

Below.
"""


def cells(table: str) -> list[list[str]]:
    """The rows of a Markdown table, its head and rule left out."""
    return [line.strip("| \n").split(" | ") for line in table.splitlines()[2:]]


class Printing(unittest.TestCase):
    def test_away_from_zero_never_understates(self):
        chance = Random(3)
        amounts = [Fraction(chance.randint(-9_999, 9_999), chance.randint(1, 9_999)) for _ in range(2_000)]
        for amount in [*amounts, Fraction(1, 10**30), Fraction(-1, 10**30), Fraction(-5, 10**4)]:
            printed = Fraction(corner.away(amount, 3), 1_000)
            self.assertGreaterEqual(printed * (1 if amount > 0 else -1), abs(amount))
            self.assertLess(abs(printed - amount), Fraction(1, 1_000))

    def test_an_amount_of_three_decimals_is_kept(self):
        self.assertEqual(corner.away(Fraction(1_125, 1_000), 3), 1_125)
        self.assertEqual(corner.away(Fraction(-1_125, 1_000), 3), -1_125)

    def test_only_nothing_is_printed_as_nothing(self):
        self.assertEqual(corner.off(Fraction(0)), "0")
        self.assertEqual(corner.off(Fraction(1, 10**9)), "+0.001")
        self.assertEqual(corner.off(Fraction(-1, 10**9)), "-0.001")

    def test_a_bound_is_not_rounded(self):
        self.assertEqual(corner.decimal(Fraction(215, 100), 2), "2.15")
        with self.assertRaises(ValueError):
            corner.decimal(Fraction(215, 100), 1)


class Tables(unittest.TestCase):
    def test_bounds(self):
        rows = cells(corner.table())
        self.assertEqual([row[0] for row in rows], ["4", "8", "16", "32", "64"])
        self.assertEqual(rows[0], ["4", "2.15", "0.0215", "1.60", "0.0160"])
        self.assertEqual(rows[-1], ["64", "35.15", "0.3515", "18.10", "0.1810"])

    def test_next_to_an_end_is_largest_and_middle_smallest(self):
        for legs in corner.SIZES:
            inner = [bound(legs, station) for station in range(1, legs)]
            self.assertEqual(max(inner), bound(legs, 1))
            self.assertEqual(min(inner), bound(legs, legs // 2))

    def test_worked_traverse(self):
        example = documents.load(corner.WORKED)
        rows = cells(corner.worked())
        self.assertEqual([row[0] for row in rows], list(example.stations))
        self.assertEqual(rows[0], ["Wanda", "335261.11", "0", "2239317.60", "0", "0"])
        self.assertEqual(rows[-1], ["Mason", "336326.15", "0", "2286204.44", "0", "0"])
        for row, exact in zip(rows, corner.corners(example.fields), strict=True):
            for printed, error in zip((row[2], row[4]), exact.errors):
                self.assertGreaterEqual(abs(Fraction(printed)), error)
                self.assertLessEqual(abs(Fraction(printed)), Fraction(row[5]))


class Cloud(unittest.TestCase):
    @classmethod
    def setUpClass(cls):
        cls.traverses = [stations for kind in corner.cloud().values() for stations in kind]

    def test_every_station_is_within_its_bound(self):
        for stations in self.traverses:
            for station in stations:
                self.assertLessEqual(max(station.errors), station.bound)

    def test_fixed_points_are_not_off_at_all(self):
        for stations in self.traverses:
            for fixed in (stations[0], stations[-1]):
                self.assertEqual((*fixed.errors, fixed.bound), (0, 0, 0))

    def test_several_hundred_of_every_size(self):
        self.assertGreater(len(self.traverses), 400)
        self.assertEqual({len(stations) - 1 for stations in self.traverses}, set(range(1, 65)))

    def test_same_traverses_on_every_run(self):
        self.assertEqual(corner.common_walk(Random(5), 5), corner.common_walk(Random(5), 5))
        self.assertIn(corner.common_walk(Random(5), 5), corner.cloud()["random courses"])

    def test_a_traverse_can_lean_to_nine_tenths_of_the_bound(self):
        for legs, station in ((2, 1), (9, 1), (9, 4), (64, 1), (64, 32)):
            leaned = corner.corners(corner.leaning(legs, station))[station]
            self.assertLess(leaned.off_north, 0)
            self.assertGreater(leaned.errors[0], Fraction(9, 10) * leaned.bound)

    def test_random_courses_come_less_near(self):
        kinds = corner.cloud()
        self.assertLess(corner.nearness(kinds["random courses"]), corner.nearness(self.traverses))
        self.assertLess(corner.nearness(self.traverses), 1)


class Picture(unittest.TestCase):
    @classmethod
    def setUpClass(cls):
        cls.text = corner.plot()
        cls.svg = ElementTree.fromstring(cls.text)

    def test_parses_and_is_small(self):
        self.assertEqual(self.svg.tag, SVG + "svg")
        self.assertLess(len(self.text.encode()), 200_000)

    def test_has_its_own_ground(self):
        ground = self.svg.find(SVG + "rect")
        for side in ("width", "height"):
            self.assertEqual(ground.get(side), self.svg.get(side))

    def test_says_how_many_and_how_near(self):
        words = " ".join(text.text for text in self.svg.iter(SVG + "text"))
        traverses = [stations for kind in corner.cloud().values() for stations in kind]
        stations = sum(len(stations) - 2 for stations in traverses)
        self.assertIn(f"{len(traverses)} accepted traverses of 1 to 64 legs, {stations:,} stations", words)
        self.assertIn(f"of all: {corner.printed_nearness(traverses)}.", words)

    def test_every_point_has_its_square(self):
        for limit, error in corner.points(corner.cloud()["Wanda to Mason"]):
            x, y = drawing.pixel(limit, error)
            self.assertIn(f"M{x - 2} {y - 2}h5", self.text)

    def test_the_largest_bound_is_on_the_picture(self):
        self.assertLessEqual(bound(64, 1), drawing.MOST)


class Page(unittest.TestCase):
    """A page of its own in a folder that is thrown away, with a picture that is quick to make."""

    def setUp(self):
        folder = tempfile.TemporaryDirectory()
        self.addCleanup(folder.cleanup)
        self.page, self.picture = Path(folder.name) / "CORNER.md", Path(folder.name) / "corner.svg"
        self.stand_in("PAGE", self.page)
        self.stand_in("PICTURE", self.picture)
        self.stand_in("plot", lambda: "<svg/>\n")
        self.page.write_text(PAGE, encoding="utf-8")

    def stand_in(self, name: str, value: object) -> None:
        patched = mock.patch.object(corner, name, value)
        patched.start()
        self.addCleanup(patched.stop)

    def faults(self) -> str:
        with self.assertRaises(SystemExit) as ended:
            corner.main("check")
        return str(ended.exception)

    def test_written_page_passes_and_keeps_the_rest(self):
        corner.main("write")
        corner.main("check")
        page = self.page.read_text(encoding="utf-8")
        self.assertIn(corner.table(), page)
        self.assertIn(corner.worked(), page)
        self.assertTrue(page.startswith("# A page\n") and page.endswith("\n\nBelow.\n"))
        self.assertNotIn("| old |", page)

    def test_each_stale_part_is_named(self):
        for part in ("corner table makes", "corner worked makes", "corner plot makes"):
            self.assertIn(part, self.faults())

    def test_one_changed_figure_is_found(self):
        corner.main("write")
        page = self.page.read_text(encoding="utf-8")
        self.page.write_text(page.replace("| 2.15 |", "| 2.16 |"), encoding="utf-8")
        faults = self.faults()
        self.assertIn("docs/CORNER.md: not what python3 -m second.corner table makes", faults)
        self.assertNotIn("worked", faults)
        self.assertNotIn("corner.svg", faults)

    def test_missing_and_double_sections_are_found(self):
        corner.main("write")
        page = self.page.read_text(encoding="utf-8")
        self.page.write_text(page.replace("<!-- end -->\n", "", 1), encoding="utf-8")
        self.assertIn("0 sections marked as made by python3 -m second.corner table", self.faults())
        self.page.write_text(page + page, encoding="utf-8")
        self.assertIn("2 sections marked as made by python3 -m second.corner worked", self.faults())

    def test_missing_files_are_found(self):
        corner.main("write")
        self.picture.unlink()
        self.assertIn("docs/corner.svg: not what python3 -m second.corner plot makes", self.faults())
        self.page.unlink()
        self.assertIn("docs/CORNER.md: 0 sections", self.faults())

    def test_prints_what_is_asked(self):
        out = StringIO()
        with redirect_stdout(out):
            corner.main("table")
        self.assertEqual(out.getvalue(), corner.table())
        with self.assertRaises(SystemExit):
            corner.main("")


if __name__ == "__main__":
    unittest.main()
