"""That docs/DOCUMENTS.md says what is so, and that a wrong page is found out."""

import tempfile
import unittest
from pathlib import Path
from unittest import mock

from second import documents, report
from second.figures import Figure, Kind


class Printing(unittest.TestCase):
    def test_amounts(self):
        self.assertEqual(report.amount(-5, 2), "-0.05")
        self.assertEqual(report.amount(9_999_412, 7), "0.9999412")
        self.assertEqual(report.amount(12_563, 0), "12563")
        self.assertEqual(report.minutes(2_405), "40°05′")

    def test_differences_have_a_sign_unless_equal(self):
        feet = Kind("lengths", "feet", 2)
        self.assertEqual(report.three(Figure(feet, "one", 41, 2, 40)), ("0.41", "0.40", "+0.01"))
        self.assertEqual(report.three(Figure(feet, "one", -41, 2, -40)), ("-0.41", "-0.40", "-0.01"))
        self.assertEqual(report.three(Figure(feet, "one", 4, 1, 41)), ("0.4", "0.41", "0"))
        self.assertEqual(report.with_unit(Figure(feet, "one", 41, 2, 40)), "+0.01 feet")


class Page(unittest.TestCase):
    @classmethod
    def setUpClass(cls):
        cls.page = report.page()

    def test_every_traverse_has_its_section(self):
        for name in documents.names():
            self.assertEqual(self.page.count(f"### {documents.load(name).title}\n"), 1, name)

    def test_a_line_for_each_adjusted_station(self):
        section = report.traverse_section(documents.load("mount_tom_k"))
        self.assertIn("| B | 364712.78 | 364712.77 | +0.01 | 1616039.51 | 1616039.51 | 0 |\n", section)
        self.assertIn("| precision number | 11484 | 11647 | -163 |\n", section)
        self.assertIn("row of 44°49′ with factor 0.9999412; elevation 950 feet", section)
        self.assertNotIn("| Mount Tom |", section)

    def test_equal_all_through(self):
        section = report.traverse_section(documents.load("manta_clark_grid"))
        self.assertIn("All figures are equal.", section)
        self.assertNotIn("differ:", section)

    def test_steps_that_differ_stand_with_their_reason(self):
        section = report.steps_section("precision_number")
        self.assertIn("3 figures compared, 0 of them equal", section)
        self.assertIn("rounded to the hundredth of a foot", section)
        self.assertIn("| figures 5 and 6, number | 12563 | 12646 | -83 |\n", section)
        self.assertNotIn("| figure |", report.steps_section("closure_shares"))

    def test_the_combined_factor_both_ways(self):
        self.assertIn("the same factor in 8 of the documents' 8 cases", self.page)
        hills = "| 0.9996653 | 1.0001989 | 0.9998642 | 0.9998641 | 0.99986413342817 |\n"
        self.assertIn(f"| the yard of `examples/hill_yard.txt`, at 7,000 feet {hills}", self.page)
        other = report.Factors("other", 9_996_653, 10_001_989)
        with mock.patch.object(report, "printed_factors", lambda: [other]):
            section = report.two_ways_section()
        self.assertIn("the same factor in 0 of the documents' 1 cases", section)

    def test_the_summary_counts_all(self):
        self.assertIn("of 16 traverses with 157 adjusted stations and of 199 single steps", self.page)
        self.assertIn("is +0.07 feet (The Minden loop, Lars to Lars, taped lengths: northing of 394)", self.page)


class Checking(unittest.TestCase):
    def setUp(self):
        folder = tempfile.TemporaryDirectory()
        self.addCleanup(folder.cleanup)
        self.path = Path(folder.name) / "DOCUMENTS.md"
        patch = mock.patch.object(report, "PAGE", self.path)
        patch.start()
        self.addCleanup(patch.stop)

    def test_a_page_just_written_passes(self):
        report.main("write")
        report.main("check")

    def test_a_changed_digit_is_found_with_its_line(self):
        report.main("write")
        lines = self.path.read_text(encoding="utf-8").split("\n")
        place = next(place for place, line in enumerate(lines) if line.startswith("| 324 |"))
        lines[place] = lines[place].replace(".74 ", ".75 ")
        self.path.write_text("\n".join(lines), encoding="utf-8")
        with self.assertRaisesRegex(SystemExit, f"from line {place + 1} on"):
            report.main("check")

    def test_a_missing_or_longer_page_is_found(self):
        with self.assertRaisesRegex(SystemExit, "from line 1 on"):
            report.main("check")
        report.main("write")
        self.path.write_text(self.path.read_text(encoding="utf-8") + "more\n", encoding="utf-8")
        with self.assertRaises(SystemExit):
            report.main("check")

    def test_anything_else_is_refused(self):
        with self.assertRaises(SystemExit):
            report.main("")


if __name__ == "__main__":
    unittest.main()
