"""That the root by digits is the root, that every line of it keeps the rule, and that
docs/ROOT.md shows it so."""

import subprocess
import sys
import tempfile
import unittest
from contextlib import redirect_stderr, redirect_stdout
from io import StringIO
from math import isqrt
from pathlib import Path
from random import Random
from unittest import mock

from second import desk, documents, page, root, steps, tapes
from second.root import Closing, Line
from second.tape import Fields, write_tape

FOLDER = Path(__file__).resolve().parent.parent
LARGEST = 1_300_000_000**2 // 100
LARGEST_ROOT = 130_000_000

# Two workings, written out by hand.
OF_DOCUMENT = [
    Line(1, "1", 1, 0, 1, 1, 0),
    Line(59, "59", 59, 20, 2, 44, 15),
    Line(92, "92", 1_592, 240, 6, 1_476, 116),
    Line(18, "18", 11_618, 2_520, 4, 10_096, 1_522),
    Line(95, "95", 152_295, 25_280, 6, 151_716, 579),
]
OF_SHEET = [
    Line(3, "3", 3, 0, 1, 1, 2),
    Line(20, "20", 220, 20, 7, 189, 31),
    Line(0, "00", 3_100, 340, 8, 2_784, 316),
    Line(48, "48", 31_648, 3_560, 8, 28_544, 3_104),
    Line(0, "00", 310_400, 35_760, 8, 286_144, 24_256),
    Line(1, "01", 2_425_601, 357_760, 6, 2_146_596, 279_005),
]

PAPER_OF_DOCUMENT = """\
1  2  6  4  6
1 59 92 18 95
1               1 × 1
-
  59
  44            22 × 2
  --
  15 92
  14 76         246 × 6
  -----
   1 16 18
   1 00 96      2524 × 4
   -------
     15 22 95
     15 17 16   25286 × 6
     --------
         5 79
"""
SENTENCE_OF_DOCUMENT = (
    "C_N = -0.30 ft, C_E = +0.29 ft and S = 5,276.590 ft,\n"
    "so 5,276,590² / (100 × (30² + 29²)) = 159,921,895 and a rest, which is dropped.\n"
)
PAGE = """\
# A page

<!-- made by python3 -m second.root document -->
<!-- end -->

Between.

<!-- made by python3 -m second.root sheet -->
| old |
<!-- end -->

Below.
"""


def numbers() -> list[int]:
    """Small ones, any of every length, many with zeros in them, and the largest."""
    chance = Random(7)
    lengths = [chance.randint(1, 17) for _ in range(500)]
    of_any_length = [chance.randrange(10**length) for length in lengths]
    with_zeros = [int("".join(chance.choices("0009", k=length))) for length in lengths[:100]]
    return [*range(200), *of_any_length, *with_zeros, LARGEST]


def root_of(lines: list[Line]) -> int:
    return int("".join(str(line.digit) for line in lines))


def figure(row: str) -> int:
    """The number that stands in a row on paper."""
    return int(row.replace(" ", ""))


def ends(pairs: str) -> list[int]:
    """Where each pair of a number on paper ends."""
    return [place for place in range(1, len(pairs) + 1) if pairs[place:place + 1] in (" ", "")]


class Roots(unittest.TestCase):
    def test_every_small_number(self):
        for number in range(20_001):
            self.assertEqual(root.whole_root(number), isqrt(number), number)

    def test_squares_and_their_neighbours(self):
        chance = Random(1)
        for side in [1, 10, LARGEST_ROOT, *(chance.randint(2, LARGEST_ROOT) for _ in range(2_000))]:
            self.assertEqual(root.whole_root(side**2), side)
            self.assertEqual(root.whole_root(side**2 - 1), side - 1)
            self.assertEqual(root.whole_root(side**2 + 1), side)

    def test_largest_that_occurs_and_nothing(self):
        self.assertEqual(root.whole_root(LARGEST), isqrt(LARGEST))
        self.assertEqual(root.whole_root(LARGEST), LARGEST_ROOT)
        self.assertEqual(root.whole_root(0), 0)

    def test_negative_numbers_have_none(self):
        for number in (-1, -4, -LARGEST):
            with self.assertRaisesRegex(ValueError, "negative"):
                root.whole_root(number)
            with self.assertRaisesRegex(ValueError, "negative"):
                root.worked(number)


class Workings(unittest.TestCase):
    def test_by_hand(self):
        self.assertEqual(root.worked(159_921_895), OF_DOCUMENT)
        self.assertEqual(root.whole_root(159_921_895), 12_646)
        self.assertEqual(root.worked(32_000_480_001), OF_SHEET)
        self.assertEqual(root.whole_root(32_000_480_001), 178_886)

    def test_nothing_has_one_line(self):
        self.assertEqual(root.worked(0), [Line(0, "0", 0, 0, 0, 0, 0)])

    def test_pairs_are_set_off_from_the_right(self):
        for number, written in (
            (5, "5"), (50, "50"), (500, "5 00"), (10_005, "1 00 05"), (160_000, "16 00 00"),
        ):
            self.assertEqual([line.written for line in root.worked(number)], written.split())

    def test_pairs_joined_are_the_number(self):
        for number in numbers():
            lines = root.worked(number)
            self.assertEqual("".join(line.written for line in lines), str(number))
            self.assertEqual([len(line.written) for line in lines[1:]], [2] * (len(lines) - 1))
            for line in lines:
                self.assertEqual(line.pair, int(line.written))

    def test_digits_joined_are_the_root(self):
        for number in numbers():
            self.assertEqual(root_of(root.worked(number)), isqrt(number), number)

    def test_each_pair_is_brought_down_after_the_remainder(self):
        for number in numbers():
            lines = root.worked(number)
            self.assertEqual(lines[0].brought, lines[0].pair)
            for before, line in zip(lines, lines[1:]):
                self.assertEqual(line.brought, 100 * before.remainder + line.pair)

    def test_trial_divisor_is_twenty_times_the_root_so_far(self):
        for number in numbers():
            lines = root.worked(number)
            self.assertEqual(lines[0].divisor, 0)
            for done in range(1, len(lines)):
                self.assertEqual(lines[done].divisor, 20 * root_of(lines[:done]))

    def test_product_and_remainder(self):
        for number in numbers():
            for line in root.worked(number):
                self.assertEqual(line.product, (line.divisor + line.digit) * line.digit)
                self.assertEqual(line.remainder, line.brought - line.product)

    def test_each_digit_is_the_largest_that_can_be_taken_away(self):
        for number in numbers():
            for line in root.worked(number):
                self.assertIn(line.digit, range(10))
                self.assertGreaterEqual(line.remainder, 0)
                more = line.digit + 1
                self.assertTrue(more == 10 or (line.divisor + more) * more > line.brought, line)

    def test_square_and_remainder_make_the_number_so_far(self):
        for number in numbers():
            lines = root.worked(number)
            for done in range(1, len(lines) + 1):
                so_far = int("".join(line.written for line in lines[:done]))
                found = root_of(lines[:done])
                self.assertEqual(found**2 + lines[done - 1].remainder, so_far)

    def test_every_digit_occurs(self):
        found = {line.digit for number in numbers() for line in root.worked(number)}
        self.assertEqual(found, set(range(10)))


class Closings(unittest.TestCase):
    def closing_of(self, fields: Fields) -> Closing:
        answer = desk.traverse(write_tape(fields), desk.LEAST_WORDS)
        self.assertEqual(answer.number, 0)
        return Closing(answer.closure_north, answer.closure_east, sum(desk.grid_distances(fields)))

    def test_the_two_of_the_page_are_those_of_the_desk(self):
        self.assertEqual(self.closing_of(tapes.printed_fields()), root.SHEET)
        north, east, total = self.closing_of(documents.load("abcd_loop").fields)
        self.assertEqual(Closing(-north, -east, total), root.DOCUMENT)

    def test_numbers_and_rests(self):
        for closing, number in ((root.DOCUMENT, 159_921_895), (root.SHEET, 32_000_480_001)):
            found, rest = closing.divided()
            self.assertEqual(found, number)
            square = 100 * (closing.north**2 + closing.east**2)
            self.assertEqual(number * square + rest, closing.total**2)
            self.assertIn(rest, range(square))

    def test_the_working_ends_with_the_precision_number(self):
        chance = Random(2)
        for _ in range(300):
            closing = Closing(
                chance.randint(-26_000, 26_000), chance.choice((0, 1, -26_000)),
                chance.randint(1, 1_300_000_000),
            )
            precision = steps.precision_number(*closing).value
            self.assertTrue(root.work(closing).endswith(f"\nP = {precision}\n"))
        for closing in (root.DOCUMENT, root.SHEET, Closing(1, 0, 1), Closing(0, -1, 1_300_000_000)):
            precision = steps.precision_number(*closing).value
            self.assertTrue(root.work(closing).endswith(f"\nP = {precision}\n"))


class Printing(unittest.TestCase):
    def test_feet(self):
        for amount, decimals, text in (
            (5_276_590, 3, "5,276.590"), (5, 3, "0.005"), (1_300_000_000, 3, "1,300,000.000"),
            (-26_000, 2, "-260.00"), (-5, 2, "-0.05"),
        ):
            self.assertEqual(root.feet(amount, decimals), text)
        for amount, text in ((0, "+0.00"), (29, "+0.29"), (-30, "-0.30"), (-1, "-0.01")):
            self.assertEqual(root.closure(amount), text)

    def test_sentence(self):
        self.assertEqual(root.sentence(root.DOCUMENT), SENTENCE_OF_DOCUMENT)
        self.assertEqual(
            root.sentence(Closing(-2_000, 0, 1_300_000_000)),
            "C_N = -20.00 ft, C_E = +0.00 ft and S = 1,300,000.000 ft,\n"
            "so 1,300,000,000² / (100 × (2,000² + 0²)) = 4,225,000,000.\n",
        )

    def test_paper(self):
        self.assertEqual(root.paper(OF_DOCUMENT), PAPER_OF_DOCUMENT)

    def test_paper_with_pairs_of_zeros(self):
        self.assertEqual(root.paper(root.worked(10_005)), (
            "1  0  0\n"
            "1 00 05\n"
            "1         1 × 1\n"
            "-\n"
            "  00\n"
            "   0      20 × 0\n"
            "  --\n"
            "     05\n"
            "      0   200 × 0\n"
            "     --\n"
            "      5\n"
        ))
        self.assertEqual(root.paper(root.worked(0)), "0\n0\n0   0 × 0\n-\n0\n")

    def test_paper_with_a_first_pair_of_two_digits(self):
        self.assertEqual(root.paper(root.worked(2_500)), (
            " 5  0\n"
            "25 00\n"
            "25      5 × 5\n"
            "--\n"
            "   00\n"
            "    0   100 × 0\n"
            "   --\n"
            "    0\n"
        ))

    def test_root_and_number_on_paper(self):
        for number in numbers():
            lines = root.worked(number)
            digits, pairs = root.paper(lines).splitlines()[:2]
            self.assertEqual(pairs.split(), [line.written for line in lines])
            self.assertEqual(
                [digits[end - 1] for end in ends(pairs)], [str(line.digit) for line in lines])
            self.assertEqual(len(digits), len(pairs))

    def test_figures_on_paper_stand_under_their_pairs(self):
        for number in numbers():
            lines = root.worked(number)
            pairs, *below, last = root.paper(lines).splitlines()[1:]
            rows = [lines[0].written, *below]
            self.assertEqual(len(rows), 3 * len(lines))
            self.assertEqual(len(last), len(pairs))
            self.assertEqual(figure(last), number - isqrt(number)**2)
            for line, end, *three in zip(lines, ends(pairs), rows[0::3], rows[1::3], rows[2::3]):
                brought, product, rule = three
                self.assertEqual(len(brought), end)
                self.assertEqual(figure(brought), line.brought)
                self.assertEqual(figure(product[:end]), line.product)
                note = f"{line.divisor + line.digit} × {line.digit}"
                self.assertEqual(product[end:].strip(), note)
                self.assertEqual(rule, ("-" * len(brought.strip())).rjust(end))
                for gap in ends(pairs[:end])[:-1]:
                    self.assertEqual(brought[gap] + product[gap], "  ")

    def test_table(self):
        head, rule, *rows = root.table(OF_SHEET).splitlines()
        self.assertEqual(
            head, "| pair | brought down | trial divisor | digit | taken away | remainder |")
        self.assertEqual(len(rows), len(OF_SHEET))
        self.assertEqual(rows[0], "| 3 | 3 | 0 | 1 | (0 + 1) × 1 = 1 | 2 |")
        self.assertEqual(rows[2], "| 00 | 3,100 | 340 | 8 | (340 + 8) × 8 = 2,784 | 316 |")
        self.assertEqual(
            rows[5], "| 01 | 2,425,601 | 357,760 | 6 | (357,760 + 6) × 6 = 2,146,596 | 279,005 |")

    def test_section(self):
        made = f"{SENTENCE_OF_DOCUMENT}\n```\n{PAPER_OF_DOCUMENT}```\n\n{root.table(OF_DOCUMENT)}"
        self.assertEqual(root.document(), made)
        self.assertIn(root.paper(OF_SHEET), root.sheet())
        self.assertIn(root.table(OF_SHEET), root.sheet())


class Commands(unittest.TestCase):
    def printed(self, *arguments: str) -> str:
        out = StringIO()
        with redirect_stdout(out):
            root.main(arguments)
        return out.getvalue()

    def refusal(self, *arguments: str) -> str:
        out, err = StringIO(), StringIO()
        with self.assertRaises(SystemExit) as ended, redirect_stdout(out), redirect_stderr(err):
            root.main(arguments)
        self.assertEqual((ended.exception.code, out.getvalue()), (2, ""))
        return err.getvalue()

    def test_sections(self):
        self.assertEqual(self.printed("document"), root.document())
        self.assertEqual(self.printed("sheet"), root.sheet())

    def test_work(self):
        made = f"{SENTENCE_OF_DOCUMENT}\n{PAPER_OF_DOCUMENT}\nP = 12646\n"
        self.assertEqual(self.printed("work", "-0.30", "+0.29", "5276.590"), made)
        self.assertEqual(self.printed("work", "-0.3", "0.29", "5276.59"), made)

    def test_closures_stand_in_their_order(self):
        printed = self.printed("work", "+2.00", "-0.01", "99999")
        self.assertTrue(printed.startswith("C_N = +2.00 ft, C_E = -0.01 ft and S = 99,999.000 ft,"))
        self.assertIn(" 99,999,000² / (100 × (200² + 1²)) = ", printed)

    def test_nothing_to_close(self):
        for zero in ("+0.00", "-0.00", "0"):
            self.assertEqual(self.printed("work", zero, "+0.00", "4000.030"), "P = 0\n")

    def test_ends_of_the_ranges(self):
        self.assertTrue(self.printed("work", "-260.00", "+260.00", "0.001").endswith("\nP = 0\n"))
        most = self.printed("work", "+0.01", "+0.00", "1300000.000")
        self.assertTrue(most.endswith("\nP = 130000000\n"))

    def test_bad_closures_and_distances(self):
        for closure in ("", "-", "x", "0.301", "0,30", ".30", "0.", "--1", "1e1", " 1", "1\n", "٣",
                        "260.01", "-260.01", "9" * 5_000):
            for arguments in ((closure, "+0.29"), ("+0.29", closure)):
                self.assertIn(
                    "ing is -260.00 to 260.00 feet, with at most 2 decimals, not: ",
                    self.refusal("work", *arguments, "5276.590"))
        self.assertIn("closure in northing", self.refusal("work", "x", "+0.29", "5276.590"))
        self.assertIn("closure in easting", self.refusal("work", "-0.30", "x", "5276.590"))
        for total in ("", "x", "0", "0.000", "-1.000", "5,276.590", "1.0001", "1300000.001"):
            for closure in ("-0.30", "0.00"):
                self.assertIn(
                    "distances is 0.001 to 1,300,000.000 feet, with at most 3 decimals, not: ",
                    self.refusal("work", closure, "0.00", total))

    def test_bad_commands(self):
        for arguments in (
            (), ("",), ("other",), ("document", "sheet"), ("check", "x"), ("write", "x"),
        ):
            self.assertEqual(self.refusal(*arguments), root.USAGE + "\n")
        for arguments in ((), ("1", "2"), ("1", "2", "3", "4")):
            self.assertIn("NORTH EAST S", self.refusal("work", *arguments))

    def test_as_a_program(self):
        def program(*arguments: str) -> subprocess.CompletedProcess:
            return subprocess.run(
                [sys.executable, "-m", "second.root", *arguments],
                capture_output=True, cwd=FOLDER, encoding="utf-8",
            )

        done = program("work", "-0.01", "+0.02", "4000.030")
        self.assertEqual((done.returncode, done.stderr), (0, ""))
        self.assertEqual(done.stdout, root.work(root.SHEET))
        done = program("work", "-0.01", "+0.02")
        self.assertEqual((done.returncode, done.stdout), (2, ""))
        self.assertEqual(len(done.stderr.splitlines()), 1)


class Page(unittest.TestCase):
    """A page of its own in a folder that is thrown away."""

    def setUp(self):
        folder = tempfile.TemporaryDirectory()
        self.addCleanup(folder.cleanup)
        self.page = Path(folder.name) / "ROOT.md"
        patched = mock.patch.object(root, "PAGE", self.page)
        patched.start()
        self.addCleanup(patched.stop)
        self.page.write_text(PAGE, encoding="utf-8")

    def faults(self) -> str:
        """What check says; a text as the code of an exit makes the status 1."""
        with self.assertRaises(SystemExit) as ended:
            root.main(["check"])
        self.assertIsInstance(ended.exception.code, str)
        return ended.exception.code

    def test_written_page_passes_and_keeps_the_rest(self):
        root.main(["write"])
        root.main(["check"])
        text = self.page.read_text(encoding="utf-8")
        self.assertIn(root.document(), text)
        self.assertIn(root.sheet(), text)
        self.assertTrue(text.startswith("# A page\n") and text.endswith("\n\nBelow.\n"))
        self.assertIn("<!-- end -->\n\nBetween.\n\n<!-- made by", text)
        self.assertNotIn("| old |", text)

    def test_written_again_it_is_the_same(self):
        root.main(["write"])
        once = self.page.read_text(encoding="utf-8")
        root.main(["write"])
        self.assertEqual(self.page.read_text(encoding="utf-8"), once)

    def test_each_stale_part_is_named(self):
        faults = self.faults()
        for part in ("root document makes", "root sheet makes", "python3 -m second.root write"):
            self.assertIn(part, faults)

    def test_one_changed_figure_is_found(self):
        root.main(["write"])
        text = self.page.read_text(encoding="utf-8")
        for right, wrong in (("| 1,592 |", "| 1,593 |"), ("15 17 16", "15 17 17")):
            self.assertEqual(text.count(right), 1)
            self.page.write_text(text.replace(right, wrong), encoding="utf-8")
            faults = self.faults()
            self.assertIn("docs/ROOT.md: not what python3 -m second.root document makes", faults)
            self.assertNotIn("sheet", faults)

    def test_missing_and_double_sections_are_found(self):
        root.main(["write"])
        text = self.page.read_text(encoding="utf-8")
        self.page.write_text(text.replace("<!-- end -->\n", "", 1), encoding="utf-8")
        self.assertIn("0 sections marked as made by python3 -m second.root document", self.faults())
        self.page.write_text(text + text, encoding="utf-8")
        self.assertIn("2 sections marked as made by python3 -m second.root sheet", self.faults())
        self.page.unlink()
        self.assertIn("docs/ROOT.md: 0 sections", self.faults())

    def test_sections_of_another_maker_are_left(self):
        with self.assertRaises(ValueError):
            page.filled(PAGE, "second.corner", "sheet", "made\n")
        text = page.filled(PAGE, "second.root", "sheet", "made\n")
        self.assertEqual(text, PAGE.replace("| old |\n", "\nmade\n\n"))


if __name__ == "__main__":
    unittest.main()
