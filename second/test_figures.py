"""When a printed figure is called equal to the desk's, and how they are counted."""

import unittest
from fractions import Fraction

from second.figures import Figure, Kind, by_kind, differing, tally

FEET = Kind("lengths", "feet", 3)
SECONDS = Kind("angles", "seconds", 1)


def figure(printed: int, decimals: int, desk: int, kind: Kind = FEET) -> Figure:
    return Figure(kind, "one", printed, decimals, desk)


class Equal(unittest.TestCase):
    def test_the_same_decimals(self):
        self.assertTrue(figure(1_234, 3, 1_234).equal)
        self.assertFalse(figure(1_235, 3, 1_234).equal)

    def test_fewer_printed_decimals_round_the_desk_away_from_zero(self):
        self.assertTrue(figure(110_323, 2, 1_103_225).equal)
        self.assertFalse(figure(110_322, 2, 1_103_225).equal)
        self.assertTrue(figure(-110_323, 2, -1_103_225).equal)

    def test_more_printed_decimals_are_rounded(self):
        self.assertTrue(figure(12_344, 4, 1_234).equal)
        self.assertFalse(figure(12_345, 4, 1_234).equal)

    def test_the_sign_counts(self):
        self.assertFalse(figure(-1_234, 3, 1_234).equal)


class Difference(unittest.TestCase):
    def test_in_the_last_decimal_that_either_has(self):
        self.assertEqual(figure(110_323, 2, 1_103_225).difference, 5)
        self.assertEqual(figure(12_345, 4, 1_234).difference, 5)
        self.assertEqual(figure(1_233, 3, 1_234).difference, -1)

    def test_size_in_whole_units(self):
        self.assertEqual(figure(110_323, 2, 1_103_225).size, Fraction(5, 1_000))
        self.assertEqual(figure(12_345, 4, 1_234).size, Fraction(5, 10_000))


class Counting(unittest.TestCase):
    def setUp(self):
        self.figures = [figure(1, 3, 1), figure(3, 3, 1), figure(-1, 3, 1), figure(2, 1, 1, SECONDS)]

    def test_tally(self):
        self.assertEqual(tally(self.figures), (4, 1, self.figures[3]))
        self.assertEqual(tally(self.figures[:3]), (3, 1, self.figures[1]))
        self.assertEqual(tally([]), (0, 0, None))
        self.assertEqual(differing(self.figures), self.figures[1:])

    def test_kinds_in_order(self):
        self.assertEqual(by_kind(self.figures), {FEET: self.figures[:3], SECONDS: self.figures[3:]})


if __name__ == "__main__":
    unittest.main()
