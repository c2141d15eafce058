"""docs/RULES.md, "Sines", and the sines of its "Figures on both sides"."""

import unittest
from fractions import Fraction
from math import factorial
from random import Random

from second import sines
from second.ranges import CIRCLE, HALF_CIRCLE, QUADRANT

DEGREE = CIRCLE // 360


class Figures(unittest.TestCase):
    def test_whole_degrees(self):
        self.assertEqual([sines.sine(d * DEGREE) for d in (0, 30, 90)], [0, 500_000_000, 1_000_000_000])

    def test_one_minute(self):
        self.assertEqual(sines.sine(600), 290_888)

    def test_between_minutes(self):
        self.assertEqual([sines.sine(1), sines.sine(300)], [485, 145_444])


class Exact(unittest.TestCase):
    def test_series_stop_at_the_19th_and_the_20th_power(self):
        x = sines.radians(1_234_567)
        sine = sum((-1) ** k * x ** (2 * k + 1) / factorial(2 * k + 1) for k in range(10))
        cosine = sum((-1) ** k * x ** (2 * k) / factorial(2 * k) for k in range(11))
        self.assertEqual(sines.sine_series(x), sine)
        self.assertEqual(sines.cosine_series(x), cosine)

    def test_45_degrees_by_the_sine_series_and_above_by_the_cosine_series(self):
        at = sines.radians(45 * DEGREE)
        self.assertEqual(sines.exact_sine(45 * DEGREE), sines.sine_series(at))
        above = sines.radians(45 * DEGREE - 1)
        self.assertEqual(sines.exact_sine(45 * DEGREE + 1), sines.cosine_series(above))

    def test_quarters(self):
        quarters = [sines.exact_sine(q * QUADRANT) for q in range(5)]
        self.assertEqual(quarters, [0, 1, 0, -1, 0])
        self.assertEqual([sines.exact_cosine(q * QUADRANT) for q in range(4)], [1, 0, -1, 0])

    def test_squares_add_to_one(self):
        for angle in range(0, CIRCLE, 654_321):
            squares = sines.exact_sine(angle) ** 2 + sines.exact_cosine(angle) ** 2
            self.assertLess(abs(squares - 1), Fraction(1, 10**19))


class Table(unittest.TestCase):
    def test_5401_rising_entries(self):
        table = sines.table()
        self.assertEqual(len(table), 5_401)
        self.assertTrue(all(low < high for low, high in zip(table, table[1:])))

    def test_each_entry_is_the_nearest(self):
        for minute, entry in enumerate(sines.table()):
            exact = sines.UNIT * sines.exact_sine(600 * minute)
            self.assertLessEqual(abs(entry - exact), Fraction(1, 2), minute)


class Interpolated(unittest.TestCase):
    def test_whole_minutes_are_entries(self):
        self.assertEqual([sines.sine(600 * m) for m in range(0, 5_401, 9)], list(sines.table()[::9]))

    def test_quadrants_fold(self):
        chance = Random(7)
        for _ in range(300):
            angle = chance.randrange(QUADRANT + 1)
            sine = sines.sine(angle)
            self.assertEqual(sines.sine(HALF_CIRCLE - angle), sine)
            self.assertEqual(sines.sine(HALF_CIRCLE + angle), -sine)
            self.assertEqual(sines.sine((CIRCLE - angle) % CIRCLE), -sine)
            self.assertEqual(sines.cosine(QUADRANT - angle), sine)

    def test_cosine_is_the_sine_a_quarter_on(self):
        for angle in range(0, CIRCLE, 77_777):
            self.assertEqual(sines.cosine(angle), sines.sine((angle + QUADRANT) % CIRCLE))

    def test_within_20_units_of_the_exact_one(self):
        chance = Random(8)
        middles = [600 * minute + 300 for minute in range(0, 5_400, 9)]
        anywhere = [chance.randrange(CIRCLE) for _ in range(600)]
        for angle in middles + anywhere:
            exact = sines.UNIT * sines.exact_sine(angle)
            self.assertLessEqual(abs(sines.sine(angle) - exact), 20, angle)


if __name__ == "__main__":
    unittest.main()
