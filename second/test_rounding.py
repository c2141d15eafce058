"""docs/RULES.md, "Units and nearest": nearest, a half going away from zero."""

import unittest
from fractions import Fraction

from second.rounding import nearest


class Nearest(unittest.TestCase):
    def test_halves_go_away_from_zero(self):
        halves = {1: 1, 3: 2, 5: 3, -1: -1, -3: -2, -5: -3}
        for twice, whole in halves.items():
            self.assertEqual(nearest(Fraction(twice, 2)), whole)

    def test_others_go_to_the_nearest(self):
        for amount, whole in (("1/3", 0), ("2/3", 1), ("-1/3", 0), ("-2/3", -1), ("0", 0), ("-7", -7)):
            self.assertEqual(nearest(Fraction(amount)), whole)

    def test_just_beside_a_half(self):
        little = Fraction(1, 10**30)
        self.assertEqual(nearest(Fraction(5, 2) - little), 2)
        self.assertEqual(nearest(little - Fraction(5, 2)), -2)

    def test_distance_is_at_most_a_half_and_sign_does_not_matter(self):
        for numerator in range(-200, 201):
            amount = Fraction(numerator, 7)
            self.assertLessEqual(abs(amount - nearest(amount)), Fraction(1, 2))
            self.assertEqual(nearest(-amount), -nearest(amount))


if __name__ == "__main__":
    unittest.main()
