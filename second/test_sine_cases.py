"""The angles that another program's sines are compared at."""

import unittest

from second import sine_cases
from second.ranges import CIRCLE, QUADRANT


class Cases(unittest.TestCase):
    @classmethod
    def setUpClass(cls):
        cls.cases = sine_cases.cases()

    def test_ten_thousand_in_all_quadrants(self):
        self.assertEqual(len(self.cases), 10_000)
        taken = [angle for angle in self.cases if angle < CIRCLE]
        for quadrant in range(4):
            self.assertGreater(sum(angle // QUADRANT == quadrant for angle in taken), 2_000)

    def test_ends_and_refused_ones(self):
        self.assertLessEqual({0, 1, QUADRANT, CIRCLE - 1, CIRCLE, (1 << 32) - 1}, set(self.cases))
        self.assertGreaterEqual(sum(angle >= CIRCLE for angle in self.cases), 100)

    def test_whole_minutes_their_neighbours_and_halves(self):
        for rest in (0, 1, 599, 300):
            self.assertGreater(sum(angle % 600 == rest for angle in self.cases), 1_000)

    def test_answers(self):
        self.assertEqual(sine_cases.expected(0), 2 * "0 0 0\n0 0 1000000000\n")
        self.assertEqual(sine_cases.expected(7 * QUADRANT // 3), 2 * "0 0 -500000000\n0 0 -866025404\n")
        self.assertEqual(sine_cases.expected(CIRCLE), 4 * "4 0 0\n")


if __name__ == "__main__":
    unittest.main()
