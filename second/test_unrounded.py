"""How far the sheet's corners stand from the unrounded ones (the customer's third demand)."""

import unittest
from fractions import Fraction

from second.desk import traverse
from second.tape import read_tape, write_tape
from second.tapes import accepted, printed_fields
from second.unrounded import bound, unrounded


class Bound(unittest.TestCase):
    def test_more_legs_on_one_side_count(self):
        half = Fraction(1, 2)
        expected = [0, Fraction(165, 100) + half, Fraction(110, 100) + half, Fraction(165, 100) + half, 0]
        self.assertEqual([bound(4, station) for station in range(5)], expected)

    def test_sixty_four_legs(self):
        self.assertEqual(bound(64, 1), bound(64, 63))
        self.assertEqual(bound(64, 1), Fraction(3_515, 100))
        self.assertEqual(bound(64, 32), Fraction(1_810, 100))


class Corners(unittest.TestCase):
    def hold(self, tape: bytes) -> bool:
        """Compare every station of an accepted tape; whether it was accepted."""
        answer = traverse(tape, 130)
        if answer.number:
            return False
        exact = unrounded(read_tape(tape).fields)
        for station, (sheet, corner) in enumerate(zip(answer.coordinates, exact, strict=True)):
            for on_sheet, unrounded_one in zip(sheet, corner):
                self.assertLessEqual(abs(on_sheet - unrounded_one), bound(answer.legs, station))
        return True

    def test_printed_tape(self):
        self.assertTrue(self.hold(write_tape(printed_fields())))

    def test_random_tapes(self):
        held = sum(self.hold(accepted(seed)) for seed in range(200))
        self.assertGreater(held, 120)

    def test_ends_are_fixed_without_rounding_too(self):
        fields = printed_fields()
        corners = unrounded(fields)
        self.assertEqual(corners[0], fields.start[:2])
        self.assertEqual(corners[-1], fields.close[1:3])

    def test_corner_of_the_printed_sheet(self):
        north, east = unrounded(printed_fields())[2]
        self.assertLess(abs(north - 5_100_001), 1)
        self.assertLess(abs(east - 200_100_001), 1)
        self.assertNotEqual(north.denominator, 1)


if __name__ == "__main__":
    unittest.main()
