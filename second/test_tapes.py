"""That the made tapes are what they are made for."""

import unittest

from second import desk, tapes
from second.tape import read_tape
from second.tapes import accepted, damaged, longest, printed_fields

SEEDS = range(300)


class Closing(unittest.TestCase):
    @classmethod
    def setUpClass(cls):
        cls.tapes = [accepted(seed) for seed in SEEDS]
        cls.readings = [read_tape(tape).fields for tape in cls.tapes]
        cls.answers = [desk.traverse(tape, 130) for tape in cls.tapes]
        cls.taken = [answer for answer in cls.answers if answer.number == 0]

    def test_same_tapes_on_every_run(self):
        self.assertEqual([accepted(seed) for seed in range(20)], self.tapes[:20])

    def test_accepted_or_at_a_limit(self):
        numbers = [answer.number for answer in self.answers]
        self.assertEqual(set(numbers), {0, 8, 9})
        self.assertGreater(numbers.count(0), len(numbers) // 2)

    def test_misclosures_inside_at_and_just_past_the_limit(self):
        past = [abs(desk.misclosure(fields)) - 100 * (len(fields.legs) + 1) for fields in self.readings]
        self.assertIn(0, past)
        self.assertIn(1, past)
        self.assertLess(min(past), -100)
        self.assertEqual(max(past), 1)

    def test_closures_near_the_limit(self):
        self.assertTrue(any(49_999 < 10 * a.precision < 50_100 for a in self.taken))
        self.assertTrue(any(a.precision == 0 for a in self.taken))

    def test_lines_and_loops_both_ways_round(self):
        self.assertEqual({a.loop for a in self.taken}, {False, True})
        areas = [a.doubled_area for a in self.taken if a.loop]
        self.assertLess(min(areas), 0)
        self.assertGreater(max(areas), 0)

    def test_leg_and_row_counts(self):
        self.assertLessEqual({1, 2, 3, 4, 64}, {a.legs for a in self.taken})
        self.assertLessEqual({1, 2, 3, 600}, {len(fields.rows) for fields in self.readings})

    def test_all_quadrants_and_elevations(self):
        azimuths = {azimuth for fields in self.readings for azimuth in desk.balanced_azimuths(fields)}
        self.assertEqual({azimuth // 3_240_000 for azimuth in azimuths}, {0, 1, 2, 3})
        self.assertLessEqual({0, 3_240_000, 6_480_000, 9_720_000}, azimuths)
        elevations = {fields.project.elevation for fields in self.readings}
        self.assertLessEqual({-1_000, 20_000}, elevations)

    def test_coordinates_at_both_ends(self):
        fixed = {c for fields in self.readings for c in (*fields.start[:2], *fields.close[1:3])}
        self.assertLessEqual({0, 1_000_000_000}, fixed)
        self.assertTrue(any(c < 0 for a in self.taken for point in a.coordinates for c in point))


class Damaged(unittest.TestCase):
    def test_every_refusal_of_the_reading_is_there(self):
        tapes = list(damaged())
        self.assertEqual({read_tape(tape).number for tape in tapes}, {0, 2, 3, 4, 5, 6, 7})
        self.assertIn(b"", tapes)

    def test_same_tapes_on_every_run(self):
        self.assertEqual(list(damaged()), list(damaged()))

    def test_longest_tape_reads(self):
        tape = longest(printed_fields())
        fields = read_tape(tape).fields
        self.assertEqual((len(fields.rows), len(fields.legs)), (600, 64))


def numbers(made) -> list[int]:
    return [desk.traverse(tape, 130).number for tape in made]


class Edges(unittest.TestCase):
    def test_every_leg_count(self):
        answers = [desk.traverse(tape, 130) for tape in tapes.every_leg_count()]
        self.assertEqual({a.legs for a in answers if not a.loop}, set(range(1, 65)))
        self.assertEqual({a.legs for a in answers if a.loop}, set(range(2, 65)))

    def test_at_both_limits(self):
        made = numbers(tapes.at_both_limits())
        # of 7 misclosures 2 are past, of 9 closures 4; the misclosure is tried first
        self.assertEqual([made.count(n) for n in (0, 8, 9)], [4 * 5 * 5, 4 * 2 * 9, 4 * 5 * 4])

    def test_closures_just_at_the_limit(self):
        for north, east in tapes.closures_about(20)[1:5]:
            self.assertEqual(north**2 + east**2, 400)
        for north, east in tapes.closures_about(20)[5:]:
            self.assertGreater(north**2 + east**2, 400)

    def test_misclosures_all_round(self):
        found = [desk.misclosure(read_tape(tape).fields) for tape in tapes.misclosures_all_round()]
        self.assertEqual(found, [6_480_000, 6_479_999, -6_479_999, 3_240_000, -3_240_000, -500, -501])
        self.assertEqual(numbers(tapes.misclosures_all_round()), [8, 8, 8, 8, 8, 0, 8])

    def test_elevations_and_rows(self):
        self.assertEqual(set(numbers(tapes.elevations_and_factors())), {0})
        elevations = {read_tape(tape).fields.project.elevation for tape in tapes.elevations_and_factors()}
        self.assertLessEqual({-1_000, -1, 0, 20_000}, elevations)
        made = numbers(tapes.row_counts())
        self.assertEqual(made, [7] + [0] * (len(made) - 1))

    def test_several_faults(self):
        made = numbers(tapes.several_faults())
        self.assertEqual(set(made), set(range(2, 10)))
        self.assertEqual(len(made), 12 + 66 + 220)


if __name__ == "__main__":
    unittest.main()
