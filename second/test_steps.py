"""The arithmetic steps of the rules: their figures, their slips and every range."""

import unittest
from random import Random

from second import steps

DEGREE = 36_000
REFUSED = (4, 0, 0)


def angle(degrees: int, minutes: int, tenths: int) -> int:
    return DEGREE * degrees + 600 * minutes + tenths


class Distances(unittest.TestCase):
    def test_sea_level_factors(self):
        factors = {950: 9_999_546, 1_952: 9_999_066, 1_235: 9_999_409, -1_000: 10_000_478, 0: 10_000_000}
        for elevation, factor in factors.items():
            self.assertEqual(steps.sea_level_factor(elevation), (0, 0, factor))

    def test_combined_factor_of_document_002(self):
        self.assertEqual(steps.combined_factor(9_999_546, 9_999_412), (0, 0, 9_998_958))

    def test_combined_factor_in_the_hills(self):
        self.assertEqual(steps.sea_level_factor(7_000), (0, 0, 9_996_653))
        self.assertEqual(steps.combined_factor(9_996_653, 10_001_989), (0, 0, 9_998_641))

    def by_the_sum(self, sea_level: int, scale: int) -> bool:
        """Whether the sum less one is the same factor."""
        return steps.combined_factor(sea_level, scale).value == sea_level + scale - 10_000_000

    def test_where_the_sum_less_one_is_another_factor(self):
        chance = Random(7)
        for _ in range(2_000):
            sea_level, scale = (chance.randint(9_990_000, 10_010_000) for _ in range(2))
            departures = (sea_level - 10_000_000) * (scale - 10_000_000)
            same = self.by_the_sum(sea_level, scale)
            self.assertEqual(same, -5_000_000 <= departures < 5_000_000, (sea_level, scale))

    def test_how_high_that_begins_with_rows_within_2_in_10000(self):
        def same(elevation: int) -> bool:
            sea_level = steps.sea_level_factor(elevation).value
            return all(self.by_the_sum(sea_level, scale) for scale in (9_998_000, 10_002_000))

        self.assertTrue(all(map(same, range(-1_000, 5_227))))
        self.assertFalse(same(5_227))

    def test_combined_factor_at_a_half(self):
        self.assertEqual(steps.combined_factor(9_995_000, 9_999_000), (0, 0, 9_994_001))
        self.assertEqual(steps.combined_factor(9_995_000, 10_001_000), (0, 0, 9_996_000))

    def test_combined_factors_are_what_the_distance_step_takes(self):
        low, high = 9_990_000, 10_010_000
        corners = ((low, low, 9_980_010), (low, high, 9_999_990), (high, high, 10_020_010))
        for sea_level, scale, factor in corners:
            self.assertEqual(steps.combined_factor(sea_level, scale), (0, 0, factor))
            self.assertEqual(steps.grid_distance(10_000_000, factor), (0, 0, factor))

    def test_grid_distance_rounds_to_the_nearest_thousandth(self):
        self.assertEqual(steps.grid_distance(1_000_500, 9_990_000), (0, 0, 999_500))
        self.assertEqual(steps.grid_distance(1_000_501, 9_990_000), (0, 0, 999_500))
        self.assertEqual(steps.grid_distance(1_000_000, 10_000_000), (0, 0, 1_000_000))


class Azimuths(unittest.TestCase):
    def test_first_and_next(self):
        self.assertEqual(steps.first_azimuth(350 * DEGREE, 20 * DEGREE).value, 10 * DEGREE)
        self.assertEqual(steps.next_azimuth(10 * DEGREE, 20 * DEGREE).value, 210 * DEGREE)
        self.assertEqual(steps.next_azimuth(200 * DEGREE, 350 * DEGREE).value, 10 * DEGREE)

    def test_misclosure_past_zero(self):
        self.assertEqual(steps.misclosure(12_959_999, 0), (0, 0, -1))
        self.assertEqual(steps.misclosure(0, 12_959_999), (0, 0, 1))

    def test_misclosure_of_half_a_circle_is_positive(self):
        self.assertEqual(steps.misclosure(6_480_000, 0).value, 6_480_000)
        self.assertEqual(steps.misclosure(0, 6_480_000).value, 6_480_000)
        self.assertEqual(steps.misclosure(6_480_001, 0).value, -6_479_999)

    def test_limit_for_four_legs(self):
        for w, passes in ((500, 1), (501, 0), (-500, 1), (-501, 0), (0, 1), (-6_480_000, 0)):
            self.assertEqual(steps.misclosure_passes(w, 4), (0, 0, passes), w)

    def test_shares_of_the_misclosure_run_up_to_it(self):
        self.assertEqual([steps.angle_share(5, 4, j).value for j in range(6)], [0, 1, 2, 3, 4, 5])
        self.assertEqual([steps.angle_share(-2, 3, j).value for j in range(5)], [0, -1, -1, -2, -2])

    def test_balanced_azimuth(self):
        self.assertEqual(steps.balanced_azimuth(3, 5).value, 12_959_998)
        self.assertEqual(steps.balanced_azimuth(12_959_998, -5).value, 3)


class Legs(unittest.TestCase):
    def test_legs_of_document_000(self):
        for azimuth, distance, north, east in (
            (angle(208, 33, 597), 5_387_658, 473_178, 257_627),
            (angle(268, 10, 582), 5_190_741, 16_460, 518_813),
        ):
            self.assertEqual(steps.latitude(distance, azimuth), (0, 0, north))
            self.assertEqual(steps.departure(distance, azimuth), (0, 0, east))

    def test_south_and_west_are_as_long_as_north_and_east(self):
        chance = Random(3)
        for _ in range(300):
            distance, azimuth = chance.randint(0, 20_100_000), chance.randrange(6_480_000)
            for step in (steps.latitude, steps.departure):
                there, back = step(distance, azimuth), step(distance, azimuth + 6_480_000)
                self.assertEqual(there.value, -back.value)

    def test_a_half_hundredth_south_is_not_cut_off(self):
        self.assertEqual(steps.latitude(1_005, 0).value, -101)
        self.assertEqual(steps.latitude(1_005, 180 * DEGREE).value, 101)
        self.assertEqual(steps.departure(1_005, 90 * DEGREE).value, -101)

    def test_azimuths_are_not_from_north(self):
        self.assertEqual(steps.latitude(1_000_000, 0).value, -100_000)
        self.assertEqual(steps.departure(1_000_000, 90 * DEGREE).value, -100_000)
        self.assertEqual(steps.departure(1_000_000, 270 * DEGREE).value, 100_000)


class Closure(unittest.TestCase):
    def test_limit_at_four_thousand_feet(self):
        for north, east, passes in ((80, 0, 1), (80, 1, 0), (-80, 0, 1), (0, -80, 1), (1, -80, 0)):
            self.assertEqual(steps.closure_passes(north, east, 4_000_030), (0, 0, passes))

    def test_exactly_at_the_limit_passes(self):
        self.assertEqual(steps.closure_passes(3, 4, 250_000).value, 1)
        self.assertEqual(steps.closure_passes(3, 4, 249_999).value, 0)

    def test_shares_of_two_over_three_equal_legs(self):
        shares = [steps.closure_share(2, part, 3).value for part in (1, 2, 3)]
        self.assertEqual(shares, [1, 1, 2])

    def test_legs_rounded_by_themselves_would_not_add_up(self):
        by_itself = steps.closure_share(2, 1, 3).value
        self.assertEqual([by_itself] * 3, [1, 1, 1])
        self.assertNotEqual(3 * by_itself, steps.closure_share(2, 3, 3).value)

    def test_negative_share_is_not_cut_towards_zero(self):
        self.assertEqual(steps.closure_share(-30, 2_636_200, 5_276_590), (0, 0, -15))

    def test_precision_of_document_002_and_of_the_printed_sheet(self):
        self.assertEqual(steps.precision_number(-30, 29, 5_276_590), (0, 0, 12_646))
        self.assertEqual(steps.precision_number(-1, 2, 4_000_030), (0, 0, 178_886))

    def test_precision_is_the_largest(self):
        chance = Random(4)
        for _ in range(300):
            north, east = chance.randint(-26_000, 26_000), chance.randint(1, 26_000)
            total = chance.randint(1, 1_300_000_000)
            p = steps.precision_number(north, east, total).value
            length_squared = 100 * (north**2 + east**2)
            self.assertLessEqual(p**2 * length_squared, total**2)
            self.assertGreater((p + 1) ** 2 * length_squared, total**2)

    def test_precision_of_a_perfect_closure(self):
        self.assertEqual(steps.precision_number(0, 0, 4_000_030), (0, 0, 0))


class Areas(unittest.TestCase):
    def test_clockwise_is_positive(self):
        square = [0, 0, 10, 0, 10, 10, 0, 10]
        self.assertEqual(steps.doubled_area(square), (0, 0, 200))
        anticlockwise = [0, 0, 0, 10, 10, 10, 10, 0]
        self.assertEqual(steps.doubled_area(anticlockwise), (0, 0, -200))

    def test_origin_does_not_matter(self):
        self.assertEqual(steps.doubled_area([-7, 3, 3, 3, 3, 13, -7, 13]), (0, 0, 200))

    def test_few_stations_have_no_area(self):
        self.assertEqual(steps.doubled_area([5, 6]), (0, 0, 0))
        self.assertEqual(steps.doubled_area([5, 6, -9, 70]), (0, 0, 0))

    def test_words_that_are_no_stations(self):
        for words in ([], [1], [1, 2, 3], [0] * 130):
            self.assertEqual(steps.doubled_area(words), REFUSED)
        self.assertEqual(steps.doubled_area([0] * 128), (0, 0, 0))

    def test_offsets_in_range(self):
        for place in range(4):
            for edge in (-130_000_000, 130_000_000):
                words = [0, 0, 0, 0]
                words[place] = edge
                self.assertEqual(steps.doubled_area(words).number, 0)
                words[place] = edge + (1 if edge > 0 else -1)
                self.assertEqual(steps.doubled_area(words), REFUSED)


# Each step, and for each of its inputs the least and the most it takes.
RANGES = (
    (steps.sea_level_factor, (-1_000, 20_000)),
    (steps.combined_factor, (9_990_000, 10_010_000), (9_990_000, 10_010_000)),
    (steps.grid_distance, (1_000, 20_000_000), (9_980_000, 10_020_010)),
    (steps.sine, (0, 12_959_999)),
    (steps.cosine, (0, 12_959_999)),
    (steps.first_azimuth, (0, 12_959_999), (0, 12_959_999)),
    (steps.next_azimuth, (0, 12_959_999), (0, 12_959_999)),
    (steps.misclosure, (0, 12_959_999), (0, 12_959_999)),
    (steps.misclosure_passes, (-6_480_000, 6_480_000), (1, 64)),
    (steps.balanced_azimuth, (0, 12_959_999), (-6_480_000, 6_480_000)),
    (steps.latitude, (0, 20_100_000), (0, 12_959_999)),
    (steps.departure, (0, 20_100_000), (0, 12_959_999)),
    (steps.closure_passes, *[(-1_200_000_000, 1_200_000_000)] * 2, (1, 1_300_000_000)),
    (steps.precision_number, *[(-26_000, 26_000)] * 2, (1, 1_300_000_000)),
)


class Ranges(unittest.TestCase):
    def test_each_input_at_its_bounds_and_one_beyond(self):
        for step, *bounds in RANGES:
            inside = [low for low, _ in bounds]
            for i, (low, high) in enumerate(bounds):
                for value, number in ((low, 0), (high, 0), (low - 1, 4), (high + 1, 4)):
                    answer = step(*inside[:i], value, *inside[i + 1:])
                    with self.subTest(step=step.__name__, input=i, value=value):
                        self.assertEqual((answer.number, answer.place), (number, 0))
                        self.assertTrue(number == 0 or answer == REFUSED)

    def test_share_of_the_misclosure(self):
        for w, legs, angle_no in (
            (6_480_001, 4, 1), (-6_480_001, 4, 1), (5, 0, 1), (5, 65, 1), (5, 4, -1), (5, 4, 6),
        ):
            self.assertEqual(steps.angle_share(w, legs, angle_no), REFUSED)
        for w, legs, angle_no in ((6_480_000, 64, 65), (-6_480_000, 1, 2), (5, 4, 0)):
            self.assertEqual(steps.angle_share(w, legs, angle_no), (0, 0, w if angle_no else 0))

    def test_share_of_the_closure(self):
        whole = 1_300_000_000
        for closure, part, of in (
            (26_001, 1, 2), (-26_001, 1, 2), (1, 0, 0), (1, 0, whole + 1), (1, -1, 2), (1, 3, 2),
        ):
            self.assertEqual(steps.closure_share(closure, part, of), REFUSED)
        for closure, part, of in ((26_000, whole, whole), (-26_000, 0, 1), (26_000, 1, 1)):
            self.assertEqual(steps.closure_share(closure, part, of), (0, 0, closure if part else 0))


if __name__ == "__main__":
    unittest.main()
