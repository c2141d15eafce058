"""That the documents' figures are compared rightly, and differ for the reasons given."""

import unittest
from fractions import Fraction
from math import isqrt

from second import documents, printed_steps, printed_traverses
from second.figures import differing, tally
from second.rounding import nearest
from second.sines import exact_cosine, exact_sine

NEAR_A_HALF = "departure to 25B"


def every():
    return {name: documents.load(name) for name in documents.names()}


class Traverses(unittest.TestCase):
    def test_figures_of_the_smallest(self):
        worked = documents.load("a_d_c")
        closing = [(figure.printed, figure.desk) for figure in printed_traverses.of_closing(worked)]
        self.assertEqual(closing, [(-130, -130), (-11, -12), (41, 41), (6_286, 6_180)])
        names = [figure.name for figure in printed_traverses.of_stations(worked)]
        self.assertEqual(names, ["northing of D", "easting of D"])
        azimuths = [(figure.printed, figure.decimals, figure.desk)
                    for figure in printed_traverses.of_legs(worked) if figure.kind.unit == "seconds"]
        self.assertEqual(azimuths, [(975_765, 0, 9_757_653), (651_445, 0, 6_514_447)])

    def test_what_is_not_printed_is_not_compared(self):
        worked = documents.load("seven_sides")
        self.assertEqual(printed_traverses.of_stations(worked), [])
        self.assertEqual(len(printed_traverses.of_legs(worked)), 7 + 7 + 2)
        self.assertEqual([figure.name for figure in printed_traverses.of_closing(worked)], ["misclosure W, seconds"])

    def test_reasons_stand_where_figures_differ_and_only_there(self):
        for name, worked in every().items():
            with self.subTest(name):
                self.assertEqual(bool(worked.why), bool(differing(printed_traverses.of_traverse(worked))))

    def test_differences_begin_with_azimuths_lengths_and_one_departure(self):
        """From what is printed before it, the desk's next step gives what is printed."""
        for name, worked in every().items():
            with self.subTest(name):
                others = [figure.name for figure in differing(printed_traverses.replayed(worked))]
                self.assertEqual(others, [NEAR_A_HALF] if name.startswith("columbus") else [])

    def test_that_departure_is_near_a_half(self):
        worked = documents.load("columbus_monroe")
        runs = dict(zip(worked.stations[1:], printed_traverses.printed_runs(worked)))
        distance, azimuth = runs["25B"]
        thousandths = distance * exact_sine(azimuth)
        self.assertLess(abs(thousandths - 4_604_575), Fraction(3, 100))

    def test_printed_azimuths_are_off_by_a_tenth_at_most(self):
        for name, worked in every().items():
            for figure in printed_traverses.of_legs(worked):
                if figure.kind is printed_traverses.AZIMUTH:
                    with self.subTest(name, figure=figure.name):
                        self.assertTrue(figure.equal or abs(figure.difference) == 1)

    def test_printed_precision_numbers_come_from_a_rounded_closing_length(self):
        for name in ("mount_tom_k", "a_d_c", "abcd_loop"):
            worked = documents.load(name)
            published = worked.published
            square = published.closure_north**2 + published.closure_east**2
            hundredths = isqrt(square)
            hundredths += hundredths**2 + hundredths < square
            total = sum(distance for distance, _ in printed_traverses.printed_runs(worked))
            with self.subTest(name):
                self.assertEqual(nearest(Fraction(total, 10 * hundredths)), published.precision)


class Steps(unittest.TestCase):
    def test_reasons_stand_where_figures_differ_and_only_there(self):
        for name, kind in documents.single_steps().items():
            for places in kind:
                with self.subTest(name, where=places.where):
                    self.assertEqual(bool(places.why), bool(differing(printed_steps.of_cases(name, places))))

    def test_numbered_and_named_figures(self):
        places = documents.single_steps()["angle_shares"][0]
        self.assertEqual(printed_steps.of_cases("angle_shares", places)[2].name, "Minden loop, at angle 3")
        self.assertEqual(printed_steps.of_step("grid_distance")[0].decimals, 2)
        self.assertEqual(printed_steps.of_step("closure_shares")[1].name, "easting")

    def test_printed_sines_are_within_one_of_the_exact_eighth_decimal(self):
        for name in ("sine_and_cosine", "sine_and_cosine_sizes"):
            for places in documents.single_steps()[name]:
                for case in places.cases:
                    exact = [of(case.given[0]) * 10**8 for of in (exact_sine, exact_cosine)]
                    for printed, sine in zip(case.published, exact):
                        self.assertLessEqual(abs(abs(printed) - abs(sine)), 1)

    def test_a_larger_radius_explains_the_printed_sea_level_factors(self):
        """Eight decimals, by a radius of about 20,916,000 feet."""
        for places in documents.single_steps()["sea_level_factor"]:
            if places.why:
                for case in places.cases:
                    elevation, = case.given
                    factor = Fraction(20_916_000, 20_916_000 + elevation)
                    self.assertLessEqual(abs(case.published[0] - factor * 10**8), 1)

    def test_counts(self):
        self.assertEqual(tally(printed_steps.of_step("closure_shares"))[:2], (54, 54))
        self.assertEqual(tally(printed_steps.of_step("precision_number"))[:2], (3, 0))


if __name__ == "__main__":
    unittest.main()
