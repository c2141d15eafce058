"""That the documents' figures load, and that the desk makes of them what the rules do."""

import unittest

from second import documents, printed_steps, printed_traverses, steps
from second.desk import LEAST_WORDS, traverse
from second.ranges import FACTOR, MINUTE
from second.sheet import printed
from second.tape import read_tape, write_tape

# Hundredths of a foot: so near stand the adjusted stations as printed to the desk's. Where the
# manual reduces each line by a factor of its own the desk's one factor moves them further.
PRINTED_WITHIN = 2
ONE_FACTOR_WITHIN = 7
FACTOR_FOR_EACH_LINE = ("325_mason", "minden")

WANDA_TO_MASON = (
    (33_526_111, 223_931_760),
    (33_471_072, 224_202_842),
    (33_484_211, 224_627_370),
    (33_496_895, 225_390_838),
    (33_396_348, 225_954_930),
    (33_492_072, 226_580_420),
    (33_712_056, 226_935_787),
    (33_512_317, 227_411_869),
    (33_529_201, 227_722_728),
    (33_527_319, 228_366_891),
    (33_632_615, 228_620_444),
)


class Every(unittest.TestCase):
    @classmethod
    def setUpClass(cls):
        cls.documents = {name: documents.load(name) for name in documents.names()}

    def test_there_are_sixteen(self):
        self.assertEqual(len(self.documents), 16)
        self.assertIn("wanda_mason", self.documents)

    def test_names_and_printed_figures_for_every_leg_and_station(self):
        for name, worked in self.documents.items():
            with self.subTest(name):
                stations = len(worked.fields.legs) + 1
                self.assertEqual(len(worked.stations), stations)
                self.assertEqual(len(worked.published.legs), stations - 1)
                self.assertIn(len(worked.published.stations), (0, stations))
                self.assertTrue(worked.document and worked.what and worked.title and worked.place and worked.where)

    def test_printed_ends_are_the_fixed_points(self):
        for name, worked in self.documents.items():
            with self.subTest(name):
                start, close = worked.fields.start, worked.fields.close
                for place, fixed in zip(worked.published.stations[::len(worked.fields.legs)], (start, close)):
                    self.assertEqual(place, (fixed.northing, fixed.easting))

    def test_fields_make_a_tape_that_is_accepted(self):
        for name, worked in self.documents.items():
            with self.subTest(name):
                tape = write_tape(worked.fields)
                self.assertEqual(read_tape(tape).fields, worked.fields)
                self.assertEqual(traverse(tape, LEAST_WORDS).number, 0)

    def test_sheets_are_as_the_rules_make_them(self):
        for name, worked in self.documents.items():
            with self.subTest(name):
                self.assertEqual(printed(write_tape(worked.fields)), worked.rules.sheet)

    def test_legs_are_as_the_rules_make_them(self):
        for name, worked in self.documents.items():
            with self.subTest(name):
                self.assertEqual(tuple(printed_traverses.courses(worked)), worked.rules.legs)

    def test_printed_places_are_near(self):
        for name, worked in self.documents.items():
            within = ONE_FACTOR_WITHIN if name in FACTOR_FOR_EACH_LINE else PRINTED_WITHIN
            for figure in printed_traverses.of_stations(worked):
                with self.subTest(name, figure=figure.name):
                    self.assertLessEqual(abs(figure.difference), within)

    def test_taped_and_printed_grid_lengths_end_in_the_same_print(self):
        for name, worked in self.documents.items():
            if f"{name}_grid" in self.documents:
                with self.subTest(name):
                    grid = self.documents[f"{name}_grid"]
                    self.assertEqual(grid.stations, worked.stations)
                    self.assertEqual(grid.published._replace(legs=()), worked.published._replace(legs=()))
                    given = [leg.distance for leg in grid.fields.legs]
                    self.assertEqual([leg.distance for leg in worked.published.legs], given)


class WandaToMason(unittest.TestCase):
    @classmethod
    def setUpClass(cls):
        cls.worked = documents.load("wanda_mason")
        cls.answer = traverse(write_tape(cls.worked.fields), LEAST_WORDS)

    def test_stations(self):
        self.assertEqual(self.worked.stations[0], "Wanda")
        self.assertEqual(self.worked.stations[-1], "Mason")
        self.assertEqual(self.answer.legs, 10)

    def test_adjusted_places(self):
        self.assertEqual(self.answer.coordinates, WANDA_TO_MASON)

    def test_manual_prints_the_same_places(self):
        self.assertEqual(self.worked.published.stations, WANDA_TO_MASON)

    def test_closures(self):
        self.assertEqual(self.answer.misclosure, -69)
        self.assertEqual((self.answer.closure_north, self.answer.closure_east), (-238, -15))
        self.assertEqual(self.answer.precision, 20_274)
        self.assertFalse(self.answer.loop)


class SingleSteps(unittest.TestCase):
    def test_there_are_199_of_every_kind(self):
        kinds = documents.single_steps()
        self.assertEqual(list(kinds), list(printed_steps.STEPS))
        self.assertEqual(sum(len(places.cases) for kind in kinds.values() for places in kind), 199)

    def test_steps_give_what_the_rules_do(self):
        for name, kind in documents.single_steps().items():
            for places in kind:
                for case in places.cases:
                    with self.subTest(name, given=case.given):
                        own = printed_steps.worked_out(printed_steps.STEPS[name], case.given)
                        self.assertEqual(tuple(own), case.rules)
                        self.assertEqual(len(case.published), len(case.rules))

    def test_closures_with_a_precision_number_pass(self):
        for places in documents.single_steps()["precision_number"]:
            for case in places.cases:
                self.assertEqual(steps.closure_passes(*case.given), (0, 0, 1))


class Zones(unittest.TestCase):
    @classmethod
    def setUpClass(cls):
        cls.zones = documents.zones()

    def test_two_tables(self):
        counts = {name: len(zone.rows) for name, zone in self.zones.items()}
        self.assertEqual(counts, {"South Dakota North": 151, "Wisconsin Central": 35})

    def test_each_row_is_one_minute_above_the_last(self):
        for name, zone in self.zones.items():
            with self.subTest(name):
                first = zone.rows[0].minute
                minutes = [row.minute for row in zone.rows]
                self.assertEqual(minutes, list(range(first, first + len(minutes))))

    def test_rows_fit_a_tape(self):
        for zone in self.zones.values():
            for row in zone.rows:
                self.assertTrue(MINUTE.holds(row.minute) and FACTOR.holds(row.factor), row)

    def test_radii_fall_by_what_the_differences_say(self):
        """A second's difference is the sixtieth part of a minute's, to the nearest hundred-thousandth."""
        for zone in self.zones.values():
            for row, after in zip(zone.rows, zone.rows[1:]):
                fall = 1_000 * (row.radius - after.radius)
                self.assertLessEqual(abs(2 * (60 * row.difference - fall)), 60, row)

    def test_y_is_what_is_left_of_the_radius_below(self):
        for zone in self.zones.values():
            for row in zone.rows:
                if row.y is not None:
                    self.assertEqual(row.y, zone.constants.Rb - row.radius)

    def test_factors_bend_one_way(self):
        """Least between the two standard parallels and growing to both sides, but for the last digit."""
        for zone in self.zones.values():
            factors = [row.factor for row in zone.rows]
            for before, here, after in zip(factors, factors[1:], factors[2:]):
                self.assertLessEqual(abs(before - 2 * here + after - 1), 2)

    def test_tapes_of_document_002_have_the_rows_of_its_zone(self):
        rows = tuple((row.minute, row.factor) for row in self.zones["Wisconsin Central"].rows)
        for name in ("mount_tom_k", "a_d_c"):
            self.assertEqual(documents.load(name).fields.rows, rows)


if __name__ == "__main__":
    unittest.main()
