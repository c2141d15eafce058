"""The traverse as a whole: the rules' figures, limits, slips and refusals 1, 8, 9."""

import unittest

from second import desk
from second.desk import Traverse, traverse
from second.tape import Close, Fields, Leg, Project, Row, Start, read_tape, write_tape
from second.tapes import accepted, damaged, printed_fields

DEGREE = 36_000
FIELDS = printed_fields()
TAPE = write_tape(FIELDS)
CLOSE_AT = 68


def worked(fields: Fields) -> Traverse:
    return traverse(write_tape(fields), 130)


def closing(**changes: int) -> Traverse:
    return worked(FIELDS._replace(close=FIELDS.close._replace(**changes)))


def straight(first: int, second: int, factor: int, northing: int) -> Fields:
    """Two legs due north, in thousandths, that close on a northing."""
    return Fields(
        rows=(Row(0, factor),),
        project=Project(0, 0),
        start=Start(0, 0, 0),
        legs=(Leg(180 * DEGREE, first), Leg(180 * DEGREE, second)),
        close=Close(180 * DEGREE, northing, 0, 180 * DEGREE),
    )


class PrintedTape(unittest.TestCase):
    def test_all_figures(self):
        answer = traverse(TAPE, 130)
        self.assertEqual(answer, Traverse(
            number=0, place=0, legs=4, misclosure=5, closure_north=-1, closure_east=2,
            precision=178_886, doubled_area=20_000_200_000, loop=True,
            coordinates=(
                (5_000_000, 200_000_000), (5_100_000, 200_000_000), (5_100_001, 200_100_001),
                (5_000_000, 200_100_000), (5_000_000, 200_000_000),
            ),
        ))

    def test_combined_factor_is_one(self):
        self.assertEqual(desk.combined_factor(FIELDS), 10_000_000)
        self.assertEqual(sum(desk.grid_distances(FIELDS)), 4_000_030)

    def test_azimuths(self):
        carried = [180 * DEGREE, 270 * DEGREE, 0, 90 * DEGREE, 5]
        self.assertEqual(desk.carried_azimuths(FIELDS), carried)
        balanced = [180 * DEGREE - 1, 270 * DEGREE - 2, 12_959_997, 90 * DEGREE - 4]
        self.assertEqual(desk.balanced_azimuths(FIELDS), balanced)


class Limits(unittest.TestCase):
    def test_misclosure_of_500_passes_and_501_does_not(self):
        for w in (500, -500):
            self.assertNotEqual(closing(angle=90 * DEGREE + w).number, 8)
            self.assertEqual(desk.misclosure(FIELDS._replace(close=Close(90 * DEGREE + w, 0, 0, 0))), w)
        for w in (501, -501):
            self.assertEqual(closing(angle=90 * DEGREE + w), Traverse(8, CLOSE_AT))

    def test_closures_at_the_limit_and_past_it(self):
        # The printed tape is carried to 1 south and 2 east of its start.
        end_n, end_e = FIELDS.start.northing - 1, FIELDS.start.easting + 2
        at = closing(northing=end_n - 80, easting=end_e)
        self.assertEqual((at.number, at.closure_north, at.closure_east), (0, 80, 0))
        self.assertEqual(closing(northing=end_n - 80, easting=end_e - 1), Traverse(9, CLOSE_AT))
        self.assertEqual(closing(northing=end_n + 80, easting=end_e).closure_north, -80)
        self.assertEqual(closing(northing=end_n, easting=end_e + 81), Traverse(9, CLOSE_AT))

    def test_misclosure_is_tried_before_closure(self):
        self.assertEqual(closing(angle=0, northing=0), Traverse(8, CLOSE_AT))


class Refusals(unittest.TestCase):
    def test_few_words_are_refused_before_the_tape_is_read(self):
        for tape in (TAPE, b"", b"\x09", write_tape(FIELDS) + b"\x00"):
            self.assertEqual(traverse(tape, 129), Traverse(1, 0))
            self.assertEqual(traverse(tape, 0), Traverse(1, 0))

    def test_the_reading_decides_before_the_limits(self):
        bad_close = write_tape(FIELDS._replace(close=FIELDS.close._replace(angle=0)))
        self.assertEqual(traverse(bad_close, 130), Traverse(8, CLOSE_AT))
        self.assertEqual(traverse(bad_close + b"\x04", 130), Traverse(3, 85))

    def test_refusals_2_to_7_are_those_of_the_reading_and_say_nothing_else(self):
        for tape in damaged():
            number, place, _ = read_tape(tape)
            answer = traverse(tape, 130)
            if number:
                self.assertEqual(answer, Traverse(number, place))
            elif answer.number:
                self.assertIn(answer.number, (8, 9))
                self.assertEqual(answer, Traverse(answer.number, len(tape) - 17))


class Slips(unittest.TestCase):
    def test_last_share_is_the_whole_closure(self):
        fields = straight(1_000_000, 1_000_000, 10_000_000, 200_000)
        legs = (*fields.legs, fields.legs[1])
        answer = worked(fields._replace(legs=legs, close=fields.close._replace(northing=300_000 - 2)))
        self.assertEqual(answer.closure_north, 2)
        self.assertEqual([n for n, _ in answer.coordinates], [0, 99_999, 199_999, 299_998])

    def test_shares_go_by_grid_distances(self):
        # Measured, the first leg is a shade under half; on the grid both are equal.
        fields = straight(1_000_500, 1_000_501, 9_990_000, 199_899)
        self.assertEqual(desk.grid_distances(fields), [999_500, 999_500])
        answer = worked(fields)
        self.assertEqual(answer.closure_north, 1)
        self.assertEqual(answer.coordinates[1].northing, 99_950 - 1)

    def test_misclosure_across_zero(self):
        self.assertEqual(closing(azimuth=12_959_999, angle=90 * DEGREE).misclosure, 1)
        self.assertEqual(closing(azimuth=0, angle=90 * DEGREE - 1).misclosure, -1)

    def test_azimuths_run_from_south(self):
        self.assertEqual(worked(straight(1_000_000, 1_000_000, 10_000_000, 200_000)).number, 0)


class Loops(unittest.TestCase):
    def test_only_equal_points_make_a_loop(self):
        answer = closing(northing=5_000_001)
        self.assertEqual((answer.number, answer.loop, answer.doubled_area), (0, False, 0))

    def test_marks_do_not_matter(self):
        self.assertTrue(closing(azimuth=100, angle=90 * DEGREE + 105).loop)

    def test_other_way_round_is_negative(self):
        legs = (Leg(180 * DEGREE, 1_000_000), *[Leg(90 * DEGREE, 1_000_000)] * 3)
        answer = worked(FIELDS._replace(legs=legs, close=FIELDS.close._replace(angle=270 * DEGREE)))
        self.assertEqual((answer.loop, answer.doubled_area), (True, -20_000_000_000))

    def test_out_and_back_has_no_area(self):
        legs = (Leg(33 * DEGREE, 1_000_000), Leg(0, 1_000_000))
        close = FIELDS.close._replace(angle=327 * DEGREE)
        answer = worked(FIELDS._replace(legs=legs, close=close))
        self.assertEqual((answer.number, answer.loop, answer.doubled_area), (0, True, 0))


class Stations(unittest.TestCase):
    def test_first_and_last_are_the_fixed_ones(self):
        for seed in range(200):
            tape = accepted(seed)
            answer, fields = traverse(tape, 130), read_tape(tape).fields
            if answer.number == 0:
                self.assertEqual(len(answer.coordinates), answer.legs + 1)
                self.assertEqual(answer.coordinates[0], fields.start[:2])
                self.assertEqual(answer.coordinates[-1], fields.close[1:3])


if __name__ == "__main__":
    unittest.main()
