"""docs/RULES.md, "The tape" and "Nine refusals": refusals 1 to 7, their order and places."""

import unittest

from second.tape import (
    Close, Leg, Project, Row, Start, Written, encode, read_tape, records_of, write_record, write_tape,
)
from second.tapes import accepted, damaged, joined, longest, printed_fields

FIELDS = printed_fields()
TAPE = write_tape(FIELDS)
RECORDS = records_of(FIELDS)
ROW, PROJECT, START, LEG, CLOSE = RECORDS[0], RECORDS[2], RECORDS[3], RECORDS[4], RECORDS[8]
# Places on the printed tape: rows at 0 and 7, then project, start, legs, close.
PROJECT_AT, START_AT, LEG_AT, CLOSE_AT, LENGTH = 14, 19, 32, 68, 85


def answer(tape: bytes) -> tuple[int, int]:
    reading = read_tape(tape)
    return reading.number, reading.place


def told(*records) -> tuple[int, int]:
    return answer(joined(records))


class Bytes(unittest.TestCase):
    def test_each_kind_as_bytes(self):
        for record, text in (
            (Row(2650, 10_000_572), "05 0a5a 009898bc"),
            (Project(2650, 1_196), "01 0a5a 04ac"),
            (Project(0, -1_000), "01 0000 fc18"),
            (Start(5_000_000, 200_000_000, 12_959_999), "02 004c4b40 0bebc200 00c5c0ff"),
            (Leg(6_480_000, 1_000), "03 0062e080 000003e8"),
            (Close(1, 2, 3, 4), "04 00000001 00000002 00000003 00000004"),
        ):
            self.assertEqual(encode(record), bytes.fromhex(text))

    def test_lengths(self):
        self.assertEqual(len(TAPE), LENGTH)
        self.assertEqual(len(longest(FIELDS)), 4_811)


class Reading(unittest.TestCase):
    def test_printed_tape_reads(self):
        self.assertEqual(read_tape(TAPE), (0, 0, FIELDS))

    def test_cut_inside_a_record_is_placed_at_it_and_between_records_at_the_length(self):
        starts = [0, 7, 14, 19, 32, 41, 50, 59, 68]
        for length in range(LENGTH):
            place = max(start for start in starts if start <= length)
            self.assertEqual(answer(TAPE[:length]), (2, place), length)

    def test_empty_tape(self):
        self.assertEqual(answer(b""), (2, 0))

    def test_unknown_kinds(self):
        for place in (0, 7, PROJECT_AT, START_AT, LEG_AT, CLOSE_AT):
            for kind in (0, 6, 7, 8, 9, 10, 11, 12, 255):
                tape = TAPE[:place] + bytes([kind]) + TAPE[place + 1:]
                self.assertEqual(answer(tape), (3, place))

    def test_kinds_out_of_order(self):
        for records, place in (
            ((START,), 0), ((LEG,), 0), ((CLOSE,), 0),
            ((ROW, START), 7), ((ROW, LEG), 7), ((ROW, CLOSE), 7),
            ((ROW, PROJECT, ROW), 12), ((ROW, PROJECT, PROJECT), 12),
            ((ROW, PROJECT, LEG), 12), ((ROW, PROJECT, CLOSE), 12),
            ((ROW, PROJECT, START, START), 25), ((ROW, PROJECT, START, CLOSE), 25),
            ((ROW, PROJECT, START, PROJECT), 25), ((ROW, PROJECT, START, ROW), 25),
            ((ROW, PROJECT, START, LEG, ROW), 34), ((ROW, PROJECT, START, LEG, PROJECT), 34),
            ((ROW, PROJECT, START, LEG, START), 34),
            ((ROW, PROJECT, START, LEG, CLOSE, CLOSE), 51),
        ):
            self.assertEqual(told(*records), (3, place), records)

    def test_any_byte_after_close(self):
        for byte in range(256):
            self.assertEqual(answer(TAPE + bytes([byte])), (3, LENGTH))

    def test_each_field_at_its_bounds(self):
        angle, coordinate = (0, 12_959_999), (0, 1_000_000_000)
        for i, place, bounds in (
            (3, START_AT, (coordinate, coordinate, angle)),
            (4, LEG_AT, (angle, (1_000, 20_000_000))),
            (8, CLOSE_AT, (angle, coordinate, coordinate, angle)),
        ):
            for j, (low, high) in enumerate(bounds):
                beyond = [value for value in (low - 1, high + 1) if value >= 0]
                for value in (low, high, *beyond):
                    record = type(RECORDS[i])(*RECORDS[i][:j], value, *RECORDS[i][j + 1:])
                    expected = (4, place) if value in beyond else (0, 0)
                    self.assertEqual(told(*RECORDS[:i], record, *RECORDS[i + 1:]), expected)

    def test_rows_and_project_at_their_bounds(self):
        rest = RECORDS[3:]
        for minute, factor, elevation, expected in (
            (0, 9_990_000, -1_000, (0, 0)), (5_400, 10_010_000, 20_000, (0, 0)),
            (5_401, 10_000_000, 0, (4, 0)), (5, 9_989_999, 0, (4, 0)), (5, 10_010_001, 0, (4, 0)),
            (5, 10_000_000, -1_001, (4, 7)), (5, 10_000_000, 20_001, (4, 7)),
        ):
            self.assertEqual(told(Row(minute, factor), Project(minute, elevation), *rest), expected)
        self.assertEqual(told(Row(5_400, 10_000_000), Project(5_401, 0), *rest), (4, 7))

    def test_row_succession(self):
        for minute, expected in (
            (2_651, (0, 0)), (2_650, (5, 7)), (2_652, (5, 7)), (2_649, (5, 7)), (5_401, (4, 7)),
        ):
            self.assertEqual(told(ROW, Row(minute, 10_000_000), *RECORDS[2:]), expected)

    def test_row_count(self):
        rows = [Row(minute, 10_000_000) for minute in range(601)]
        rest = [Project(599, 0), *RECORDS[3:]]
        self.assertEqual(told(*rows[:600], *rest), (0, 0))
        self.assertEqual(told(*rows, *rest), (5, 4_200))

    def test_601st_row_before_its_body_and_fields(self):
        full = joined([Row(minute, 10_000_000) for minute in range(600)])
        self.assertEqual(answer(full + b"\x05"), (5, 4_200))
        self.assertEqual(answer(full + encode(Row(600, 0))), (5, 4_200))

    def test_leg_count(self):
        head, place = RECORDS[:4], LEG_AT + 64 * 9
        self.assertEqual(told(*head, *[LEG] * 64, CLOSE), (0, 0))
        self.assertEqual(told(*head, *[LEG] * 65, CLOSE), (6, place))
        self.assertEqual(told(*head, *[LEG] * 64, Leg(0, 0)), (6, place))
        self.assertEqual(answer(joined([*head, *[LEG] * 64]) + b"\x03"), (6, place))

    def test_row_for_the_latitude(self):
        rows = [Row(100 + i, 10_000_000) for i in range(3)]
        for latitude, expected in (
            (100, (0, 0)), (102, (0, 0)), (99, (7, 21)), (103, (7, 21)), (5_401, (4, 21)),
        ):
            self.assertEqual(told(*rows, Project(latitude, 0), *RECORDS[3:]), expected)
        self.assertEqual(told(Project(100, 0), *RECORDS[3:]), (7, 0))
        self.assertEqual(told(Project(100, 20_001), *RECORDS[3:]), (4, 0))

    def test_several_faults_at_once(self):
        for tape, expected in (
            (b"\x09", (3, 0)),                                     # unknown, and cut short
            (b"\x05\xff\xff", (2, 0)),                             # cut short, and out of range
            (encode(ROW) + encode(Row(9_000, 1)), (4, 7)),         # out of range, and not the next
            (encode(Project(9, -2_000)), (4, 0)),                  # out of range, and no row
            (encode(ROW) * 2 + b"\x09", (5, 7)),                   # not the next, then unknown
            (TAPE[:START_AT] + b"\x02" + b"\xff" * 11, (2, START_AT)),
            (TAPE[:CLOSE_AT] + b"\x04" + b"\xff" * 16 + b"\x01", (4, CLOSE_AT)),
        ):
            self.assertEqual(answer(tape), expected)


class Writing(unittest.TestCase):
    def test_writes_one_record_and_no_other_byte(self):
        for record in RECORDS:
            lent = bytearray(b"\xaa" * 40)
            end = 5 + len(encode(record))
            self.assertEqual(write_record(record, lent, 5), (0, 0, end))
            self.assertEqual(bytes(lent), b"\xaa" * 5 + encode(record) + b"\xaa" * (40 - end))

    def test_too_little_room(self):
        for record in RECORDS:
            length = len(encode(record))
            for room, place, expected in (
                (length, 0, (0, 0, length)), (length - 1, 0, (1, 0, 0)),
                (length, 1, (1, 0, 0)), (length, length + 1, (1, 0, 0)), (0, 0, (1, 0, 0)),
            ):
                self.assertEqual(write_record(record, bytearray(room), place), expected)

    def test_out_of_range_is_placed_where_it_was_to_be_written(self):
        for record in (
            Row(5_401, 10_000_000), Row(0, 9_989_999), Project(0, 20_001), Project(-1, 0), Leg(0, 999),
            Start(-1, 0, 0), Start(0, 0, 12_960_000), Close(0, 0, 1_000_000_001, 0), Close(0, 0, 0, 2**40),
        ):
            lent = bytearray(b"\xaa" * 40)
            self.assertEqual(write_record(record, lent, 3), Written(4, 3, 0))
            self.assertEqual(lent, b"\xaa" * 40)

    def test_room_is_tried_before_range(self):
        self.assertEqual(write_record(Leg(0, 0), bytearray(8), 0), (1, 0, 0))

    def test_whole_tape_out_of_range_is_an_error(self):
        with self.assertRaises(ValueError):
            write_tape(FIELDS._replace(project=Project(0, 30_000)))


class RoundTrips(unittest.TestCase):
    def test_tapes_that_read_write_back_as_the_same_bytes(self):
        for tape in [*map(accepted, range(200)), *damaged()]:
            reading = read_tape(tape)
            if reading.number == 0:
                self.assertEqual(write_tape(reading.fields), tape)
                self.assertEqual(read_tape(write_tape(reading.fields)), reading)

    def test_refusals_say_nothing_else(self):
        for tape in damaged():
            reading = read_tape(tape)
            self.assertEqual(reading.fields is None, reading.number != 0)
            self.assertTrue(reading.number in range(2, 8) or (reading.number, reading.place) == (0, 0))


if __name__ == "__main__":
    unittest.main()
