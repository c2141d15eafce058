"""What bundles and answers consist of."""

import unittest

from second.bundle import line, number, sized


class Bundles(unittest.TestCase):
    def test_numbers(self):
        self.assertEqual(number(258, 2), b"\x01\x02")
        self.assertEqual(number(-2, 8), b"\xff" * 7 + b"\xfe")
        with self.assertRaises(OverflowError):
            number(256, 1)

    def test_bytes_after_their_length(self):
        self.assertEqual(sized(b""), b"\x00\x00")
        self.assertEqual(sized(b"ab"), b"\x00\x02ab")
        self.assertEqual(sized(bytes(258))[:2], b"\x01\x02")
        with self.assertRaises(OverflowError):
            sized(bytes(65_536))

    def test_a_line(self):
        self.assertEqual(line((4, 0, -15)), "4 0 -15\n")


if __name__ == "__main__":
    unittest.main()
