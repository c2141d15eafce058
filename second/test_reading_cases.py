"""The tapes that another program's reading is compared over."""

import unittest

from second.reading_cases import cases, expected


class Cases(unittest.TestCase):
    def test_answers(self):
        tapes = cases()
        self.assertEqual(expected(tapes[0]), "0 0\n")
        self.assertEqual(expected(b""), "2 0\n")
        self.assertEqual({expected(tape)[0] for tape in tapes}, set("0234567"))


if __name__ == "__main__":
    unittest.main()
