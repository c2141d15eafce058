"""The calls that another program's arithmetic steps are compared over."""

import unittest

from second import documents, step_cases
from second.step_cases import AREA, STEPS, Call


class Cases(unittest.TestCase):
    @classmethod
    def setUpClass(cls):
        cls.cases = step_cases.cases()

    def test_every_step_is_taken_and_refused(self):
        for step in (*STEPS, AREA):
            numbers = {step_cases.expected(call)[0] for call in self.cases if call.step == step}
            self.assertEqual(numbers, {"0", "4"}, step)

    def test_every_bound_of_every_argument(self):
        for number, step in STEPS.items():
            for i, argument in enumerate(step.arguments):
                called = {call.arguments[i] for call in self.cases if call.step == number}
                low, high = argument.good
                wanted = {value for value in (low - 1, low, high, high + 1) if argument.held.holds(value)}
                self.assertLessEqual(wanted, called, (number, i))

    def test_arguments_are_what_their_words_hold(self):
        for call in self.cases:
            if call.step != AREA:
                for value, argument in zip(call.arguments, STEPS[call.step].arguments):
                    self.assertTrue(argument.held.holds(value), call)

    def test_every_single_step_of_the_documents(self):
        calls = list(step_cases.of_the_documents())
        self.assertIn(Call(14, (30, -29, 5_276_590)), calls)
        self.assertIn(Call(1, (950,)), calls)
        steps_of_documents = sum(len(place.cases) for name in step_cases.PRINTED for place in documents.single_steps()[name])
        self.assertGreater(len(calls), steps_of_documents)
        self.assertTrue(all(step_cases.expected(call)[0] == "0" for call in calls))

    def test_products_of_factors_about_a_half(self):
        calls = list(step_cases.combined_factors())
        pairs = [call.arguments for call in calls if call.step == 2]
        over = [sea * scale % 10_000_000 for sea, scale in pairs]
        self.assertEqual([over.count(4_999_999 + more) for more in range(3)], [5, 6, 5])
        self.assertEqual(step_cases.expected(Call(2, (9_996_653, 10_001_989))), "0 0 9998641\n")
        self.assertIn(Call(2, (9_996_653, 10_001_989)), calls)

    def test_packed(self):
        packed = step_cases.packed
        self.assertEqual(packed(Call(1, (-2,))), b"\x01" + b"\xff" * 7 + b"\xfe")
        self.assertEqual(packed(Call(8, (1, -1))), b"\x08\x00\x00\x00\x01" + b"\xff" * 8)
        self.assertEqual(packed(Call(AREA, ())), b"\x0f\x00")
        self.assertEqual(packed(Call(AREA, (1, -1))), b"\x0f\x02" + b"\x00" * 7 + b"\x01" + b"\xff" * 8)

    def test_answers(self):
        self.assertEqual(step_cases.expected(Call(9, (-30, 2_636_200, 5_276_590))), "0 0 -15\n")
        self.assertEqual(step_cases.expected(Call(10, (2, 1, 2))), "0 0 1\n")
        self.assertEqual(step_cases.expected(Call(13, (80, 1, 4_000_030))), "0 0 0\n")
        self.assertEqual(step_cases.expected(Call(AREA, (0, 0, 5, 0, 5, 5))), "0 0 25\n")
        self.assertEqual(step_cases.expected(Call(AREA, (1,))), "4 0 0\n")


if __name__ == "__main__":
    unittest.main()
