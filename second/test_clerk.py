"""That the working of a tape starts from the desk's own figures and ends with its sheet's P."""

import re
import subprocess
import sys
import unittest
from pathlib import Path

from second import clerk, documents, root, tapes
from second.sheet import printed
from second.tape import write_tape

FOLDER = Path(__file__).resolve().parent.parent


class Workings(unittest.TestCase):
    def test_the_printed_sheet(self):
        self.assertEqual(clerk.working(write_tape(tapes.printed_fields())), root.work(root.SHEET))

    def test_each_document_ends_with_the_number_of_its_sheet(self):
        for name in documents.names():
            tape = write_tape(documents.load(name).fields)
            number = re.search(r" P=(\d+)\n", printed(tape)).group(1)
            self.assertTrue(clerk.working(tape).endswith(f"P = {number}\n"), name)

    def test_refusals_are_the_sheets(self):
        tape = (FOLDER / "examples" / "refused.tape").read_bytes()
        for refused, number in ((tape, 8), (tape[:-1], 2), (b"", 2)):
            self.assertEqual(clerk.working(refused), f"REFUSED {number}\n")
            self.assertEqual(printed(refused), f"REFUSED {number}\n")

    def test_as_a_program(self):
        tape = (FOLDER / "examples" / "yard.tape").read_bytes()
        done = subprocess.run(
            [sys.executable, "-m", "second.clerk"], input=tape, capture_output=True, cwd=FOLDER)
        self.assertEqual((done.returncode, done.stderr), (0, b""))
        self.assertTrue(done.stdout.decode().endswith("\nP = 178886\n"))


if __name__ == "__main__":
    unittest.main()
