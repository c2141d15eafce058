"""The root of a tape's precision number, worked on paper: `python3 -m second.clerk < TAPE`.

The closures and the sum of grid distances are the desk's, so that a clerk can follow the P
of a sheet without adding up the distances first.
"""

import sys

from .desk import LEAST_WORDS, grid_distances, traverse
from .root import Closing, work
from .sheet import LONGEST_INPUT, refused_line
from .tape import read_tape


def working(tape: bytes) -> str:
    """The working of an accepted tape, or the line of its refusal."""
    answer = traverse(tape, LEAST_WORDS)
    if answer.number:
        return refused_line(answer.number)
    total = sum(grid_distances(read_tape(tape).fields))
    return work(Closing(answer.closure_north, answer.closure_east, total))


def main() -> None:
    """Standard input to standard output; no accepted tape is longer than what is read."""
    sys.stdout.write(working(sys.stdin.buffer.read(LONGEST_INPUT)))


if __name__ == "__main__":
    main()
