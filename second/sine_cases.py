"""Angles for comparing another program's sines and cosines with these.

In a bundle an angle has four bytes. It is answered by number, place and value of its
sine, then of its cosine, a line each, and by both again for the table lent.
"""

from random import Random

from . import documents
from .bundle import line, number
from .ranges import CIRCLE, QUADRANT
from .sines import TENTHS_IN_MINUTE
from .steps import cosine, sine

ANGLES = 10_000
ANGLE_BYTES = 4
MINUTES = 1_800
HALF_MINUTES = 1_000
REFUSED = 100
SEED = 3


def about(angle: int, most: int) -> list[int]:
    """An angle and its neighbours on both sides."""
    return list(range(angle - most, angle + most + 1))


def of_the_documents() -> list[int]:
    """Every angle whose sine and cosine the source documents print."""
    printed = documents.single_steps()
    return [case.given[0] for name in ("sine_and_cosine", "sine_and_cosine_sizes") for place in printed[name] for case in place.cases]


def cases() -> list[int]:
    """The octants with neighbours, refused angles, whole minutes with neighbours, half minutes,
    where the part to add is a half, those of the documents, and any others up to ten thousand."""
    chance = Random(SEED)
    octants = [angle for i in range(9) for angle in about(i * QUADRANT // 2, 2) if angle >= 0]
    beyond = [CIRCLE + 600, 2 * CIRCLE, 1 << 24, (1 << 31) - 1, 1 << 31, (1 << 32) - 1]
    beyond += [chance.randrange(CIRCLE, 1 << 32) for _ in range(REFUSED - len(beyond))]
    minutes = chance.sample(range(1, CIRCLE // TENTHS_IN_MINUTE), MINUTES)
    whole = [angle for minute in minutes for angle in about(TENTHS_IN_MINUTE * minute, 1)]
    half = [TENTHS_IN_MINUTE * minute + TENTHS_IN_MINUTE // 2 for minute in minutes[:HALF_MINUTES]]
    chosen = [*octants, *beyond, *whole, *half, *of_the_documents()]
    return chosen + [chance.randrange(CIRCLE) for _ in range(ANGLES - len(chosen))]


def packed(angle: int) -> bytes:
    """An angle as it stands in a bundle."""
    return number(angle, ANGLE_BYTES)


def expected(angle: int) -> str:
    """Both answers for one angle, twice: by the program's own table, and with that table lent."""
    return 2 * (line(sine(angle)) + line(cosine(angle)))
