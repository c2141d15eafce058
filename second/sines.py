"""Sines: exact by the series, and as the table gives them (docs/RULES.md, "Sines").

Every angle here is a whole number of tenths of a second; whole turns are taken
off first. Refusing an angle past the circle is the business of the steps.
"""

from fractions import Fraction
from functools import lru_cache

from .ranges import CIRCLE, HALF_CIRCLE, QUADRANT
from .rounding import nearest

PI = Fraction(314159265358979323846, 10**20)
OCTANT = QUADRANT // 2
TENTHS_IN_MINUTE = 600
LAST_MINUTE = QUADRANT // TENTHS_IN_MINUTE
UNIT = 10**9


def radians(angle: int) -> Fraction:
    """The angle in radians, by the twenty decimals of pi that are prescribed."""
    return angle * PI / HALF_CIRCLE


def nested(x: Fraction, divisors: range) -> Fraction:
    """1 - x²/(a(a+1)) (1 - x²/(b(b+1)) (1 - ...)) for the divisors a, b, ...

    Both series are of this form. Numerator and denominator are carried as
    whole numbers and reduced once, which keeps 5,401 entries quick.
    """
    over, under = x.numerator**2, x.denominator**2
    top, bottom = 1, 1
    for divisor in reversed(divisors):
        bottom *= under * divisor * (divisor + 1)
        top = bottom - over * top
    return Fraction(top, bottom)


def sine_series(x: Fraction) -> Fraction:
    """x - x³/3! + x⁵/5! - ..., through the 19th power."""
    return x * nested(x, range(2, 19, 2))


def cosine_series(x: Fraction) -> Fraction:
    """1 - x²/2! + x⁴/4! - ..., through the 20th power."""
    return nested(x, range(1, 20, 2))


def fold(angle: int) -> tuple[int, int]:
    """The sign, and the angle of the first quadrant with a sine of that size."""
    half_turns, angle = divmod(angle % CIRCLE, HALF_CIRCLE)
    return -1 if half_turns else 1, min(angle, HALF_CIRCLE - angle)


def exact_sine(angle: int) -> Fraction:
    """The sine by the series, which is by definition the exact one."""
    sign, folded = fold(angle)
    if folded <= OCTANT:
        return sign * sine_series(radians(folded))
    return sign * cosine_series(radians(QUADRANT - folded))


def exact_cosine(angle: int) -> Fraction:
    """The cosine is the sine a quarter turn further on."""
    return exact_sine(angle + QUADRANT)


@lru_cache(maxsize=None)
def entry(minute: int) -> int:
    """The table's sine of a whole minute, 0 to 5,400, in the ninth decimal."""
    return nearest(UNIT * exact_sine(TENTHS_IN_MINUTE * minute))


def table() -> tuple[int, ...]:
    """All 5,401 entries, from 0 to 90 degrees."""
    return tuple(entry(minute) for minute in range(LAST_MINUTE + 1))


def sine(angle: int) -> int:
    """The table's sine of any angle, in units of the ninth decimal.

    The angle is folded first and interpolated then, so that the sizes of sines
    agree in all four quadrants even where the part to add is just a half.
    """
    sign, folded = fold(angle)
    minute, tenths = divmod(folded, TENTHS_IN_MINUTE)
    if tenths == 0:
        return sign * entry(minute)
    rise = entry(minute + 1) - entry(minute)
    return sign * (entry(minute) + nearest(Fraction(rise * tenths, TENTHS_IN_MINUTE)))


def cosine(angle: int) -> int:
    """The table's cosine: its sine a quarter turn further on."""
    return sine(angle + QUADRANT)
