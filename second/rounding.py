"""The one way the desk rounds (docs/RULES.md, "Units and nearest")."""

from fractions import Fraction


def nearest(amount: Fraction) -> int:
    """The whole number nearest to an amount, a half going away from zero.

    The size is rounded and the sign put back, so that south and west come out
    exactly as long as north and east.
    """
    size = abs(amount)
    whole = (2 * size.numerator + size.denominator) // (2 * size.denominator)
    return -whole if amount < 0 else whole
