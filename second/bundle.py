"""A bundle: many cases in one byte string; and the lines that answer them.

Numbers stand high byte first, and bytes after their length, two bytes, so that
another program can take the same cases without knowing how they were made.
"""

from typing import Iterable

LENGTH_BYTES = 2


def number(value: int, size: int) -> bytes:
    """A number in so many bytes, in two's complement where it is negative."""
    return value.to_bytes(size, "big", signed=value < 0)


def sized(content: bytes) -> bytes:
    """Bytes after their length."""
    return number(len(content), LENGTH_BYTES) + content


def line(figures: Iterable[int]) -> str:
    """Figures as they are printed."""
    return " ".join(map(str, figures)) + "\n"
