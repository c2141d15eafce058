#!/usr/bin/env python3
"""Prints minutes.h, the table of sines for plain.c, by the exact sines of the second program: bench/minutes.py > minutes.h"""

import sys
from pathlib import Path

sys.path.insert(0, str(Path(__file__).resolve().parent.parent))

from second.sines import table  # noqa: E402

print("static const uint32_t minutes[5401] = {")
print(*(f"    {entry}," for entry in table()), sep="\n")
print("};")
