#!/usr/bin/env python3
"""Writes the example image, as docs/DRIVE.md describes it: peer/cores.py FILE

Four blocks of eight records, 64 bytes each: a core, a bag, the depth of its top in metres and of its bottom, and how
it was found, filled up with blanks and ended by CR LF.
"""
import sys

STATES = ["CLEAR", "BUBBLES", "DUST BAND", "CLOUDY", "ASH LAYER"]


def record(number):
    top = 241735 + 55 * number
    text = (f"CORE B-17 BAG {4410 + number:04d} DEPTH {top // 100}.{top % 100:02d} M "
            f"TO {(top + 55) // 100}.{(top + 55) % 100:02d} M {STATES[number % 5]}")
    return text.ljust(62) + "\r\n"


with open(sys.argv[1], "wb") as image:
    for number in range(32):
        image.write(record(number).encode("ascii"))
