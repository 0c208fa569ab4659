"""The walk-in fader by document 02's Card 3, in Python's whole numbers and fractions."""
import math
import struct
from fractions import Fraction

LEVELS = 1024


def entry(k):
    """"entry k is 32,768·k²/1,046,529 rounded down\""""
    return math.floor(Fraction(32768 * k * k, 1046529))


def faded(sample, level):
    """"A faded sample is sample × entry / 32,768, rounded towards minus infinity.\""""
    return math.floor(Fraction(sample * entry(level), 32768))


def curve():
    """"eight to a line, right-justified in 6 columns\""""
    return "".join("".join(f"{entry(k):6}" for k in range(first, first + 8)) + "\n" for first in range(0, LEVELS, 8))


def samples_in(data):
    """16 bits little-endian; half a sample at the end is none."""
    return struct.unpack(f"<{len(data) // 2}h", data[:len(data) // 2 * 2])


def faded_bytes(data, level):
    once = {x: faded(x, level) for x in set(samples_in(data))}
    return struct.pack(f"<{len(data) // 2}h", *(once[x] for x in samples_in(data)))
