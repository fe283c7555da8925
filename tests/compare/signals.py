"""Samples as a radio gives them, of bits: coded, sent as half-waves in a phase, with noise, rounded to whole numbers.

  python3 -m compare.signals TURNS HEIGHT NOISE SEED < AIR > SAMPLES      run it in tests/; a bit is sent ahead, since the first has nothing before it
"""
import math
import random
import struct
import sys

from model.samples import LEAST, MOST, coded

WAVE = [math.sin(math.pi * (k + 0.5) / 8) for k in range(16)]  # two half-waves, the second turned


def bits_of(air):
    return "".join(format(byte, "08b") for byte in air)


def heard(x):
    return float(min(MOST, max(LEAST, round(x))))


def symbol(turned, turns, height, noise, rng):
    """32 numbers: in phase and quadrature of sixteen samples."""
    sign = -height if turned else height
    i, q = math.cos(2 * math.pi * turns), math.sin(2 * math.pi * turns)
    return [heard(sign * w * part + (rng.gauss(0, noise) if noise else 0)) for w in WAVE for part in (i, q)]


def signal(bits, turns, height, noise, seed):
    """The samples of bits, as numbers."""
    rng = random.Random(seed)
    return [x for level in coded(bits) for x in symbol(level == "1", turns, height, noise, rng)]


def as_bytes(numbers):
    return struct.pack(">%dd" % len(numbers), *numbers)


if __name__ == "__main__":
    turns, height, noise, seed = (float(x) for x in sys.argv[1:])
    sys.stdout.buffer.write(as_bytes(signal("1" + bits_of(sys.stdin.buffer.read()), turns, height, noise, seed)))
