"""How many bits run/bits decides wrong, against the noise of the samples and beside the theory.

  python3 -m compare.errors COUNT       a line for each noise, of COUNT bits each; run it in tests/

A symbol's pair has the length A = height times the sum of the half-waves, and noise of the variance 16 (s^2 + 1/12) in each of its two numbers, s that of a
sample and 1/12 of the rounding. For differentially coherent detection of two phases that gives exp(-A^2 / (2 * 16 (s^2 + 1/12))) / 2.
"""
import math
import random
import subprocess
import sys

from . import signals

HEIGHT, TURNS = 1000, 0.1
LEVELS = (0.6, 0.65, 0.7, 0.75, 0.8, 0.9, 1.0, 1.2, 1.5, 2.0, 3.0, 5.0)


def due(noise):
    length = HEIGHT * (sum(signals.WAVE[:8]) - sum(signals.WAVE[8:]))
    return math.exp(-(length**2) / (32 * (noise**2 + 1 / 12))) / 2


def interval(wrong, count):
    """Wilson's, of 95 %."""
    z, p = 1.96, wrong / count
    middle, half = p + z * z / (2 * count), z * math.sqrt(p * (1 - p) / count + z * z / (4 * count * count))
    return (middle - half) / (1 + z * z / count), (middle + half) / (1 + z * z / count)


def wrong_bits(count, noise, seed):
    said = "".join(random.Random(seed).choice("01") for _ in range(count + 1))
    samples = signals.as_bytes(signals.signal(said, TURNS, HEIGHT, noise, seed))
    heard = signals.bits_of(subprocess.run(["../run/bits"], input=samples, stdout=subprocess.PIPE, check=True).stdout)
    return sum(a != b for a, b in zip(said[1:], heard[1:]))


def main(count):
    print("# noise/height, bits wrong, rate, its 95 %% interval from and to, theory, E/N in dB; %d bits each" % count)
    for seed, level in enumerate(LEVELS):
        wrong = wrong_bits(count, level * HEIGHT, seed)
        theory = due(level * HEIGHT)
        print("%.2f %6d %.3e %.3e %.3e %.3e %6.2f" % (level, wrong, wrong / count, *interval(wrong, count), theory, 10 * math.log10(-math.log(2 * theory))), flush=True)


if __name__ == "__main__":
    main(int(sys.argv[1]))
