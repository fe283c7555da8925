#!/usr/bin/env python3
"""Stories through damage by seed: each comes whole or not at all, and what is undamaged and back to back comes.

  tests/noise.py COUNT
"""
import os
import random
import sys

sys.path.insert(0, os.path.join(os.path.dirname(os.path.abspath(__file__)), "..", "tools"))
from pier import noise  # noqa: E402

SENTENCE = b"The wave came over the wall; then the water went a long way out. \xba\xa3\xc0\xcb\xd4\xbd\xb9\xfd\xc1\xcb\xb5\xcc\xb0\xd3\xa3\xbb"


def drawn(rng):
    """A text of one to nine parts, and damage; every third loses and inverts no bit."""
    text = (SENTENCE * 20)[: rng.choice((0, 20, 60, 149, 298, 745, 1200))]
    text = text if len(text.decode("gb2312", "ignore").encode("gb2312")) == len(text) else text[:-1]
    bad = rng.choice((0, 1, 1))
    how = noise.Damage(turned=bad * rng.choice((0, 0.0005, 0.002, 0.01)), lost=bad * rng.choice((0, 0.0002, 0.001)), garbage=rng.choice((0, 0, 40, 200)),
                       shuffle=rng.randrange(3) == 0, repeats=rng.choice((1, 2, 4, 8)))
    return text, how


def main(count):
    whole = 0
    for seed in range(count):
        text, how = drawn(random.Random("noise %d" % seed))
        air = noise.air_of(text)
        came = noise.trial(air, how, seed)
        if came.texts not in ([], [text]):
            sys.exit("noise: seed %d, %s: the board showed %r instead of %r" % (seed, how, came.texts, text))
        # four packets are collected at once, so only so many parts may come in any order; garbage right behind a frame may be mended into one that
        # covers the head of the next
        clean = not how.turned and not how.lost and not how.garbage and not (how.shuffle and len(text) > 4 * 149)
        if clean and not came.texts:
            sys.exit("noise: seed %d, %s: nothing was damaged, and the story did not come" % (seed, how))
        whole += len(came.texts)
    if not count // 10 < whole < count - count // 10:
        sys.exit("noise: %d of %d stories came, so the draw shows little" % (whole, count))
    print("noise: of %d stories %d came whole, the others not at all" % (count, whole))


main(int(sys.argv[1]))
