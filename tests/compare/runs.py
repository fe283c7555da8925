"""Runs of records for receiver and collector, each from a new beginning. The same seed draws the same run."""
import random

from . import streams
from .records import copying, offering, pending, placing, receiving, releasing


def deliveries(rng):
    """A stream cut into deliveries at any places; some are too long or have an output too short, and are given once more."""
    data = streams.stream(rng.randrange(1 << 30))[1][:3000]
    while data:
        if rng.randrange(12) == 0:
            yield pending(rng.choice((0, 1, 26, 63, 64, 65, 102, 103, 104, 127, 128, 255)), rng.getrandbits(128), rng.choice((0, 1, 1, 2, 255)))
        size = rng.choice((0, 1, 2, 13, 26, 100, 511, 512, 512, 513, 600, rng.randrange(513)))
        room = rng.choice((320, 320, 320, 321, 400, 319, 0))
        counts = rng.choice((40, 40, 40, 40, 40, 41, 60, 39, 0))
        yield receiving(data[:size], room, counts)
        if size <= 512 and room >= 320 and counts >= 40:
            data = data[size:]


def place(rng):
    """A place as it is given, often one that no run of frames leaves."""
    total = rng.choice((0, 1, 2, 62, 63, 64, 255))
    return placing(rng.randrange(256), rng.choice((0, 1, 1, 2)), rng.choice((0, 1, 5, 6, 7, 255)), rng.choice((0, 3, 31, 32)), total,
                   rng.choice((63, 64, 255, 0, max(total - 1, 0), min(total, 255), 62)))


def frames(rng):
    """Frames of some packets, with copies and releases among them."""
    sent = streams.traffic(rng)
    if rng.randrange(2):
        rng.shuffle(sent)
    sent = sent[: rng.choice((len(sent), rng.randrange(1, len(sent) + 1)))]
    pairs = [(f[0] >> 5, f[0] & 31) for f in sent] + [(0, 0), (7, 31), (200, 3), (5, 32)]
    for f in sent:
        yield offering(f if rng.randrange(40) else rng.choice((f[:7], f + b"\0", b"")))
        if rng.randrange(12) == 0:
            yield copying(*rng.choice(pairs), rng.choice((300, 250, 249, 0, rng.randrange(300))))
        if rng.randrange(60) == 0:
            yield releasing(*rng.choice(pairs))
        if rng.randrange(150) == 0:
            yield place(rng)
    for level, version in set(pairs):
        size = rng.choice((2, 3, 5, 8, 30, 77, 78, 79, 250))
        yield from (copying(level, version, size - 1), copying(level, version, size), copying(level, version, 300), releasing(level, version))


def drawn(seed):
    rng = random.Random("run %d" % seed)
    return b"N" + b"".join(deliveries(rng) if seed % 2 else frames(rng))
