"""Air bytes to try the receiver and the collector with. The same seed makes the same bytes.

  python3 -m compare.streams SEED       writes stream SEED to standard output; run it in tests/
"""
import random
import sys

from model.checks import block, packet_check

KINDS = ("clean", "noise", "damaged", "cut", "mixed", "short", "bursts", "damaged", "cut", "bursts")


def packet(rng, size):
    head = rng.randrange(32) << 11 | size - 2
    return bytes((head >> 8, head & 255)) + rng.randbytes(size - 2)


def frame(level, version, total, number, four, fixed=0b101100000000):
    one = level << 13 | version << 8 | total << 2 | number >> 4
    two = fixed << 4 | number & 15
    return bytes((one >> 8, one & 255, two >> 8, two & 255)) + four


FAULTS = ("length", "check", "fill", "frame")


def frames(rng, level, version, data, fault=None):
    """The frames of a packet; a fault makes its length field, its check or its last byte wrong, or adds a frame of fill."""
    if fault == "length":
        bit = rng.randrange(11)
        data = bytes((data[0] ^ 1 << bit >> 8, data[1] ^ (1 << bit) % 256)) + data[2:]
    total = min(63, (len(data) + 5) // 4 + (fault == "frame"))
    check = packet_check(data) ^ (1 << rng.randrange(16) if fault == "check" else 0)
    joined = bytearray(data) + check.to_bytes(2, "big") + b"\xff" * (total * 4 - len(data) - 2)
    if fault == "fill":
        joined[-1] ^= 1 << rng.randrange(8)
    return [frame(level, version, total, k, bytes(joined[4 * k : 4 * k + 4])) for k in range(total)]


def bits_of(some):
    """The bits on air of some frames, as text."""
    return "".join(format(block(f[2 * k] << 8 | f[2 * k + 1], k), "026b") for f in some for k in range(4))


def packed(bits):
    bits += "0" * (-len(bits) % 8)
    return bytes(int(bits[i : i + 8], 2) for i in range(0, len(bits), 8))


def odd_frame(rng):
    """A frame that no right sender sends."""
    kind = rng.randrange(4)
    if kind == 0:
        return frame(rng.randrange(1, 7), rng.randrange(32), 5, 1, rng.randbytes(4), 0b101100000000 ^ 1 << rng.randrange(12))
    if kind == 1:
        return frame(rng.choice((0, 7)), rng.randrange(32), 5, 1, rng.randbytes(4))
    if kind == 2:
        total = rng.choice((0, 1, 20, 63))
        return frame(5, 3, total, rng.randrange(total, 64), rng.randbytes(4))
    return rng.randbytes(8)


def traffic(rng, most=6):
    """Frames of some packets: in order, or shuffled, with repeats, contradictions and odd ones."""
    pairs = [(rng.randrange(1, 7), rng.randrange(32)) for _ in range(rng.choice((1, 2, 3, 4, 4, most)))]
    sent = []
    for level, version in pairs:
        data = packet(rng, rng.choice((2, 3, 5, 8, 30, 77, 78, 79, 250)))
        sent += frames(rng, level, version, data, rng.choice(FAULTS) if rng.randrange(3) == 0 else None)
    if rng.randrange(4) == 0:
        sent += frames(rng, *pairs[0], packet(rng, rng.choice((2, 8, 30))))
    if rng.randrange(2):
        sent += rng.choices(sent, k=len(sent) // 3 + 1)
        sent += [odd_frame(rng) for _ in range(rng.randrange(6))]
        rng.shuffle(sent)
    return sent


def damaged(rng, bits):
    """Some bits turned, lost or put in, at places drawn at random."""
    some = list(bits)
    for _ in range(rng.randrange(1, 12)):
        at = rng.randrange(len(some))
        turned = {"0": "1", "1": "0"}.get(some[at], some[at])
        some[at] = rng.choice((turned, "", some[at] + rng.choice("01")))
    return "".join(some)


def bursts(rng, bits):
    """Bursts of 1 to 12 bits at any places, of the first frame too, and some over the edge of a block: their ends are turned, and the rest by chance."""
    some = list(bits)
    most = rng.choice((5, 5, 12))
    for _ in range(rng.randrange(1, 2 + len(bits) // rng.choice((26, 104, 520)))):
        n = rng.randrange(1, most + 1)
        at = rng.choice((rng.randrange(len(some) - n), max(0, 26 * rng.randrange(len(some) // 26) - rng.randrange(n))))
        for k in range(n):
            if k in (0, n - 1) or rng.randrange(2):
                some[at + k] = "10"[int(some[at + k])]
    return "".join(some)


def noise(rng, n):
    return "".join(rng.choice("01") for _ in range(n))


def short(rng):
    """One or two frames behind a few bits, with a bit turned or not, and cut or not."""
    bits = noise(rng, rng.choice((0, 0, 1, 25, 26, 40))) + bits_of(traffic(rng)[: rng.randrange(1, 3)])
    bits = damaged(rng, bits) if rng.randrange(2) else bits
    return bits[: rng.choice((len(bits), rng.randrange(len(bits))))]


def long(rng):
    """Packets one after another, of up to some thousand frames, damaged here and there."""
    return "".join(damaged(rng, bits_of(traffic(rng, 40))) for _ in range(rng.randrange(4, 16)))


def stream(seed):
    rng = random.Random(seed)
    kind = "long" if seed % 100 == 99 else KINDS[seed % len(KINDS)]
    if kind == "noise":
        return kind, rng.randbytes(rng.choice((0, 1, 3, 13, 511, 512, 513, 1500)))
    if kind == "short":
        return kind, packed(short(rng))
    if kind == "long":
        return kind, packed(long(rng))
    bits = bits_of(traffic(rng))
    if kind == "cut":
        a = rng.randrange(len(bits))
        bits = bits[a : rng.randrange(a, len(bits))]
    if kind == "damaged":
        bits = damaged(rng, bits)
    if kind == "bursts":
        bits = bursts(rng, bits)
    if kind == "mixed":
        bits = noise(rng, rng.randrange(120)) + damaged(rng, bits) + noise(rng, rng.randrange(120)) + bits_of(traffic(rng))
    return kind, packed(bits)


if __name__ == "__main__":
    sys.stdout.buffer.write(stream(int(sys.argv[1]))[1])
