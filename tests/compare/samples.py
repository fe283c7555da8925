"""Holds the deciding of symbols to the model: run/bits on seeded samples, clean, noisy, silent, at the edges, refused, cut short, any bytes; and run/ask
on single symbols behind states that no run leaves.

  python3 -m compare.samples COUNT      COUNT runs, and ten times as many symbols; run it in tests/

At a difference it looks for the smallest input that still differs, prints it and stops.
"""
import collections
import random
import struct
import subprocess
import sys

from model.samples import bits

from . import packets, records, signals, smaller

KINDS = ("clean", "noisy", "silent", "edges", "refused", "refused", "cut", "bytes")
NO_SAMPLES = (float("nan"), float("inf"), -float("inf"), 0.5, -0.5, 32768.0, -32769.0, 32766.5, -32767.5, 2.0**53, -(2.0**53), 2.0**51, 1e300, 5e-324)
SAMPLES = (0.0, -0.0, 1.0, -1.0, 32767.0, -32768.0)


def run(data):
    """What is written, the line on standard error, and whether the status fits it."""
    r = subprocess.run(["../run/bits"], input=data, stdout=subprocess.PIPE, stderr=subprocess.PIPE)
    line = r.stderr.decode()
    return r.stdout, line if r.returncode == (1 if line else 0) else "status %d %s" % (r.returncode, line)


def random_bits(rng):
    return "".join(rng.choice("01") for _ in range(rng.choice((0, 1, 2, 7, 8, 9, 63, 64, 65, 128, 200))))


def drawn(seed):
    """A kind, and its bytes."""
    rng = random.Random(seed)
    kind = KINDS[seed % len(KINDS)]
    if kind == "bytes":
        return kind, rng.randbytes(rng.choice((255, 256, 257, 1000)))
    said = random_bits(rng)
    noise = {"clean": 0, "noisy": rng.choice((1, 100, 3000, 20000))}.get(kind, 10)
    numbers = signals.signal(said, rng.random(), rng.choice((1, 3, 200, 30000)), noise, seed)
    if kind == "silent":
        numbers = [0.0 if rng.randrange(3) else x for x in numbers] if rng.randrange(2) else [rng.choice((0.0, -0.0)) for _ in numbers]
    if kind == "edges":
        numbers = [rng.choice(SAMPLES) for _ in numbers]
    if kind == "refused" and numbers:
        numbers[rng.randrange(len(numbers))] = rng.choice(NO_SAMPLES)
    data = signals.as_bytes(numbers)
    return kind, data[: rng.randrange(len(data) + 1)] if kind == "cut" else data


def runs(count):
    """run/bits, and how its runs ended."""
    seen, longest = collections.Counter(), 0
    for seed in range(count):
        kind, data = drawn(seed)
        due = bits(data)
        if run(data) != due:
            least = smaller.shorter(data, [256 << k for k in range(8, -1, -1)], lambda d: run(d) != bits(d))
            numbers = struct.unpack(">%dd" % (len(least) // 8), least[: len(least) // 8 * 8])
            sys.exit("samples %d (%s) differ; the fewest found:\n%s\nbits: %s\nmodel: %s" % (seed, kind, numbers, run(least), bits(least)))
        seen[due[1].split()[3] if "refused" in due[1] else "cut" if due[1] else "whole"] += 1
        longest = max(longest, len(data) // 256)
    never = [end for end in ("38", "cut", "whole") if not seen[end]]
    if never:
        sys.exit("the samples never ended with %s" % never)
    print("bits: %d runs to the end, %d refused with 38, %d cut inside a symbol" % (seen["whole"], seen["38"], seen["cut"]))
    print("bits agrees with the model on %d runs of up to %d symbols" % (count, longest))


def number(rng, most):
    """Whole numbers up to some size, most of them; its ends, and what is no sample or no state."""
    return float(rng.choice((rng.randint(-most - 2, most + 1), rng.randint(-9, 9), most, -most, most + 1, -most - 1, -0.0, rng.choice(NO_SAMPLES))))


def symbol(seed):
    """A record with a state and a symbol, one thing wrong or none."""
    rng = random.Random(-1 - seed)
    state = [float(rng.randint(-524280, 524280)) for _ in range(2)]
    numbers = [float(rng.choice((rng.randint(-32768, 32767), rng.randint(-2, 2)))) for _ in range(32)]
    kind = seed % 5
    if kind == 1:
        state[rng.randrange(2)] = number(rng, 524280)
    if kind == 2:
        numbers = numbers[: rng.randrange(32)] if rng.randrange(2) else numbers + [0.0] * rng.randrange(1, 9)
    if kind == 3:
        numbers[rng.randrange(32)] = number(rng, 32767)
    if kind == 4:
        state = [rng.choice((524280.0, -524280.0, 0.0)) for _ in range(2)]
        numbers = [rng.choice(SAMPLES) for _ in range(32)]
    return records.deciding(state, numbers)


def symbols(count):
    """run/ask, and the answers that it gave."""
    given = [symbol(seed) for seed in range(count)]
    different = packets.differing(given)
    if different:
        least = smaller.records(different[0], packets.differing)
        sys.exit("a symbol differs; the smallest found:\n%s\nask:\n%smodel:\n%s" % (records.said(least), packets.run(least), records.printed(least)))
    seen = collections.Counter(block.split()[1] + " " + block.split()[2] for data in given for block in records.blocks(data))
    never = [end for end in ("0 zero", "0 one", "0 undecided", "28 undecided", "37 undecided", "38 undecided") if not seen[end]]
    if never:
        sys.exit("the symbols never drew %s" % never)
    print("symbols: %s" % ", ".join("%d times %s" % (n, end) for end, n in sorted(seen.items())))
    print("deciding agrees with the model on %d symbols" % count)


def main(count):
    runs(count)
    symbols(10 * count)


if __name__ == "__main__":
    main(int(sys.argv[1]))
