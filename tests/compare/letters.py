"""Holds run/letters to the model on seeded streams, some of them with blocks C' among the frames.

  python3 -m compare.letters COUNT      run it in tests/

At a difference it looks for a smaller stream that still differs, prints it and stops.
"""
import collections
import random
import subprocess
import sys

from model.checks import CHECKS
from model.letters import FIVE, letters

from . import smaller, streams


def run(data):
    r = subprocess.run(["../run/letters"], input=data, stdout=subprocess.PIPE)
    return r.stdout.decode() if r.returncode == 0 else "ended with status %d\n" % r.returncode


def differs(data):
    return run(data) != letters(data)


def with_c_prime(rng, data):
    """Blocks C' put in at bits drawn at random."""
    bits = "".join(format(byte, "08b") for byte in data)
    for _ in range(rng.randrange(1, 5)):
        at, info = rng.randrange(len(bits) + 1), rng.randrange(1 << 16)
        bits = bits[:at] + format(info << 10 | CHECKS[info] ^ 0x350, "026b") + bits[at:]
    return streams.packed(bits)


def main(count):
    seen, longest = collections.Counter(), 0
    for seed in range(count):
        kind, data = streams.stream(seed)
        data = with_c_prime(random.Random(-1 - seed), data) if seed % 2 else data
        due = letters(data)
        if run(data) != due:
            least = smaller.air(data, differs)
            sys.exit("stream %d (%s) differs; the smallest input found, in hex:\n%s\nletters:\n%smodel:\n%s"
                     % (seed, kind, least.hex(" "), run(least), letters(least)))
        seen.update(line.split()[1] for line in due.splitlines()[:-1])
        longest = max(longest, len(data))
    never = [name for name, _ in FIVE if not seen[name]]
    if never:
        sys.exit("the streams never drew the letters %s" % never)
    print("letters: %s" % ", ".join("%d times %s" % (seen[name], name) for name, _ in FIVE))
    print("letters agrees with the model on %d streams of up to %d bytes" % (count, longest))


if __name__ == "__main__":
    main(int(sys.argv[1]))
