"""Holds run/listing to the model on seeded streams.

  python3 -m compare.listing COUNT      run it in tests/

At a difference it looks for a smaller stream that still differs, prints it and stops.
"""
import collections
import subprocess
import sys

from model.listing import listing

from . import smaller, streams

# The answers that the collector gives to a frame of eight bytes. None of them may be missing from what was drawn.
ANSWERS = (0, 1, 2, 12, 13, 14, 15, 16, 17)


def run(data):
    r = subprocess.run(["../run/listing"], input=data, stdout=subprocess.PIPE)
    return r.stdout.decode() if r.returncode == 0 else "ended with status %d\n" % r.returncode


def differs(data):
    return run(data) != listing(data)


def main(count):
    seen, lengths = collections.Counter(), []
    for seed in range(count):
        kind, data = streams.stream(seed)
        due = listing(data)
        if run(data) != due:
            least = smaller.air(data, differs)
            sys.exit("stream %d (%s) differs; the smallest input found, in hex:\n%s\nlisting:\n%smodel:\n%s"
                     % (seed, kind, least.hex(" "), run(least), listing(least)))
        seen.update(int(line.split()[1]) for line in due.splitlines()[:-1])
        lengths.append(len(data))
    never = [a for a in ANSWERS if not seen[a]]
    if never:
        sys.exit("the streams never drew the answers %s" % never)
    print("listing: %s" % ", ".join("%d times %d" % (seen[a], a) for a in ANSWERS))
    print("listing agrees with the model on %d streams of up to %d bytes" % (count, max(lengths)))


if __name__ == "__main__":
    main(int(sys.argv[1]))
