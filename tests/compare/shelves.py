"""Holds the shelf's functions, asked through run/ask, to the model: paper 02's K6.

  python3 -m compare.shelves COUNT      COUNT records by seed for each of the four functions; run it in tests/

At a difference it looks for the smallest input that still differs, prints it and stops.
"""
import random
import sys

from model import shelf

from . import packets, records

# The answers that paper 02 lists for each function. None of them may be missing from what was drawn.
ANSWERS = {"add": (0, 34, 35, 36), "summarize": (0, 34, 35), "make": (0, 13, 20, 27, 34), "line": (0, 10, 34, 35)}
FULL = shelf.MOST * shelf.RECORD


def packet(rng):
    """A packet that says its size itself."""
    size = rng.choice((2, 3, 17, 77, 249, 250, rng.randrange(2, 251)))
    return ((rng.randrange(32) << 11) + size - 2).to_bytes(2, "big") + rng.randbytes(size - 2)


def one(rng):
    return shelf.record(rng.randrange(1, 7), rng.randrange(32), packet(rng))


def damaged(rng, given):
    """Some byte of a record changed: one that a rule judges, or any."""
    p = int.from_bytes(given[2:4], "big")
    at = rng.choice((0, 1, 2, 3, 4, 5, min(4 + p, 253), 253, 254, 255, rng.randrange(256)))
    value = rng.choice((0, 7, 32, 251, 255, given[at] ^ 1, given[at] + 1 & 255))
    return given[:at] + bytes((value,)) + given[at + 1 :]


def near(rng, given):
    """Bytes of which one is missing or too many."""
    return rng.choice((given[:-1], given + b"\0", b""))


def shelved(rng):
    """A shelf's length, and the records that it has over and over: one is damaged, a byte is missing, 4,096 are there, more than 4,096."""
    some = [one(rng) for _ in range(rng.choice((1, 2, 3)))]
    size = rng.choice((0, 256, 512, 256 * rng.randrange(9)))
    what = rng.randrange(8)
    if what == 0:
        k = rng.randrange(len(some))
        some[k] = damaged(rng, some[k])
    if what == 1:
        size = max(0, size + rng.choice((-1, 1, 128)))
    if what == 2 and rng.randrange(3) == 0:
        size = rng.choice((FULL, FULL, FULL - 256, FULL + 256, FULL + 1, FULL - 1, FULL + 257))
    return size, b"".join(some)


def summary(rng, size, some):
    """That of the shelf, or one that has nothing to do with it, with counts at their end."""
    if rng.randrange(2) and size < 9 * 256:
        return shelf.summary(records.over(some, size - size % 256))
    return b"".join(rng.choice((bytes(8), b"\xff" * 8, rng.randbytes(8))) for _ in range(32))


def added(rng):
    size, some = shelved(rng)
    given, before = one(rng), summary(rng, size, some)
    what = rng.randrange(8)
    if what == 0:
        given = damaged(rng, given)
    if what == 1:
        given = near(rng, given)
    if what == 2:
        before = near(rng, before)
    return records.adding(size, some, given, before)


def summarized(rng):
    return records.summarizing(*shelved(rng), rng.choice((256, 256, 256, 256, 255, 257, 300, 0)))


def made(rng):
    """A packet, or nearly one, at levels to 8 and versions to 33."""
    some = packet(rng)
    if rng.randrange(5) == 0:
        some = rng.choice((b"", some[:1], some[:-1], some + b"\0", rng.randbytes(251)))
    level, version = rng.choice((0, 1, 2, 3, 4, 5, 6, 6, 7, 8, 255)), rng.choice((0, 31, 32, 33, rng.randrange(32), rng.randrange(32)))
    return records.making(level, version, some, rng.choice((256, 256, 256, 255, 257, 0)))


def lined(rng):
    given = one(rng)
    due = len(shelf.line(given)) + 1
    what = rng.randrange(5)
    if what == 0:
        given = damaged(rng, given)
    if what == 1:
        given = near(rng, given)
    return records.lining(given, rng.choice((510, 600, due, due, due - 1, 0)))


def drawn(kind, seed):
    return {"add": added, "summarize": summarized, "make": made, "line": lined}[kind](random.Random("%s %d" % (kind, seed)))


def count(seen, data):
    word = records.blocks(data)[0].split()
    seen[word[0], int(word[1])] += 1


def main(n):
    seen = packets.compare((drawn(kind, seed) for kind in ANSWERS for seed in range(n)), count)
    never = [(f, a) for f in ANSWERS for a in ANSWERS[f] if not seen[f, a]]
    if never:
        sys.exit("never drawn: %s" % never)
    packets.tell(seen, ANSWERS)
    print("ask agrees with the model on %d records of the shelf" % (len(ANSWERS) * n))


if __name__ == "__main__":
    main(int(sys.argv[1]))
