"""Holds telling and joining of stories, asked through run/ask, to the model: paper 02's K1.

  python3 -m compare.stories COUNT      COUNT stories by seed, each told, its packets joined in another order and damaged; run it in tests/

At a difference it looks for the smallest input that still differs, prints it and stops.
"""
import random
import sys

from model import story

from . import packets, records

HOLD = bytes.fromhex("a84d0005ff") + bytes(4) + bytes(6) + bytes(64)  # a packet of type 21, right in itself
ANSWERS = {"tell": (0, 10, 20, 25, 26, 27, 30, 31, 32), "join": (0, 10, 33)}


def text(rng, size):
    """Bytes of one kind or mixed: letters, semicolons, zeros, characters of two bytes. The last is whole."""
    some = bytearray()
    kind = rng.choice(("letters", "wide", "mixed", "mixed", "semicolons", "zeros"))
    while len(some) < size:
        wide = kind == "wide" or kind == "mixed" and rng.randrange(2)
        if wide and len(some) + 2 <= size:
            some += bytes((rng.randrange(0x80, 256), rng.choice((rng.randrange(256), 0x3B, 0x00, 0xFF))))
        else:
            some.append({"semicolons": 0x3B, "zeros": 0}.get(kind, rng.randrange(0x80)))
    return bytes(some)


def edge(rng, room):
    """A character of two bytes that begins on the last byte of a part, and after it."""
    k = rng.randrange(1, 9)
    return text(rng, k * room - 1) + b"\xb0\xa1" + text(rng, rng.choice((0, 1, room - 2, room)))


def length(rng, room):
    """None, one byte, exact fits of one to nine parts, one byte less and more, too long, any."""
    k = rng.randrange(1, 10)
    return rng.choice((0, 1, k * room, k * room, k * room + 1, k * room - 1, 9 * room, 9 * room + 1, rng.randrange(9 * room + 40)))


def drawn(rng):
    """A story that can be told, or one that has one thing wrong."""
    count = rng.choice((0, 0, 1, 2, 5, 11, 12, 12, 13))
    room = max(149 - 12 * count, 1)
    given = edge(rng, room) if rng.randrange(3) == 0 else text(rng, length(rng, room))
    if rng.randrange(12) == 0:
        given += bytes((rng.randrange(0x80, 256),))
    digits = [rng.randrange(10) for _ in range(31)] + [int(d) for d in "%04d" % rng.choice((0, 1, 9, 999, 9990, 9991, 9992, 9998, 9999, rng.randrange(10000)))]
    codes = [rng.randrange(10) for _ in range(23 * count)]
    kind, certificate = rng.choice((1, 2, 3)), [rng.randrange(10) for _ in range(12)]
    wrong = rng.randrange(12)
    if wrong == 0:
        kind = rng.choice((0, 4, 15, 16, 255))
    if wrong == 1:
        codes = codes[1:] or [1]
    if wrong == 2:
        certificate[rng.randrange(12)] = rng.choice((10, 255))
    if wrong == 3:
        digits[rng.randrange(35)] = rng.choice((10, 99, 255))
    if wrong == 4 and codes:
        codes[rng.randrange(len(codes))] = rng.choice((10, 200))
    return [kind, digits, count, codes, rng.randrange(1 << 32), certificate, rng.randbytes(64), given]


def rooms(rng, told):
    return rng.choice((2300, len(told), len(told), len(told) - 1 if told else 0, 0))


def foreign(rng, args):
    """The parts of the same text under another message number: one of its first 31 digits is another, or it begins later."""
    kind, digits, *rest = args
    other = digits[:]
    k = rng.randrange(31)
    other[k] = (other[k] + rng.randrange(1, 10)) % 10
    number = (story.four(digits) + rng.choice((1, 2, 9, 5000))) % 9991
    later = digits[:31] + [int(d) for d in "%04d" % number]
    return list(story.cut(story.tell(kind, rng.choice((other, later)), *rest, 2300)[2]))


def joins(rng, told, args):
    """The packets shuffled; one twice, one missing, one of another story, one of another type, one damaged, ten; rooms that just fit and don't."""
    given, some = args[-1], list(story.cut(told))
    mixed = some[:]
    rng.shuffle(mixed)
    yield records.joining(b"".join(mixed), rng.choice((len(given), 1400, max(len(given) - 1, 0))))
    what = rng.randrange(10)
    if what == 0:
        mixed.append(rng.choice(some))
    elif what == 1:
        mixed.pop()
    elif what == 2:
        mixed[0] = rng.choice(some)
    elif what == 3:
        mixed.append(b"".join(some)[: rng.randrange(1, 60)])
    elif what == 4:
        mixed = (some * 10)[:10]
    elif what == 5:
        k = rng.randrange(len(some))
        mixed = [*some[:k], foreign(rng, args)[k], *some[k + 1 :]]
    elif what == 6:
        mixed[rng.randrange(len(mixed))] = HOLD
    else:
        damaged = bytearray(mixed[rng.randrange(len(mixed))])
        n = damaged[2]
        at = rng.choice((0, 1, 2, 3 + 12 * n, 4 + 12 * n, 21 + 12 * n, 22 + 12 * n, *range(23 + 12 * n, 27 + 12 * n), len(damaged) - 1, rng.randrange(len(damaged))))
        damaged[at] = rng.choice((damaged[at] ^ 1 << rng.randrange(8), rng.randrange(256)))
        mixed[rng.randrange(len(mixed))] = bytes(damaged)
    yield records.joining(b"".join(mixed), rng.choice((len(given), 1400)))


def stories(seed):
    """Records that tell one story and join its packets in several ways."""
    rng = random.Random("story %d" % seed)
    given = drawn(rng)
    told = story.tell(*given, 2300)
    yield records.telling(*given, rooms(rng, told[2]))
    if told[0] == 0:
        yield from joins(rng, told[2], given)


def count(seen, data):
    for record, block in zip(records.split(data)[0], records.blocks(data)):
        word = block.split()
        if word[0] in ANSWERS:
            seen[word[0], int(word[1])] += 1
        if word[:2] == ["tell", "0"]:
            seen["parts", int(word[2])] += 1
            seen["codes", records.number(record, 2)] += 1


def missing(seen):
    wanted = [(f, a) for f in ANSWERS for a in ANSWERS[f]] + [("parts", n) for n in range(1, 10)] + [("codes", n) for n in (0, 1, 12)]
    return [w for w in wanted if not seen[w]]


def main(n):
    seen = packets.compare((record for seed in range(n) for record in stories(seed)), count)
    if missing(seen):
        sys.exit("never drawn: %s" % missing(seen))
    packets.tell(seen, ANSWERS)
    print("ask agrees with the model on %d stories, told and joined" % n)


if __name__ == "__main__":
    main(int(sys.argv[1]))
