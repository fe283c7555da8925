"""Holds the sister band's commands, asked through run/ask, to the model: paper 02's K14.

  python3 -m compare.commands COUNT     COUNT commands by seed, each read, damaged, written and carried; run it in tests/

At a difference it looks for the smallest input that still differs, prints it and stops.
"""
import random
import sys

from model import sister

from . import packets, records

ANSWERS = {"decode": (0, 24, 25, 26, 27, 39), "encode": (0, 10, 25, 26, 27, 39)}
NAMES = ("clock", "resource", "lock")
MOST = 3200  # as much memory as ask lends


def date(rng):
    """Any, or one at an edge."""
    year = rng.choice((0, 4, 100, 400, 1900, 2000, 2014, 2023, 2024, 2100, 65535, rng.randrange(65536)))
    month, day = rng.choice(((2, 28), (2, 29), (2, 30), (4, 30), (4, 31), (12, 31), (1, 32), (0, 1), (13, 1), (1, 0), (rng.randrange(1, 13), rng.randrange(1, 29))))
    return year, month, day, rng.choice((0, 23, 24, rng.randrange(24))), rng.choice((0, 59, 60, rng.randrange(60))), rng.choice((0, 59, 60, rng.randrange(60)))


def drawn(rng):
    """A command, its address and its codes, right in its counts."""
    name = rng.choice(NAMES)
    count = rng.choice((0, 1, 2, 3, 14, 161, 162, 254, 255, rng.randrange(256)) if rng.randrange(3) == 0 else (0, 1, 2, 3))
    if name == "clock":
        return ("clock", *date(rng)), b"", []
    if name == "resource":
        return ("resource", count), rng.randbytes(count), [rng.randrange(10) for _ in range(23)]
    return ("lock", rng.choice((0, 87500, 98000, 0xFFFFFFFF, rng.randrange(1 << 32))), count), b"", [rng.randrange(10) for _ in range(23 * count)]


def damaged(rng, command, address, codes):
    """With one thing wrong that the writer looks at, or none."""
    wrong = rng.randrange(8)
    name, *numbers = command
    if wrong == 0 and codes:
        codes[rng.randrange(len(codes))] = rng.choice((10, 15, 99, 255))
    if wrong == 1:
        codes = codes[1:] or [1]
    if wrong == 2:
        address = address[1:] or b"a"
    if wrong == 3 and name != "clock":
        command = (name, *numbers[:-1], rng.choice((numbers[-1] + 1, numbers[-1] + 256, 256, 65535)))
    if wrong == 4 and rng.randrange(3) == 0:
        command = sister.NONE
    return command, address, codes


def torn(rng, b):
    """The bytes of a command with one thing wrong that the reader looks at."""
    b, wrong = bytearray(b), rng.randrange(8)
    if wrong == 0:
        b[0] = rng.choice((0, 4, 5, 7, 255))
    if wrong == 1:
        b[rng.choice((1, 2))] ^= 1 << rng.randrange(8)
    if wrong == 2:
        b = b[: rng.choice((0, 1, 2, 3, len(b) - 1))]
    if wrong == 3:
        b += rng.randbytes(rng.choice((1, 12)))
    if wrong == 4 and len(b) > 10:
        b[rng.choice((4 + b[3], 8, 20, len(b) - 12)) % len(b)] ^= 1 << rng.randrange(4, 8)
    if wrong == 5 and len(b) > 10:
        b[-1 - rng.randrange(11)] |= rng.choice((0x0A, 0xA0))
    if wrong == 6:
        b[rng.choice((3, 5, 6, 7, 8, 9)) % len(b)] = rng.choice((0, 1, 12, 13, 24, 31, 32, 60, 255))
    return bytes(b)


def inputs(seed):
    rng = random.Random(seed)
    command, address, codes = drawn(rng)
    size = 3 + sister.sizes(command[0], command[-1] if command[0] != "clock" else 0)[0]
    yield records.encoding(command, address, codes, MOST)
    yield records.encoding(command, address, codes, rng.choice((size, size - 1, 0, 2)))
    yield records.encoding(*damaged(rng, command, address, list(codes)), rng.choice((MOST, MOST, size)))
    written = sister.write(command, address, codes, MOST)[1]
    if written:
        yield records.decoding(written)
        yield records.decoding(torn(rng, written))
    content, digits = sister.to_packet(command, codes)
    yield records.carrying(content, digits)
    yield records.carrying(rng.choice((("hold", 7), ("keep", 1, 60), ("text", 1, 4, 300), ("factory",), content)), [rng.randrange(16) for _ in range(35)])


def listed():
    """Every tag, every value of a clock's judged bytes, and the largest commands, byte by byte short and long."""
    for tag in range(256):
        yield records.decoding(bytes((tag, 0, 7, 7, 222, 11, 10, 12, 13, 14)))
    for at in range(5, 10):
        for x in range(256):
            b = bytearray((1, 0, 7, 7, 222, 2, 1, 12, 13, 14))
            b[at] = x
            yield records.decoding(bytes(b))
    codes = [i * 7 % 10 for i in range(5865)]
    largest = sister.write(("lock", 98000, 255), b"", codes, MOST)[1]
    for b in (largest, largest[:-1], largest + b"\0", largest[:2] + bytes((largest[2] ^ 1,)) + largest[3:]):
        yield records.decoding(b)
    for room in (len(largest), len(largest) - 1):
        yield records.encoding(("lock", 98000, 255), b"", codes, room)
    yield records.encoding(("lock", 98000, 256), b"", codes + [0] * 23, MOST)
    for m in (0, 1, 160, 161, 255):
        yield records.decoding(sister.write(("resource", m), bytes(range(m)), codes[:23], MOST)[1])


def count(seen, data):
    """Which answers were drawn, which commands were read and written, and with how many codes."""
    for record, block in zip(records.split(data)[0], records.blocks(data)):
        words = [line.split() for line in block.split("\n")]
        if words[0][0] in ANSWERS:
            seen[words[0][0], int(words[0][1])] += 1
        if block.startswith("decode 0"):
            seen["read", words[0][2]] += 1
            seen["codes read", int(words[0][-1])] += words[0][2] == "lock"
        if block.startswith("encode 0"):
            seen["written", record[1]] += 1
            seen["codes written", int.from_bytes(record[11:13], "big")] += record[1] == 3
        if block.startswith("carried"):
            seen["carried", words[0][1]] += 1


def main(n):
    some = [*listed(), *(record for seed in range(n) for record in inputs(seed))]
    seen = packets.compare(some, count)
    wanted = [(f, a) for f in ANSWERS for a in ANSWERS[f]] + [("read", name) for name in NAMES] + [("written", tag) for tag in (1, 2, 3)]
    wanted += [(what, k) for what in ("codes read", "codes written") for k in (0, 1, 2, 255)] + [("carried", name) for name in ("clock", "resource", "unknown")]
    missing = [w for w in wanted if not seen[w]]
    if missing:
        sys.exit("never drawn: %s" % missing)
    packets.tell(seen, ANSWERS)
    print("ask agrees with the model on %d commands" % len(some))


if __name__ == "__main__":
    main(int(sys.argv[1]))
