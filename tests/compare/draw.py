"""Packets, fields and records to try reader and writers with, drawn at random. The same seed draws the same record."""
import random

from model.packet import DIGITS, NAMES, ONLY_READ, Fields
from model.writer import COUNTED, write

from . import records

SIZES = {"raw": 0, "frequencies": 1, "address": 13, "keep": 3, "clock": 7, "reset": 4, "factory": 1, "drill": 19, "text": 20, "hold": 2}
WRITTEN = [t for t in NAMES if t not in ONLY_READ]
YEARS = (0, 1, 4, 100, 400, 1900, 2000, 2023, 2024, 2100, 65532, 65535)
EDGES = (0, 1, 2, 3, 4, 5, 12, 13, 23, 24, 28, 29, 30, 31, 32, 59, 60, 127, 128, 254, 255)


def digits(rng, n):
    return [rng.randrange(10) for _ in range(n)]


def octets(rng, n):
    """Bytes of any kind; also all zeros, semicolons, or all ones."""
    return [rng.choice((rng.randrange(256), rng.randrange(256), 0, 59, 255)) for _ in range(n)]


def content(rng, name, count):
    if name == "keep":
        return name, rng.randrange(2), rng.choice((0, 1, 255, 256, 65535, rng.randrange(65536)))
    if name == "clock":
        return name, rng.choice(YEARS), rng.randrange(1, 13), rng.randrange(1, 29), rng.randrange(24), rng.randrange(60), rng.randrange(60)
    if name in ("reset", "drill"):
        return name, rng.randrange(1, 3)
    if name == "text":
        return name, rng.randrange(1, 4), rng.randrange(5), count
    if name == "hold":
        return name, rng.randrange(256)
    return (name, count) if name in COUNTED else (name,)


def fields(rng, t):
    """Fields that make a packet of a type, with codes and body: none, few, or as many as fit."""
    name = NAMES[t]
    most = (173 - SIZES[name]) // 12
    n = 0 if name == "address" else rng.choice((0, 1, most, rng.randrange(most + 1)))
    room = 173 - SIZES[name] - 12 * n
    unit = 5 if name == "frequencies" else 1
    count = rng.choice((0, 1, room // unit, rng.randrange(room // unit + 1))) if name in COUNTED or name == "raw" else 0
    count = min(count, room // unit)
    body = octets(rng, count)
    if name == "frequencies":
        body = [x for _ in range(count) for x in (rng.choice((1, 255, rng.randrange(1, 256))), rng.randrange(256), *digits(rng, 6))]
    used = DIGITS.get(name, 0)
    f = Fields(t, n, content(rng, name, count), digits(rng, used) + [0] * (35 - used), rng.randrange(1 << 32), digits(rng, 12), rng.randbytes(64))
    return f, digits(rng, 23 * n), body


def packet_of(f, codes, body):
    """The packet, empty where there is none; one of a type that is only read is that of another raw type, renamed."""
    p = bytearray(write(f._replace(type=4) if f.type in ONLY_READ else f, codes, body, 250)[1])
    if p:
        p[0] = f.type << 3 | p[0] & 7
    return p


def packet(rng):
    p = packet_of(*fields(rng, rng.choice(list(NAMES))))
    assert p
    return p


# Damage to a packet.


def mended(p):
    """The length field set right, where there is one."""
    if len(p) >= 2:
        p[0], p[1] = p[0] & 0xF8 | (len(p) - 2) >> 8 & 7, (len(p) - 2) & 255
    return p


def front(rng, p):
    """A place before the time, or in the certificate: where something is judged."""
    return rng.choice((rng.randrange(max(1, len(p) - 74)), rng.randrange(len(p)), max(0, len(p) - 70) + rng.randrange(6))) % len(p)


def turned(rng, p):
    for _ in range(rng.randrange(1, 4)):
        p[front(rng, p)] ^= 1 << rng.randrange(8)
    return p


def half(rng, p):
    """Half a byte just inside or outside a digit's range."""
    at, x = front(rng, p), rng.choice((0, 9, 10, 14, 15))
    p[at] = rng.choice((p[at] & 15 | x << 4, p[at] & 240 | x))
    return p


def unmarked(rng, p):
    """A bit of a code's mark, or of the content's first three bytes."""
    at = 3 + 12 * rng.randrange(p[2] + 1)
    at = rng.choice((at, 3 + 12 * p[2] + rng.randrange(3)))
    p[min(at, len(p) - 1)] ^= 1 << rng.randrange(8)
    return p


def edge(rng, p):
    p[front(rng, p)] = rng.choice(EDGES)
    return p


def of_type(rng, p):
    p[0] = rng.randrange(32) << 3 | p[0] & 7
    return p


def counted(rng, p):
    at = min(rng.choice((2, 3 + 12 * p[2], 22 + 12 * p[2])), len(p) - 1)
    p[at] = p[at] + rng.choice((-1, 1, 12)) & 255
    return p


def length_off(rng, p):
    p[1] = p[1] + rng.choice((-1, 1, 2, 128)) & 255
    p[0] ^= rng.choice((0, 0, 1, 2, 4))
    return p


def longer_or_shorter(rng, p):
    at, k = front(rng, p), rng.choice((1, 2, 5, 12, 80))
    if rng.randrange(2):
        p[at:at] = rng.randbytes(k)
    else:
        del p[at : at + k]
    return mended(p) if rng.randrange(3) else p


DAMAGES = (turned, half, unmarked, edge, of_type, counted, length_off, longer_or_shorter)


def damaged(rng):
    p = packet(rng)
    for _ in range(rng.choice((1, 1, 2, 3))):
        p = rng.choice(DAMAGES)(rng, p) if len(p) > 2 else p
    return p


def any_bytes(rng):
    """Bytes of a length near one that matters."""
    p = bytearray(rng.randbytes(rng.choice((0, 1, 2, 3, 76, 77, 78, 249, 250, 251, rng.randrange(300)))))
    return mended(p) if rng.randrange(4) else p


# Records.


def read_record(rng):
    kind = rng.randrange(10)
    return records.reading(bytes(packet(rng) if kind < 3 else any_bytes(rng) if kind == 3 else damaged(rng)))


def with_one(rng, some, value):
    if some:
        some[rng.randrange(len(some))] = value


def changed_content(rng, c):
    """One of its numbers off by a little; a count also by 256."""
    numbers = list(c[1:])
    if numbers:
        at = rng.randrange(len(numbers))
        wide = c[0] in records.LONG and records.LONG[c[0]] == at
        numbers[at] = (numbers[at] + rng.choice((-1, 1, 256)) if wide else rng.choice((*EDGES, numbers[at] + 1))) & (65535 if wide else 255)
    return (c[0], *numbers)


def other_type(rng, f, codes, body):
    return f._replace(type=rng.choice((rng.randrange(32), rng.randrange(256)))), codes, body


def other_count(rng, f, codes, body):
    return f._replace(count=f.count + rng.choice((-1, 1, 256)) & 65535), codes, body


def other_numbers(rng, f, codes, body):
    return f._replace(content=changed_content(rng, f.content)), codes, body


def other_digit(rng, f, codes, body):
    with_one(rng, rng.choice((f.digits, codes, f.certificate)), rng.choice((0, 1, 9, 10, 15, 16, 255)))
    return f, codes, body


def other_byte(rng, f, codes, body):
    with_one(rng, body, rng.choice((0, 9, 10, 255)))
    return f, codes, body


def other_lengths(rng, f, codes, body):
    body = rng.choice((body, body[1:], body + octets(rng, 1)))
    return f, rng.choice((codes, codes[1:], codes + digits(rng, 1))), body


def other_content(rng, f, codes, body):
    return f._replace(content=content(rng, rng.choice(records.CONTENTS), rng.choice((0, len(body), len(body) // 8)))), codes, body


def one_code_more(rng, f, codes, body):
    return f._replace(count=f.count + 1 & 65535), codes + digits(rng, 23), body


def other_body(rng, f, codes, body):
    body = octets(rng, rng.choice((0, 1, 8, 160, 174, 255, 256, 257)))
    return f._replace(content=content(rng, f.content[0], len(body))), codes, body


def any_clock(rng, f, codes, body):
    return f._replace(content=("clock", rng.choice(YEARS), *(rng.choice(EDGES) for _ in range(5)))), codes, body


CHANGES = (other_type, other_count, other_numbers, other_digit, other_byte, other_lengths, other_content, one_code_more, other_body, any_clock)


def written_record(rng):
    """Fields that make a packet, with up to two things changed, and room for it, or nearly."""
    some = fields(rng, rng.choice(WRITTEN))
    size = len(write(*some, 250)[1])
    for _ in range(rng.choice((0, 1, 1, 1, 2, 2))):
        some = rng.choice(CHANGES)(rng, *some)
    return records.writing(*some, rng.choice((250, 250, 300, size, size + 1, size - 1, rng.randrange(size))))


def sent_record(rng):
    """A packet of any length to 251, mostly one that says its length, at levels to 8 and versions to 33."""
    p = mended(bytearray(rng.randbytes(rng.randrange(252))))
    if rng.randrange(5) == 0 and p:
        p[rng.randrange(min(2, len(p)))] ^= 1 << rng.randrange(8)
    need = 13 * ((len(p) + 5) // 4)
    room = rng.choice((819, 832, need, need + 1, need, max(0, need - 1), rng.randrange(need + 1)))
    level, version = rng.choice((0, 1, 2, 3, 4, 5, 6, 6, 7, 8)), rng.choice((0, 31, 32, 33, rng.randrange(32), rng.randrange(32)))
    return records.sending(bytes(p), level, version, room)


def drawn(kind, seed):
    return {"P": read_record, "W": written_record, "A": sent_record}[kind](random.Random("%s %d" % (kind, seed)))
