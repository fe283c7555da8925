"""Looks for a smaller input that still differs: large parts first, then single bytes."""
from model.packet import NAMES
from model.writer import COUNTED

from .draw import mended
from .records import CONTENTS, HEADS, number, reading, split, two


def shorter(some, sizes, differs):
    """Bytes or a list with parts of these sizes left out, wherever it still differs."""
    for size in sizes:
        at = 0
        while at < len(some):
            less = some[:at] + some[at + size :]
            if differs(less):
                some = less
            else:
                at += size
    return some


def air(data, differs):
    """Air bytes with frames left out, then bytes."""
    return shorter(data, [13 << k for k in range(12, -1, -1)] + [8, 4, 2, 1], differs)


def without(b, size):
    """The bytes with a part left out, at each place."""
    return [b[:at] + b[at + size :] for at in range(0, len(b), size)]


def zeroed(b, first, last, size):
    """The bytes with a part between two places set to zero, at each place."""
    return [b[:at] + bytes(min(size, last - at)) + b[min(at + size, last) :] for at in range(first, last, size)]


def packets(record, head, size):
    """A record that ends with a packet, which loses a part; its own length field stays or is set right."""
    for p in without(record[head:], size):
        for q in (p, bytes(mended(bytearray(p)))):
            yield record[: head - 2] + two(len(q)) + q


def counted(packet, size):
    """A packet that loses codes, or what its content's count counts, and says so."""
    if len(packet) < 77 or len(packet) < 77 + 12 * packet[2]:
        return
    name, start = NAMES.get(packet[0] >> 3), 3 + 12 * packet[2]
    places = [(2, 3 + 12 * k, 12) for k in range(packet[2])]
    if name in COUNTED:
        at = start + (19 if name == "text" else 0)
        unit = 5 if name == "frequencies" else 1
        places += [(at, at + 1 + unit * k, unit) for k in range(packet[at])]
    for at, first, unit in places:
        if size <= packet[at]:
            less = bytearray(packet[:first] + packet[first + unit * size :])
            less[at] -= size
            yield bytes(mended(less))


def fields(record, size):
    """A record of fields that loses codes, or what its count counts."""
    codes, body = record[133 : 133 + number(record, 129)], record[133 + number(record, 129) :]
    unit = COUNTED.get(CONTENTS[record[4]] if record[4] < len(CONTENTS) else "raw", 1)
    n, k = number(record, 2), number(record, 5)
    if size <= n:
        for less in without(codes, 23 * size):
            yield record[:2] + two(n - size) + record[4:129] + two(len(less)) + record[131:133] + less + body
    for less in without(body, unit * size):
        for fewer in (k, max(0, k - size)):
            yield record[:5] + two(fewer) + record[7:131] + two(len(less)) + codes + less


def told(record, size):
    """A story with some of its text left out."""
    at = 125 + number(record, 121)
    for less in without(record[at:], size):
        yield record[:123] + two(len(less)) + record[125:at] + less


def shelved(record, size):
    """A shelf with a record fewer, of those that the length says; what else an E holds is only set to zero."""
    n = int.from_bytes(record[1:5], "big")
    for less in (n - 256 * size, n - size):
        if less >= 0:
            yield record[:1] + less.to_bytes(4, "big") + record[5:]


def key(record):
    """Fewer bytes, then more zeros."""
    return len(record), len(record) - record.count(0)


def tries(record, size):
    """Records with a part of so many bytes, or of so many counted things, left out or zero; lengths are never set to zero."""
    letter = record[:1]
    if letter == b"W":
        return [*fields(record, size), *zeroed(record, 1, 127, size), *zeroed(record, 133, len(record), size)]
    if letter == b"T":
        return [*told(record, size), *zeroed(record, 4, 119, size), *zeroed(record, 125, len(record), size)]
    if letter in (b"E", b"U"):
        return [*shelved(record, size), *zeroed(record, HEADS[letter], len(record), size)]
    if letter in (b"A", b"R", b"J", b"M", b"L"):
        head = HEADS[letter]
        return [*packets(record, head, size), *zeroed(record, 1, head - 2, size), *zeroed(record, head, len(record), size)]
    if letter == b"D":
        return [*zeroed(record, 1, 17, size), *zeroed(record, 19, len(record), size)]
    if letter == b"P":
        return [*packets(record, 3, size), *map(reading, counted(record[3:], size)), *zeroed(record, 3, len(record), size)]
    return zeroed(record, {b"O": 3}.get(letter, 1), len(record), size)


def fewer(some, differing):
    """Records left out, many at a time first; the first stays."""
    size = len(some)
    while size:
        at = 1
        while at < len(some):
            less = some[:at] + some[at + size :]
            if differing([b"".join(less)]):
                some = less
            else:
                at += size
        size //= 2
    return some


def records(data, differing):
    """The smallest input found; differing says which of some inputs differ."""
    some = fewer(split(data)[0], differing)
    for k in range(len(some) - 1, -1, -1):
        size = len(some[k])
        while size:
            smaller = [t for t in tries(some[k], size) if key(t) < key(some[k])]
            before, behind = b"".join(some[:k]), b"".join(some[k + 1 :])
            better = set(differing([before + t + behind for t in smaller]))
            better = sorted((t for t in smaller if before + t + behind in better), key=key)
            if better:
                some[k] = better[0]
            else:
                size //= 2
    return b"".join(some)
