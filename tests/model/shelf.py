"""The shelf, requests K6 and K9 of paper 02: records of 256 bytes, the summary of them by type, a record's line, the refusals, and two shelves compared."""
from . import on_air

RECORD, MOST = 256, 4096
NONE = 0xFFFFFFFF


def record(level, version, packet):
    """Level, version, P in two bytes high first, 250 bytes (packet, then 0xFF), two zero bytes."""
    return bytes((level, version)) + len(packet).to_bytes(2, "big") + packet + b"\xff" * (250 - len(packet)) + bytes(2)


def records(shelf):
    return [shelf[k : k + RECORD] for k in range(0, len(shelf), RECORD)]


def packet(one):
    return one[4 : 4 + int.from_bytes(one[2:4], "big")]


def breaks_a_rule(one):
    p = int.from_bytes(one[2:4], "big")
    if not 1 <= one[0] <= 6 or one[1] > 31 or not 2 <= p <= 250:
        return True
    length_field = int.from_bytes(one[4:6], "big") & 0x7FF
    return p != length_field + 2 or one[4 + p : 254].strip(b"\xff") != b"" or one[254:] != bytes(2)


def refusal(shelf):
    """34: unreadable (None), not whole records or over 4,096; 35: a record breaks a rule; else 0."""
    if shelf is None or len(shelf) % RECORD or len(shelf) > MOST * RECORD:
        return 34
    return 35 if any(map(breaks_a_rule, records(shelf))) else 0


def line(one):
    return "%d %d %d %s" % (one[0], one[1], int.from_bytes(one[2:4], "big"), packet(one).hex().upper())


def printed(shelf):
    """What the program prints of the file."""
    number = refusal(shelf)
    return ["%d" % number] if number else [line(one) for one in records(shelf)]


def summary(shelf):
    """How many records a type has, and the last one's number, for each of 32 types."""
    types = [one[4] >> 3 for one in records(shelf)]
    entries = ((types.count(t), max((k for k, other in enumerate(types) if other == t), default=NONE)) for t in range(32))
    return b"".join(count.to_bytes(4, "big") + last.to_bytes(4, "big") for count, last in entries)


def add(shelf, one, before):
    """The answer, and the summary behind it: only the entry of the record's type is another, one more and the shelf's record count as the last number."""
    if refusal(shelf) == 34 or len(one) != RECORD or len(before) != RECORD:
        return 34, before
    if refusal(shelf) or breaks_a_rule(one):
        return 35, before
    if len(shelf) == MOST * RECORD:
        return 36, before
    at = 8 * (one[4] >> 3)
    count = (int.from_bytes(before[at : at + 4], "big") + 1) % 2**32
    return 0, before[:at] + count.to_bytes(4, "big") + (len(shelf) // RECORD).to_bytes(4, "big") + before[at + 8 :]


def summarize(shelf, room):
    """The answer, and the summary made afresh."""
    number = 34 if room != RECORD else refusal(shelf)
    return (number, b"") if number else (0, summary(shelf))


def make(level, version, some, room):
    """The answer, and the record of a packet: the on-air writer's own numbers in its order, and 34 last."""
    number = on_air.refusal(some, level, version) or (34 if room != RECORD else 0)
    return (number, b"") if number else (0, record(level, version, some))


def line_into(one, room):
    """The answer, and the line with its end: 34, 35, and 10 where it doesn't fit."""
    if len(one) != RECORD:
        return 34, b""
    if breaks_a_rule(one):
        return 35, b""
    due = line(one).encode() + b"\n"
    return (10, b"") if room < len(due) else (0, due)


def compared(left, right):
    """What K9 prints of two files: 34 and 35 for left, then for right; else the lines of what differs and their number."""
    for name, shelf in (("left", left), ("right", right)):
        if refusal(shelf):
            return ["%d %s" % (refusal(shelf), name)]
    ours, theirs = records(left), records(right)
    lines = []
    for r, (a, b) in enumerate(zip(ours, theirs)):
        if a != b:
            byte = [x == y for x, y in zip(a, b)].index(False)
            lines.append("record %d byte %d %02X %02X" % (r, byte, a[byte], b[byte]))
    lines += ["record %d only left" % r for r in range(len(theirs), len(ours))]
    lines += ["record %d only right" % r for r in range(len(ours), len(theirs))]
    return lines + ["differences %d" % len(lines)]
