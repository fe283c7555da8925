"""Stories longer than one packet, from paper 02's K1: a text in character set 0 as one to nine packets of type 15, and back."""
from .packet import Fields
from .reader import read
from .writer import write


def characters(text):
    """A byte below 0x80, or a byte of 0x80 or above with the byte after it. At the very end such a byte may stand alone."""
    i = 0
    while i < len(text):
        width = 1 if text[i] < 0x80 else 2
        yield text[i : i + width]
        i += width


def is_lone(text):
    return any(c[0] >= 0x80 and len(c) == 1 for c in characters(text))


def parts(text, room):
    """Each part takes all the whole characters that fit; an empty text is one part."""
    some = [b""]
    for c in characters(text):
        if len(some[-1]) + len(c) > room:
            some.append(b"")
        some[-1] += c
    return some


def head(part, total):
    return b"%d/%d " % (part, total)


def four(digits):
    return int("".join(map(str, digits[31:])))


def later(digits, k):
    """The message number k parts on: only the last four digits rise."""
    return digits[:31] + [int(d) for d in "%04d" % (four(digits) + k)]


def tell(kind, digits, count, codes, time, certificate, signature, text, room):
    """The answer, the number of parts, and the packets back to back."""
    def part(number, body):
        fields = Fields(15, count, ("text", kind, 0, len(body)), number, time, certificate, signature)
        return write(fields, codes, list(body), 250)

    own = part(digits, head(1, 1))[0]
    if own:
        return own, 0, b""
    if is_lone(text):
        return 30, 0, b""
    some = parts(text, 250 - 97 - 12 * count - 4)
    if len(some) > 9:
        return 31, 0, b""
    if four(digits) + len(some) - 1 > 9999:
        return 32, 0, b""
    packets = [part(later(digits, k), head(k + 1, len(some)) + p) for k, p in enumerate(some)]
    assert all(answer == 0 for answer, _ in packets)
    told = b"".join(packet for _, packet in packets)
    return (10, 0, b"") if room < len(told) else (0, len(some), told)


def cut(lent):
    """The packets that are lent, by their length fields; the last may be shorter than it says."""
    while lent:
        size = (int.from_bytes(lent[:2].ljust(2, b"\0"), "big") & 0x7FF) + 2
        yield lent[:size]
        lent = lent[size:]


def join(lent, room):
    """The answer and the text: 33 unless they are parts 1 to one total, each once, numbers in step; 10."""
    found = {}
    packets = list(cut(lent))
    for packet in packets:
        answer, fields, _, _, body = read(packet)
        if answer or fields.type != 15 or fields.content[2] != 0:
            return 33, b""
        for k in range(1, len(packets) + 1):
            if body[:4] == head(k, len(packets)):
                found[k] = (fields.digits, body[4:])
    if not 1 <= len(packets) <= 9 or sorted(found) != list(range(1, len(packets) + 1)):
        return 33, b""
    first = found[1][0]
    for k, (digits, _) in found.items():
        if digits[:31] != first[:31] or four(digits) != four(first) + k - 1:
            return 33, b""
    text = b"".join(found[k][1] for k in sorted(found))
    return (10, b"") if room < len(text) else (0, text)
