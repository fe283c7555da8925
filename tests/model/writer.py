"""The packet writer: its tests in their order, then the bits. As decided, it also answers 27 to what could not be read back (digits that the
content doesn't use, a body for a content that has none), and a raw content has no count of its own."""
from .packet import DIGITS, NAMES, ONLY_READ, is_clock

COUNTED = {"frequencies": 8, "address": 1, "text": 1}  # how many numbers of the body make one of the count


def wrong_count(fields, codes, body):
    """26: a count above 255, or not that of what is lent for it."""
    name, *numbers = fields.content
    if fields.count > 255 or len(codes) != 23 * fields.count:
        return True
    return name in COUNTED and (numbers[-1] > 255 or len(body) != COUNTED[name] * numbers[-1])


def wrong_digit(fields, codes, body):
    """25: a digit above 9 in digits, codes, certificate or entries."""
    entries = [x for i, x in enumerate(body) if i % 8 >= 2] if fields.content[0] == "frequencies" else []
    return any(d > 9 for some in (fields.digits, codes, fields.certificate, entries) for d in some)


def wrong_field(fields, body):
    """27: outside its list or range, or not of the type named, or not to be read back; and type 1 with codes."""
    name, *numbers = fields.content
    if name != NAMES[fields.type] or fields.type == 1 and fields.count > 0:
        return True
    if any(fields.digits[DIGITS.get(name, 0) :]) or body and name not in COUNTED and name != "raw":
        return True
    if name == "frequencies":
        return 0 in body[::8]
    if name == "keep":
        return numbers[0] > 1
    if name == "clock":
        return not is_clock(*numbers)
    if name in ("reset", "drill"):
        return numbers[0] not in (1, 2)
    if name == "text":
        return numbers[0] not in (1, 2, 3) or numbers[1] > 4
    return False


def bits(value, width):
    return format(value, "0%db" % width)


def joined(values, width):
    return "".join(bits(value, width) for value in values)


def content_bits(fields, body):
    """A row of the table, reserved bits and all."""
    name, *numbers = fields.content
    digits = "1111" + joined(fields.digits[: DIGITS.get(name, 0)], 4)
    if name == "frequencies":
        entries = (body[i : i + 8] for i in range(0, len(body), 8))
        return bits(numbers[0], 8) + "".join(joined(e[:2], 8) + joined(e[2:], 4) for e in entries)
    if name == "address":
        return bits(numbers[0], 8) + joined(body, 8) + digits
    if name == "keep":
        return bits(numbers[0], 8) + bits(numbers[1], 16)
    if name == "clock":
        return bits(numbers[0], 16) + joined(numbers[1:], 8)
    if name == "reset":
        return "01" + bits(numbers[0], 2) + digits
    if name == "factory":
        return "01111111"
    if name == "drill":
        return "0001" + bits(numbers[0], 4) + digits
    if name == "text":
        return bits(numbers[0], 4) + bits(numbers[1], 4) + digits + bits(numbers[2], 8) + joined(body, 8)
    if name == "hold":
        return bits(numbers[0], 8) + "11111111"
    return joined(body, 8)


def write(fields, codes, body, room):
    """The answer and the packet: 23, 26, 25, 27, 20 where it would have over 250 bytes, 10."""
    if fields.type not in NAMES or fields.type in ONLY_READ:
        return 23, b""
    if wrong_count(fields, codes, body):
        return 26, b""
    if wrong_digit(fields, codes, body):
        return 25, b""
    if wrong_field(fields, body):
        return 27, b""
    content = content_bits(fields, body)
    p = 77 + 12 * fields.count + len(content) // 8
    if p > 250:
        return 20, b""
    if room < p:
        return 10, b""
    marked = "".join("1111" + joined(codes[i : i + 23], 4) for i in range(0, len(codes), 23))
    everything = (bits(fields.type, 5) + bits(p - 2, 11) + bits(fields.count, 8) + marked + content
                  + bits(fields.time, 32) + joined(fields.certificate, 4) + joined(fields.signature, 8))
    return 0, int(everything, 2).to_bytes(p, "big")
