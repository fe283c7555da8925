"""The sister band's commands 0x01 to 0x03: paper 02's K14 and clause 9.2 of GY/T 403-2024, read and written. A command is a name and its
numbers; its address and the digits of its codes stand beside it."""
from .packet import is_clock

TAGS = {1: "clock", 2: "resource", 3: "lock"}
NONE = ("unknown",)


def sizes(name, count):
    """The bytes of the content, of the address, and how many codes there are."""
    return {"clock": (7, 0, 0), "resource": (13 + count, count, 1), "lock": (5 + 12 * count, 0, count)}[name]


def nibbles(b):
    return [n for x in b for n in (x >> 4, x & 15)]


def parsed(b):
    """The name and the count that tag and content give, whatever else is wrong; a byte that is not there is 0."""
    name = TAGS[b[0]]
    place = {"clock": None, "resource": 3, "lock": 7}[name]
    return name, b[place] if place is not None and place < len(b) else 0


def read(b):
    """The answer, the command, its address and the digits of its codes: 26 under three bytes, 39, 26, 24, 25, 27."""
    if len(b) < 3:
        return 26, NONE, b"", []
    if b[0] not in TAGS:
        return 39, NONE, b"", []
    name, count = parsed(b)
    size, m, n = sizes(name, count)
    length = b[1] << 8 | b[2]
    if length != len(b) - 3 or length != size:
        return 26, NONE, b"", []
    first = {"clock": 10, "resource": 4 + m, "lock": 8}[name]
    some = [nibbles(b[first + 12 * i : first + 12 * i + 12]) for i in range(n)]
    if any(one[0] != 15 for one in some):
        return 24, NONE, b"", []
    codes = [d for one in some for d in one[1:]]
    if any(d > 9 for d in codes):
        return 25, NONE, b"", []
    if name == "clock":
        command = ("clock", b[3] << 8 | b[4], *b[5:10])
        if not is_clock(*command[1:]):
            return 27, NONE, b"", []
        return 0, command, b"", []
    if name == "resource":
        return 0, ("resource", count), bytes(b[4 : 4 + m]), codes
    return 0, ("lock", int.from_bytes(b[3:7], "big"), count), b"", codes


def write(command, address, codes, room):
    """The answer and the bytes: 39 for none of the three, 26, 25, 27, 10."""
    name, *numbers = command
    if name == "unknown":
        return 39, b""
    count = 0 if name == "clock" else numbers[-1]
    size, m, n = sizes(name, count)
    if count > 255 or len(address) != m or len(codes) != 23 * n:
        return 26, b""
    if any(d > 9 for d in codes):
        return 25, b""
    if name == "clock" and not is_clock(*numbers):
        return 27, b""
    if room < 3 + size:
        return 10, b""
    tag = {v: k for k, v in TAGS.items()}[name]
    digits = "".join("f" + "".join("%x" % d for d in codes[i : i + 23]) for i in range(0, len(codes), 23))
    own = {"clock": lambda: numbers[0].to_bytes(2, "big") + bytes(numbers[1:]), "resource": lambda: bytes((count,)) + bytes(address),
           "lock": lambda: numbers[0].to_bytes(4, "big") + bytes((count,))}[name]()
    return 0, bytes((tag,)) + size.to_bytes(2, "big") + own + bytes.fromhex(digits)


def to_packet(command, codes):
    """The content of type 3 or 1 that a command is, and the 35 digits beside it; raw for any other."""
    name, *numbers = command
    digits = list(codes[:23]) if name == "resource" else []
    content = {"clock": ("clock", *numbers), "resource": ("address", *numbers)}.get(name, ("raw",))
    return content, digits + [0] * (35 - len(digits))


def from_packet(content, digits):
    """The command that a content of type 3 or 1 is, and the digits of its code; none for any other."""
    name, *numbers = content
    if name == "clock":
        return ("clock", *numbers), []
    if name == "address":
        return ("resource", *numbers), list(digits[:23])
    return NONE, []
