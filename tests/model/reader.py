"""The packet reader: a walk over the packet's bits that notes what is wrong on the way."""
from .packet import NAMES, Fields, is_clock

# beside a refusal all fields are zero, the content raw and empty
NOTHING = Fields(0, 0, ("raw",), [0] * 35, 0, [0] * 12, bytes(64))


class Walk:
    def __init__(self, data):
        self.bits = "".join(format(byte, "08b") for byte in data)
        self.wrong = set()

    def number(self, width, least=0, most=None):
        """27 outside its range."""
        taken, self.bits = self.bits[:width], self.bits[width:]
        value = int(taken, 2)
        if value < least or most is not None and value > most:
            self.wrong.add(27)
        return value

    def ones(self, width):
        """Reserved bits: 24 where one is 0."""
        if self.number(width) != (1 << width) - 1:
            self.wrong.add(24)

    def digits(self, n):
        """Four bits each, 0 to 9: 25 above."""
        some = [self.number(4) for _ in range(n)]
        if max(some) > 9:
            self.wrong.add(25)
        return some

    def octets(self, n):
        return bytes(self.number(8) for _ in range(n))


def fits(name, content):
    """Whether the content has as many bytes as the table says; its count, where it has one, stands in it."""
    size = len(content)
    if name == "frequencies":
        return size >= 1 and size == 1 + 5 * content[0]
    if name == "address":
        return size >= 1 and size == 13 + content[0]
    if name == "text":
        return size >= 20 and size == 20 + content[19]
    return name == "raw" or size == {"keep": 3, "clock": 7, "reset": 4, "factory": 1, "drill": 19, "hold": 2}[name]


def opened(w, name, size):
    """A content of the table: its name and numbers, its digits, its bytes, its entries of eight numbers."""
    if name == "raw":
        return (name,), [], w.octets(size), []
    if name == "frequencies":
        k = w.number(8)
        return (name, k), [], b"", [x for _ in range(k) for x in [w.number(8, 1), w.number(8), *w.digits(6)]]
    if name == "address":
        m = w.number(8)
        address = w.octets(m)
        w.ones(4)
        return (name, m), w.digits(23), address, []
    if name == "text":
        kind, charset = w.number(4, 1, 3), w.number(4, 0, 4)
        w.ones(4)
        digits, t = w.digits(35), w.number(8)
        return (name, kind, charset, t), digits, w.octets(t), []
    numbers, digits = fixed(w, name)
    return (name, *numbers), digits, b"", []


def fixed(w, name):
    """The numbers and the digits of a content that has always the same length."""
    if name == "keep":
        return (w.number(8, 0, 1), w.number(16)), []
    if name == "clock":
        clock = (w.number(16), *w.octets(5))
        if not is_clock(*clock):
            w.wrong.add(27)
        return clock, []
    if name == "reset":
        w.number(2, 1, 1)
        change = w.number(2, 1, 2)
        w.ones(4)
        return (change,), w.digits(6)
    if name == "factory":
        w.number(2, 1, 1)
        w.ones(6)
        return (), []
    if name == "drill":
        w.number(4, 1, 1)
        action = w.number(4, 1, 2)
        w.ones(4)
        return (action,), w.digits(35)
    serial = w.number(8)  # hold
    w.ones(8)
    return (serial,), []


def read(packet):
    """The answer, the fields, the codes' digits, the entries' numbers, the body: 20, 23, 26, then 24, 25, 27 wherever they are due."""
    def refused(answer):
        return answer, NOTHING, [], [], b""

    p = len(packet)
    if not 77 <= p <= 250 or p != ((packet[0] & 7) << 8 | packet[1]) + 2 or p < 77 + 12 * packet[2]:
        return refused(20)
    name, n = NAMES.get(packet[0] >> 3), packet[2]
    if name is None:
        return refused(23)
    size = p - 77 - 12 * n
    if not fits(name, packet[3 + 12 * n : 3 + 12 * n + size]):
        return refused(26)
    w = Walk(packet[3:])
    codes = []
    for _ in range(n):
        w.ones(4)
        codes += w.digits(23)
    content, digits, body, entries = opened(w, name, size)
    time, certificate, signature = w.number(32), w.digits(12), w.octets(64)
    for answer in (24, 25, 27):
        if answer in w.wrong:
            return refused(answer)
    return 0, Fields(packet[0] >> 3, n, content, digits + [0] * (35 - len(digits)), time, certificate, signature), codes, entries, body


def text(packet):
    """The text's answer and the text: 27 and none for another type."""
    answer, fields, _, _, body = read(packet)
    if answer == 0 and fields.type != 15:
        answer = 27
    return (answer, body) if answer == 0 else (answer, b"")
