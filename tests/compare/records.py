"""Records of the program ask, and what it should print of them. All numbers are written high byte first."""
import struct

from model import on_air, reader, samples, shelf, sister, story, writer
from model.checks import packet_check
from model.collector import Collector, Place
from model.packet import Fields
from model.receiver import Receiver

CONTENTS = ("raw", "frequencies", "address", "keep", "clock", "reset", "factory", "drill", "text", "hold")
LONG = {"frequencies": 0, "address": 0, "keep": 1, "clock": 0, "text": 2}  # which number of the content has two bytes
SHORT = {"keep": 1, "clock": 5, "reset": 1, "drill": 1, "text": 2, "hold": 1}  # how many have one


def two(n):
    return n.to_bytes(2, "big")


def reading(packet):
    return b"P" + two(len(packet)) + packet


def writing(fields, codes, body, room):
    name, *numbers = fields.content
    long = numbers.pop(LONG[name]) if name in LONG else 0
    content = bytes((CONTENTS.index(name),)) + two(long) + bytes(numbers + [0] * (5 - len(numbers)))
    return (b"W" + bytes((fields.type,)) + two(fields.count) + content + bytes(fields.digits) + fields.time.to_bytes(4, "big")
            + bytes(fields.certificate) + fields.signature + two(room) + two(len(codes)) + two(len(body)) + bytes(codes) + bytes(body))


def sending(packet, level, version, room):
    return b"A" + bytes((level, version)) + two(room) + two(len(packet)) + packet


def receiving(delivery, room, room_for_counts=40):
    return b"R" + two(room) + bytes((room_for_counts,)) + two(len(delivery)) + delivery


def offering(frame):
    return b"O" + two(len(frame)) + frame


def releasing(level, version):
    return b"F" + bytes((level, version))


def copying(level, version, room):
    return b"C" + bytes((level, version)) + two(room)


def checking(data):
    return b"K" + two(len(data)) + data


def pending(count, bits, follows=0):
    return b"S" + bytes((count,)) + bits.to_bytes(16, "big") + bytes((follows,))


def placing(i, held, level, version, total, number):
    return b"H" + bytes((i, held, level, version, total, number))


def telling(kind, digits, count, codes, time, certificate, signature, text, room):
    return (b"T" + bytes((kind,)) + two(count) + bytes(digits) + time.to_bytes(4, "big") + bytes(certificate) + signature + two(room)
            + two(len(codes)) + two(len(text)) + bytes(codes) + text)


def joining(packets, room):
    return b"J" + two(room) + two(len(packets)) + packets


def deciding(state, numbers):
    given = struct.pack(">%dd" % len(numbers), *numbers)
    return b"D" + struct.pack(">2d", *state) + two(len(given)) + given


def over(b, size):
    """Bytes over and over up to a length."""
    return (b * (size // len(b) + 1))[:size] if b else bytes(size)


def adding(size, some, one, summary):
    """A shelf is given by its length and by bytes that are repeated."""
    return b"E" + size.to_bytes(4, "big") + two(len(some)) + two(len(one)) + two(len(summary)) + some + one + summary


def summarizing(size, some, room):
    return b"U" + size.to_bytes(4, "big") + two(room) + two(len(some)) + some


def making(level, version, packet, room):
    return b"M" + bytes((level, version)) + two(room) + two(len(packet)) + packet


def lining(one, room):
    return b"L" + two(room) + two(len(one)) + one


def decoding(command):
    return b"B" + two(len(command)) + command


def encoding(command, address, codes, room):
    name, *numbers = command
    tag = {"clock": 1, "resource": 2, "lock": 3}.get(name, 0)
    first = numbers[0] if name in ("clock", "lock") else 0
    small = bytes(numbers[1:]) if name == "clock" else bytes(5)
    count = numbers[-1] if name in ("resource", "lock") else 0
    return (b"G" + bytes((tag,)) + first.to_bytes(4, "big") + small + two(count) + two(room) + two(len(address)) + two(len(codes))
            + bytes(address) + bytes(codes))


def carrying(content, digits):
    """The content as a W names it, at the same places."""
    fields = Fields(0, 0, content, digits, 0, [0] * 12, bytes(64))
    return b"V" + writing(fields, [], [], 0)[1:47]


def naming(name):
    return b"#" + bytes((len(name),)) + name.encode()


HEADS = {b"#": 2, b"P": 3, b"W": 133, b"A": 7, b"R": 6, b"O": 3, b"F": 3, b"C": 5, b"N": 1, b"K": 3, b"S": 19, b"H": 7, b"T": 125, b"J": 5, b"D": 19,
         b"E": 11, b"U": 9, b"M": 7, b"L": 5, b"B": 3, b"G": 19, b"V": 47}
LENGTHS = {b"W": 2, b"T": 2, b"G": 2, b"V": 0, b"E": 3, b"F": 0, b"C": 0, b"N": 0, b"S": 0, b"H": 0}  # how many lengths of parts end the head; one in the others


def number(b, i):
    return int.from_bytes(b[i : i + 2], "big")


def length(b):
    """How long the record is that begins here; 0 where none does."""
    letter = b[:1]
    head = HEADS.get(letter, 0)
    if head == 0 or len(b) < head:
        return 0
    if letter == b"#":
        whole = head + b[1]
    else:
        whole = head + sum(number(b, head - 2 * k) for k in range(1, LENGTHS.get(letter, 1) + 1))
    return whole if whole <= len(b) else 0


def split(data):
    """The records, and what is left behind the last."""
    some = []
    while length(data):
        some.append(data[: length(data)])
        data = data[length(data) :]
    return some, data


def fields_of(b):
    """The fields that a W names, and the codes, the body and the room."""
    fields = Fields(b[1], number(b, 2), content_of(b), list(b[12:47]), int.from_bytes(b[47:51], "big"), list(b[51:63]), b[63:127])
    end = 133 + number(b, 129)
    return fields, list(b[133:end]), list(b[end:]), min(number(b, 127), 300)


def content_of(b):
    """The content that a W or a V names."""
    name = CONTENTS[b[4]] if b[4] < len(CONTENTS) else "raw"
    numbers = list(b[7 : 7 + SHORT.get(name, 0)])
    if name in LONG:
        numbers.insert(LONG[name], number(b, 5))
    return (name, *numbers)


def command_of(b):
    """What a G asks: the command, the address, the codes, the room."""
    n, first = number(b, 15), int.from_bytes(b[2:6], "big")
    command = {1: ("clock", first & 0xFFFF, *b[6:11]), 2: ("resource", number(b, 11)), 3: ("lock", first, number(b, 11))}.get(b[1], sister.NONE)
    return command, b[19 : 19 + n], list(b[19 + n :]), min(number(b, 13), 3200)


def story_of(b):
    """What a T asks."""
    end = 125 + number(b, 121)
    return (b[1], list(b[4:39]), number(b, 2), list(b[125:end]), int.from_bytes(b[39:43], "big"), list(b[43:55]), b[55:119], b[end:],
            min(number(b, 119), 2300))


def symbol_of(b):
    """What a D asks."""
    count = min(number(b, 17) // 8, 40)
    return struct.unpack(">2d", b[1:17]), struct.unpack(">%dd" % count, b[19 : 19 + 8 * count])


def adding_of(b):
    """What an E asks: the shelf, the record, the summary."""
    n, m = number(b, 5), number(b, 7)
    return over(b[11 : 11 + n], shelf_size(b)), b[11 + n : 11 + n + m], b[11 + n + m :][:300]


def shelf_size(b):
    return min(int.from_bytes(b[1:5], "big"), 4097 * shelf.RECORD + 1)


def pattern(x):
    return "nan" if x != x else struct.pack(">d", x).hex()


def hexed(b):
    return bytes(b).hex().upper() or "-"


def digits(some):
    return "".join("%X" % d for d in some) or "-"


def written(answer, packet):
    return ["write %d %s" % (answer, hexed(packet)), "the rest as it was"]


def read_lines(packet):
    answer, f, codes, entries, body = reader.read(packet)
    text_answer, text = reader.text(packet)
    lines = ["read %d" % answer, "type %d" % f.type, "count %d" % f.count, "content " + " ".join(map(str, f.content)),
             "digits " + digits(f.digits), "time %d" % f.time, "certificate " + digits(f.certificate), "signature " + hexed(f.signature),
             "codes " + digits(codes), "entries " + hexed(entries), "text %d %s" % (text_answer, hexed(text)), "body " + hexed(body)]
    return lines + written(*writer.write(f, codes, entries or list(body), 250)) if answer == 0 else lines


def words(some, shown, size, count):
    """In words of a size, as many as there can be."""
    return " ".join(shown(some[i : i + size]) for i in range(0, size * count, size))


def encoded(answer, command):
    return ["encode %d %s" % (answer, words(command, hexed, 1600, 2)), "the rest as it was"]


def decoded_lines(command):
    answer, given, address, codes = sister.read(command)
    lines = ["decode %d %s" % (answer, " ".join(map(str, given))), "address " + hexed(address), "codes " + words(codes, digits, 1000, 6)]
    if answer:
        return lines
    content, beside = sister.to_packet(given, codes)
    return lines + ["content " + " ".join(map(str, content)), "digits " + digits(beside)] + encoded(*sister.write(given, address, codes, 3200))


def carried_lines(record):
    command, code = sister.from_packet(content_of(record), list(record[12:47]))
    return ["carried " + " ".join(map(str, command)), "code " + digits(code)]


SHELVES = {
    b"E": ("add", lambda b: shelf.add(*adding_of(b))),
    b"U": ("summarize", lambda b: shelf.summarize(over(b[9:], shelf_size(b)), min(number(b, 5), 300))),
    b"M": ("make", lambda b: shelf.make(b[1], b[2], b[7:], min(number(b, 3), 300))),
    b"L": ("line", lambda b: shelf.line_into(b[5:], min(number(b, 1), 600))),
}


class Program:
    """The program: what it prints of a record, with the receiver and the collector that the records before have left."""

    def __init__(self):
        self.receiver, self.collector = Receiver(), Collector()

    def lines(self, record):
        letter = record[:1]
        if letter == b"P":
            return read_lines(record[3:])
        if letter == b"W":
            return written(*writer.write(*fields_of(record)))
        if letter == b"A":
            answer, frames, air = on_air.on_air(record[7:], record[1], record[2], min(number(record, 3), 832))
            return ["air %d %d %s" % (answer, frames, hexed(air)), "the rest as it was"]
        if letter == b"R":
            answer, frames, counts = self.receiver.receive(record[6:], min(number(record, 1), 400), min(record[3], 60))
            return ["receive %d %d %s" % (answer, len(frames), hexed(b"".join(frames))), "the rest as it was",
                    "mended " + hexed(counts), "the rest as it was"]
        if letter == b"O":
            return ["offer %d" % self.collector.offer(record[3:])]
        if letter == b"F":
            return ["release %d" % self.collector.release(record[1], record[2])]
        if letter == b"C":
            answer, packet = self.collector.copy(record[1], record[2], min(number(record, 3), 300))
            return ["copy %d %s" % (answer, hexed(packet)), "the rest as it was"]
        if letter == b"T":
            answer, parts, told = story.tell(*story_of(record))
            return ["tell %d %d %s" % (answer, parts, hexed(told)), "the rest as it was"]
        if letter == b"J":
            answer, text = story.join(record[5:], min(number(record, 1), 1400))
            return ["join %d %s" % (answer, hexed(text)), "the rest as it was"]
        if letter in SHELVES:
            name, call = SHELVES[letter]
            answer, given = call(record)
            return ["%s %d %s" % (name, answer, hexed(given)), "the rest as it was"]
        if letter == b"B":
            return decoded_lines(record[3:])
        if letter == b"G":
            return encoded(*sister.write(*command_of(record)))
        if letter == b"V":
            return carried_lines(record)
        if letter == b"D":
            answer, verdict, product, state = samples.decide(*symbol_of(record))
            return ["decide %d %s %s" % (answer, verdict, " ".join(map(pattern, (product, *state))))]
        if letter == b"K":
            return ["check %04X" % packet_check(record[3:])]
        if letter == b"S":
            self.receiver.put(record[1], int.from_bytes(record[2:18], "big"), record[18] != 0)
            return ["set"]
        if letter == b"H":
            return self.placed(*record[1:])
        if letter == b"#":
            return ["# " + record[2:].decode()]
        self.__init__()
        return ["new"]

    def placed(self, i, held, level, version, total, number):
        place = Place(level, version, total) if held == 1 else None
        if place and number < 63:
            place.pieces[number] = bytes(4)
        self.collector.put(i % 4, place, number == 63)
        return ["set"]


def blocks(data):
    """The lines of each record, and those behind the last."""
    program, (some, left) = Program(), split(data)
    return ["\n".join(program.lines(record)) for record in some] + (["no whole record"] if left else [])


def printed(data):
    """All that the program prints of its input."""
    return "".join(b + ("\n" if b == "no whole record" else "\n\n") for b in blocks(data))


def said(data):
    """What records ask, for a person."""
    return "\n".join(map(said_of, split(data)[0]))


def said_of(record):
    letter = record[:1]
    if letter == b"W":
        return "write %s, codes %s, body %s, into %d bytes" % fields_of(record)
    if letter == b"P":
        return "read the packet " + hexed(record[3:])
    if letter == b"A":
        return "on air, level %d, version %d, into %d bytes, the packet %s" % (record[1], record[2], number(record, 3), hexed(record[7:]))
    if letter == b"R":
        return "receive, into %d bytes and %d, %s" % (number(record, 1), record[3], hexed(record[6:]))
    if letter == b"O":
        return "offer " + hexed(record[3:])
    if letter == b"N":
        return "begin anew"
    if letter == b"#":
        return "name " + record[2:].decode()
    if letter == b"T":
        return "tell kind %d, number %s, %d codes %s, time %d, certificate %s, signature %s, text %r, into %d bytes" % story_of(record)
    if letter == b"J":
        return "join into %d bytes %s" % (number(record, 1), hexed(record[5:]))
    if letter == b"E":
        n, m = number(record, 5), number(record, 7)
        return "add to a shelf of %d bytes, over and over %s, the record %s; the summary %s" % (
            shelf_size(record), *map(hexed, (record[11 : 11 + n], record[11 + n : 11 + n + m], record[11 + n + m :])))
    if letter == b"U":
        return "the summary, into %d bytes, of a shelf of %d bytes, over and over %s" % (number(record, 5), shelf_size(record), hexed(record[9:]))
    if letter == b"M":
        return "a record, into %d bytes, of level %d, version %d, the packet %s" % (number(record, 3), record[1], record[2], hexed(record[7:]))
    if letter == b"L":
        return "a line, into %d bytes, of the record %s" % (number(record, 1), hexed(record[5:]))
    if letter == b"B":
        return "read the command " + hexed(record[3:])
    if letter == b"G":
        return "write the command %s, address %s, codes %s, into %d bytes" % command_of(record)
    if letter == b"V":
        return "carry the content %s, digits %s" % (content_of(record), digits(record[12:47]))
    if letter == b"D":
        return "decide, the state %s, the numbers %s" % symbol_of(record)
    if letter == b"K":
        return "check " + hexed(record[3:])
    if letter == b"S":
        return "a receiver with %d bits pending of %s, following %d" % (record[1], hexed(record[2:18]), record[18])
    if letter == b"H":
        return "place %d: held %d, level %d, version %d, total %d, number %d marked" % tuple(record[1:])
    return ("release" if letter == b"F" else "copy into %d bytes" % number(record, 3)) + " level %d, version %d" % (record[1], record[2])
