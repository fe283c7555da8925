"""The records that rt runs the program ask on, each behind its name, and what the model says that is printed of them.

  python3 -m compare.examples stdin     writes crates/ask/stdin to standard output, and stdout its other file; run it in tests/
  python3 -m compare.examples same      says whether both files are these

Where the model gives another answer than the one worked out by hand (compare.worked), this ends with a line that names the example.
"""
import os
import sys

from model.checks import packet_check
from model.on_air import on_air
from model.packet import Fields
from model.reader import read
from model.writer import write
from model import sister, story

from . import records, worked

CODE = [1, 5, 3, 2, 0, 0, 0, 0, 0, 0, 0, 0, 0, 0, 0, 0, 0, 0, 0, 0, 0, 0, 7]


def fields(t, count, content, digits=()):
    return Fields(t, count, content, [*digits, *[0] * (35 - len(digits))], 1700000000, [0, 1, 2, 3, 4, 5, 6, 7, 8, 9, 0, 1], bytes(range(64)))


def packet(f, codes=(), body=()):
    return write(f, list(codes), list(body), 250)[1]


def named(name, record, *lines):
    """A record behind its name. The lines begin those that are due, in their order."""
    return name, record, lines


def packets():
    """Each packet that is read is written back, but for type 1 with codes and type 16; into 76 bytes no packet goes."""
    for answer, text, given, name in worked.PACKETS:
        data = bytes.fromhex(given)
        _, f, codes, entries, body = read(data)
        if answer:
            yield named(name, records.reading(data), "read %d" % answer, "text %d" % text)
        else:
            refused = 27 if f.type == 1 and f.count else 23 if f.type == 16 else 0
            yield named(name, records.reading(data), "read %d" % answer, "text %d" % text, "write %d" % refused)
            yield named("into 76 bytes", records.writing(f, codes, entries or list(body), 76), "write %d" % (refused or 10))


def written():
    story = b"Wave of 3 m; leave the pier."
    text = fields(15, 1, ("text", 1, 4, len(story)), [3] * 35)
    hold = fields(21, 0, ("hold", 9))
    yield named("a hold of 79 bytes", records.writing(hold, [], [], 250), "write 0")
    yield named("the same into 78", records.writing(hold, [], [], 78), "write 10")
    yield named("keep of 2", records.writing(fields(2, 0, ("keep", 2, 60)), [], [], 250), "write 27")
    yield named("a text that is lent one byte short", records.writing(text, CODE, list(story[1:]), 250), "write 26")
    yield named("a hold on air", records.sending(packet(hold), 5, 3, 819), "air 0 21 ")
    yield named("the same at level 7", records.sending(packet(hold), 7, 3, 819), "air 13 0 ")


def small():
    """A packet of two bytes, from air to copy."""
    least = b"\xa8\x00"
    air = on_air(least, 5, 3, 13)[2]
    frame = b"\xa3\x04\xb0\x00" + least + packet_check(least).to_bytes(2, "big")
    yield named("a new beginning", b"N", "new")
    yield named("one frame", records.receiving(air, 320), "receive 0 1 ")
    yield named("output of 319", records.receiving(air, 319), "receive 10 0 ")
    yield named("second output of 39", records.receiving(air, 320, 39), "receive 10 0 ", "mended -")
    yield named("no byte", records.receiving(b"", 320), "receive 0 0 ")
    yield named("its frame", records.offering(frame), "offer 1")
    yield named("its frame again", records.offering(frame), "offer 2")
    yield named("seven of its bytes", records.offering(frame[:7]), "offer 26")
    yield named("copy", records.copying(5, 3, 2), "copy 0 A800")
    yield named("copy to one byte", records.copying(5, 3, 1), "copy 10 -")
    yield named("release", records.releasing(5, 3), "release 0")
    yield named("release again", records.releasing(5, 3), "release 18")


def deliveries():
    stream, zeros = bytes.fromhex(worked.STREAM), bytes.fromhex(worked.ZEROS)
    yield named("noise, slipped and damaged frames, whole", b"N", "new")
    yield named("140 bytes", records.receiving(stream, 320), "receive 0 8 " + "".join(worked.STREAM_FRAMES), "mended " + worked.STREAM_MENDED)
    yield named("the same, seven bytes at a time", b"N", "new")
    for k in range(0, len(stream), 7):
        yield named("from byte %d" % k, records.receiving(stream[k : k + 7], 320), "receive 0 ")
    yield named("a block A by chance right before a frame", b"N", "new")
    yield named("17 bytes", records.receiving(bytes.fromhex(worked.CHANCE), 320), "receive 0 1 " + worked.BEHIND)
    yield named("the largest delivery", b"N", "new")
    yield named("512 bytes of clean air", records.receiving((zeros * 40)[:512], 320), "receive 0 39 ")
    yield named("a frame but for its last byte", b"N", "new")
    yield named("its twelve bytes", records.receiving(zeros[:12], 320), "receive 0 0 ")
    yield named("512 bytes from its last byte on", records.receiving((zeros * 41)[12:524], 320), "receive 0 40 ")
    yield named("513 bytes", records.receiving(bytes(513), 320), "receive 11 0 ")
    yield named("513 bytes and output of 319", records.receiving(bytes(513), 319), "receive 11 0 ")


def mended():
    """A burst in block A right behind a frame, in one delivery and in two; the same at a start that follows none; and in a record that says which."""
    zeros = bytes.fromhex(worked.ZEROS)
    for burst, frame, name in worked.BURSTS:
        bits = int(worked.ONE_DAMAGED.replace(" ", ""), 16) ^ burst << 78
        air = bits.to_bytes(13, "big")
        one = frame is not None
        yield named(name + ", right behind a frame", b"N", "new")
        yield named("both frames", records.receiving(zeros + air, 320), "receive 0 %d %s" % (1 + one, "0" * 16 + (frame or "")), "mended " + "00" + "01" * one)
        yield named("first the one and a byte", b"N", "new")
        yield named("14 bytes", records.receiving((zeros + air)[:14], 320), "receive 0 1 ", "mended 00")
        yield named("the rest", records.receiving(air[1:], 320), "receive 0 %d %s" % (one, frame or "-"), "mended " + ("01" if one else "-"))
        yield named("it alone", b"N", "new")
        yield named("the damaged frame", records.receiving(air, 320), "receive 0 0 -", "mended -")
        for follows in (0, 1, 255):
            due = frame if follows else None
            yield named("a record with its 103 bits, following %d" % follows, records.pending(103, bits >> 1, follows), "set")
            yield named("its last bit and seven zeros", records.receiving(bytes(((bits & 1) << 7,)), 320), "receive 0 %d %s" % (due is not None, due or "-"))
    yield named("every block of a frame damaged, right behind one", b"N", "new")
    yield named("both frames", records.receiving(zeros + bytes.fromhex(worked.ALL_DAMAGED), 320), "receive 0 2 " + "0" * 32, "mended 0004")


def checks():
    for given, word, name in worked.CHECKS:
        yield named(name, records.checking(given), "check %04X" % word)


def damaged():
    """Records of state that no call leaves, and such as only look like it."""
    frame = records.receiving(bytes.fromhex(worked.ZEROS), 320)
    for count, bits, answer, frames, name in worked.RECEIVERS:
        yield named(name, records.pending(count, bits), "set")
        yield named("a frame to it", frame, "receive %d %d " % (answer, frames))
    yield named("104 bits pending, once more", records.pending(104, 0), "set")
    yield named("513 bytes and output of 319", records.receiving(bytes(513), 319), "receive 28 0 ")
    for place, answer, name in worked.PLACES:
        yield named("a new beginning", b"N", "new")
        yield named(name, records.placing(2, *place), "set")
        yield named("seven bytes", records.offering(bytes(7)), "offer %d" % answer)
        yield named("release of a pair not held", records.releasing(2, 0), "release %d" % (28 if answer == 28 else 18))
        yield named("copy of it", records.copying(2, 0, 10), "copy %d -" % (28 if answer == 28 else 18))
    yield named("a pair", records.placing(1, 1, 6, 31, 2, 0), "set")
    yield named("the same pair in another place", records.placing(3, 1, 6, 31, 2, 1), "set")
    yield named("seven bytes", records.offering(bytes(7)), "offer 28")


def collected():
    yield named("every answer of the collector", b"N", "new")
    makes = {"offer": lambda a: records.offering(bytes.fromhex(a)), "copy": lambda a: records.copying(*a), "release": lambda a: records.releasing(*a)}
    for call, arguments, answer, name in worked.COLLECTOR:
        yield named(name, makes[call](arguments), "%s %d" % (call, answer))


def whole_way():
    """A story full of semicolons from fields to air, heard in uneven deliveries, collected, copied and read."""
    story = worked.SEMICOLONS
    f = Fields(15, 1, ("text", 1, 0, len(story)), [7] * 35, 1700000000, [3] * 12, bytes([0x5A] * 64))
    sent = write(f, [5] * 23, list(story), 250)[1]
    air = on_air(sent, 5, 3, 819)[2]
    yield named("a story, from fields to text", b"N", "new")
    yield named("written", records.writing(f, [5] * 23, list(story), 250), "write 0 " + sent.hex().upper())
    yield named("on air", records.sending(sent, 5, 3, 819), "air 0 59 ")
    for first, last in zip(worked.CUTS, worked.CUTS[1:]):
        yield named("bytes %d to %d" % (first, last), records.receiving(air[first:last], 320), "receive 0 ")
    padded = sent + packet_check(sent).to_bytes(2, "big") + b"\xff" * 3
    for k in range(59):
        heading = bytes((5 << 5 | 3, 59 << 2 | k >> 4, 0xB0, k & 15))
        yield named("frame %d" % k, records.offering(heading + padded[4 * k : 4 * k + 4]), "offer %d" % (k == 58))
    yield named("copied", records.copying(5, 3, 250), "copy 0 " + sent.hex().upper())
    yield named("read", records.reading(sent), "read 0", "text 0 " + story.hex().upper())


def stories():
    """The girl's sentence with its semicolon, told and joined; five times over in three parts, joined in another order; and what is refused."""
    def told(text, room=2250, last=41, codes=0):
        digits = [7] * 31 + [int(d) for d in "%04d" % last]
        return records.telling(2, digits, codes, [1] * 23 * codes, 0x01020304, [1, 2, 3, 4, 5, 6, 7, 8, 9, 0, 1, 2], bytes(range(64)), text, room)

    one = bytes.fromhex(worked.GIRL_PACKET)
    yield named("a sentence with its semicolon", told(worked.GIRL), "tell 0 1 " + worked.GIRL_PACKET.upper())
    yield named("the same joined", records.joining(one, 64), "join 0 " + worked.GIRL.hex().upper())
    yield named("the same into 63 bytes", records.joining(one, 63), "join 10 -")
    sent = story.tell(2, worked.GIRL_NUMBER, 0, [], 0x01020304, [1, 2, 3, 4, 5, 6, 7, 8, 9, 0, 1, 2], bytes(range(64)), worked.LONG, 2250)[2]
    a, b, c = (sent[i : i + n] for i, n in zip((0, 250, 500), worked.LONG_SIZES))
    yield named("five times over", told(worked.LONG), "tell 0 3 " + sent.hex().upper())
    for some in (a + b + c, c + a + b, b + a + c, c + b + a):
        yield named("its parts joined", records.joining(some, 320), "join 0 " + worked.LONG.hex().upper())
    for some, name in ((a + b, "a part missing"), (a + b + b, "a part twice"), (a + b + c[:-1], "a part cut short"), (b"", "no packet")):
        yield named(name, records.joining(some, 320), "join 33 -")
    yield named("no text", told(b""), "tell 0 1 ")
    yield named("13 codes", told(b"", codes=13), "tell 20 0 -")
    yield named("a lone last byte", told(b"A\xb0"), "tell 30 0 -")
    yield named("nine parts full", told(b"A" * 1341, room=2250), "tell 0 9 ")
    yield named("one byte more", told(b"A" * 1342), "tell 31 0 -")
    yield named("numbers to 9999", told(worked.LONG, last=9997), "tell 0 3 ")
    yield named("numbers past 9999", told(worked.LONG, last=9998), "tell 32 0 -")
    yield named("room for one byte less", told(worked.LONG, room=622), "tell 10 0 -")


def symbols():
    for state, numbers, line, name in worked.SYMBOLS:
        yield named(name, records.deciding(state, numbers), "decide " + line)


def shelves():
    """A record made, its line, its summary; shelves of none, of one, of 4,095 to 4,097; and what is refused."""
    packet, one, summary = map(bytes.fromhex, (worked.HEARD_PACKET, worked.HEARD, worked.HEARD_SUMMARY))
    none, line = bytes.fromhex(worked.NO_ENTRY * 32), worked.HEARD_LINE
    yield named("a record", records.making(5, 3, packet, 256), "make 0 " + worked.HEARD.upper())
    for args, answer, name in (((0, 32, packet[:2], 0), 20, "a byte missing, and three cases more"), ((0, 32, packet, 0), 13, "level 0, and two cases more"),
                               ((5, 32, packet, 0), 27, "version 32, and no memory"), ((5, 3, packet, 255), 34, "memory of 255 bytes")):
        yield named(name, records.making(*args), "make %d -" % answer)
    yield named("its line", records.lining(one, len(line)), "line 0 " + line.hex().upper())
    for given, room, answer, name in ((one, len(line) - 1, 10, "a byte less"), (b"\7" + one[1:], 0, 35, "level 7, and no memory"), (one[1:], 0, 34, "255 bytes")):
        yield named(name, records.lining(given, room), "line %d -" % answer)
    yield named("the summary of no record", records.summarizing(0, b"", 256), "summarize 0 " + none.hex().upper())
    yield named("of one", records.summarizing(256, one, 256), "summarize 0 " + summary.hex().upper())
    for size, some, room, answer, name in ((255, one, 255, 34, "of 255 bytes"), (256, one, 257, 34, "into 257 bytes"), (256, one[1:], 256, 35, "of a wrong record")):
        yield named(name, records.summarizing(size, some, room), "summarize %d -" % answer)
    yield named("the first record added", records.adding(0, b"", one, none), "add 0 " + worked.HEARD_SUMMARY.upper())
    yield named("the last that there is room for", records.adding(256 * 4095, one, one, bytes(256)), "add 0 " + worked.ADDED_LAST.upper())
    for size, given, answer, name in ((4096, one, 36, "one more"), (4096, one[:255] + b"\1", 35, "one more, its last byte 1"), (4097, one, 34, "to 4,097"),
                                      (0, one + b"\0", 34, "a record of 257 bytes")):
        yield named(name, records.adding(256 * size, one, given, summary), "add %d %s" % (answer, worked.HEARD_SUMMARY.upper()))


def commands():
    """Each command that is read is written back; into one byte less it does not go. Carried to a packet's content and back it is the same."""
    for answer, given, data, name in worked.COMMANDS:
        command = bytes.fromhex(data)
        yield named(name, records.decoding(command), "decode %d %s" % (answer, given))
        if answer == 0:
            _, read_as, address, codes = sister.read(command)
            yield named("written", records.encoding(read_as, address, codes, len(command)), "encode 0 " + data.upper())
            yield named("into a byte less", records.encoding(read_as, address, codes, len(command) - 1), "encode 10 ")
    yield named("no command", records.encoding(sister.NONE, b"", [], 3200), "encode 39 ")
    yield named("codes that are not lent", records.encoding(("lock", 98000, 2), b"", [1] * 23, 3200), "encode 26 ")
    yield named("an address that is not lent", records.encoding(("resource", 2), b"a", [1] * 23, 3200), "encode 26 ")
    yield named("an address for a clock", records.encoding(("clock", 2014, 11, 10, 12, 13, 14), b"a", [], 3200), "encode 26 ")
    yield named("a digit ten", records.encoding(("lock", 98000, 1), b"", [10] * 23, 3200), "encode 25 ")
    yield named("31 November", records.encoding(("clock", 2014, 11, 31, 12, 13, 14), b"", [], 3200), "encode 27 ")
    yield named("a clock of a packet", records.carrying(("clock", 2014, 11, 10, 12, 13, 14), [0] * 35), "carried clock 2014 11 10 12 13 14", "code -")
    yield named("a resource code of a packet", records.carrying(("address", 2), [1] * 23 + [0] * 12), "carried resource 2", "code " + "1" * 23)
    yield named("a hold of a packet", records.carrying(("hold", 5), [0] * 35), "carried unknown", "code -")


def everything():
    for some in (shelves, symbols, checks, packets, written, small, deliveries, mended, collected, damaged, whole_way, stories, commands):
        yield from some()
    yield named("a record cut short", b"P")


def data():
    some = list(everything())
    printed = records.blocks(b"".join(record for _, record, _ in some))
    for (name, _, due), block in zip(some, printed):
        lines = iter(block.split("\n"))
        if not all(any((line + " ").startswith(d if d.endswith(" ") else d + " ") for line in lines) for d in due):
            sys.exit("examples: %s: worked out by hand %s, the model says %s" % (name, ", ".join(due), block.split("\n")[0]))
    return b"".join(records.naming(name) + record for name, record, _ in some)


def main(what):
    given = data()
    files = {"stdin": given, "stdout": records.printed(given).encode()}
    if what in files:
        return sys.stdout.buffer.write(files[what])
    for name, is_due in files.items():
        with open(os.path.join("..", "crates", "ask", name), "rb") as f:
            if f.read() != is_due:
                sys.exit("examples: crates/ask/%s is not what compare.examples makes: python3 -m compare.examples %s" % (name, name))
    print("examples: %d records, each with the answer worked out by hand" % len(list(everything())))


if __name__ == "__main__":
    main(sys.argv[1])
