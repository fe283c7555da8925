"""Records that are listed and not drawn: every value that a judged byte can have, one at a time, and every day and length near an edge."""
import random

from model.packet import NAMES
from model.writer import COUNTED, write

from .draw import YEARS, content, digits, fields, mended, packet_of
from .records import CONTENTS, LONG, reading, sending, writing


def samples(rng):
    """Fields of each content, with one of what its count counts; those of one content with a code."""
    for name in CONTENTS:
        f, _, _ = fields(rng, next(t for t in NAMES if NAMES[t] == name))
        n = 1 if name == "hold" else 0
        body = [7, 7, *digits(rng, 6)] if name == "frequencies" else [59] if name in COUNTED or name == "raw" else []
        yield f._replace(count=n, content=content(rng, name, 1)), digits(rng, 23 * n), body


def read_bytes(rng):
    """Each byte of a packet but time and signature, at each of its values."""
    for f, codes, body in samples(rng):
        p = write(f, codes, body, 250)[1]
        for at in (*range(len(p) - 74), *range(len(p) - 70, len(p) - 64)):
            for value in range(256):
                yield reading(p[:at] + bytes((value,)) + p[at + 1 :])


def written_fields(rng):
    """Each field of a packet but time and signature, at each of its values or at those near an edge."""
    for f, codes, body in samples(rng):
        name, *numbers = f.content
        changed = [f._replace(type=t) for t in range(256)] + [f._replace(count=n) for n in (0, 1, 2, 255, 256, 257, 65535)]
        changed += [f._replace(content=content(rng, other, k)) for other in CONTENTS for k in (0, 1)]
        for i, number in enumerate(numbers):
            values = (0, 1, 2, 255, 256, 257, 65535) if LONG.get(name) == i else range(256)
            changed += [f._replace(content=(name, *numbers[:i], v, *numbers[i + 1 :])) for v in values]
        for i in range(35):
            changed += [f._replace(digits=[*f.digits[:i], v, *f.digits[i + 1 :]]) for v in (0, 1, 9, 10, 255)]
        for i in range(12):
            changed += [f._replace(certificate=[*f.certificate[:i], v, *f.certificate[i + 1 :]]) for v in (0, 9, 10, 255)]
        yield from (writing(c, codes, body, 250) for c in changed)
        for i in range(len(codes)):
            yield from (writing(f, [*codes[:i], v, *codes[i + 1 :]], body, 250) for v in (0, 9, 10, 255))
        for i in range(len(body)):
            yield from (writing(f, codes, [*body[:i], v, *body[i + 1 :]], 250) for v in (0, 1, 9, 10, 255))
        size = len(write(f, codes, body, 250)[1])
        yield from (writing(f, codes, body, room) for room in (0, size - 1, size, size + 1, 300))
        yield from (writing(f, codes + [0], body, 250), writing(f, codes, body + [1], 250), writing(f, codes[1:], body[1:], 250))


def days(rng):
    """Each month's ends in years of each kind, to the writer and to the reader."""
    f, _, _ = fields(rng, 3)
    f = f._replace(count=0)
    p = write(f, [], [], 250)[1]
    for year in YEARS:
        for month in range(14):
            for day in (0, 1, 28, 29, 30, 31, 32):
                yield writing(f._replace(content=("clock", year, month, day, 23, 59, 59)), [], [], 250)
                yield reading(p[:3] + year.to_bytes(2, "big") + bytes((month, day, 0, 0, 0)) + p[10:])


def sizes(rng):
    """Each type with each count of codes, and as much content as fits or one more; counts of codes about 255, all lent;
    packets of each length up to 251 on air."""
    for t in NAMES:
        for n in range(17):
            f, _, body = fields(rng, t)
            f, codes = f._replace(count=n), digits(rng, 23 * n)
            yield writing(f, codes, body, 250)
            yield reading(bytes(packet_of(f, codes, body)))
    for t in (1, 4, 15):
        for k in range(130, 180):
            f, codes, _ = fields(rng, t)
            body = [rng.randrange(256) for _ in range(k)]
            yield writing(f._replace(content=content(rng, NAMES[t], k)), codes, body, 250)
    f, _, body = fields(rng, 21)
    for n in (254, 255, 256, 257):
        yield writing(f._replace(count=n), digits(rng, 23 * n), body, 250)
    for size in range(252):
        yield sending(bytes(mended(bytearray(rng.randbytes(size)))), rng.randrange(1, 7), rng.randrange(32), 832)


def sent_bytes(rng):
    """Each level, each version, each value of the first two bytes, and rooms about those that are needed."""
    p = bytes(mended(bytearray(rng.randbytes(79))))
    for v in range(256):
        yield from (sending(p, v, 3, 832), sending(p, 5, v, 832))
        yield from (sending(bytes((v,)) + p[1:], 5, 3, 832), sending(p[:1] + bytes((v,)) + p[2:], 5, 3, 832))
    for room in (0, 259, 260, 261, 271, 272, 273, 274, 831, 832):
        yield sending(p, 5, 3, room)


def everything():
    rng = random.Random(0)
    for part in (read_bytes, written_fields, days, sizes, sent_bytes):
        yield from part(rng)
