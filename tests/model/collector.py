"""The collector: pairs of level and version, each with its total and the four bytes of each number held."""
from .checks import packet_check


def length(joined):
    """P, from the length field."""
    return ((joined[0] << 8 | joined[1]) & 0x7FF) + 2


def is_whole(joined):
    """Check and fill: P + 2 bytes and 0 to 3 of fill, the check high byte first, the fill 0xFF."""
    p = length(joined)
    if not 0 <= len(joined) - p - 2 <= 3:
        return False
    return joined[p : p + 2] == packet_check(joined[:p]).to_bytes(2, "big") and set(joined[p + 2 :]) <= {0xFF}


class Place:
    def __init__(self, level, version, total):
        self.pair, self.total, self.pieces = (level, version), total, {}

    def damaged(self):
        """Whether no run of frames leaves such a place: level, version or total out of range, or a number that is not below the total."""
        level, version = self.pair
        return not 1 <= level <= 6 or version > 31 or not 1 <= self.total <= 63 or any(k >= self.total for k in self.pieces)

    def joined(self):
        """The pair's 4N bytes; none where a number is missing."""
        return b"".join(self.pieces[k] for k in range(self.total)) if len(self.pieces) == self.total else b""

    def whole(self):
        return len(self.pieces) == self.total and is_whole(self.joined())


class Collector:
    def __init__(self):
        self.places = [None] * 4  # a free place is none
        self.tops = [0] * 4  # the top bit of each place's marks, which should be 0 (paper 02, K11)

    def put(self, i, place, top):
        """A place as it is given, or a free one, and the top bit of its marks."""
        self.places[i], self.tops[i] = place, top

    def damaged(self):
        held = [p for p in self.places if p]
        return any(self.tops) or any(p.damaged() for p in held) or len({p.pair for p in held}) < len(held)

    def of(self, pair):
        """The place of a pair, where it has one."""
        return next((p for p in self.places if p and p.pair == pair), None)

    def offer(self, f):
        """Keeps a frame or says why not, in the paper's order: record, size, fixed bits, level, number, contradiction, repeat, place.
        What contradicts a pair that is not whole begins it again (paper 02, K5)."""
        if self.damaged():
            return 28
        if len(f) != 8:
            return 26
        if f[2] != 0b10110000 or f[3] >> 4 != 0:
            return 12
        level, version, total, number = f[0] >> 5, f[0] & 31, f[1] >> 2, (f[1] & 3) << 4 | f[3]
        if level in (0, 7):
            return 13
        if total == 0 or number >= total:
            return 14
        place, answer = self.of((level, version)), 0
        if place is None:
            if None not in self.places:
                return 16
            place = self.places[self.places.index(None)] = Place(level, version, total)
        elif place.total != total or place.pieces.get(number, f[4:]) != f[4:]:
            if place.whole():
                return 15
            place.total, place.pieces, answer = total, {}, 3
        elif number in place.pieces:
            return 2
        place.pieces[number] = f[4:]
        if len(place.pieces) < total:
            return answer
        return 1 if place.whole() else 17

    def release(self, level, version):
        """Makes the pair's place free; 18 where it has none."""
        place = self.of((level, version))
        if self.damaged():
            return 28
        if place is None:
            return 18
        self.places[self.places.index(place)] = None
        return 0

    def copy(self, level, version, room):
        """The answer and the packet's P bytes: 18 unless the pair is whole, then 10 where the lent memory is too short."""
        if self.damaged():
            return 28, b""
        place = self.of((level, version))
        if place is None or not place.whole():
            return 18, b""
        joined = place.joined()
        p = length(joined)
        return (10, b"") if room < p else (0, joined[:p])
