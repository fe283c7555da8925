"""The receiver, from paper 02's K7 and K10: a frame is any 104 bits whose four blocks all pass; the earliest start is taken, the next search starts
behind it, and a start that fails moves on by one bit. At a start that directly follows a frame handed out, a block that fails is mended: if some valid
block of its letter differs only within five neighbouring bits, it is used. Bits that are no frame yet stay pending, at most 103."""
from .checks import block

LEAST = 103

# every change within five neighbouring bits of 26
BURSTS = sorted({five << low for low in range(22) for five in range(32)})


def is_valid(word, letter):
    return word == block(word >> 10, letter)


def used(word, letter):
    """The valid block of the letter that differs from the word only within five neighbouring bits; None where there is none."""
    some = [word ^ burst for burst in BURSTS if is_valid(word ^ burst, letter)]
    assert len(some) < 2, (word, letter)
    return some[0] if some else None


def words(bits, at):
    return [int(bits[at + 26 * k : at + 26 * k + 26], 2) for k in range(4)]


def taken(bits, at, follows):
    """The four blocks handed out at a start, and how many of them were mended; None where the start fails."""
    stood = words(bits, at)
    if all(map(is_valid, stood, range(4))):
        return stood, 0
    if not follows:
        return None
    mended = list(map(used, stood, range(4)))
    return None if None in mended else (mended, sum(a != b for a, b in zip(stood, mended)))


def information(blocks):
    return b"".join((b >> 10).to_bytes(2, "big") for b in blocks)


class Receiver:
    def __init__(self):
        self.pending, self.damaged, self.follows = "", False, False

    def put(self, count, bits, follows):
        """A record as it is given: its low bits, as many as it counts, are pending; others mean nothing. They follow a frame, or do not."""
        self.damaged, self.follows = count > LEAST, follows
        self.pending = format(bits & (1 << count) - 1, "0%db" % count) if count else ""

    def receive(self, delivery, room, room_for_counts):
        """The answer, the frames of a delivery, in order, and how many blocks of each were mended."""
        if self.damaged:
            return 28, [], []
        if len(delivery) > 512:
            return 11, [], []
        if room < 320 or room_for_counts < 40:
            return 10, [], []
        bits = self.pending + "".join(format(byte, "08b") for byte in delivery)
        frames, counts, at = [], [], 0
        while len(bits) - at > LEAST:
            found = taken(bits, at, self.follows)
            self.follows = found is not None
            if found:
                frames.append(information(found[0]))
                counts.append(found[1])
            at += 104 if found else 1
        self.pending = bits[at:]
        return 0, frames, counts
