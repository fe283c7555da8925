"""Holds the proved board, asked through the program show, to the model: frames by seed, of stories, of other texts and of other packets.

  python3 -m compare.boards COUNT      run it in tests/

At a difference it leaves out frames while it still differs, prints what is left and stops.
"""
import collections
import random
import subprocess
import sys

from model import story
from model.board import Board
from model.packet import Fields
from model.writer import write

from . import smaller, stories, streams

# What a board answers to a frame of eight bytes; a whole pair is released at once, so nothing contradicts one (15).
ANSWERS = (0, 1, 2, 3, 4, 5, 6, 12, 13, 14, 17)
EVENTS = ("a story begins afresh", "a story gives way", "a packet gives way", "a story comes again", "a text by itself")


class Watched(Board):
    """The model's board, and what happened to stories on it."""

    def __init__(self):
        super().__init__()
        self.seen, self.gone = collections.Counter(), set()

    def keep(self, number, total, part, text):
        before = {(tuple(t.number), t.total): t for t in self.tales}
        here = tuple(number), total
        held = before.get(here)
        self.seen["a story begins afresh"] += held is not None and held.texts.get(part, text) != text
        self.seen["a story comes again"] += held is None and here in self.gone
        answer = super().keep(number, total, part, text)
        left = set(before) - {(tuple(t.number), t.total) for t in self.tales}
        self.seen["a story gives way"] += len(left)
        self.gone |= left
        return answer

    def make_room(self):
        self.seen["a packet gives way"] += 1
        return super().make_room()

    def take_in(self, packet):
        shown = super().take_in(packet)
        self.seen["a text by itself"] += shown[0] == 1 and not any(t.whole() and t.text() == shown[3] for t in self.tales)
        self.seen["parts", shown[1] if shown[0] == 1 else 0] += 1
        return shown


def heard(frames, board):
    """The bytes that the program writes."""
    out = b""
    for f in frames:
        answer, shown = board.hear(f)
        board.seen[answer] += 1
        out += bytes((answer,))
        if shown:
            level, parts, number, text = shown
            out += bytes((level, parts, *number)) + len(text).to_bytes(2, "big") + text
    return out


def numbered(rng):
    """A message number; few differ in more than their last four digits."""
    return [rng.choice((0, 7))] * 31 + [int(d) for d in "%04d" % rng.choice((0, 1, 5, 100, 9990, 9999, rng.randrange(10000)))]


def told(rng, digits, text):
    return list(story.cut(story.tell(1, digits, 0, [], 0, [0] * 12, bytes(64), text, 2300)[2]))


def tale(rng):
    """The packets of a story, sometimes a part of it with another text."""
    digits, text = numbered(rng), stories.text(rng, rng.choice((0, 149, 150, 140 * rng.randrange(1, 10), 140 * rng.randrange(1, 10))))
    some = told(rng, digits, text)
    if some and rng.randrange(4) == 0:
        some.append(rng.choice(told(rng, digits, text[:-1] + b"~")))
    return some


def other(rng):
    """A text by itself, a head that is wrong or whose numbers don't reach, another set, another packet."""
    head = rng.choice((b"", b"1/2", b"0/3 ", b"4/3 ", b"2/2 ", b"1/1-", b"1 1 ", b"9/9 ", b"1/9 ", b"\xb0\xa1"))
    body = head + stories.text(rng, rng.choice((0, 1, 40, 100)))
    number = numbered(rng)
    packet = write(Fields(15, 0, ("text", 1, rng.choice((0, 0, 0, 1, 4)), len(body)), number, 0, [0] * 12, bytes(64)), [], list(body), 250)[1]
    return rng.choice((packet, packet, packet, stories.HOLD, streams.packet(rng, rng.choice((2, 30, 120)))))


def mixed(rng, some):
    """Frames of packets: one packet behind the other, or several at once; some lost, some twice, some that no right sender sends."""
    level, version, together = rng.randrange(1, 7), rng.randrange(32), rng.choice((1, 1, 2, 4, 6))
    for at in range(0, len(some), together):
        frames = []
        for packet in some[at : at + together]:
            frames += streams.frames(rng, level, version, packet, rng.choice(streams.FAULTS) if rng.randrange(30) == 0 else None)
            version = (version + 1) % 32 if rng.randrange(8) else version
        if together > 1 or rng.randrange(3) == 0:
            rng.shuffle(frames)
        for f in frames:
            if rng.randrange(600):
                yield f
            if rng.randrange(60) == 0:
                yield rng.choice((f, rng.choice(frames), streams.odd_frame(rng)))


def drawn(seed):
    rng = random.Random("board %d" % seed)
    packets = [p for _ in range(rng.choice((1, 2, 3, 4, 6))) for p in tale(rng)] + [other(rng) for _ in range(rng.randrange(4))]
    packets += rng.choices(packets, k=rng.randrange(len(packets) + 1)) if packets else []
    if rng.randrange(4):
        rng.shuffle(packets)
    return list(mixed(rng, packets))


def command():
    return subprocess.run(["../run/start", "--words", "show"], stdout=subprocess.PIPE, check=True).stdout.decode().splitlines()


def run(words, frames):
    return subprocess.run(words, input=b"G" + b"".join(frames), stdout=subprocess.PIPE).stdout


def main(count):
    words, seen, n = command(), collections.Counter(), 0
    for seed in range(count):
        frames, board = drawn(seed), Watched()
        if run(words, frames) != heard(frames, board):
            least = smaller.shorter(frames, [1 << k for k in range(12, -1, -1)], lambda some: run(words, some) != heard(some, Watched()))
            sys.exit("frames of seed %d differ; the fewest found, in hex:\n%s\nshow: %s\nmodel: %s"
                     % (seed, "\n".join(f.hex(" ", 2) for f in least), run(words, least).hex(), heard(least, Watched()).hex()))
        seen.update(board.seen)
        n += len(frames)
    never = [w for w in (*ANSWERS, *EVENTS, *(("parts", k) for k in range(1, 10))) if not seen[w]]
    if never:
        sys.exit("never drawn: %s" % never)
    print("show: %s" % ", ".join("%d times %s" % (seen[w], w) for w in (*ANSWERS, *EVENTS)))
    print("show agrees with the model on %d runs of frames, %d in all" % (count, n))


if __name__ == "__main__":
    main(int(sys.argv[1]))
