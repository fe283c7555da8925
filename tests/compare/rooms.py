"""What it gives that a board makes room in a full collector, by the model: how many stories come where frames are lost, without it and with it.
It is the table of docs/DECISIONS.md 114, and no test.

  python3 -m compare.rooms      run it in tests/
"""
import random

from model import story
from model.board import Board

from . import streams

TEXT = b"The wave came over the wall; then the water went a long way out." * 25
ROWS = ((64, 120, 2), (64, 120, 4), (400, 40, 2), (400, 40, 4), (1341, 12, 4), (1341, 12, 8))  # bytes of a story, how many stories, how often each is sent
LOST = 0.02


class Deaf(Board):
    """A board on which no place gives way."""

    def make_room(self):
        return False


def packets(serial, size):
    digits = [1] * 31 + [int(d) for d in "%04d" % serial]
    return list(story.cut(story.tell(1, digits, 0, [], 0, [0] * 12, bytes(64), TEXT[:size], 2300)[2]))


def came(board, size, count, times):
    """How many of so many stories come, one behind the other on one board, versions rising."""
    rng, serial, shown = random.Random(1), 1, 0
    for _ in range(count):
        some = packets(serial, size)
        frames = [f for k, p in enumerate(some) for f in streams.frames(rng, 5, (serial + k) % 32, p)]
        heard = [answer for f in frames * times if rng.random() >= LOST for answer in board.hear(f)[:1]]
        serial, shown = serial + len(some), shown + (1 in heard)
    return shown


def main():
    for size, count, times in ROWS:
        print("| %d | %d | %d | %d | %d |" % (len(packets(1, size)), times, count, came(Deaf(), size, count, times), came(Board(), size, count, times)), flush=True)


if __name__ == "__main__":
    main()
