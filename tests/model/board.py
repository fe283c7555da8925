"""A pier board, from the request for it: frames in any order and with repeats; parts of stories are kept until their story is whole, which is
then shown, once; a text that is no part is shown as it is; what is no text of set 0 is left to others."""
from . import story
from .collector import Collector
from .reader import read

ROOM = 1341  # nine parts of 149 bytes


class Tale:
    def __init__(self, number, total):
        self.number, self.total, self.texts = number, total, {}

    def whole(self):
        return len(self.texts) == self.total

    def text(self):
        return b"".join(self.texts[k] for k in sorted(self.texts))


def part_of(digits, body):
    """The number of part 1, the total and the part, where a body is headed as one of one to nine parts and all their numbers have four digits."""
    for total in range(1, 10):
        for part in range(1, total + 1):
            first = story.four(digits) - (part - 1)
            if body[:4] == story.head(part, total) and first >= 0 and first + total - 1 <= 9999:
                return story.later(digits, 1 - part), total, part
    return None


class Board:
    def __init__(self):
        self.collector, self.tales = Collector(), []  # the tale that has waited longest for a part is the first

    def hear(self, frame, room=ROOM):
        """The answer, and where a text is shown: level, parts, message number, text."""
        if self.collector.damaged():
            return 28, None
        if room < ROOM:
            return 10, None
        answer = self.collector.offer(frame)
        if answer == 16 and self.make_room():
            answer = self.collector.offer(frame)
        if answer != 1:
            return answer, None
        level, version = frame[0] >> 5, frame[0] & 31
        packet = self.collector.copy(level, version, 250)[1]
        self.collector.release(level, version)
        answer, *shown = self.take_in(packet)
        return answer, (level, *shown) if answer == 1 else None

    def make_room(self):
        """The place that comes first gives way, and goes last: so each does in turn."""
        self.collector.places = [*self.collector.places[1:], None]
        return True

    def take_in(self, packet):
        answer, fields, _, _, body = read(packet)
        if answer or fields.type != 15 or fields.content[2] != 0:
            return 6,
        part = part_of(fields.digits, body)
        if part is None:
            return 1, 1, fields.digits, body
        return self.keep(*part, body[4:])

    def keep(self, number, total, part, text):
        tale = next((t for t in self.tales if (t.number, t.total) == (number, total)), None)
        if tale and tale.texts.get(part) == text:
            return 5,
        if tale:
            self.tales.remove(tale)
        if not tale or part in tale.texts:
            tale = Tale(number, total)
        tale.texts[part] = text
        self.tales = [*self.tales, tale][-4:]
        return (1, total, number, tale.text()) if tale.whole() else (4,)
