"""The two proved programs behind all this: send makes air bytes of a story, show hears air bytes or frames."""
import collections
import functools
import os
import subprocess
import threading

from .ending import Refused

RUN = os.path.join(os.path.dirname(os.path.abspath(__file__)), "..", "..", "run")
PACKET, FRONT, CODE, PARTS = 250, 101, 12, 9  # bytes of the longest packet, of a part's packet without its text, of a code; most parts
FRAME = 13

Sent = collections.namedtuple("Sent", "answer parts left air")
Shown = collections.namedtuple("Shown", "text number level parts")


@functools.lru_cache
def command(name):
    """The words that start a program; it is proved and built first where need be, which run/start shows."""
    asked = subprocess.run([os.path.join(RUN, "start"), "--words", name], stdin=subprocess.DEVNULL, stdout=subprocess.PIPE)
    if asked.returncode:
        raise Refused("its program %s is not to be had" % name)
    return asked.stdout.decode().splitlines()


def record(story, text):
    """What the program send reads: crates/send/src says how it looks."""
    return (bytes((story.level, story.version, story.kind, len(story.codes))) + bytes(map(int, story.number)) + story.time.to_bytes(4, "big")
            + bytes(map(int, story.certificate)) + story.signature + bytes(map(int, "".join(story.codes))) + text)


def send(story, text):
    """The answer, the parts, how many bytes of text would still fit, and the air bytes."""
    asked = subprocess.run(command("send"), input=record(story, text), stdout=subprocess.PIPE)
    air, end = asked.stdout[:-3], asked.stdout[-3:]
    if asked.returncode or len(end) < 3 or len(air) % FRAME:
        raise Refused("the program send broke off; nothing was sent")
    answer, parts, last = end
    left = PACKET - last + (PARTS - parts) * (PACKET - FRONT - CODE * len(story.codes))
    return Sent(answer, parts, left if answer == 0 else 0, air)


class Show:
    """The program show, fed by a thread: events() gives each frame's answer, and behind a 1 what is shown."""

    def __init__(self, mode, pieces=None):
        self.process = subprocess.Popen(command("show"), stdin=subprocess.PIPE, stdout=subprocess.PIPE, bufsize=0)
        self.out = open(self.process.stdout.fileno(), "rb", closefd=False)
        self.failure = None
        self.feed(mode)
        if pieces is not None:
            threading.Thread(target=self.feed_all, args=(pieces,), daemon=True).start()

    def feed(self, some):
        while some:
            some = some[self.process.stdin.write(some) :]

    def feed_all(self, pieces):
        try:
            for some in pieces:
                self.feed(some)
        except (OSError, Refused) as error:
            self.failure = error
        self.end()

    def end(self):
        try:
            self.process.stdin.close()
        except OSError:
            pass  # it has gone, and events() ends

    def shown(self):
        """Level, parts, message number, length, text, as crates/show/src writes them."""
        head = self.out.read(39)
        text = self.out.read(int.from_bytes(head[37:], "big"))
        if len(head) < 39 or len(text) < int.from_bytes(head[37:], "big"):
            raise Refused("the program show broke off")
        return Shown(text, "".join(map(str, head[2:37])), head[0], head[1])

    def events(self):
        for answer in iter(lambda: self.out.read(1), b""):
            yield answer[0], self.shown() if answer == b"\1" else None
        self.out.close()
        self.process.stdout.close()
        if self.failure:
            raise self.failure
        if self.process.wait():
            raise Refused("the program show broke off")
