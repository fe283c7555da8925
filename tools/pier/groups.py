"""Frames as lines of four times four hex digits, the form in which redsea and RDS Spy write groups."""
import re

from .programs import FRAME

BLOCK = r"([0-9A-Fa-f]{4})"
GROUP = re.compile(r"\s*%s\s+%s\s+%s\s+%s(?:\s.*)?$" % (BLOCK, BLOCK, BLOCK, BLOCK))
LONGEST = 1000  # bytes of a line that are read at once
UNHEARD = re.compile(r"\s*(?:[0-9A-Fa-f]{4}|-{4})(?:\s+(?:[0-9A-Fa-f]{4}|-{4})){3}(?:\s.*)?$")


def information(air):
    """The four information words of a frame's 13 bytes: sixteen bits of every 26."""
    bits = int.from_bytes(air, "big")
    return [bits >> shift & 0xFFFF for shift in (88, 62, 36, 10)]


def lines(air):
    for at in range(0, len(air), FRAME):
        yield "%04X %04X %04X %04X\n" % tuple(information(air[at : at + FRAME]))


class Reader:
    """The frames of lines, as they come. A group with a block that was not heard counts as not heard."""

    def __init__(self, source):
        self.source, self.groups, self.first_other = source, 0, 0

    def frames(self):
        for n, line in enumerate(iter(lambda: self.source.readline(LONGEST), b""), 1):
            text = line.decode("ascii", "replace").rstrip()
            group = GROUP.match(text)
            if group:
                yield bytes.fromhex("".join(group.groups()))
            if group or UNHEARD.match(text):
                self.groups += 1
            elif text and not self.first_other:
                self.first_other = n
