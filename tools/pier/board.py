"""Hears air bytes on standard input and prints each story as soon as it is whole: in any order, with repeats and gaps, never in half.

Air bytes are the bits of the RDS stream after differential decoding, eight to a byte, the first bit highest; they need not begin at a block.
Status 1 and one line say that the input ended and no story was whole."""
import argparse
import json
import os
import sys

from . import characters, groups
from .ending import Refused, line
from .programs import Show


def options():
    parser = argparse.ArgumentParser(prog="run/board", description=__doc__, formatter_class=argparse.RawDescriptionHelpFormatter,
                                     epilog="examples: run/send < story.txt | run/board      rtl_fm .. | redsea -x | run/board --groups")
    parser.add_argument("--json", action="store_true", help="an object a line: text, number (35 digits), level, parts")
    parser.add_argument("--groups", action="store_true", help="the input is lines of four times four hex digits, as redsea -x and RDS Spy write "
                        "groups; one with a block that was not heard (----) counts as not heard")
    return parser


def printed(shown, as_json):
    text = characters.decoded(shown.text)
    if as_json:
        return json.dumps({"text": text, "number": shown.number, "level": shown.level, "parts": shown.parts}, ensure_ascii=False)
    return characters.visible(text) if sys.stdout.isatty() else text


def air():
    """What is there of standard input, as it comes."""
    return iter(lambda: os.read(0, 1 << 16), b"")


def main():
    given = options().parse_args()
    lines = groups.Reader(sys.stdin.buffer) if given.groups else None
    heard = Show(b"G", lines.frames()) if lines else Show(b"A", air())
    frames = stories = 0
    for _, shown in heard.events():
        frames += 1
        if shown:
            stories += 1
            sys.stdout.buffer.write(printed(shown, given.json).encode() + b"\n")
            sys.stdout.buffer.flush()
    if lines and lines.first_other and not lines.groups:
        raise Refused("line %d is no group of four times four hex digits" % lines.first_other)
    if not stories:
        line("run/board", "no story was whole; frames heard: %d" % frames)
        return 1
    return 0
