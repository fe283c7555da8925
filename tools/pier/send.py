"""Puts a text on air: UTF-8 on standard input, air bytes on standard output, for a transmitter's RDS encoder or for run/board.

One line end at the very end of the input is the shell's and not the text's. What a story needs besides its text comes from the station's file,
which is made where there is none; an option stands in for this story alone. Status 1 and one line say why nothing was sent; 2 is wrong usage."""
import argparse
import os
import sys

from . import characters, groups, programs, station
from .ending import Refused, refused, said

LONGEST = 1 << 16  # bytes of UTF-8; so many are far more than nine parts, whatever the characters


def options():
    parser = argparse.ArgumentParser(prog="run/send", description=__doc__, formatter_class=argparse.RawDescriptionHelpFormatter,
                                     epilog="example: run/send < story.txt | run/board")
    add = parser.add_argument
    add("--level", metavar="N", help="source level: 1 country, 2 province, 3 city, 4 county, 5 town, 6 village")
    add("--version", metavar="N", help="version of the first part, 0 to 31; each further part's is one more, modulo 32")
    add("--number", metavar="DIGITS", help="message number of the first part, 35 digits; else sender, date and the day's next serial number")
    add("--kind", metavar="N", help="kind of text: 1 emergency, 2 everyday, 3 test")
    add("--codes", metavar="CODES", help="codes of those who are meant, 23 digits each, with commas between; '' for none")
    add("--certificate", metavar="DIGITS", help="number of the certificate, 12 digits")
    add("--time", metavar="SECONDS", help="time of signing, in seconds since 1970; else now")
    add("--signature", metavar="FILE", help="file of the signature's 64 bytes; else zeros")
    add("--station", metavar="FILE", help="the station's file; else $TEPAZOHUI_STATION, or station.ini of this folder's project")
    add("--exact", action="store_true", help="a line end at the end belongs to the text")
    add("--groups", action="store_true", help="a line of four times four hex digits for each frame, for encoders that take free groups")
    return parser


def signature_in(path):
    if path is None:
        return None
    with open(path, "rb") as f:
        some = f.read(65)
    if len(some) != 64:
        raise Refused("%s: a signature has 64 bytes" % path)
    return some


def text_from(source, exact):
    data = source.read(LONGEST + 1)
    if len(data) > LONGEST:
        raise refused(31)
    text = characters.typed(data)
    if not exact and text.endswith("\n"):
        text = text[: -2 if text.endswith("\r\n") else -1]
    return characters.encoded(text)


def story_of(here, given):
    return here.story(given.level, given.version, given.kind, given.number, given.codes, given.certificate, given.time, signature_in(given.signature))


def put_out(some, to=1):
    """All of it to a file, or an error of the system."""
    while some:
        some = some[os.write(to, some) :]


def main():
    given = options().parse_args()
    text = text_from(sys.stdin.buffer, given.exact)
    with station.held(station.path_of(given.station)) as here:
        story = story_of(here, given)
        sent = programs.send(story, text)
        if sent.answer:
            raise refused(sent.answer)
        put_out("".join(groups.lines(sent.air)).encode() if given.groups else sent.air)
        here.advance(story, sent.parts, given.number, given.version)
        try:
            here.save()
        except OSError as error:
            raise Refused("it is on air, but the next number could not be saved: %s" % said(error)) from None
