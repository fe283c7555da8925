"""How a program of run/ ends: with one line and a status, whatever happens to its input and output."""
import os
import sys

# What the numbers mean that telling, the on-air writer and the shelf refuse with, in README's words (tests/docs.py holds the two together).
MEANINGS = {
    10: "the memory lent for the result is too short",
    13: "the source level is reserved",
    20: "the packet's size is wrong",
    25: "a digit above 9",
    26: "a length that is wrong for its kind",
    27: "a field outside its range, or content that is not of the type named",
    30: "the text's last byte is 0x80 or above and belongs to no character",
    31: "the text needs more than nine parts",
    32: "the last part's message number would pass 9999",
    34: "the shelf can't be read, or is not whole records, or has over 4,096; or memory that is not 256 bytes",
    35: "a record of the shelf breaks a rule",
    36: "the shelf has 4,096 records, and no more are kept",
}


class Refused(Exception):
    """What was given can't be done; nothing was sent."""


def refused(number):
    return Refused("refused, %d: %s" % (number, MEANINGS.get(number, "no such number is known")))


def line(program, what):
    try:
        print("%s: %s" % (program, what), file=sys.stderr, flush=True)
    except OSError:
        pass  # nobody reads that either


def said(error):
    """An error of the system, in words, with the file that it is about."""
    what = error.strerror or str(error)
    return "%s: %s" % (error.filename, what) if error.filename else what


def run(program, main):
    """Runs a program's main to its end: status 0 or its own; 1 with a line where something is refused or fails."""
    try:
        status = main() or 0
        sys.stdout.flush()
    except Refused as why:
        line(program, why)
        status = 1
    except BrokenPipeError:
        line(program, "whoever read the output has gone")
        status = 1
    except KeyboardInterrupt:
        status = 130
    except OSError as error:
        line(program, said(error))
        status = 1
    try:
        sys.stdout.flush()
    except OSError:
        # what is left can't be written, and Python would say so once more while it ends
        os.dup2(os.open(os.devnull, os.O_WRONLY), 1)
    sys.exit(status)
