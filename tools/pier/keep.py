"""Keeps every whole packet that the air bytes on standard input carry: a record at the end of the file shelf of the current folder, and the file
summary beside it. A line on standard output says of each record that it is kept: its number, level, version and P.

It begins by making the summary afresh. A shelf that is refused (34: not whole records; 35: a record breaks a rule) is left as it is, and so is one that
another run/keep has open. At 4,096 records it says 36, once, and goes on listening. run/shelf prints what is kept."""
import argparse
import fcntl
import os
import subprocess
import sys

from .ending import Refused, line, refused
from .programs import command

RECORD = SUMMARY = 256
FULL = 36


def options():
    return argparse.ArgumentParser(prog="run/keep", description=__doc__, formatter_class=argparse.RawDescriptionHelpFormatter,
                                   epilog="example: run/send < story.txt | run/keep && run/shelf")


def opened():
    """The shelf, made where there is none, and this process's alone until it ends, however it ends."""
    shelf = os.open("shelf", os.O_WRONLY | os.O_APPEND | os.O_CREAT, 0o666)
    try:
        fcntl.flock(shelf, fcntl.LOCK_EX | fcntl.LOCK_NB)
    except BlockingIOError:
        raise Refused("another run/keep has this shelf open") from None
    return shelf


def write_all(file, some):
    while some:
        some = some[os.write(file, some) :]


def on_disk(name):
    """A folder's own entries, so that a file that is new in it is still there after a power cut."""
    folder = os.open(name, os.O_RDONLY)
    try:
        os.fsync(folder)
    finally:
        os.close(folder)


def put_record(shelf, record):
    """The record at the shelf's end, on the disk; or none of it, where the disk has no room."""
    before = os.fstat(shelf).st_size
    try:
        write_all(shelf, record)
        os.fsync(shelf)
    except OSError:
        os.ftruncate(shelf, before)
        raise


def put_summary(summary):
    """A new file, which then takes the old one's name: whoever reads sees the one or the other."""
    with open("summary.new", "wb") as new:
        new.write(summary)
        new.flush()
        os.fsync(new.fileno())
    os.rename("summary.new", "summary")
    on_disk(".")


def exactly(out, count):
    some = out.read(count)
    if len(some) < count:
        raise Refused("the program keep broke off")
    return some


def heard(shelf, out):
    """What the program says of each whole packet, until its input ends."""
    full = False
    for answer in iter(lambda: out.read(1), b""):
        if answer[0] == FULL and not full:
            line("run/keep", refused(FULL))
            full = True
        if answer[0]:
            continue
        record, summary = exactly(out, RECORD), exactly(out, SUMMARY)
        number = os.fstat(shelf).st_size // RECORD
        put_record(shelf, record)
        put_summary(summary)
        print("kept", number, record[0], record[1], record[2] << 8 | record[3], flush=True)


def main():
    options().parse_args()
    words = command("keep")
    shelf = opened()
    keep = subprocess.Popen(words, stdin=sys.stdin, stdout=subprocess.PIPE)
    try:
        answer = exactly(keep.stdout, 1)[0]
        if answer:
            raise refused(answer)
        put_summary(exactly(keep.stdout, SUMMARY))
        heard(shelf, keep.stdout)
    finally:
        keep.stdout.close()
        keep.kill()
        keep.wait()
    return 0
