"""run/send, run/board and the other scripts of run/ in pipes, as people use them: what they print, their status, what the station's file holds.

  python3 -m pages.pipes      run it in tests/
"""
import glob
import json
import os
import random
import re
import subprocess
import tempfile
import time

from .server import GIRL, RUN, fail, same

SET = [c for c in (bytes((a, b)).decode("gb2312", "ignore") for a in range(0xA1, 0xF8) for b in range(0xA1, 0xFF)) if c and c not in "\u2015\u30fb"]


class Here:
    """A folder with a station's file."""

    def __init__(self, folder):
        self.folder, self.station = folder, os.path.join(folder, "station.ini")

    def run(self, name, given=b"", *words, out=subprocess.PIPE):
        """Status, output, and what stands on standard error."""
        env = {**os.environ, "TEPAZOHUI_STATION": self.station}
        r = subprocess.run([os.path.join(RUN, name), *words], input=given, stdout=out, stderr=subprocess.PIPE, env=env, cwd=self.folder)
        return r.returncode, r.stdout, r.stderr.decode()

    def send(self, text, *words):
        return self.run("send", text.encode(), *words)

    def next(self):
        with open(self.station, encoding="utf-8") as f:
            return dict(re.findall(r"^(serial|version) = (\d+)$", f.read(), re.M))


def through(here, text, *words):
    """A text that is sent and shown."""
    status, air, said = here.send(text, *words)
    same("run/send of %r" % text[:40], (status, said), (0, ""))
    return here.run("board", air)


def texts(here):
    same("the sentence", through(here, GIRL + "\n"), (0, GIRL.encode() + b"\n", ""))
    same("the next number and version", here.next(), {"serial": "2", "version": "1"})
    same("several lines", through(here, "one\n\ntwo\n")[1], b"one\n\ntwo\n")
    same("its own line end", through(here, "one\n", "--exact")[1], b"one\n\n")
    same("nothing", through(here, "")[1], b"\n")
    rng = random.Random(1)
    for k in range(8):
        some = "".join(rng.choice((rng.choice(SET), chr(rng.randrange(1, 128)), "\u2014\u00b7;")) for _ in range(rng.randrange(1, 560)))
        same("any characters, %d" % k, through(here, some, "--exact")[1], some.encode() + b"\n")


def objects(here):
    air = here.send("y" * 150, "--number", "7" * 31 + "0041", "--level", "3")[1]
    same("an object", json.loads(here.run("board", air, "--json")[1]), {"text": "y" * 150, "number": "7" * 31 + "0041", "level": 3, "parts": 2})


def as_groups(here):
    lines = here.send(GIRL, "--groups")[1].decode().splitlines()
    same("lines that are no group", [x for x in lines if not re.fullmatch("([0-9A-F]{4} ){3}[0-9A-F]{4}", x)], [])
    other = ["<a log's own line>", lines[1][:15] + "----", "---- ---- ---- ----", ""]
    given = "\n".join([*other, *(x.lower() + " @2026/11/15 12:00:00.00" for x in reversed(lines))])
    same("groups of another's log", here.run("board", given.encode(), "--groups"), (0, GIRL.encode() + b"\n", ""))
    unheard = "\n".join(lines[:3] + [lines[3][:5] + "----" + lines[3][9:]] + lines[4:])
    same("a block that was not heard", here.run("board", unheard.encode(), "--groups")[:2], (1, b""))
    same("no group at all", here.run("board", b"hello\n", "--groups")[2], "run/board: line 1 is no group of four times four hex digits\n")


def refusals(here):
    """One line, its status, nothing sent, and the station stays as it was."""
    before = here.next()
    for what, text, words, line in (
        ("a character outside the set", "a\nb \u00df \u20ac", (),
         "line 2, column 3: \u00df (U+00DF LATIN SMALL LETTER SHARP S) is not in GB/T 2312, the first of 2 such; nothing was sent"),
        ("the katakana dot", "\u30fb", (), "line 1, column 1: \u30fb (U+30FB KATAKANA MIDDLE DOT) is not in GB/T 2312; nothing was sent"),
        ("ten parts", "x" * 1342, (), "refused, 31: the text needs more than nine parts"),
        ("far too much", "x" * 100000, (), "refused, 31: the text needs more than nine parts"),
        ("a reserved level", "x", ("--level", "7"), "refused, 13: the source level is reserved"),
        ("a version past 31", "x", ("--version", "32"), "refused, 27: a field outside its range, or content that is not of the type named"),
        ("a kind past 3", "x", ("--kind", "4"), "refused, 27: a field outside its range, or content that is not of the type named"),
        ("13 codes", "x", ("--codes", ",".join(["1" * 23] * 13)), "refused, 20: the packet's size is wrong"),
        ("the last number", "x" * 150, ("--number", "9" * 35), "refused, 32: the last part's message number would pass 9999"),
        ("a short number", "x", ("--number", "12"), "the message number has to be 35 digits, not '12'"),
        ("no number", "x", ("--level", "two"), "level has to be a number from 0 to 255, not 'two'"),
        ("no such signature", "x", ("--signature", "gone"), "gone: No such file or directory"),
    ):
        same(what, here.send(text, *words), (1, b"", "run/send: %s\n" % line))
    same("no UTF-8", here.run("send", b"ab\xff"), (1, b"", "run/send: byte 3 of the text is not UTF-8; nothing was sent\n"))
    same("bad usage", here.send("x", "--lovel", "1")[0], 2)
    same("the station after refusals", here.next(), before)
    same("no story", here.run("board", bytes(1000)), (1, b"", "run/board: no story was whole; frames heard: 0\n"))


def ends(here):
    """Full disks and closed pipes: a line, a status, and a number that was not sent is used again."""
    before = here.next()
    with open("/dev/full", "wb") as full:
        same("run/send on a full disk", here.run("send", b"x", out=full), (1, None, "run/send: No space left on device\n"))
        same("run/board on a full disk", here.run("board", here.send("x", "--version", "9", "--number", "1" * 35)[1], out=full)[::2],
             (1, "run/board: No space left on device\n"))
    reading, writing = os.pipe()
    os.close(reading)
    same("run/send into a closed pipe", here.run("send", b"x", out=writing), (1, None, "run/send: whoever read the output has gone\n"))
    os.close(writing)
    same("the station after a full disk", here.next(), before)


def station(here):
    """What people wrote in the station's file stays; versions come round; a day's numbers go on; nobody else's words are taken."""
    with open(here.station, "w", encoding="utf-8") as f:
        f.write("# ours\n[station]\nlevel = 2\nsender = %s\n[next]\ndate = 99991231\nserial = 9998\nversion = 31\n" % ("4" * 23))
    shown = json.loads(here.run("board", here.send("z" * 150)[1], "--json")[1])
    same("number and level of the station", (shown["number"], shown["level"]), ("4" * 23 + "99991231" + "9998", 2))
    with open(here.station, encoding="utf-8") as f:
        same("the station's file", f.read(), "# ours\n[station]\nlevel = 2\nsender = %s\n\n[next]\ndate = 99991231\nserial = 10000\nversion = 1\n" % ("4" * 23))
    same("a day's numbers are used up", here.send("x")[2], "run/send: refused, 32: the last part's message number would pass 9999\n")
    with open(here.station, "w", encoding="utf-8") as f:
        f.write("[station]\nlovel = 2\n")
    same("a word that nobody knows", here.send("x")[2], "run/send: %s: nothing is known of lovel in [station]\n" % here.station)
    os.unlink(here.station)


def alive(here):
    """A story is shown while the pipe is still open."""
    air = here.send(GIRL)[1]
    board = subprocess.Popen([os.path.join(RUN, "board")], stdin=subprocess.PIPE, stdout=subprocess.PIPE)
    board.stdin.write(air)
    board.stdin.flush()
    same("a live pipe", board.stdout.readline(), GIRL.encode() + b"\n")
    time.sleep(0.1)
    same("it goes on", board.poll(), None)
    board.stdin.close()
    same("its end", board.wait(10), 0)
    board.stdout.close()


def helps(here):
    for path in sorted(glob.glob(os.path.join(RUN, "*"))):
        status, said, wrong = here.run(os.path.basename(path), b"", "--help")
        if status or wrong or len(said) < 40:
            fail("run/%s --help: status %d, %r" % (os.path.basename(path), status, wrong))


def main():
    with tempfile.TemporaryDirectory() as folder:
        here = Here(folder)
        for test in (texts, objects, as_groups, refusals, ends, station, alive, helps):
            test(here)
    print("pier: pipes, groups, objects, refusals, full disks, closed pipes, the station's file and every --help")


if __name__ == "__main__":
    main()
