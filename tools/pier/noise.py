"""Noise on the way: the text on standard input is sent, damaged by seed and heard by a fresh board.

It prints how many frames were sent and heard and what became of the story, which comes whole or not at all. Status 0: it came whole; 1: it did
not come; 3: something else was shown, which must never be. The same seed does the same damage."""
import argparse
import collections
import math
import os
import random
import sys

from . import programs, station
from .ending import refused
from .send import put_out, text_from

RATES = (0.0001, 0.0002, 0.0005, 0.001, 0.002, 0.003, 0.005, 0.007, 0.01, 0.015, 0.02, 0.03)
REPEATS = (1, 2, 4, 8)
Damage = collections.namedtuple("Damage", "turned lost garbage shuffle repeats")
Came = collections.namedtuple("Came", "sent heard texts")


def share(given):
    value = float(given)
    if not 0 <= value <= 1:
        raise argparse.ArgumentTypeError("it has to be from 0 to 1")
    return value


def count(given):
    value = int(given)
    if not 0 <= value <= 10000:
        raise argparse.ArgumentTypeError("it has to be from 0 to 10000")
    return value


def options():
    parser = argparse.ArgumentParser(prog="run/pier-noise", description=__doc__, formatter_class=argparse.RawDescriptionHelpFormatter,
                                     epilog="example: run/pier-noise --turned 0.002 --repeats 4 < story.txt")
    add = parser.add_argument
    add("--seed", type=int, default=1, metavar="N", help="which damage; 1 where none is named")
    add("--turned", type=share, default=0.0, metavar="SHARE", help="share of bits that are inverted")
    add("--lost", type=share, default=0.0, metavar="SHARE", help="share of bits that are lost")
    add("--garbage", type=count, default=0, metavar="BITS", help="up to so many bits of garbage between frames")
    add("--shuffle", action="store_true", help="the frames come in another order")
    add("--repeats", type=count, default=1, metavar="N", help="how often everything is sent")
    add("--through", action="store_true", help="only the damage: air bytes in, air bytes out, for run/send | run/pier-noise --through .. | run/board")
    add("--table", type=count, metavar="TRIALS", help="how often of so many trials the story came, against the share of inverted bits, for %s repeats"
        % ", ".join(map(str, REPEATS)))
    return parser


def places(rng, n, part):
    """Places below n, each drawn with the same chance."""
    if part >= 1:
        return list(range(n))
    some, at = [], -1
    while part > 0:
        at += 1 + int(math.log(1 - rng.random()) / math.log(1 - part))
        if at >= n:
            break
        some.append(at)
    return some


def bits_of(air):
    return format(int.from_bytes(air, "big"), "0%db" % (8 * len(air))) if air else ""


def bytes_of(bits):
    bits += "0" * (-len(bits) % 8)
    return int("0" + bits, 2).to_bytes(len(bits) // 8, "big")


def without(bits, some):
    kept, last = [], 0
    for at in some:
        kept.append(bits[last:at])
        last = at + 1
    return "".join(kept) + bits[last:]


def damaged(air, how, rng):
    """Repeats, order, garbage; then bits are lost, then inverted."""
    frames = [bits_of(air[i : i + programs.FRAME]) for i in range(0, len(air), programs.FRAME)] * how.repeats
    if how.shuffle:
        rng.shuffle(frames)
    if how.garbage:
        frames = [f + "".join(rng.choices("01", k=rng.randrange(how.garbage + 1))) for f in frames]
    bits = "".join(frames)
    bits = bytearray(without(bits, places(rng, len(bits), how.lost)), "ascii")
    for at in places(rng, len(bits), how.turned):
        bits[at] ^= 1  # '0' and '1' differ in that bit
    return bytes_of(bits.decode())


def air_of(text):
    sent = programs.send(station.Station(os.devnull).story(), text)
    if sent.answer:
        raise refused(sent.answer)
    return sent.air


def trial(air, how, seed):
    some = damaged(air, how, random.Random(seed))
    events = list(programs.Show(b"A", [some]).events())
    return Came(len(air) // programs.FRAME * how.repeats, len(events), [shown.text for _, shown in events if shown])


def table(air, text, trials):
    print("# share of bits inverted, then how often of %d trials a story of %d frames was shown when sent %s times"
          % (trials, len(air) // programs.FRAME, ", ".join(map(str, REPEATS))))
    for rate in RATES:
        row = []
        for repeats in REPEATS:
            came = [trial(air, Damage(rate, 0, 0, False, repeats), seed).texts for seed in range(trials)]
            if any(texts not in ([], [text]) for texts in came):
                return 3
            row.append(sum(map(len, came)) / trials)
        print(rate, *("%.3f" % x for x in row), flush=True)
    return 0


def main():
    given = options().parse_args()
    how = Damage(given.turned, given.lost, given.garbage, given.shuffle, given.repeats)
    if given.through:
        put_out(damaged(sys.stdin.buffer.read(), how, random.Random(given.seed)))
        return 0
    text = text_from(sys.stdin.buffer, False)
    air = air_of(text)
    if given.table:
        return table(air, text, given.table)
    came = trial(air, how, given.seed)
    what, status = {(): ("did not come", 1), (text,): ("came whole", 0)}.get(tuple(came.texts), ("CAME OTHERWISE", 3))
    print("frames sent: %d; frames heard: %d; the story %s" % (came.sent, came.heard, what))
    return status
