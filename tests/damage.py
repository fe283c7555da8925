#!/usr/bin/env python3
"""Counts what the ten check bits of a block miss: changes of a block that leave a block of the same letter. Status 1 where docs/PERFORMANCE.md says otherwise.

  tests/damage.py [ROOT]

A change is a set of places; a block of each of the five letters is altered by every one, and the model's check is asked of the result.
"""
import itertools
import os
import random
import re
import sys

sys.path.insert(0, os.path.dirname(os.path.abspath(__file__)))
from model.letters import FIVE, letter
from model.checks import CHECKS

ROOT = sys.argv[1] if len(sys.argv) > 1 else os.path.join(os.path.dirname(os.path.abspath(__file__)), "..")


def bursts(most):
    """Every change that lies within so many neighbouring places, once: its lowest place, then any of those above."""
    return [(1 | above << 1) << low for low in range(26) for above in range(1 << min(most - 1, 25 - low))]


def places(count):
    return [sum(1 << p for p in some) for some in itertools.combinations(range(26), count)]


def missed(changes):
    """How many leave the block a block of its letter: the same for a block of each letter, or this ends."""
    rng, counts = random.Random(2023), set()
    for name, offset in FIVE:
        info = rng.randrange(1 << 16)
        block = info << 10 | CHECKS[info] ^ offset
        assert letter(block) == [name]
        counts.add(sum(letter(block ^ change) == [name] for change in changes))
    if len(counts) != 1:
        sys.exit("the letters differ in what is missed: %s" % counts)
    return counts.pop()


def main():
    ten, eleven = bursts(10), bursts(11)
    inner = set(ten)
    edge = [c for c in eleven if c not in inner]
    five = bursts(5)
    rests = {CHECKS[c >> 10] ^ c & 1023 for c in five}
    longer = 2**26 - 1 - len(eleven)
    rows = [
        ("one bit", len(places(1)), missed(places(1))),
        ("two bits", len(places(2)), missed(places(2))),
        ("three bits", len(places(3)), missed(places(3))),
        ("within ten neighbouring bits", len(ten), missed(ten)),
        ("within eleven neighbouring bits", len(eleven), missed(eleven)),
        ("of those, over all eleven", len(edge), missed(edge)),
        # every information word has one block of a letter, so 65,535 changes lead to another block
        ("longer", longer, len(CHECKS) - 1 - missed(eleven)),
    ]
    table = ["| %s | %s | %s | %.3f |" % (what, f"{n:,}", f"{m:,}", 100 - 100 * m / n) for what, n, m in rows]
    table.append("| bursts of at most five bits | %d | remainders, none of them 0 | %d |" % (len(five), len(rests - {0})))
    print("\n".join(table))
    with open(os.path.join(ROOT, "docs", "PERFORMANCE.md"), encoding="utf-8") as f:
        page = f.read()
    for row in table[:-1]:
        if row not in page:
            sys.exit("docs/PERFORMANCE.md has not the row: " + row)
    if "%d bursts leave %d different remainders" % (len(five), len(rests - {0})) not in re.sub(r"\s+", " ", page):
        sys.exit("docs/PERFORMANCE.md says another number of bursts of at most five bits, or of their remainders")


main()
