"""Holds the comparison of two shelves to the model: paper 02's K9, as people run it, the files left and right of the current folder.

  python3 -m compare.differences COUNT      COUNT pairs of shelves by seed; run it in tests/

At a difference it looks for a smaller pair that still differs, prints it and stops.
"""
import collections
import os
import random
import shutil
import subprocess
import sys
import tempfile

from model import shelf

from . import shelves, smaller

ROOT = os.path.abspath("..")
KINDS = ("equal", "a byte apart", "bytes apart", "left longer", "right longer", "both", "empty", "full", "left refused", "right refused", "both refused")
# What must come up: each line's kind, each refusal for each file, an empty list, and the last record of a full shelf.
WANTED = ("byte", "only left", "only right", "34 left", "35 left", "34 right", "35 right", "differences 0", "record 4095", "differences 4096")


def many(rng, most):
    return [shelves.one(rng) for _ in range(rng.randrange(most + 1))]


def apart(rng, given, count):
    """The records with some of them changed where no rule is broken: another record, or a byte of a packet behind its length field."""
    some = list(given)
    for _ in range(count):
        k = rng.randrange(len(some))
        p = int.from_bytes(some[k][2:4], "big")
        at = rng.randrange(6, 4 + p) if p > 2 else 1
        value = rng.randrange(32) if at == 1 else rng.randrange(256)
        some[k] = rng.choice((some[k][:at] + bytes((value,)) + some[k][at + 1 :], shelves.one(rng)))
    return some


def refused(rng):
    """A file that is refused: none there, a folder, a byte missing, one too many, a record too many, a record that breaks a rule."""
    some = b"".join(many(rng, 3)) + shelves.one(rng)
    return rng.choice((None, "folder", some[:-1], some + b"\0", shelves.one(rng) * 4097, b"\7" + some[1:], some[:-1] + b"\1", some[:-256] + b"\0" + some[-255:]))


def pair(seed):
    """A kind, and the two files: bytes, none, or a folder."""
    rng = random.Random("differences %d" % seed)
    kind = KINDS[seed % len(KINDS)]
    left = many(rng, 12) + [shelves.one(rng)]
    right = left
    if kind == "a byte apart":
        right = apart(rng, left, 1)
    if kind in ("bytes apart", "both"):
        right = apart(rng, left, rng.randrange(1, 9))
    if kind in ("left longer", "both"):
        left = left + many(rng, 5)
    if kind in ("right longer", "both"):
        right = right + many(rng, 5)
    if kind == "empty":
        left, right = rng.choice((([], right), (left, []), ([], [])))
    if kind == "full":
        left = (left * 4096)[:4096]
        right = rng.choice((left[:-1] + apart(rng, left[-1:], 3), [shelves.one(rng)] * 4096, apart(rng, left, 50), left[: rng.randrange(4096)]))
    left, right = b"".join(left), b"".join(right)
    if kind in ("left refused", "both refused"):
        left = refused(rng)
    if kind in ("right refused", "both refused"):
        right = refused(rng)
    return kind, left, right


def put(name, some):
    if os.path.isdir(name):
        os.rmdir(name)
    elif os.path.exists(name):
        os.remove(name)
    if some == "folder":
        os.mkdir(name)
    elif some is not None:
        with open(name, "wb") as f:
            f.write(some)


def run(left, right):
    put("left", left)
    put("right", right)
    r = subprocess.run([os.path.join(ROOT, "run", "compare")], stdout=subprocess.PIPE)
    return r.stdout.decode().splitlines(), r.returncode


def due(left, right):
    lines = shelf.compared(*(None if some == "folder" else some for some in (left, right)))
    return lines, int(lines[0][0].isdigit())


def least(left, right):
    """Fewer records of either file, while it still differs."""
    sizes = [256 << k for k in range(12, -1, -1)] + [1]
    if isinstance(left, bytes):
        left = smaller.shorter(left, sizes, lambda some: run(some, right) != due(some, right))
    if isinstance(right, bytes):
        right = smaller.shorter(right, sizes, lambda some: run(left, some) != due(left, some))
    return left, right


def count(seen, lines):
    for line in lines:
        for what in WANTED:
            seen[what] += what in line.split() if what == "byte" else line.startswith(what + " ") or line == what or line.endswith(" " + what)


def main(n):
    seen, folder = collections.Counter(), tempfile.mkdtemp()
    os.chdir(folder)
    try:
        for seed in range(n):
            kind, left, right = pair(seed)
            if run(left, right) != due(left, right):
                left, right = least(left, right)
                sys.exit("shelves %d (%s) differ; the smallest found:\nleft %s\nright %s\ncompare: %s\nmodel: %s"
                         % (seed, kind, left and left[:2000], right and right[:2000], run(left, right), due(left, right)))
            count(seen, due(left, right)[0])
    finally:
        os.chdir("/")
        shutil.rmtree(folder)
    never = [what for what in WANTED if not seen[what]]
    if never:
        sys.exit("never drawn: %s" % never)
    print("compare: %s" % ", ".join("%d times '%s'" % (seen[what], what) for what in WANTED))
    print("compare agrees with the model on %d pairs of shelves" % n)


if __name__ == "__main__":
    main(int(sys.argv[1]))
