"""Holds run/ask to the model: every function of the proved crates, on listed and on seeded inputs. An input is a record that asks
once, or a run of records from a new beginning.

  python3 -m compare.packets COUNT      COUNT records for each writer and for the reader, and a fifth as many runs; run it in tests/

At a difference it looks for the smallest input that still differs, prints it and stops.
"""
import collections
import subprocess
import sys

from model.packet import NAMES, ONLY_READ

from . import draw, listed, records, runs, smaller

# The answers that papers 01 and 02 list for each function. None of them may be missing from what was drawn.
ANSWERS = {"read": (0, 20, 23, 24, 25, 26, 27), "text": (0, 20, 23, 24, 25, 26, 27), "write": (0, 10, 20, 23, 25, 26, 27),
           "air": (0, 10, 13, 20, 27), "receive": (0, 10, 11, 28), "offer": (0, 1, 2, 3, 12, 13, 14, 15, 16, 17, 26, 28),
           "release": (0, 18, 28), "copy": (0, 10, 18, 28)}
ROOM = 65536  # the program reads as much at once


def run(data):
    r = subprocess.run(["../run/ask"], input=data, stdout=subprocess.PIPE)
    return r.stdout.decode() if r.returncode == 0 else "ended with status %d\n" % r.returncode


def batches(inputs):
    batch, size = [], 0
    for data in inputs:
        if size + len(data) > ROOM:
            yield batch
            batch, size = [], 0
        batch.append(data)
        size += len(data)
    if batch:
        yield batch


def differing_of(batch):
    """Those inputs of a batch of which program and model print different lines."""
    given = run(b"".join(batch)).split("\n\n")[:-1]
    due = [records.blocks(data) for data in batch]
    if len(given) == sum(map(len, due)):
        given = iter(given)
        return [data for data, some in zip(batch, due) if [next(given) for _ in some] != some]
    if len(batch) < 2:
        return batch
    middle = len(batch) // 2
    return differing_of(batch[:middle]) + differing_of(batch[middle:])


def differing(inputs):
    return [data for batch in batches(inputs) for data in differing_of(batch)]


def count(seen, data):
    """Which answers were drawn; frames with how many blocks mended; which types were read and written, with how many codes and of what size."""
    for record, block in zip(records.split(data)[0], records.blocks(data)):
        lines = block.split("\n")
        words = [line.split() for line in lines]
        for word in words:
            if word[0] in ANSWERS and (word[0] != "write" or record[:1] == b"W"):
                seen[word[0], int(word[1])] += 1
        for k in bytes.fromhex(words[2][1].replace("-", "")) if record[:1] == b"R" else b"":
            seen["blocks mended", k] += 1
        if lines[0] == "read 0":
            seen["type read", int(words[1][1])] += 1
            seen["codes read", int(words[2][1])] += 1
            seen["size read", len(record) - 3] += 1
        if record[:1] == b"W" and lines[0].startswith("write 0"):
            seen["type written", record[1]] += 1
        if record[:1] == b"W" and record[1] in ONLY_READ:
            seen["type refused", record[1]] += 1


def missing(seen):
    wanted = [(f, a) for f in ANSWERS for a in ANSWERS[f]]
    wanted += [("type read", t) for t in NAMES] + [("type refused" if t in ONLY_READ else "type written", t) for t in NAMES]
    wanted += [("blocks mended", k) for k in range(5)]
    wanted += [("codes read", n) for n in range(15)] + [("size read", p) for p in (77, 78, 250)]
    return [w for w in wanted if not seen[w]]


def compare(inputs, count=count):
    """What count saw in the inputs, on all of which program and model print the same lines."""
    seen = collections.Counter()
    for batch in batches(inputs):
        for data in differing_of(batch)[:1]:
            least = smaller.records(data, differing)
            sys.exit("ask differs from the model; the smallest input found:\n%s\nin hex: %s\nask:\n%smodel:\n%s"
                     % (records.said(least), least.hex(" "), run(least), records.printed(least)))
        for data in batch:
            count(seen, data)
    return seen


def tell(seen, answers):
    for f in answers:
        print("%s: %s" % (f, ", ".join("%d times %d" % (seen[f, a], a) for a in answers[f])))


def main(n):
    single = [*listed.everything(), *(draw.drawn(kind, seed) for kind in "PWA" for seed in range(n))]
    several = [runs.drawn(seed) for seed in range(n // 5)]
    seen = compare(single + several)
    if missing(seen):
        sys.exit("never drawn: %s" % missing(seen))
    tell(seen, ANSWERS)
    print("frames with 0 to 4 blocks mended: %s" % ", ".join(str(seen["blocks mended", k]) for k in range(5)))
    print("ask agrees with the model on %d records and %d runs of records" % (len(single), len(several)))


if __name__ == "__main__":
    main(int(sys.argv[1]))
