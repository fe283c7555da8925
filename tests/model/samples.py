"""From samples to bits, from paper 02's K12, and the differential coding that it undoes, from 1.5 of source 004."""
import math
import struct

LEAST, MOST, LARGEST = -32768, 32767, 524280
FRESH = (0.0, 0.0)


def is_whole(x, least, most):
    return math.isfinite(x) and x == math.floor(x) and least <= x <= most


def pair(numbers):
    """The sum of the first eight samples less that of the last eight, in phase and in quadrature."""
    whole = [int(x) for x in numbers]
    return tuple(sum(whole[k:16:2]) - sum(whole[16 + k :: 2]) for k in (0, 1))


def decide(state, numbers):
    """The answer, the verdict with its product, and the state behind it."""
    answer = 0
    if not all(is_whole(x, -LARGEST, LARGEST) for x in state):
        answer = 28
    elif len(numbers) != 32:
        answer = 37
    elif not all(is_whole(x, LEAST, MOST) for x in numbers):
        answer = 38
    if answer:
        return answer, "undecided", 0.0, state
    i, q = pair(numbers)
    product = int(state[0]) * i + int(state[1]) * q
    verdict = "zero" if product > 0 else "one" if product < 0 else "undecided"
    return 0, verdict, float(product), (float(i), float(q))


def bits(data):
    """What the program writes, and the line that it ends with: none where the input ends behind a symbol."""
    state, said, at = FRESH, "", 0
    while at + 256 <= len(data):
        answer, verdict, _, state = decide(state, struct.unpack(">32d", data[at : at + 256]))
        if answer:
            return packed(said), "bits: refused with %d at symbol %d\n" % (answer, len(said))
        said += "1" if verdict == "one" else "0"
        at += 256
    return packed(said), "bits: the input ends inside symbol %d\n" % len(said) if at < len(data) else ""


def packed(said):
    said += "0" * (-len(said) % 8)
    return bytes(int(said[k : k + 8], 2) for k in range(0, len(said), 8))


def coded(said, level=0):
    """An input of 0 leaves the output as it was before, an input of 1 turns it. Bits and levels are text of 0 and 1."""
    levels = ""
    for bit in said:
        level ^= int(bit)
        levels += str(level)
    return levels
