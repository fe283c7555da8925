"""The letters program: every place of the air bits where 26 bits are a block of one of the five letters."""
from .checks import CHECKS

FIVE = (("A", 0x0FC), ("B", 0x198), ("C", 0x168), ("C'", 0x350), ("D", 0x1B4))


def letter(bits):
    """The names of the letters whose offset gives the check bits that are there. Never more than one."""
    info, check = bits >> 10, bits & 1023
    return [name for name, offset in FIVE if bits < 1 << 26 and CHECKS[info] ^ offset == check]


def letters(data):
    bits = "".join(format(byte, "08b") for byte in data)
    lines, latest = [], 0
    for end, bit in enumerate(bits):
        latest = (latest << 1 | int(bit)) & (1 << 26) - 1
        if end >= 25:
            lines += ["%d %s %04X" % (end - 25, name, latest >> 10) for name in letter(latest)]
    return "".join(line + "\n" for line in lines + ["blocks %d" % len(lines)])
