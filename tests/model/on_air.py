"""The on-air writer: a packet, its check and its fill as frames of 13 bytes."""
from .checks import block, packet_check


def frame(level, version, total, number, four):
    """Table 22: level 3 bits, version 5, total 6, number's high 2; 10110, seven zeros, number's low 4; four bytes of packet."""
    words = (level << 13 | version << 8 | total << 2 | number >> 4, 0b10110 << 11 | number & 15,
             four[0] << 8 | four[1], four[2] << 8 | four[3])
    bits = 0
    for letter, info in enumerate(words):
        bits = bits << 26 | block(info, letter)
    return bits.to_bytes(13, "big")


def refusal(packet, level, version):
    """20: the size is outside 2 to 250 or not the length field plus 2; 13: a reserved level; 27: a version above 31; else 0."""
    p = len(packet)
    if not 2 <= p <= 250 or p != ((packet[0] & 7) << 8 | packet[1]) + 2:
        return 20
    if level in (0, 7) or level > 7:
        return 13
    return 27 if version > 31 else 0


def on_air(packet, level, version, room):
    """The answer, the count of frames and the air bytes: 20, 13, 27, 10, else N frames, N the least with 4N no less than P + 2."""
    p, number = len(packet), refusal(packet, level, version)
    if number:
        return number, 0, b""
    total = next(n for n in range(64) if 4 * n >= p + 2)
    if room < 13 * total:
        return 10, 0, b""
    joined = packet + packet_check(packet).to_bytes(2, "big")
    joined += b"\xff" * (4 * total - len(joined))
    return 0, total, b"".join(frame(level, version, total, k, joined[4 * k : 4 * k + 4]) for k in range(total))
