#!/usr/bin/env python3
"""The check that our on-air writer puts behind a packet, against Debian's crcmod, which we did not write."""
import sys

import crcmod.predefined

import sent

CHECK = crcmod.predefined.mkCrcFun("crc-ccitt-false")


def main():
    pairs = sent.sent(2, range(2, 251))
    frames = sent.frames_of(b"".join(air for _, air in pairs))
    at = 0
    for packet, air in pairs:
        count = len(air) // 13
        carried = b"".join(frame[4:] for frame in frames[at : at + count])
        at += count
        right = packet + CHECK(packet).to_bytes(2, "big")
        if carried != right + b"\xff" * (len(carried) - len(right)):
            sys.exit("packet %s went on air as %s" % (packet.hex(), carried.hex()))
    print("crcmod: the check behind each of %d packets is the one that it gives" % len(pairs))


main()
