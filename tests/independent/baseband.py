#!/usr/bin/env python3
"""Samples that we did not make: GNU Radio codes the bits differentially, makes the wave and adds noise; run/bits undoes it, and our receiver hears every frame.

The bits are those of our on-air writer, then those of gr-rds's encoder. gr-rds has no block that makes a baseband, and its encoder takes no groups of ours, so
coding, wave and noise are blocks of GNU Radio itself.
"""
import cmath
import math
import struct
import subprocess
import sys

try:
    import rds
    from gnuradio import analog, blocks, digital, gr
except ImportError:
    sys.exit("baseband.py: this Python has no gr-rds (Debian: apt-get install gr-rds, then /usr/bin/python3)")

import sent
from quiet import quiet

HEIGHT, NOISE, TURNS = 300, 100, 0.37


def samples(source, count):
    """The numbers of so many symbols, whole ones."""
    wave = [HEIGHT * math.sin(math.pi * (k + 0.5) / 8) * cmath.exp(2j * math.pi * TURNS) for k in range(16)]
    flow, sink = gr.top_block(), blocks.vector_sink_c()
    shaped, noisy = digital.chunks_to_symbols_bc(wave + [-w for w in wave], 16), blocks.add_cc()
    flow.connect(source, blocks.head(gr.sizeof_char, count), digital.diff_encoder_bb(2), shaped, noisy)
    flow.connect(analog.noise_source_c(analog.GR_GAUSSIAN, NOISE * math.sqrt(2), 1), (noisy, 1))
    flow.connect(noisy, sink)
    with quiet():
        flow.run()
    numbers = [float(round(part)) for w in sink.data() for part in (w.real, w.imag)]
    if len(numbers) != 32 * count:
        sys.exit("baseband.py: GNU Radio made %d numbers of %d symbols" % (len(numbers), count))
    return struct.pack(">%dd" % len(numbers), *numbers)


def heard(source, count):
    """The frames that our receiver hears behind run/bits."""
    return sent.frames_of(subprocess.run(["run/bits"], input=samples(source, count), stdout=subprocess.PIPE, check=True).stdout)


def main():
    air = b"".join(air for _, air in sent.sent(3, range(2, 251, 31)))
    bits = [1] + [byte >> i & 1 for byte in air for i in range(7, -1, -1)]
    ours, direct = heard(blocks.vector_source_b(bits, False), len(bits)), sent.frames_of(air)
    if ours != direct:
        sys.exit("baseband: %d of our %d frames were heard from samples, or not as they were sent" % (len(ours), len(direct)))
    with quiet():
        encoder = rds.encoder(0, 14, True, "TEPAZOHU", 87.5e6, True, False, 7, 3, 147, "a wave came over the wall; then another")
    theirs = heard(encoder, 104 * 50)
    # the first bit is lost, and with it the first frame where that bit is a 1
    if not 49 <= len(theirs) <= 50:
        sys.exit("baseband: %d of 50 frames of gr-rds's encoder were heard from samples" % len(theirs))
    print("baseband: all %d of our frames, and %d of 50 of gr-rds's encoder, are heard from samples that GNU Radio made" % (len(ours), len(theirs)))


main()
