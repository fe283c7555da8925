#!/usr/bin/env python3
"""Our air bytes through a decoder that we did not write, and an encoder that we did not write through our receiver: Debian's gr-rds.

  tests/independent/decoder.py          packets of every size from 2 to 250 bytes, then 200 frames of the foreign encoder
  tests/independent/decoder.py AIR      the frames that the foreign decoder finds in a file of air bytes, in hex
"""
import sys

try:
    import pmt
    import rds
    from gnuradio import blocks, gr
except ImportError:
    sys.exit("decoder.py: this Python has no gr-rds (Debian: apt-get install gr-rds, then /usr/bin/python3)")

import sent
from quiet import quiet


class Keep(gr.basic_block):
    """Keeps what the decoder hands out: eight bytes of a frame, then the letters of its blocks."""

    def __init__(self):
        gr.basic_block.__init__(self, name="keep", in_sig=None, out_sig=None)
        self.frames = []
        self.message_port_register_in(pmt.intern("in"))
        self.set_msg_handler(pmt.intern("in"), self.take)

    def take(self, message):
        self.frames.append(bytes(pmt.u8vector_elements(pmt.cdr(message))))


def decoded(air):
    """The frames that the foreign decoder hands out, from where it has found the blocks' beat."""
    bits = [byte >> i & 1 for byte in air for i in range(7, -1, -1)]
    flow, source, decoder, keep = gr.top_block(), blocks.vector_source_b(bits, False), rds.decoder(False, False), Keep()
    flow.connect(source, decoder)
    flow.msg_connect((decoder, "out"), (keep, "in"))
    flow.run()
    for frame in keep.frames:
        if frame[8:] != b"ABCD":
            sys.exit("the decoder read %s as blocks %s" % (frame[:8].hex(), frame[8:]))
    return [frame[:8] for frame in keep.frames]


def encoded(count):
    """Air bytes of so many frames that the foreign encoder makes."""
    with quiet():
        flow = gr.top_block()
        encoder = rds.encoder(0, 14, True, "TEPAZOHU", 87.5e6, True, False, 7, 3, 147, "a wave came over the wall; then another")
        head, sink = blocks.head(gr.sizeof_char, 104 * count), blocks.vector_sink_b()
        flow.connect(encoder, head, sink)
        flow.run()
    bits = "".join(map(str, sink.data()))
    return bytes(int(bits[i : i + 8], 2) for i in range(0, len(bits), 8))


def compared(what, ours, theirs):
    """Every frame that the decoder hands out, against ours; it locks on the first ones, three at most, and hands out all the rest."""
    missed = len(ours) - len(theirs)
    if not 0 <= missed <= 3:
        sys.exit("%s: %d frames with us, %d with the decoder" % (what, len(ours), len(theirs)))
    for k, (a, b) in enumerate(zip(ours[missed:], theirs), missed):
        if a != b:
            sys.exit("%s: frame %d is %s with us and %s with the decoder" % (what, k, a.hex(), b.hex()))
    return len(theirs)


def main():
    air = b"".join(air for _, air in sent.sent(1, range(2, 251)))
    ours = sent.frames_of(air)
    if len(ours) * 13 != len(air):
        sys.exit("our receiver heard %d frames in %d bytes" % (len(ours), len(air)))
    told = compared("our air", ours, decoded(air))
    foreign = encoded(200)
    heard = sent.frames_of(foreign)
    if len(heard) != 200:
        sys.exit("our receiver heard %d of 200 frames that the encoder made" % len(heard))
    back = compared("the encoder's air", heard, decoded(foreign))
    print("gr-rds: %d of our %d frames come out of its decoder as we wrote them, the others went into its locking" % (told, len(ours)))
    print("gr-rds: our receiver hears all 200 frames of its encoder, and %d of them as its decoder does" % back)


if len(sys.argv) > 1:
    try:
        with open(sys.argv[1], "rb") as recording:
            air = recording.read()
    except OSError as why:
        sys.exit("decoder.py: %s" % why)
    for frame in decoded(air):
        print(frame.hex().upper())
else:
    main()
