"""A story from samples: the girl's sentence goes on air, is coded and sent in some phases with noise, and is heard again behind run/bits.

  python3 -m compare.heard COUNT        COUNT phases and seeds; run it in tests/

run/listing must show every frame, the last with answer 1, and run/board the sentence.
"""
import subprocess
import sys

from model.on_air import on_air

from . import signals, worked

HEIGHT, NOISE = 300, 90  # at this noise one bit in some 10^16 is wrong


def piped(program, data):
    """What a program prints of the bits of samples."""
    bits = subprocess.run(["../run/bits"], input=data, stdout=subprocess.PIPE, check=True).stdout
    return subprocess.run([program], input=bits, stdout=subprocess.PIPE, check=True).stdout


def main(count):
    packet = bytes.fromhex(worked.GIRL_PACKET)
    answer, frames, air = on_air(packet, 5, 3, 819)
    direct = subprocess.run(["../run/listing"], input=air, stdout=subprocess.PIPE, check=True).stdout.decode()
    if answer or not direct.endswith(" 1\nframes %d\n" % frames):
        sys.exit("the sentence on air is not %d frames and a whole packet:\n%s" % (frames, direct))
    for seed in range(count):
        # one bit before the air, since the first has nothing before it
        samples = signals.as_bytes(signals.signal("1" + signals.bits_of(air), seed / count, HEIGHT, NOISE, seed))
        listed = piped("../run/listing", samples).decode()
        if listed != direct:
            sys.exit("phase %d/%d of a turn: listed\n%sand not\n%s" % (seed, count, listed, direct))
        if worked.GIRL not in piped("../run/board", samples):
            sys.exit("phase %d/%d of a turn: run/board does not show the sentence" % (seed, count))
    print("heard: %d frames in each of %d phases, with noise, and the sentence on the board" % (frames, count))


if __name__ == "__main__":
    main(int(sys.argv[1]))
