"""Packets that our on-air writer has put on air: the proved program run/ask is asked, and nothing is worked out here."""
import random
import subprocess


def packet(rng, size):
    """Any bytes whose length field is right; the on-air writer looks at nothing else."""
    head = rng.randrange(32) << 11 | size - 2
    return bytes((head >> 8, head & 255)) + bytes(rng.randrange(256) for _ in range(size - 2))


def record(level, version, data):
    return b"A" + bytes((level, version)) + (819).to_bytes(2, "big") + len(data).to_bytes(2, "big") + data


def sent(seed, sizes):
    """For each size a packet and its air bytes."""
    rng = random.Random(seed)
    packets = [packet(rng, size) for size in sizes]
    asked = b"".join(record(rng.randrange(1, 7), rng.randrange(32), p) for p in packets)
    said = subprocess.run(["run/ask"], input=asked, stdout=subprocess.PIPE, check=True).stdout.decode()
    lines = [line.split() for line in said.splitlines() if line.startswith("air ")]
    refused = [line for line in lines if line[1] != "0"]
    if refused or len(lines) != len(packets):
        raise SystemExit("the on-air writer took %d of %d packets" % (len(lines) - len(refused), len(packets)))
    return [(p, bytes.fromhex(line[3])) for p, line in zip(packets, lines)]


def frames_of(air):
    """The frames that our receiver hears in air bytes, as the listing prints them."""
    said = subprocess.run(["run/listing"], input=air, stdout=subprocess.PIPE, check=True).stdout.decode()
    return [bytes.fromhex(line.split()[0]) for line in said.splitlines()[:-1]]
