"""The listing program: 512 bytes at a time into a fresh receiver and collector."""
from .collector import Collector
from .receiver import Receiver


def listing(data):
    receiver, collector = Receiver(), Collector()
    frames = [f for i in range(0, len(data), 512) for f in receiver.receive(data[i : i + 512], 320, 40)[1]]
    lines = ["%s %d" % (f.hex().upper(), collector.offer(f)) for f in frames]
    return "".join(line + "\n" for line in lines + ["frames %d" % len(lines)])
