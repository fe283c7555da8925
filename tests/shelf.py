#!/usr/bin/env python3
"""The shelf's programs held to the model: run/shelf on seeded shelves right and damaged, run/keep on seeded air bytes, two at once, killed, on a full disk.

  tests/shelf.py SHELVES KILLS
"""
import os
import random
import resource
import shutil
import signal
import subprocess
import sys
import tempfile
import time

ROOT = os.path.join(os.path.dirname(os.path.abspath(__file__)), "..")
sys.path.insert(0, os.path.dirname(os.path.abspath(__file__)))
from compare import shelves  # noqa: E402  (it stands beside this file)
from model import on_air, receiver, shelf as model  # noqa: E402  (so does this)

KEEP, SHELF = (os.path.join(ROOT, "run", name) for name in ("keep", "shelf"))
seed = random.Random(6)
drawn = set()


def words(name):
    return subprocess.run([os.path.join(ROOT, "run/start"), "--words", name], stdout=subprocess.PIPE, check=True).stdout.decode().splitlines()


def heard():
    """A record, and the air bytes that it comes from."""
    one = shelves.one(seed)
    return one, on_air.on_air(model.packet(one), one[0], one[1], 819)[2]


def noise(behind):
    """No byte, or some that make no frame with what is behind them: right behind a frame even noise may be mended into one (paper 02, K10)."""
    while True:
        some = bytes(seed.randrange(256) for _ in range(seed.randrange(3)))
        if not some or receiver.taken("".join(format(b, "08b") for b in (some + behind)[:13]), 0, True) is None:
            return some


def damaged(shelf):
    """Some byte of some record changed."""
    at = 256 * seed.randrange(len(shelf) // 256)
    return shelf[:at] + shelves.damaged(seed, shelf[at : at + 256]) + shelf[at + 256 :]


def some_shelf(k):
    right = b"".join(heard()[0] for _ in range(seed.choice((0, 1, 2, 5))))
    if k < 6:
        full = heard()[0] * 4096
        return (None, full, full + full[:256], full + b"\0", full[:-1], damaged(full))[k]
    return seed.choice((right, right[:-1], right + b"\xff", damaged(right) if right else right, damaged(right) if right else right))


def fail(what, *more):
    print("shelf: " + what, *more, file=sys.stderr)
    sys.exit(1)


def same(what, got, wanted):
    if got != wanted:
        fail("%s: got %r, wanted %r" % (what, got[:600], wanted[:600]))


def contents(name):
    with open(name, "rb") as f:
        return f.read()


def put(some):
    with open("shelf", "wb") as f:
        f.write(some)


def fresh():
    for name in ("shelf", "summary", "summary.new"):
        if os.path.isdir(name):
            os.rmdir(name)
        elif os.path.exists(name):
            os.remove(name)


def agrees(what, shelf):
    same(what + ": shelf", contents("shelf"), shelf)
    same(what + ": summary", contents("summary"), model.summary(shelf))


def keep(air, **more):
    return subprocess.run([KEEP], input=air, stdout=subprocess.PIPE, stderr=subprocess.PIPE, **more)


def printing(count):
    program = words("records")
    for k in range(count):
        fresh()
        some = some_shelf(k)
        if some is not None:
            put(some)
        elif k == 0:
            os.mkdir("shelf")  # there, and can't be read
        drawn.add(model.refusal(some))
        got = subprocess.run(program, stdout=subprocess.PIPE).stdout.decode().splitlines()
        same("printed shelf %d" % k, got, model.printed(some))
    fresh()
    ran = subprocess.run([SHELF], stdout=subprocess.PIPE)
    same("printed where there is none", [ran.stdout, ran.returncode], [b"34\n", 1])


def keeping():
    """Behind a shelf that stands, with noise between; then shelves that are refused, and a full one."""
    for before in (0, 3):
        fresh()
        many = [heard() for _ in range(before + 25)]
        put(b"".join(one for one, _ in many[:before]))
        airs = [air for _, air in many[before:]]
        ran = keep(b"".join(air + noise(behind) for air, behind in zip(airs, airs[1:] + [bytes(13)])))
        same("kept", ran.returncode, 0)
        agrees("kept", b"".join(one for one, _ in many))
        ran_shelf = subprocess.run([SHELF], stdout=subprocess.PIPE)
        same("printed as kept", [ran_shelf.stdout.decode().splitlines(), ran_shelf.returncode], [[model.line(one) for one, _ in many], 0])
        same("lines of what is kept", ran.stdout.decode().splitlines(),
             ["kept %d %d %d %d" % (k, one[0], one[1], one[2] << 8 | one[3]) for k, (one, _) in enumerate(many) if k >= before])
    one, air = heard()
    for some in (one + one[:255], damaged_right(one)):
        fresh()
        put(some)
        ran = keep(air)
        drawn.add(model.refusal(some))
        same("status of a refused shelf", ran.returncode, 1)
        if ran.stderr.count(b"\n") != 1 or b"refused, %d:" % model.refusal(some) not in ran.stderr:
            fail("a refused shelf's line", ran.stderr)
        same("refused shelf", contents("shelf"), some)
        same("files beside a refused shelf", os.path.exists("summary"), False)
    fresh()
    put(one * 4095)
    ran = keep(air * 3)
    agrees("full", one * 4096)
    if ran.returncode or ran.stderr.count(b"\n") != 1 or b"36" not in ran.stderr:
        fail("a full shelf's line", ran.stderr)
    drawn.add(36)


def damaged_right(one):
    return bytes((7,)) + one[1:]


def two_at_once():
    fresh()
    first = subprocess.Popen([KEEP], stdin=subprocess.PIPE, stdout=subprocess.PIPE)
    one, air = heard()
    first.stdin.write(air)
    first.stdin.flush()
    first.stdout.readline()
    ran = keep(air)
    if ran.returncode != 1 or ran.stderr.count(b"\n") != 1 or b"another" not in ran.stderr:
        fail("the second at once", ran.stderr)
    first.stdin.close()
    first.wait()
    first.stdout.close()
    agrees("two at once", one)


def killing(count):
    """SIGKILL at seeded moments under a steady stream: what stands is whole records, a prefix of what was sent, and what was said to be kept is there."""
    fresh()
    began = time.monotonic()
    keep(b"".join(heard()[1] for _ in range(40)))
    whole = time.monotonic() - began  # the moments are drawn over a run's time, since machines differ
    fresh()
    kept, at_work = b"", 0
    for k in range(count):
        many = [heard() for _ in range(40)]
        sent = b"".join(one for one, _ in many)
        with open("air", "wb") as f:
            f.write(b"".join(air for _, air in many))
        with open("air", "rb") as air:
            run = subprocess.Popen([KEEP], stdin=air, stdout=subprocess.PIPE, stderr=subprocess.DEVNULL, start_new_session=True)
            time.sleep(seed.random() * whole)
            os.killpg(run.pid, signal.SIGKILL)
        said = run.stdout.read().count(b"\n")
        run.wait()
        run.stdout.close()
        now = contents("shelf") if os.path.exists("shelf") else b""
        if len(now) % 256 or not (kept + sent).startswith(now) or len(now) < len(kept) + 256 * said:
            fail("killed %d: a shelf of %d bytes after %d, %d records said to be kept" % (k, len(now), len(kept), said))
        at_work += len(kept) < len(now) < len(kept) + len(sent)
        kept = now
        same("status after a kill", keep(b"").returncode, 0)
        agrees("a fresh start after a kill", kept)
        if len(kept) > 3500 * 256:
            fresh()
            kept = b""
    if not at_work:
        fail("no kill came while records were written")
    print("shelf: %d kills, %d of them between two records" % (count, at_work))


def full_disk():
    """No record that was said to be kept is lost, and none is there in part."""
    for room in (256 * 5, 256 * 5 + 100):
        fresh()
        many = [heard() for _ in range(9)]
        ran = keep(b"".join(air for _, air in many), preexec_fn=lambda: resource.setrlimit(resource.RLIMIT_FSIZE, (room, room)))
        same("status on a full disk", ran.returncode, 1)
        same("records said to be kept", ran.stdout.count(b"\n"), 5)
        if ran.stderr.count(b"\n") != 1:
            fail("the line on a full disk", ran.stderr)
        agrees("a full disk", b"".join(one for one, _ in many[:5]))


def small_disk():
    """The same on a file system of three pages, where the machine lets one be made."""
    fresh()
    os.mkdir("disk")
    many = [heard() for _ in range(40)]
    with open("air", "wb") as f:
        f.write(b"".join(air for _, air in many))
    script = "mount -t tmpfs -o size=12k tmpfs disk && touch made && cd disk && { \"$0\" < ../air; status=$?; cp shelf ..; exit $status; }"
    ran = subprocess.run(["unshare", "-rm", "sh", "-c", script, KEEP], stdout=subprocess.PIPE, stderr=subprocess.PIPE)
    os.rmdir("disk")
    if not os.path.exists("made"):
        return print("shelf: no small file system can be made here, so a full disk was tried by the limit of a file's size alone")
    said, now = ran.stdout.count(b"\n"), contents("shelf")
    if ran.returncode != 1 or ran.stderr.count(b"\n") != 1 or not 0 < said < 40:
        fail("a small disk: status %d, %d records said to be kept," % (ran.returncode, said), ran.stderr)
    if len(now) % 256 or len(now) < 256 * said or not b"".join(one for one, _ in many).startswith(now):
        fail("a small disk: a shelf of %d bytes, %d records said to be kept" % (len(now), said))
    put(now)
    same("status after a small disk", keep(b"").returncode, 0)
    agrees("a small disk", now)


def main():
    shelves, kills = map(int, sys.argv[1:])
    words("keep")
    folder = tempfile.mkdtemp()
    os.chdir(folder)
    try:
        printing(shelves)
        keeping()
        two_at_once()
        full_disk()
        small_disk()
        killing(kills)
    finally:
        os.chdir("/")
        shutil.rmtree(folder)
    for number in (0, 34, 35, 36):
        if number not in drawn:
            fail("the number %d never came up" % number)
    print("shelf: %d shelves printed, air bytes kept, refused, full and at once: all as the model says" % shelves)


main()
