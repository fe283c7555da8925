"""Posts with no browser: strangers, cut-off posts, too much, a hundred at once, and the key.

  python3 -m pages.posts      run it in tests/
"""
import contextlib
import errno
import os
import socket
import subprocess
import sys
import tempfile
import threading

sys.path.insert(0, os.path.join(os.path.dirname(os.path.abspath(__file__)), "..", "..", "tools"))
from pier import serve, station  # noqa: E402
from pier.ending import Refused  # noqa: E402

from .server import GIRL, RUN, same, server, until

KEY = "a key of many letters"


def strangers(here):
    """Refused, with nothing on air."""
    same("another site's page", here.post(GIRL, Origin="http://example.org")[0], 403)
    same("a page in a frame", here.post(GIRL, Origin="null")[0], 403)
    same("a browser's own word", here.post(GIRL, Sec_Fetch_Site="cross-site")[0], 403)
    same("a name that is not ours", here.post(GIRL, Host="example.org:%d" % here.port)[0], 403)
    same("a name that is not ours, to look", here.ask("GET", "/board", Host="example.org")[0], 403)
    same("a name that is none", here.post(GIRL, Host="[::")[0], 403)
    same("an origin that is none", here.post(GIRL, Origin="http://[")[0], 403)
    same("a plain form", here.post(GIRL, Content_Type="text/plain")[0], 415)
    same("too much", here.post("x" * 40000)[0], 413)
    same("no text", here.ask("POST", "/send", "[]")[0], 400)
    same("no UTF-8", here.ask("POST", "/send", b'{"text":"\xff"}')[0], 400)
    same("half a character", here.ask("POST", "/send", b'{"text":"\\ud800"}')[0], 400)
    same("no page", here.ask("GET", "/../serve.py")[0], 404)
    same("nothing on air", here.size(), 0)


def cut_off(here):
    """Half a post, then the line goes."""
    size = here.size()
    with socket.create_connection(("127.0.0.1", here.port)) as line:
        line.sendall(b"POST /send HTTP/1.1\r\nHost: localhost\r\nContent-Type: application/json\r\nContent-Length: 100\r\n\r\n"
                     b'{"text": "half a sto')
        line.shutdown(socket.SHUT_WR)
        same("a post that is cut off", b" 400 " in line.recv(200), True)
    same("nothing more on air", here.size(), size)


def refusals(here):
    same("ten parts", here.post("x" * 1342)[1]["refused"], "refused, 31: the text needs more than nine parts")
    same("a character outside the set", here.post("a\nb \u00df")[1]["refused"],
         "line 2, column 3: \u00df (U+00DF LATIN SMALL LETTER SHARP S) is not in GB/T 2312; nothing was sent")
    same("nothing on air", here.size(), 0)
    same("room", here.post("x" * 150, "/count")[1], {"parts": 2, "left": 1191})
    same("no room", here.post("x" * 1341, "/count")[1], {"parts": 9, "left": 0})


def unreadable(here):
    """Where the station's file can't be read, nothing goes on air, and the watcher reads why."""
    size = here.size()
    os.mkdir(here.station + ".kept")
    os.rename(here.station, here.station + ".kept/file")
    os.mkdir(here.station)
    status, said = here.post(GIRL)
    same("a station's file that can't be read", (status, said["refused"].endswith("nothing was sent")), (500, True))
    os.rmdir(here.station)
    os.rename(here.station + ".kept/file", here.station)
    same("nothing more on air", here.size(), size)


def unsaved():
    """Where the station's file can't be saved, the air file is as it was."""
    def full(_):
        raise OSError(errno.ENOSPC, os.strerror(errno.ENOSPC))

    with tempfile.TemporaryDirectory() as folder:
        pier = serve.Pier(os.path.join(folder, "air"), os.path.join(folder, "station.ini"))
        pier.send(GIRL)
        size, save, station.Station.save = os.path.getsize(pier.air.name), station.Station.save, full
        try:
            pier.send(GIRL)
            said = "it was sent"
        except Refused as why:
            said = str(why)
        station.Station.save = save
        same("a full disk", (said, os.path.getsize(pier.air.name)), ("No space left on device; nothing was sent", size))
        pier.board.end()


def hundred(here):
    """A hundred posts at once: none is lost, and no message number comes twice."""
    texts, said = ["story %d: %s" % (k, GIRL) for k in range(100)], []
    threads = [threading.Thread(target=lambda t=t: said.append(here.post(t)[0])) for t in texts]
    for t in threads:
        t.start()
    for t in threads:
        t.join()
    same("a hundred posts", said, [200] * 100)
    heard = subprocess.run([os.path.join(RUN, "board")], stdin=open(here.air, "rb"), stdout=subprocess.PIPE, text=True).stdout.splitlines()
    same("what the air file holds", sorted(heard), sorted(texts))
    until("the last of a hundred", lambda: [s["text"] for s in here.stories(50)] == heard[-50:])


def again():
    """A server that starts anew shows what the air file holds."""
    with tempfile.TemporaryDirectory() as folder:
        air = os.path.join(folder, "air")
        with server("--air", air) as here:
            same("a post", here.post(GIRL)[0], 200)
        with server("--air", air) as here:
            same("the story after a new start", [s["text"] for s in here.stories(1)], [GIRL])


@contextlib.contextmanager
def guarded():
    """A server that asks for the key."""
    with tempfile.NamedTemporaryFile("w") as file:
        file.write(KEY + "\n")
        file.flush()
        with server("--key-file", file.name) as here:
            yield here


def keys():
    with guarded() as here:
        same("no key", here.post(GIRL)[0], 401)
        same("another key", here.post(GIRL, Authorization="Bearer wrong")[0], 401)
        same("no key, to count", here.post(GIRL, "/count")[0], 401)
        same("the key", here.post(GIRL, Authorization="Bearer " + KEY.replace(" ", "%20"))[0], 200)
    alone = subprocess.run([os.path.join(RUN, "pier"), "--host", "0.0.0.0", "--port", "0"], stderr=subprocess.PIPE, text=True)
    same("beyond this machine with no key", (alone.returncode, alone.stderr.splitlines()[-1]),
         (2, "run/pier: error: beyond this machine it serves only with --key-file"))


def main():
    with server() as here:
        strangers(here)
        cut_off(here)
        refusals(here)
        hundred(here)
        unreadable(here)
    again()
    unsaved()
    keys()
    print("pier: strangers, cut-off and refused posts leave nothing on air; a hundred posts at once are all heard; a key is asked for")


if __name__ == "__main__":
    main()
