"""Serves two pages: / is a form for the watchers, /board the board. What is sent on the form goes on air into a file of air bytes, and through
a board of our own onto the board's page at once.

It serves this machine only. What is posted goes on a licensed transmitter, so beyond this machine it serves only with a key, which every post
must carry."""
import argparse
import collections
import hmac
import http.server
import ipaddress
import json
import os
import socket
import sys
import threading
import time
import urllib.parse

from . import characters, programs, station
from .ending import Refused, line, refused, said
from .send import put_out

PAGES = os.path.join(os.path.dirname(os.path.abspath(__file__)), "pages")
KINDS = {"html": "text/html; charset=utf-8", "css": "text/css; charset=utf-8", "js": "text/javascript; charset=utf-8"}
FILES = {"/": "form.html", "/board": "board.html", "/style.css": "style.css", "/form.js": "form.js", "/board.js": "board.js"}
HEADERS = {"Content-Security-Policy": "default-src 'none'; script-src 'self'; style-src 'self'; connect-src 'self'; form-action 'none'; "
           "base-uri 'none'; frame-ancestors 'none'",
           "X-Content-Type-Options": "nosniff", "Referrer-Policy": "same-origin", "Cache-Control": "no-store"}
MOST_BYTES = 1 << 15  # of a request's body; the longest text has some 4,000 of UTF-8
MOST_BOARDS = 100  # that listen at once
KEPT = 50  # stories that a board's page begins with
PATIENCE = 10  # seconds for a part of a request to come
HEARD_AGAIN = 1 << 20  # bytes at the end of the air file that are heard when the server starts


class Pier:
    """The air file, the station and a board that hears all that is written; one story at a time goes on air."""

    def __init__(self, air, station_path):
        self.air, self.station = open(air, "ab+", buffering=0), station_path
        self.lock, self.news = threading.Lock(), threading.Condition()
        self.begin()

    def begin(self):
        """A fresh board, which hears the end of the air file."""
        with self.news:
            self.run, self.count, self.stories = "%x" % time.time_ns(), 0, collections.deque(maxlen=KEPT)
            self.is_old = True  # what the file held before has no time
        self.board = programs.Show(b"A")
        threading.Thread(target=self.listen, args=(self.board, self.run), daemon=True).start()
        size = self.air.seek(0, os.SEEK_END)
        self.air.seek(max(0, size - HEARD_AGAIN))
        self.board.feed(self.air.read())

    def listen(self, board, run_of):
        try:
            for _, shown in board.events():
                if shown:
                    self.tell_all(shown, run_of)
        except (OSError, Refused) as error:
            line("run/pier", error)  # the next story begins a fresh board

    def tell_all(self, shown, run_of):
        with self.news:
            if run_of == self.run:
                self.count += 1
                at = None if self.is_old else int(time.time())
                self.stories.append((self.count, {"text": characters.decoded(shown.text), "number": shown.number, "level": shown.level,
                                                  "parts": shown.parts, "at": at}))
                self.news.notify_all()

    def told(self, text, here):
        story = here.story()
        sent = programs.send(story, characters.encoded(text))
        if sent.answer:
            raise refused(sent.answer)
        return story, sent

    def room(self, text):
        """How many parts a text takes, and how many bytes more would fit."""
        return self.told(text, station.Station(self.station))[1]

    def send(self, text):
        """On air, in the file and on the board; or nowhere, with the reason."""
        with self.lock, station.held(self.station) as here:
            story, sent = self.told(text, here)
            size = self.air.seek(0, os.SEEK_END)
            try:
                put_out(sent.air, self.air.fileno())
                here.advance(story, sent.parts, None, None)
                here.save()
            except OSError as error:
                self.air.truncate(size)
                raise Refused("%s; nothing was sent" % said(error)) from None
            self.hear(sent.air)
            return sent

    def hear(self, air):
        """It is on air already, so whatever happens to the board is no reason to refuse."""
        self.is_old = False
        try:
            self.board.feed(air)
        except OSError:
            self.begin_again()

    def begin_again(self):
        """The board's process has gone; a fresh one hears the file."""
        try:
            self.begin()
        except (OSError, Refused) as error:
            line("run/pier", "the board shows nothing: %s" % error)

    def since(self, run_of, n, patience):
        """The run, and the stories behind number n of it, as soon as there are some."""
        with self.news:
            if run_of == self.run:
                self.news.wait_for(lambda: run_of != self.run or self.count > n, patience)
            return self.run, [s for s in self.stories if run_of != self.run or s[0] > n]


def parted(address):
    """An address in its parts; one that has none is like an empty one."""
    try:
        return urllib.parse.urlsplit(address)
    except ValueError:
        return urllib.parse.urlsplit("")


class Wrong(Exception):
    """A request that is not answered: the status, and why."""


class Handler(http.server.BaseHTTPRequestHandler):
    timeout = PATIENCE
    server_version, sys_version = "pier", ""

    def log_message(self, form, *args):
        pass  # the screen is for what the operator has to know

    def answer(self, status, kind, body):
        self.send_response(status)
        for name, value in {**HEADERS, "Content-Type": kind, "Content-Length": str(len(body))}.items():
            self.send_header(name, value)
        self.end_headers()
        self.wfile.write(body)

    def say(self, status, **what):
        self.answer(status, "application/json", json.dumps(what, ensure_ascii=False).encode())

    def look_at_host(self):
        """A name that leads here from another site's page is none of ours."""
        host = self.headers.get("Host", "")
        name = parted("//" + host).hostname
        if name not in {"localhost", "127.0.0.1", "::1", self.connection.getsockname()[0], *self.server.names}:
            raise Wrong(403, "the station is not known under the name %s" % (name or "(none)"))
        return host

    def look_at_origin(self, host):
        origin = self.headers.get("Origin")
        if origin is not None and parted(origin)[:2] not in (("http", host), ("https", host)):
            raise Wrong(403, "the post comes from another site's page")
        if self.headers.get("Sec-Fetch-Site", "same-origin") not in ("same-origin", "none"):
            raise Wrong(403, "the post comes from another site's page")
        if self.headers.get_content_type() != "application/json":
            raise Wrong(415, "a post has to be application/json")

    def look_at_key(self):
        kind, _, given = self.headers.get("Authorization", "").partition(" ")
        given = urllib.parse.unquote(given).encode()
        if self.server.key and not (kind == "Bearer" and hmac.compare_digest(given, self.server.key)):
            raise Wrong(401, "the key is missing or wrong")

    def text(self):
        """The text of the body, all of it or none."""
        length = self.headers.get("Content-Length", "")
        if not length.isascii() or not length.isdigit():
            raise Wrong(411, "a post has to say its length")
        if len(length) > 9 or int(length) > MOST_BYTES:
            raise Wrong(413, refused(31).args[0])
        body = self.rfile.read(int(length))
        if len(body) < int(length):
            raise Wrong(400, "the post was cut off")
        try:
            text = json.loads(body.decode("utf-8"))["text"]
            text.encode("utf-8")
        except (ValueError, KeyError, TypeError, AttributeError, RecursionError):
            raise Wrong(400, "the post has no text") from None
        return text.replace("\r\n", "\n")

    def events(self):
        run_of, _, n = self.headers.get("Last-Event-ID", "").partition("-")
        n = int(n) if n.isascii() and n.isdigit() and len(n) < 10 else 0
        if not self.server.boards.acquire(blocking=False):
            raise Wrong(503, "too many boards are listening")
        try:
            self.send_response(200)
            for name, value in {**HEADERS, "Content-Type": "text/event-stream"}.items():
                self.send_header(name, value)
            self.end_headers()
            while True:
                run_now, stories = self.server.pier.since(run_of, n, PATIENCE)
                some = ["" if run_now == run_of else "event: begin\ndata: \n\n"]
                some += ["event: story\nid: %s-%d\ndata: %s\n\n" % (run_now, k, json.dumps(story)) for k, story in stories]
                run_of, n = run_now, stories[-1][0] if stories else n if run_now == run_of else 0
                self.wfile.write(("".join(some) or ": still here\n\n").encode())
        finally:
            self.server.boards.release()

    def do_GET(self):
        try:
            self.look_at_host()
            path = self.path.partition("?")[0]
            if path == "/events":
                self.events()
            elif path == "/about":
                self.say(200, key=bool(self.server.key))
            elif path in FILES:
                with open(os.path.join(PAGES, FILES[path]), "rb") as f:
                    self.answer(200, KINDS[FILES[path].rpartition(".")[2]], f.read())
            else:
                raise Wrong(404, "there is no such page")
        except Wrong as why:
            self.say(why.args[0], refused=why.args[1])

    def do_POST(self):
        try:
            self.look_at_origin(self.look_at_host())
            self.look_at_key()
            ask = {"/send": self.server.pier.send, "/count": self.server.pier.room}.get(self.path)
            if not ask:
                raise Wrong(404, "there is no such page")
            sent = ask(self.text())
            self.say(200, parts=sent.parts, left=sent.left)
        except Wrong as why:
            self.say(why.args[0], refused=why.args[1])
        except Refused as why:
            self.say(422, refused=str(why))
        except TimeoutError:
            self.say(408, refused="the post was cut off")
        except ConnectionError:
            raise
        except OSError as error:
            self.say(500, refused="%s; nothing was sent" % said(error))


class Server(http.server.ThreadingHTTPServer):
    daemon_threads, request_queue_size = True, 128

    def __init__(self, host, port, pier, key, names):
        self.pier, self.key, self.names, self.boards = pier, key, names, threading.BoundedSemaphore(MOST_BOARDS)
        self.address_family = socket.getaddrinfo(host, port, type=socket.SOCK_STREAM)[0][0]
        super().__init__((host, port), Handler)

    def handle_error(self, request, client_address):
        error = sys.exc_info()[1]
        if not isinstance(error, (ConnectionError, TimeoutError)):  # whoever asked has gone
            line("run/pier", "%s: %s" % (type(error).__name__, error))


def options():
    parser = argparse.ArgumentParser(prog="run/pier", description=__doc__, formatter_class=argparse.RawDescriptionHelpFormatter,
                                     epilog="example: run/pier     then open the page that it names, and its /board")
    add = parser.add_argument
    add("--port", type=int, default=8390, metavar="N", help="8390 where none is named; 0 takes a free one")
    add("--host", default="127.0.0.1", metavar="ADDRESS", help="address to serve at; any but this machine's own loopback wants --key-file")
    add("--name", action="append", default=[], metavar="HOST", help="a name under which browsers know this machine")
    add("--key-file", metavar="FILE", help="file of the key, 16 characters or more, that every post must carry")
    add("--air", default="pier.air", metavar="FILE", help="file that air bytes are added to; pier.air where none is named")
    add("--station", metavar="FILE", help="the station's file, as for run/send")
    return parser


def key_in(path):
    if path is None:
        return None
    with open(path, "rb") as f:
        key = f.read(4096).strip()
    if len(key) < 16:
        raise Refused("%s: a key has 16 characters or more" % path)
    return key


def is_this_machine(host):
    try:
        return ipaddress.ip_address("127.0.0.1" if host == "localhost" else host).is_loopback
    except ValueError:
        return False


def main():
    parser = options()
    given = parser.parse_args()
    if not is_this_machine(given.host) and not given.key_file:
        parser.error("beyond this machine it serves only with --key-file")
    if not 0 <= given.port <= 65535:
        parser.error("a port is from 0 to 65535")
    key = key_in(given.key_file)
    programs.command("send")
    pier = Pier(given.air, station.path_of(given.station))
    with Server(given.host, given.port, pier, key, set(given.name)) as server:
        shown = "[%s]" % given.host if ":" in given.host else given.host
        print("the form is at http://%s:%d/ and the board at http://%s:%d/board" % (shown, server.server_port, shown, server.server_port), flush=True)
        server.serve_forever()
