"""A server of the pier's pages in a folder of its own, and what can be asked of it without a browser."""
import contextlib
import http.client
import json
import os
import re
import subprocess
import tempfile
import time

GIRL = "The wave came over the wall; then the water went a long way out."
RUN = os.path.join(os.path.dirname(os.path.abspath(__file__)), "..", "..", "run")


def fail(what):
    raise SystemExit("pier: %s" % what)


def same(what, given, due):
    if given != due:
        fail("%s: %r instead of %r" % (what, given, due))


class Server:
    def __init__(self, folder, words):
        self.air, self.station = os.path.join(folder, "air"), os.path.join(folder, "station.ini")
        self.process = subprocess.Popen([os.path.join(RUN, "pier"), "--port", "0", "--air", self.air, "--station", self.station, *words],
                                        stdout=subprocess.PIPE, text=True)
        said = self.process.stdout.readline()
        found = re.search(r"http://127\.0\.0\.1:(\d+)/", said)
        if not found:
            fail("the server did not start: %r" % said)
        self.port = int(found.group(1))
        self.form, self.board = "http://127.0.0.1:%d/" % self.port, "http://127.0.0.1:%d/board" % self.port

    def ask(self, method, path, body=None, **headers):
        """Status and answer."""
        line = http.client.HTTPConnection("127.0.0.1", self.port, timeout=30)
        line.request(method, path, body, {"Content-Type": "application/json", **{k.replace("_", "-"): v for k, v in headers.items()}})
        answer = line.getresponse()
        given = answer.status, answer.read()
        line.close()
        return given

    def post(self, text, path="/send", **headers):
        status, body = self.ask("POST", path, json.dumps({"text": text}), **headers)
        return status, json.loads(body)

    def stories(self, n, patience=20):
        """The first n stories that a board is told, and those that came with the last of them."""
        line = http.client.HTTPConnection("127.0.0.1", self.port, timeout=patience)
        line.request("GET", "/events")
        answer, some = line.getresponse(), []
        while len(some) < n:
            row = answer.readline()
            if row.startswith(b"data: {"):
                some.append(json.loads(row[6:]))
        line.close()
        return some

    def size(self):
        return os.path.getsize(self.air)


@contextlib.contextmanager
def server(*words):
    with tempfile.TemporaryDirectory() as folder:
        here = Server(folder, words)
        try:
            yield here
        finally:
            here.process.terminate()
            here.process.wait(10)
            here.process.stdout.close()


def until(what, test, patience=20):
    """Waits until a test holds."""
    last = time.monotonic() + patience
    while not test():
        if time.monotonic() > last:
            fail("%s did not come" % what)
        time.sleep(0.05)
