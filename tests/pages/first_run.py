"""run/start in a small tree of its own, with a checker that only says what the kit's says: the moving line, a failure, and two first runs at once.

  python3 -m pages.first_run      run it in tests/
"""
import os
import pty
import re
import shutil
import subprocess
import tempfile

from .server import RUN, fail, same

CHECKER = """#!/usr/bin/env bash
[ "$*" = run ] || exit 2
name=${PWD##*/}
exec 3>&1 >&2
echo begin >>"$HOME/turns"
echo "rt: chose --jobs 2 for low"
echo "fn low::twice: proved"
sleep 0.7
echo "rt: chose --jobs 2 for $name"
sleep 0.7
[ ! -e "$HOME/fails" ] || { echo "logic=not-proved functions=1"; exit 1; }
mkdir -p out
printf '#!/bin/sh\\necho shown\\n' >"out/$name"
chmod +x "out/$name"
echo end >>"$HOME/turns"
echo "rt: running out/$name; to give it other input, run that file yourself"
exec "out/$name" >&3
"""


def put(path, text):
    os.makedirs(os.path.dirname(path), exist_ok=True)
    with open(path, "w", encoding="utf-8") as f:
        f.write(text)
    os.chmod(path, 0o755)


class Tree:
    def __init__(self, folder):
        self.folder = folder
        os.makedirs(self.at("run"))
        shutil.copy(os.path.join(RUN, "start"), self.at("run", "start"))
        put(self.at("crates.txt"), "# a comment\nlow:\nother staticlib: low\nhigh: low bytes\nhigher: high low\n")
        put(self.at("crates", "low", "src", "lib.rt"), "// The lowest of all.\n")
        for name in ("high", "higher"):
            put(self.at("crates", name, "src", "main.rt"), "// Stands on it.\n")
        put(self.at("kit", "bin", "rt"), CHECKER)
        self.env = {**os.environ, "HOME": folder, "PATH": self.at("kit", "bin") + ":" + os.environ["PATH"]}

    def at(self, *names):
        return os.path.join(self.folder, *names)

    def words(self, name):
        return [self.at("run", "start"), name]

    def on_a_terminal(self, name):
        """Status, and all that the terminal got."""
        child, screen = pty.fork()
        if child == 0:
            os.execve(self.words(name)[0], self.words(name), self.env)
        got = b""
        while True:
            try:
                some = os.read(screen, 4096)
            except OSError:
                break
            if not some:
                break
            got += some
        os.close(screen)
        return os.waitstatus_to_exitcode(os.waitpid(child, 0)[1]), got.decode()

    def turns(self):
        with open(self.at("turns"), encoding="utf-8") as f:
            return f.read().split()


def moving(tree):
    status, screen = tree.on_a_terminal("high")
    shown = screen.split("\r\x1b[K")
    same("the end of a first run", (status, shown[-1]), (0, "shown\r\n"))
    for due in (r"run/high: proving crate 1 of 2, \d+ s\. low: The lowest of all\.", r"run/high: proving crate 2 of 2, \d+ s\. high: Stands on it\."):
        if not any(re.fullmatch(due, line) for line in shown):
            fail("no line %r in %r" % (due, shown))
    same("lines of the checker on the screen", "fn low" in screen or "\n" in "".join(shown[:-1]), False)
    same("a second run", tree.on_a_terminal("high"), (0, "shown\r\n"))


def together(tree):
    """Two at once, as in a pipe of two new programs: the checker runs for one, then for the other."""
    os.unlink(tree.at("crates", "high", "out", "high"))
    os.unlink(tree.at("turns"))
    both = [subprocess.Popen(tree.words(name), env=tree.env, stdout=subprocess.PIPE, stderr=subprocess.DEVNULL) for name in ("high", "higher")]
    same("two first runs", [p.communicate()[0] for p in both], [b"shown\n"] * 2)
    same("the checker's turns", tree.turns(), ["begin", "end"] * 2)


def failing(tree):
    put(tree.at("fails"), "")
    put(tree.at("crates", "low", "src", "lib.rt"), "// Changed.\n")
    r = subprocess.run(tree.words("high"), env=tree.env, stdout=subprocess.PIPE, stderr=subprocess.PIPE, text=True)
    same("a program that can't be proved", (r.returncode, r.stdout, r.stderr.splitlines()), (1, "", [
        "run/high: it is proved and built first, 2 crates; the checker's lines are in target/build/high.log",
        "run/high: it could not be proved and built; what the checker says is in %s" % tree.at("target", "build", "high.log")]))
    with open(tree.at("target", "build", "high.log"), encoding="utf-8") as f:
        same("the checker's lines", f.read().splitlines()[-1], "logic=not-proved functions=1")


def main():
    with tempfile.TemporaryDirectory() as folder:
        tree = Tree(os.path.realpath(folder))
        moving(tree)
        together(tree)
        failing(tree)
    print("pier: a first run shows one moving line, two wait for each other, and a failure names its file")


if __name__ == "__main__":
    main()
