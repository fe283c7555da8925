#!/usr/bin/env python3
"""Runs every command of README.md, in its order, in a folder of its own: a line that begins with $ has to print the lines below it, a command
within a sentence has to end well. What is run elsewhere or is no command is listed here; anything else ends this with status 1.

  tests/readme.py
"""
import os
import re
import subprocess
import sys
import tempfile

ROOT = os.path.join(os.path.dirname(os.path.abspath(__file__)), "..")
FIRST = ("run/", "tests/", "bench/", "tools/", "rt ", "apt-get ", "printf ", "/usr/bin/python3 ")
ELSEWHERE = {
    "tests/all": "it runs this",
    "bench/run": "tests/same.test runs it, with no clock",
    "apt-get install gr-rds python3-crcmod": "tests/independent.test does",
    "/usr/bin/python3 tests/independent/decoder.py recording": "tests/independent.test runs it",
    "rt try": "a form", "rt check": "a form", "rt fmt": "a form", "rt ci": "tests/all runs it", "rt lib": "tests/same.test makes both archives",
}


def blocks(page):
    """The commands with what they have to print; None for those within a sentence."""
    for line in re.finditer(r"^    \$ (.*)\n((?:    (?!\$ ).*\n)*)|`([^`]+)`", page, re.M):
        if line.group(1):
            yield line.group(1), re.sub(r"^    ", "", line.group(2), flags=re.M)
        elif line.group(3).startswith(FIRST):
            yield " ".join(line.group(3).split()), None


def folder_like_ours(folder):
    for name in os.listdir(ROOT):
        if name not in (".git", "station.ini", "station.ini.lock", "pier.air", "shelf", "summary", "left", "right"):
            os.symlink(os.path.join(os.path.abspath(ROOT), name), os.path.join(folder, name))


def build(page, folder, env):
    """The programs that the page names; whatever the first run says of it is not what they print."""
    for name in sorted(set(re.findall(r"run/([a-z]+)", page)) | {"show", "records", "differences"}):
        subprocess.run(["run/start", "--words", name], cwd=folder, env=env, stdout=subprocess.DEVNULL, stderr=subprocess.DEVNULL)


def served(folder, env):
    """A server's first line, on a free port."""
    server = subprocess.Popen(["run/pier", "--port", "0"], cwd=folder, env=env, stdout=subprocess.PIPE, text=True)
    try:
        return re.sub(r":\d+/", ":8390/", server.stdout.readline())
    finally:
        server.terminate()
        server.wait(10)
        server.stdout.close()


def fault(command, folder, env, due):
    """What is wrong with a command; nothing where all is well."""
    if command == "run/pier" and due:
        given = served(folder, env)
        return None if given == due else "it prints %r" % given
    r = subprocess.run(["bash", "-c", "set -o pipefail; " + command], cwd=folder, env=env, stdin=subprocess.DEVNULL, stdout=subprocess.PIPE,
                       stderr=subprocess.STDOUT, text=True)
    if due is None:
        return None if r.returncode == 0 else "it ends with status %d: %s" % (r.returncode, r.stdout)
    return None if r.stdout.rstrip("\n") == due.rstrip("\n") else "it prints\n%s" % r.stdout


def main():
    with open(os.path.join(ROOT, "README.md"), encoding="utf-8") as f:
        page = f.read()
    run, shown = 0, " ".join(command for command, due in blocks(page) if due is not None)
    with tempfile.TemporaryDirectory() as folder:
        folder_like_ours(folder)
        env = {**os.environ, "TEPAZOHUI_STATION": os.path.join(folder, "a station.ini")}
        build(page, folder, env)
        for command, due in blocks(page):
            if due is None and (command in ELSEWHERE or command in shown or re.fullmatch(r"(tests|tools|bench)/[\w./-]+", command)):
                continue  # a file's name, which tests/docs.test looks up, or one that is run where it is shown
            wrong = fault(command, folder, env, due)
            if wrong:
                sys.exit("README.md: %s\n%s" % (command, wrong))
            run += 1
            if "> story.txt" in command:
                subprocess.run("run/send < story.txt > recording", shell=True, cwd=folder, env=env, check=True)
                subprocess.run("cd tests && python3 -B -m compare.signals 0.2 300 50 1 > '%s/samples'" % folder, shell=True,
                               cwd=ROOT, env=env, stdin=open(os.path.join(folder, "recording"), "rb"), check=True)
    if run < 10:
        sys.exit("README.md: only %d commands were found" % run)
    print("readme: %d commands do what README.md says" % run)


main()
