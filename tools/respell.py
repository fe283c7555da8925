#!/usr/bin/env python3
"""Brings this repository's own definitions and lemmas to one spelling: snake case, types in upper camel case.

usage: tools/respell.py [--dry]     at the top, once, right after port.py

What is renamed: what a file of specs/ or proofs/ declares (definitions, lemmas, fields, constructors, and names under
`where`), where its name has a hyphen or a capital within. What keeps its name: functions and types of src/, modules, names
that begin with a capital, the answers of a function's proof, whose names Rattle gives, and strings.
Where two names would fall together, the one that is no definition of specs/ gets `_lem` at its end.
"""

import collections
import glob
import os
import re
import sys

SEPARATE = r"\s(){}\[\],;.:|\"`⟦⟧⌜⌝"
WORD = re.compile(rf"[^{SEPARATE}]+")
MARKS = r"(?:(?:pattern|unfoldable|abbrev|pub|data|record|axiom) )*"
DECLARED = re.compile(rf"^(\s*)(?:\| )?({MARKS})([^{SEPARATE}]+(?: [^{SEPARATE}]+)*)\s*(?:\{{[ℓ, \w]*\}}\s*)?:\s")
USE = re.compile(r"^\s*(?:pub )?(?:ghost )?use ([^\s;{]+?)(?:\.\{([^}]*)\})?(?: as (\S+?))?;?\s*$")


def snake(name):
    """A name in snake case; a hyphen beside a sign, as in `length-++`, stays."""
    if name[0].isupper():
        return name
    name = re.sub(r"(?<=[A-Za-z0-9'])-(?=[A-Za-z0-9])", "_", name)
    name = re.sub(r"(?<=[a-z0-9'])(?=[A-Z])", "_", name)
    name = re.sub(r"(?<=[A-Z])(?=[A-Z][a-z])", "_", name)
    return re.sub(r"[A-Z]", lambda m: m.group(0).lower(), name)


def files():
    for where in ("specs", "proofs"):
        for path in sorted(glob.glob(f"crates/*/{where}/**/*.antt", recursive=True)):
            yield path


def declared(path):
    """The names that a file declares: (name, whether it is an answer to a goal)."""
    with open(path, encoding="utf-8") as f:
        for line in f:
            if line.lstrip().startswith(("--", "use ", "pub use ")):
                for name in re.findall(rf"[^{SEPARATE}]+ as ([^{SEPARATE}]+)(?=[,}}])", line):
                    yield name, False
                continue
            m = DECLARED.match(line)
            if m:
                answer = re.search(r":\s+(?:tie|goal)\.|: \{M : Type 1\} → statement", line) is not None
                for name in m.group(3).split():
                    yield name, answer


def imported(text):
    """(names from elsewhere, names from here, other names for modules) that a file's `use` lines bring."""
    other, own, modules = set(), set(), set()
    for line in text.split("\n"):
        m = USE.match(line)
        if not m:
            continue
        path, items, alias = m.groups()
        if alias:
            modules.add(alias)
        if not items:
            modules.add(path.split(".")[-1])
            continue
        crate = re.match(r"Rattle\.(\w+)\.", path)
        here = crate and os.path.isdir(f"crates/{crate.group(1)}")
        for item in items.split(","):
            name = item.strip().split(" as ")[-1]
            (own if here else other).add(name)
    return other, own, modules


def main():
    dry = "--dry" in sys.argv
    named = collections.defaultdict(set)
    answers = collections.defaultdict(set)
    for path in sorted(glob.glob("crates/*/src/*.rt")):
        with open(path, encoding="utf-8") as f:
            for name in re.findall(rf"(?m)^ghost use .*? as ([a-z]+[A-Z]\w*)(?=[,}}])", f.read()):
                named[name].add(path)
    for path in files():
        for name, answer in declared(path):
            if answer:
                answers[path].add(name)
            else:
                named[name].add(path)
    new = {n: snake(n) for n in named}
    # names that would fall together
    groups = collections.defaultdict(set)
    for n, s in new.items():
        groups[s].add(n)
    seen = collections.defaultdict(set)
    for path in list(files()) + glob.glob("crates/*/src/*.rt"):
        with open(path, encoding="utf-8") as f:
            for w in WORD.findall(f.read()):
                seen[w].add(path)
    for s, ns in sorted(groups.items()):
        if len(ns) > 1 and any(seen[a] & seen[b] for a in ns for b in ns if a < b):
            # the plain name goes to a definition
            ranked = sorted(ns, key=lambda n: (not any("/specs/" in p for p in named[n]), n != s, "-" in n, n))
            for k, n in enumerate(ranked[1:]):
                new[n] = s + "_lem" + ("" if k == 0 else str(k + 1))
            print("together:", s, {n: new[n] for n in ranked}, [sorted(named[n])[:2] for n in ranked])
    turn = {n: s for n, s in new.items() if n != s}
    print(len(named), "names,", len(turn), "renamed")
    taken = set(new.values())

    def plain(w):
        return "-" not in w and w == w.lower()

    def respell(text, skip, here, code):
        out, at, last = [], 0, ""
        for m in WORD.finditer(text):
            gap = text[at : m.start()]
            w = m.group(0)
            line = text[text.rfind("\n", 0, m.start()) + 1 : m.start()]
            path = re.match(r"\s*(pub )?(ghost )?use ", line) is not None and "{" not in line
            dotted = gap.endswith(".") and m.start() > 0 and not gap.endswith("..") and (gap == "." or text[m.start() - 2] in ")]")
            ok = w in turn and w not in skip and not path
            if ok and plain(w) and (code or w not in here):
                ok = False
            if ok and dotted and gap == "." and last in ("tie", "goal", "c", "l"):
                ok = False
            if ok and code and "-" in w and not re.search(r"(ghost use|ensures|requires|invariant|using|unfolding)", line):
                ok = False
            out.append(gap)
            out.append(turn[w] if ok else w)
            at, last = m.end(), w
        out.append(text[at:])
        return "".join(out)

    changed = 0
    clashes = []
    todo = [(p, False) for p in files()] + [(p, True) for p in sorted(glob.glob("crates/*/src/*.rt"))]
    for path, code in todo:
        with open(path, encoding="utf-8") as f:
            text = f.read()
        other, own, modules = imported(text)
        skip = (other - own) | answers.get(path, set())
        words = set(WORD.findall(text))
        here = own | {n for n in turn if path in named[n]}
        got = respell(text, skip, here, code)
        for w in sorted(words):
            if w in turn and w not in skip and turn[w] in words and not (code and re.search(rf"fn {re.escape(turn[w])}\b", text)):
                clashes.append((path, w, turn[w]))
        if got != text:
            changed += 1
            if not dry:
                with open(path, "w", encoding="utf-8") as f:
                    f.write(got)
    # pages and edits: what stands in backticks, and what an edit quotes
    for path in sorted(glob.glob("*.md") + glob.glob("docs/**/*.md", recursive=True) + glob.glob("crates/*/must-fail/*.edit")):
        with open(path, encoding="utf-8") as f:
            text = f.read()

        def spans(m):
            return WORD.sub(lambda w: turn.get(w.group(0), w.group(0)) if not plain(w.group(0)) else w.group(0), m.group(0))

        got = re.sub(r"(?m)^(old|new): .*$", spans, text) if path.endswith(".edit") else re.sub(r"`[^`\n]+`", spans, text)
        if got != text:
            changed += 1
            if not dry:
                with open(path, "w", encoding="utf-8") as f:
                    f.write(got)
    print(changed, "files changed")
    for c in clashes:
        print("look:", *c)


main()
