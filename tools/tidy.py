"""The commands of tools/prove that read the whole project: imports, unused, alike, figures."""
import os
import re
from collections import defaultdict
from typing import Dict, Iterable, List, Set, Tuple

from sources import ALIAS, IMPORT, KEYWORDS, Name, Source, cited, crates, files, read, read_all, tokens, words


# ---- imports

def trimmed(line: str, used: Set[str], had: Set[str]) -> Tuple[str, List[str]]:
    """An import line with the names that are used and that no line above had, empty where there is none; and the other names."""
    end = ";" if line.endswith(";") else ""
    start = "ghost use" if line.startswith("ghost ") else "use"
    m = IMPORT.match(line)
    if m:
        entries = [n.strip() for n in m.group(2).split(",")]
        gone = [n for n in entries if not cited(n.split(" as ")[-1], used) or m.group(1) + "." + n in had]
        had.update(m.group(1) + "." + n for n in entries)
        kept = [n for n in entries if n not in gone]
        if not gone:
            return line, []
        return ("%s %s.{%s}%s" % (start, m.group(1), ", ".join(kept), end) if kept else ""), gone
    m = ALIAS.match(line)
    if m and not any(w.partition(".")[0] == m.group(2) for w in used):
        return "", [m.group(2)]
    return line, []


def unused_imports(source: Source) -> Tuple[List[str], List[Tuple[int, str]]]:
    """The file's lines with no import that is not used, and those imports by line. Of code only the `ghost use` lines are looked at."""
    used = words(source.body_tokens())
    kept, gone = [], []
    had: Set[str] = set()
    for number, line in enumerate(source.lines, 1):
        if line.startswith("ghost use ") or (line.startswith("use ") and source.path.endswith(".antt")):
            new, names = trimmed(line, used, had)
            gone += [(number, n) for n in names]
            if names and not new:
                continue
            line = new
        elif re.match(r"-- src/\S+\.rt:\d+", line):  # where a printed skeleton says a need comes from
            continue
        kept.append(line)
    return kept, gone


def imports(names: List[str], drop: bool) -> int:
    count = 0
    for source in read_all(names or crates()):
        kept, gone = unused_imports(source)
        for number, name in gone:
            print("%s:%d: %s" % (source.path, number, name))
        count += len(gone)
        if drop and kept != source.lines:
            with open(source.path, "w", encoding="utf-8") as f:
                f.write("\n".join(kept))
    print("%d imported names are not used, or imported twice%s" % (count, ", and are dropped" if drop and count else ""))
    return 0 if drop else min(count, 1)


# ---- unused

# Answers and invariants of a function stand in a folder of its own below proofs/.
ANSWERS = re.compile(r"/proofs/.+/(?:Proof|Answers|Invariants)\.antt$")


def documented() -> Set[str]:
    """Names between backquotes in the two documents that list theorems and contracts."""
    found: Set[str] = set()
    for path in ("docs/MAP.md", "docs/CONTRACTS.md"):
        if os.path.exists(path):
            with open(path, encoding="utf-8") as f:
                for quoted in re.findall(r"`([^`]+)`", f.read()):
                    found.update(re.findall(r"[^\s:.,{}()!]+", quoted))  # crate:File.{one, other} names both
    return found


def handed_on(source: Source) -> Iterable[Tuple[Name, Name]]:
    """The names that a file hands on by `pub use`, each with the name behind it."""
    for line in source.lines:
        m = IMPORT.match(line[4:]) if line.startswith("pub use ") else None
        for entry in m.group(2).split(",") if m else []:
            first, _, last = entry.strip().partition(" as ")
            yield (source.module, last or first), (m.group(1), first)


def reached(sources: List[Source]) -> Set[Name]:
    """All that is cited, directly or not, by code, by an answer of a proof file, or in the documents."""
    listed = documented()
    cites: Dict[Name, Set[Name]] = defaultdict(set)
    open_: Set[Name] = set()
    for s in sources:
        if s.module is None:
            open_ |= s.uses(s.body_tokens())
        for name, behind in handed_on(s):
            cites[name].add(behind)
        for i in s.items:
            cites[(s.module, i.name)] |= s.uses(tokens(i.params + "\n" + i.text))
            if i.name in listed or ANSWERS.search(s.path) or s.path.endswith("/Examples.antt"):
                open_.add((s.module, i.name))
    seen: Set[Name] = set()
    while open_:
        name = open_.pop()
        seen.add(name)
        open_ |= cites[name] - seen
    return seen


def uncalled(sources: List[Source]) -> Iterable[Tuple[str, int, str]]:
    """Functions of the code that no other line of their crate names, `main` and public ones excepted."""
    by_crate: Dict[str, List[Source]] = defaultdict(list)
    for s in sources:
        if s.module is None:
            by_crate[s.path.split("/")[1]].append(s)
    for group in by_crate.values():
        text = "\n".join(s.text for s in group)
        for s in group:
            for number, line in enumerate(s.lines, 1):
                m = re.match(r"(?:pub\(crate\) )?fn (\w+)", line)
                if m and m.group(1) != "main" and len(re.findall(r"\b%s\b" % m.group(1), text)) == 1:
                    yield s.path, number, m.group(1)


def unused(names: List[str]) -> int:
    sources = read_all(crates())
    seen = reached(sources)
    rows = [(i.path, i.first, i.name) for s in sources for i in s.items if (s.module, i.name) not in seen]
    rows += list(uncalled(sources))
    rows = [r for r in rows if not names or r[0].split("/")[1] in names]
    for path, line, name in rows:
        print("%s:%d: %s" % (path, line, name))
    print("%d definitions, laws and functions are cited by nothing that is used" % len(rows))
    return min(len(rows), 1)


# ---- alike

def one_binder(toks: List[str]) -> List[str]:
    """(a b : T) and {a b : T} as (a : T) (b : T)."""
    out, i = [], 0
    while i < len(toks):
        j = i + 1
        while j < len(toks) and toks[j] not in ("(", ")", "{", "}", ":", "→", "=", ","):
            j += 1
        if toks[i] in "({" and j < len(toks) and toks[j] == ":" and j > i + 1:
            depth, k = 1, j
            while depth and k + 1 < len(toks):
                k += 1
                depth += (toks[k] in "({") - (toks[k] in ")}")
            for name in toks[i + 1:j]:
                out += ["(", name, ":"] + one_binder(toks[j + 1:k]) + [")"]
            i = k + 1
        else:
            out.append({"{": "(", "}": ")"}.get(toks[i], toks[i]))
            i += 1
    return out


def needed(params: List[str], statement: List[str]) -> List[str]:
    """The binders of the modules around a law that its statement mentions, or that such a binder's type mentions."""
    groups, depth = [], 0
    for t in params:
        if t == "(" and depth == 0:
            groups.append([])
        depth += (t == "(") - (t == ")")
        if groups:
            groups[-1].append(t)
    kept, used = [], words(statement)
    for group in reversed(groups):
        if len(group) > 1 and group[1] in used:
            kept.insert(0, group)
            used |= words(group)
    return [t for g in kept for t in g]


def shape(source: Source, name: str, toks: List[str]) -> str:
    """The tokens with local names numbered as they come, and what is defined somewhere by its full name."""
    numbers: Dict[str, str] = {}
    operators = source.operators()
    out = []
    for t in toks:
        bare = t.rstrip(".") or t
        target = source.resolve(bare) or source.resolve(operators.get(bare, ""))
        if bare == name:
            out.append("itself")
        elif target:
            out.append("%s.%s" % target)
        elif t.startswith((".", '"')) or t in "(){};," or t in KEYWORDS or t[0].isdigit():
            out.append(t)
        else:
            first, dot, fields = bare.partition(".")
            target = source.resolve(first) if dot else None
            out.append(("%s.%s" % target if target else numbers.setdefault(first, "v%d" % len(numbers))) + dot + fields)
    return " ".join(t for t in out if t != "→")  # the parameters of a module have none behind them


def functions(source: Source) -> Iterable[Tuple[str, int, str]]:
    """Each function of a code file: its name, its line, and its text after the name with no contract and no name of a variable."""
    for m in re.finditer(r"^(?:pub(?:\(crate\))? )?fn (\w+)(.*?\n\}\n)", source.text, re.M | re.S):
        text = re.sub(r"^    (?:requires|ensures)\b.*\n|//.*", "", m.group(2), flags=re.M)
        toks = re.findall(r"\w+|[^\w\s]", text)
        local = re.findall(r"(?:let(?: mut)?|for) (\w+)|(\w+):(?!:)", text)
        names = {n: "v%d" % k for k, n in enumerate(dict.fromkeys(a or b for a, b in local))}
        yield m.group(1), source.text.count("\n", 0, m.start()) + 1, " ".join(names.get(t, t) for t in toks)


def groups(pairs: Iterable[Tuple[str, str]]) -> List[List[str]]:
    by_key: Dict[str, List[str]] = defaultdict(list)
    for key, place in pairs:
        by_key[key].append(place)
    return [g for g in by_key.values() if len(g) > 1]


def alike(names: List[str]) -> int:
    statements, bodies, code = [], [], []
    for s in read_all(names or crates()):
        for i in s.items if not ANSWERS.search(s.path) else []:
            place = "%s:%d: %s" % (i.path, i.first, i.name)
            said, body = i.parts()
            said = one_binder(said)
            if len(said) > 3 and said[-1] not in ("ℕ", "Bool") and "≡" in said:
                statements.append((shape(s, i.name, needed(one_binder(tokens(i.params)), said) + said), place))
            if len(body) > 9:
                bodies.append((shape(s, i.name, body), place))
        for name, line, text in functions(s) if s.module is None else []:
            if text.count(" ") > 20:
                code.append((text, "%s:%d: %s" % (s.path, line, name)))
    total = 0
    for what, pairs in (("say the same", statements), ("have the same body", bodies), ("have the same text", code)):
        for group in groups(pairs):
            print("%s:\n  %s" % (what, "\n  ".join(group)))
            total += 1
    print("%d groups" % total)
    return 0


# ---- figures

def line_count(paths: Iterable[str]) -> int:
    """Lines with something in them."""
    return sum(1 for p in paths for l in read(p).lines if l.strip())


def figures(log: str) -> int:
    """A row a crate: its lines and its edits, and what the log of `rt ci` says of it: whether it is proved, and what its edits came to."""
    proved = dict(re.findall(r"^rt: (\w+) (proved|NOT PROVED|is kept)", log, re.M))
    tried: Dict[str, Dict[str, int]] = defaultdict(lambda: defaultdict(int))
    for crate, what in re.findall(r"^rt: must-fail (\w+)/[^\s:]+: (refused|BAD EDIT|NOT REFUSED|NOT TRIED)", log, re.M):
        tried[crate][what] += 1
    rows = [("crate", "code", "spec", "proof", "edits", "proved", "refused", "not so")]
    for c in crates():
        folder = os.path.join("crates", c, "must-fail")
        edits = sum(n.endswith(".edit") for n in os.listdir(folder)) if os.path.isdir(folder) else 0
        refused = tried[c].pop("refused", 0)
        rows.append((c, *(str(line_count(files(c, f))) for f in ("src", "specs", "proofs")), str(edits),
                     {"proved": "yes", "is kept": "kept", "NOT PROVED": "no"}.get(proved.get(c, ""), ""), str(refused or ""), str(sum(tried[c].values()) or "")))
    rows.append(("all", *(str(sum(int(r[k] or 0) for r in rows[1:])) for k in range(1, 5)), "%d of %d" % (sum(r[5] in ("yes", "kept") for r in rows[1:]), len(rows) - 1)
                 if proved else "", *(str(sum(int(r[k] or 0) for r in rows[1:]) or "") for k in (6, 7))))
    for n, row in enumerate(rows):
        print("| " + " | ".join(row) + " |")
        if n == 0:
            print("|---" * len(row) + "|")
    return 0
