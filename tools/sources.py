"""Reads the .antt and .rt files of the project: what each file defines, what it imports, and which words it uses.

It knows the layout that `rt fmt` leaves (an item starts at its module's indentation, what belongs to it stands further in), not the
whole grammar. Where it cannot tell a local name from a definition of the same name it takes it for a use, so that what it calls
unused is unused.
"""
import os
import re
from typing import Dict, Iterator, List, NamedTuple, Optional, Set, Tuple

TOKEN = re.compile(r'"[^"]*"|[(){};,]|\[\]|[^\s(){};,"\[\]]+')
HEAD = re.compile(r"(?:(?:abbrev|unfoldable)\s+)?(?:pub\s+)?(?:(?:record|data)\s+(\S+)|(\S+)(?:\s+[({].*)?\s+:(?:\s|$))")
IMPORT = re.compile(r"(?:ghost )?use (\S+)\.\{(.*)\};?$")
ALIAS = re.compile(r"(?:ghost )?use (\S+) as (\S+?);?$")
KEYWORDS = set("let in λ → = : where unfolding with of rec absurd record use module pub search omega rw simp cc Type × ∀ Σ . .. _ |".split())

Name = Tuple[str, str]  # a module, and a name in it


def module_of(path: str) -> Optional[str]:
    """The file's name for importers: crates/c/specs/F.antt is Rattle.c.specs.F."""
    m = re.match(r"crates/([^/]+)/(specs|proofs)/(.+)\.antt$", path)
    return "Rattle.%s.%s.%s" % (m.group(1), m.group(2), m.group(3).replace("/", ".")) if m else None


def tokens(text: str) -> List[str]:
    return TOKEN.findall(re.sub(r"(?:^|(?<=\s))(?:--|//).*", "", text))


def words(toks: List[str]) -> Set[str]:
    """The names among the tokens, a path and its beginnings each; `.field` is none, and the dot behind a bound variable is not part of it."""
    found: Set[str] = set()
    for t in toks:
        if t.startswith((".", '"')) or t in "(){};,":
            continue
        name = t.rstrip(".") or t
        while name:
            found.add(name)
            name = name.rpartition(".")[0]
    return found


def spelled(name: str) -> List[str]:
    """How a name occurs in a text: an operator such as ◌⊕◌ by its parts, any other as it is."""
    parts = [p for p in name.split("◌") if p]
    return parts if "◌" in name and parts else [name]


def cited(name: str, used: Set[str]) -> bool:
    return name in used or ("◌" in name and all(p in used for p in spelled(name)))


class Item(NamedTuple):
    """A definition or a law: its text stands in lines first to last of the file, its comment not among them."""
    name: str
    path: str
    first: int
    last: int
    params: str  # of the modules around it
    text: str

    def parts(self) -> Tuple[List[str], List[str]]:
        """The tokens of the statement, and those of the body."""
        lines = self.text.split("\n")
        level = len(lines[0]) - len(lines[0].lstrip())
        cut = 1
        while cut < len(lines) and (not lines[cut].strip() or len(lines[cut]) - len(lines[cut].lstrip()) > level):
            cut += 1
        statement = tokens("\n".join(lines[:cut]))
        colon = statement.index(":") if ":" in statement else -1
        return statement[colon + 1:], tokens("\n".join(lines[cut:]))


class Source:
    def __init__(self, path: str, text: str):
        self.path, self.text = path, text
        self.lines = text.split("\n")
        self.module = module_of(path)
        self.imports: Dict[str, Name] = {}
        self.aliases: Dict[str, str] = {}
        for line in self.lines:
            self.read_import(line)
        self.items: List[Item] = self.read_items() if path.endswith(".antt") else []
        self.names = {i.name for i in self.items}

    def read_import(self, line: str) -> None:
        m = IMPORT.match(line)
        if m:
            for entry in filter(None, (n.strip() for n in m.group(2).split(","))):
                name, _, local = entry.partition(" as ")
                self.imports[local or name] = (m.group(1), name)
            return
        m = ALIAS.match(line)
        if m:
            self.aliases[m.group(2)] = m.group(1)

    def whole_lines(self) -> Iterator[Tuple[int, int, int, str]]:
        """Each line that says something: its number, the last of its numbers, its indentation and text. A module's head is one line."""
        head: Optional[Tuple[int, int, str]] = None
        for number, line in enumerate(self.lines, 1):
            bare = line.strip()
            if not bare or bare.startswith("--"):
                continue
            if head:
                head = (head[0], head[1], head[2] + " " + bare)
            elif bare.startswith("module "):
                head = (number, len(line) - len(line.lstrip()), bare)
            else:
                yield number, number, len(line) - len(line.lstrip()), bare
            if head and head[2].endswith(" where"):
                yield head[0], number, head[1], head[2]
                head = None

    def read_items(self) -> List[Item]:
        items: List[Item] = []
        modules: List[Tuple[int, str]] = []  # indentation and parameters of the modules around the item at hand
        start: Optional[Tuple[str, int]] = None
        end = 0

        def close() -> None:
            if start:
                params = " ".join(p for _, p in modules)
                items.append(Item(start[0], self.path, start[1], end, params, "\n".join(self.lines[start[1] - 1:end])))

        for number, last, indent, bare in self.whole_lines():
            inside = [m for m in modules if m[0] < indent]
            level = inside[-1][0] + 2 if inside else 0
            head = HEAD.match(bare)
            if indent == level and bare.startswith(("use ", "infix", "module ")):
                close()
                start = None
                modules = inside + ([(indent, bare[len("module _"):-len("where")])] if bare.startswith("module ") else [])
            elif indent == level and head:
                close()
                start, modules = (head.group(1) or head.group(2), number), inside
            end = last
        close()
        return items

    def resolve(self, word: str) -> Optional[Name]:
        """The definition that a word of this file names, ours or the kit's; None for a local name."""
        if word in self.names and self.module:
            return (self.module, word)
        if word in self.imports:
            return self.imports[word]
        alias, _, name = word.partition(".")
        if name and alias in self.aliases:
            return (self.aliases[alias], name)
        return None

    def operators(self) -> Dict[str, str]:
        return {p: n for n in list(self.imports) + list(self.names) if "◌" in n for p in spelled(n)}

    def uses(self, toks: List[str]) -> Set[Name]:
        """What these tokens cite. An operator counts as cited by any of its parts."""
        operators = self.operators()
        found = set()
        for word in words(toks):
            for name in (word, operators.get(word)):
                target = self.resolve(name) if name else None
                if target:
                    found.add(target)
        return found

    def body_tokens(self) -> List[str]:
        return tokens("\n".join(l for l in self.lines if not l.startswith(("use ", "ghost use "))))


def crates() -> List[str]:
    with open("crates.txt", encoding="utf-8") as f:
        return [l.split(":")[0].split()[0] for l in f if l.strip() and not l.startswith("#")]


def files(crate: str, *folders: str) -> List[str]:
    found = []
    for folder in folders or ("src", "specs", "proofs"):
        for d, _, names in os.walk(os.path.join("crates", crate, folder)):
            found += [os.path.join(d, n) for n in names if n.endswith((".antt", ".rt"))]
    return sorted(found)


def read(path: str) -> Source:
    with open(path, encoding="utf-8") as f:
        return Source(path, f.read())


def read_all(names: List[str]) -> List[Source]:
    return [read(p) for c in names for p in files(c)]
