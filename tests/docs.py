#!/usr/bin/env python3
"""Looks up what the documents name: a name that is gone, a public function without its row, an edit that no page mentions, each ends this with status 1.
Works the long division of the page for the teaching evening anew, too.

  tests/docs.py [ROOT]
"""
import glob
import os
import re
import sys

ROOT = sys.argv[1] if len(sys.argv) > 1 else os.path.join(os.path.dirname(os.path.abspath(__file__)), "..")
NAMED = re.compile(r"`([a-z_]+)(::|:(?!:)|!)([^`]+)`")
WIDTH = 120
faults = []


def text(path):
    with open(os.path.join(ROOT, path), encoding="utf-8") as f:
        return f.read()


def files(pattern):
    return sorted(os.path.relpath(p, ROOT) for p in glob.glob(os.path.join(ROOT, pattern), recursive=True))


def fault(page, what):
    faults.append("%s: %s" % (page, what))


def names(some):
    """`a` or `{a, b}`; what stands in brackets behind a function's name is not looked at."""
    some = some.split("(")[0].strip()
    return [n.strip() for n in some.strip("{}").split(",")]


def declares(path, name):
    """A definition or a law of antt, at the margin or inside a module; a field or a constructor counts too."""
    words = r"(?:pub |abbrev |unfoldable |record |data )*"
    return re.search(r"^\s*%s%s(?=[\s:({])" % (words, re.escape(name)), text(path), re.M)


def law(page, crate, some):
    where, dot, rest = some.partition(".")
    places = [p for part in ("specs", "proofs") for p in files("crates/%s/%s/%s.antt" % (crate, part, where))]
    if not places or not dot:
        return fault(page, "no file `%s:%s`" % (crate, where))
    for name in names(rest):
        if not any(declares(p, name) for p in places):
            fault(page, "no `%s:%s.%s`" % (crate, where, name))


def code(page, crate, some):
    source = "".join(text(p) for p in files("crates/%s/src/**/*.rt" % crate))
    for name in names(some):
        if not re.search(r"\b(?:fn|struct|enum) %s\b" % re.escape(name), source):
            fault(page, "no `%s::%s`" % (crate, name))


def edit(page, crate, some):
    for name in names(some):
        if not files("crates/%s/must-fail/%s.edit" % (crate, name)):
            fault(page, "no edit `%s!%s`" % (crate, name))


def page_holds(page):
    """Every name, program and path of a page is there."""
    for crate, kind, some in NAMED.findall(text(page)):
        {"::": code, ":": law, "!": edit}[kind](page, crate, some)
    for line in re.findall(r"programs? ((?:`[a-z_]+`(?:, | and )?)+)", text(page)):
        for program in re.findall(r"`([a-z_]+)`", line):
            if not files("crates/%s/stdout" % program):
                fault(page, "no program `%s`" % program)
    for path in re.findall(r"(?<![\w/.])((?:crates|docs|tests|tools|run|bench)/[\w./-]*\w)", text(page)):
        if not re.search(r"\b(CRATE|NAME|LABEL|File)\b", path) and not path.startswith("docs/0") and not files(path):
            fault(page, "no path %s" % path)


def public_functions():
    """Every public function and method of a library with its contract's text."""
    for path in files("crates/*/src/**/*.rt"):
        crate = path.split("/")[1]
        if not files("crates/%s/stdout" % crate):
            # up to the line that opens the body, so that the next function's contract is never taken for this one's
            for name, contract in re.findall(r"^ *pub (?:extern \"C\" )?fn (\w+)(.*?)\{$", text(path), re.M | re.S):
                yield crate, name, contract


def closed_forms():
    """What a contract may say of an answer other than an equation: the names that docs/CONTRACTS.md lists as leaving one answer."""
    said = re.search(r"^Closed forms: (.*?)\.\s", text("docs/CONTRACTS.md"), re.M | re.S)
    return re.findall(r"`(\w+)`", said.group(1)) if said else []


def apart():
    """The functions that read what is not ours to say: the list of docs/CONTRACTS.md. Each takes a reader or the runtime's files."""
    said = re.search(r"^Not equations: (.*?)\.\s", text("docs/CONTRACTS.md"), re.M | re.S)
    return re.findall(r"`(\w+::\w+)`", said.group(1)) if said else []


def takes_input(contract):
    return re.search(r": &(?:mut )?(?:R\b|impl Files\b)", contract.partition("ensures")[0]) is not None


def tells(crate, left, clauses, head):
    """Whether the left side names the answer by what is told of it: a law, WORD_apart beside the WORD's definition, says that no two are told alike. Each
    word that the law goes by has a clause."""
    if left == "answer_of result":
        return "-> Result<(), Refusal>" in " ".join(head.split())
    word = re.fullmatch(r"(\w+)(?: \w+)? result", left)
    if not word:
        return False
    from_where = r"Rattle\.(\w+)\.specs\.[\w.]+\.\{[^}]*\b%s\b" % word.group(1)
    homes = {home for path in files("crates/%s/src/**/*.rt" % crate) for home in re.findall(from_where, text(path))}
    laws = [m.group(1) for home in homes for p in files("crates/%s/proofs/*.antt" % home) for m in re.finditer(r"^ *pub \w+_apart : (.*)$", text(p), re.M)]
    for law in laws:
        words = set(re.findall(r"(\w+)(?: \w)? [a-z] ≡", law)) - {"→"}
        if word.group(1) in words and all(re.search(r"\{ %s(?: \w+)? result ≡ " % w, " ".join(clauses)) for w in words):
            return True
    return False


def is_closed(crate, contract, forms):
    """Whether a contract leaves one answer and one content of each lent memory: an equation, or a closed form, for each of them."""
    head, *clauses = re.split(r"\bensures\b", contract)
    wanted = (["result"] if "->" in head else []) + re.findall(r"(\w+): &(?:'\w+ )?mut ", head)
    said = set()
    for clause in clauses:
        m = re.match(r"(?:\w+ )?\{ (.*) \}$", " ".join(clause.split()))
        if not m:
            return False
        fact = m.group(1)
        left, equals, right = fact.partition(" ≡ ")
        of_answer = re.fullmatch(r"result(?:\.now)?", left) or tells(crate, left, clauses, head)
        of_memory = re.fullmatch(r"(?:bits )?(\w+)\.new", left)
        closed = re.match(r"(\w+) result (.*)", fact)
        if equals and (of_answer or of_memory) and not re.search(r"\.new\b|≡|(?<![\w.])result(?!\w)", right):
            said.add("result" if of_answer else of_memory.group(1))
        elif not equals and closed and closed.group(1) in forms:
            said.add("result")
        else:
            return False
    return said == set(wanted)


def of_code(crate, label):
    return any(re.search(r"^file: src/", text(p), re.M) for p in files("crates/%s/must-fail/%s.edit" % (crate, label)))


def wanted(contract):
    """How many edits a function has at least: where nothing is given there is one value to get wrong."""
    return 1 if re.match(r"(?:<[^>]*>)?\(\)", contract) else 2


def is_thin(crate):
    """A crate NAME_c hands the functions of the crate NAME to programs in C."""
    return crate.endswith("_c") and bool(files("crates/%s/src/lib.rt" % crate[:-2]))


def thin_crates_hold():
    """Such a crate has every function that the crate below it exports, with the same arguments and the same clauses: its row is that one's."""
    said = {(crate, name): re.sub(r"\b\w+::", "", " ".join(contract.split())) for crate, name, contract in public_functions()}
    for crate in sorted({crate for crate, _ in said if is_thin(crate)}):
        below = {name: contract for (one, name), contract in said.items() if one == crate[:-2]}
        own = {name: contract for (one, name), contract in said.items() if one == crate}
        for name in sorted(set(own) | set(below)):
            if own.get(name) != below.get(name):
                fault(crate, "`%s` is not what it is in `%s`, or is missing in one of them" % (name, crate[:-2]))


def contracts_hold():
    page = "docs/CONTRACTS.md"
    rows = {m.group(1): m.group(0) for m in re.finditer(r"^\| `([a-z_]+::\w+)\(.*$", text(page), re.M)}
    forms, reading = closed_forms(), apart()
    for crate, name, contract in public_functions():
        if is_thin(crate):
            continue
        row = rows.pop("%s::%s" % (crate, name), None)
        if "ensures" not in contract or "requires" in contract:
            fault(crate, "`%s` is public and its contract has no `ensures`, or has a `requires`" % name)
        elif not is_closed(crate, contract, forms) and not ("%s::%s" % (crate, name) in reading and takes_input(contract)):
            fault(crate, "the contract of `%s` is not an equation, or a closed form of %s, for its answer and for each memory lent" % (name, page))
        if row is None:
            fault(page, "no row for `%s::%s`" % (crate, name))
        elif sum(of_code(c, label) for c, kind, some in NAMED.findall(row) if kind == "!" for label in names(some)) < wanted(contract):
            fault(page, "fewer than %d edits of code for `%s::%s`" % (wanted(contract), crate, name))
    for gone in rows:
        fault(page, "a row for `%s`, which is no public function" % gone)


def is_wrapped(page):
    """Prose ends at one width; tables, code and lines of one long word may not."""
    for n, line in enumerate(text(page).split("\n"), 1):
        if len(line) > WIDTH and not line.startswith(("|", "    ", "![")) and " " in line.strip()[:WIDTH]:
            fault("%s:%d" % (page, n), "%d characters, and a line of prose has at most %d" % (len(line), WIDTH))


def map_is_full():
    """No cell of a lettered row is empty: an empty one is a rule that nothing shows."""
    for row in re.findall(r"^\| [A-Z]\d+ \|.*$", text("docs/MAP.md"), re.M):
        if not all(cell.strip() for cell in row.strip("|").split("|")):
            fault("docs/MAP.md", "an empty cell in row %s" % row.split("|")[1].strip())


def edits_are_told():
    told = {(crate, name) for page in ("docs/MAP.md", "docs/CONTRACTS.md") for crate, kind, some in NAMED.findall(text(page)) if kind == "!" for name in names(some)}
    apart = text("docs/CONTRACTS.md").partition("## Edits of definitions")[2]
    apart = {(crate, name) for crate, kind, some in NAMED.findall(apart) if kind == "!" for name in names(some)}
    for path in files("crates/*/must-fail/*.edit"):
        crate, label = path.split("/")[1], os.path.basename(path)[: -len(".edit")]
        if not of_code(crate, label) and (crate, label) not in apart:
            fault(path, "it changes a definition and is not listed among those")
        if (crate, label) not in told:
            fault(path, "no page names this edit")


def crates_are_told():
    listed = re.findall(r"^([a-z]\w*)(?: [^#:\n]*)?:", text("crates.txt"), re.M)
    for page in ("README.md", "docs/ARCHITECTURE.md"):
        for crate in listed:
            if "`%s`" % crate not in text(page):
                fault(page, "no word of the crate %s" % crate)


def meanings_are_told():
    """What run/send says of a refusal is README's row of its number."""
    rows = dict(re.findall(r"^\| (\d+) \| (.*?) \| .* \|$", text("README.md"), re.M))
    for n, meaning in re.findall(r'^    (\d+): "(.*)",$', text("tools/pier/ending.py"), re.M):
        if rows.get(n) != meaning:
            fault("README.md", "number %s means %r there and %r in tools/pier" % (n, rows.get(n), meaning))


def number(bits):
    return int(bits.replace(" ", ""), 2)


def column_sum(a, b):
    """Column by column, with nothing carried."""
    return sum((a >> k & 1 != b >> k & 1) << k for k in range(26))


def division_holds():
    """The page for the teaching evening: the routine's lines are the code's, and every worked step and sum comes out again."""
    page = "docs/LONG-DIVISION.md"
    shown = text(page)
    routine = re.findall(r"(?:^    .*\n)+", shown, re.M)[0]
    if routine not in text("crates/block/src/lib.rt"):
        fault(page, "its routine is not the code of `block::check_word`")
    generator = sum(1 << k for k in (10, 8, 7, 5, 4, 3, 0))
    word = int(re.search(r"information word (0x[0-9A-F]{4})", shown).group(1), 16)
    digits, rest, step = format(word, "016b") + "0" * 10, 0, 0
    for first, last, bit, with_it, off, left in re.findall(r"^\| (\d+)(?: to (\d+))? \| ([01]) \| ([01 ]+) \| (yes|no) \| ([01 ]+) \|$", shown, re.M):
        if int(first) != step + 1:
            fault(page, "step %d does not follow step %d" % (int(first), step))
        for step in range(int(first), int(last or first) + 1):
            brought = 2 * rest + int(digits[step - 1 : step] or 0)
            goes = brought >= 2**10
            rest = column_sum(brought, generator) if goes else brought
            if (digits[step - 1 : step], brought, goes, rest) != (bit, number(with_it), off == "yes", number(left)):
                fault(page, "step %d of the division is wrong" % step)
    if step != len(digits):
        fault(page, "the division ends at step %d of %d" % (step, len(digits)))
    sums = re.findall(r"^ +([01]+ [01 ]+[01]) {3}.*\n +([01]+ [01 ]+[01]) {3}.*\n +-+\n +([01]+ [01 ]+[01]) {3}.*$", shown, re.M)
    if len(sums) != 3 or any(column_sum(number(a), number(b)) != number(c) for a, b, c in sums):
        fault(page, "a sum is wrong, or there are not three")
    if [number(c) for _, _, c in sums[1:]] != [rest, column_sum(rest, 0x0FC)]:
        fault(page, "the sums do not end at the remainder, then with the offset of A")
    for bits, told in re.findall(r"^ +([01]+ [01 ]+[01]) {3}(0x[0-9A-F]+)$", shown, re.M):
        if number(bits) != int(told, 16):
            fault(page, "%s is not %s" % (bits, told))
    block = word * 2**10 + column_sum(rest, 0x0FC)
    if {int(b, 16) for b in re.findall(r"0x[0-9A-F]{7}", shown)} != {block} or {int(r, 16) for r in re.findall(r"remainder is (0x[0-9A-F]+)", shown)} != {rest}:
        fault(page, "another block than %07X, or another remainder than %03X" % (block, rest))


def main():
    # a landing's note speaks of its own commit, and the port's pages set old beside new, so their names are not looked up later
    pages = ["README.md"] + [page for page in files("docs/*.md") if not page.startswith(("docs/PORT", "docs/DESIGN-PASS"))]
    for page in pages:
        page_holds(page)
    for page in pages + files("docs/landings/*.md"):
        is_wrapped(page)
    contracts_hold()
    thin_crates_hold()
    map_is_full()
    edits_are_told()
    crates_are_told()
    meanings_are_told()
    division_holds()
    if faults:
        sys.exit("\n".join(faults))
    print("docs: every name on %d pages is there; each of %d public functions has its row and its edits of code"
          % (len(pages), sum(not is_thin(crate) for crate, _, _ in public_functions())))


main()
