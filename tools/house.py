"""The rules of the house that a script can see, by text alone. tools/crates asks here what breaks them.

tools/house.txt keeps how often each rule is broken. No rule may be broken more often than it says, and where one is
broken less often `tools/crates renew` writes the smaller number, so that the numbers only shrink.
"""
import contextlib
import glob
import os
import re
from collections import Counter, defaultdict

from kit import PARTS, TOP
from sources import Definition, Tree, closed, read, rust_lines

KEPT = os.path.join(TOP, "tools", "house.txt")
PAGES = ("PROOFS", "TRUST", "THEOREM")
SCRIPTS = ("tools/*", "bench/*", "tests/*", "tests/*/*.py", "tests/*/try")
WIDE, LONG_BODY, LONG_FILE, LARGE = 160, 40, 800, 120
QUOTED = r'"(?:\\.|[^"\\])*"'
# Comments, and what stands in quotes.
UNREAD = {"antt": re.compile(rf"--[^\n]*|{QUOTED}", re.S), "rt": re.compile(rf"//[^\n]*|{QUOTED}|'(?:\\.[^']*|[^'\\])'", re.S)}
# An import: whether it is public, its module, the names that it brings, and that of the module.
USE = {
    "antt": re.compile(r"^(pub )?use\s+Rattle\.(\S+?)(?:\.\{([^}]*)\})?(?:[ ]+as[ ]+(\S+))?[ ]*$", re.M),
    "rt": re.compile(r"^[ ]*(pub[^\n]*?)?ghost use\s+Rattle\.([^\s;{]+?)(?:\.\{([^}]*)\})?(?:[ ]+as[ ]+(\w+))?[ ]*;[ ]*$", re.M),
}
NAME = re.compile(r"[A-Za-z0-9_'?\-]+")
CLAUSE = re.compile(r"\b(?:requires|ensures|invariant|decreases)\b\*?\s*(?:[A-Za-z_][\w-]*)?\s*(?=\{)")
FUNCTION = re.compile(r"( *)(?:pub(?:\([a-z: ]+\))? )?(?:const )?fn (\w+)")
CITED = re.compile(r"\bRattle\.(\w+)\.proofs\.(\w+)|\b(\w+)::proofs::(\w+)")
HEADER = re.compile(r"(?:  )?(?:abbrev |unfoldable |opaque )?pub (?:record |data )?([^\s:(){}]+)(?=[\s({:])")


class Source:
    """A file of a crate: its text, and that without comments and what stands in quotes, which is as long line by line."""

    def __init__(self, path):
        self.path, self.ext, self.text = os.path.relpath(path, TOP), path.rsplit(".", 1)[1], read(path)
        _, self.crate, self.part, *_ = self.path.split("/")
        self.read = UNREAD[self.ext].sub(lambda it: re.sub(r"[^\n]", " ", it[0]), self.text)

    def line(self, at):
        return f"{self.path}:{self.text.count(chr(10), 0, at) + 1}"


def says(name, names, text):
    """Whether a text, which has these names, says one."""
    if "◌" in name:
        return all(it in text for it in name.split("◌"))
    if NAME.fullmatch(name):
        return name in names
    return re.search(rf"(?<![A-Za-z0-9_'\-]){re.escape(name)}(?![A-Za-z0-9_'\-?])", text) is not None


def unused(sources):
    for it in sources:
        text = USE[it.ext].sub("", it.read)
        names = set(NAME.findall(text))
        for use in USE[it.ext].finditer(it.read):
            brought = [name.split()[-1] for name in (use[3] or "").split(",") if name.strip()] or [use[4] or use[2].split(".")[-1]]
            yield from (f"{it.line(use.start())}: {name}" for name in brought if not use[1] and not says(name, names, text))


def uncited(sources):
    """Definitions of specs/ that nothing comes to from the functions' own files; those of one block are one."""
    tree = Tree(TOP)
    modules = [it for files in tree.code.values() for it in files]
    left = [found for it in modules for found in tree.cited(Definition(it, [], rust_lines(text_of(it.file))))]
    left += [found for it in modules for definition in it.defined.values() for found in tree.cited(definition)]
    seen = {id(it) for it in tree.reached(left)[0]}
    for path in sorted(it for it in tree.logic if ".specs." in it and not it.endswith(".Lib")):
        lost = {id(it): it for it in tree.module(path).defined.values() if id(it) not in seen}
        yield from (f"{os.path.relpath(it.module.file, TOP)}: {it.names[0]}" for it in lost.values())


def shown(sources):
    """Modules of lemmas that are public, though no other crate cites them. (The prover refuses to cite any that isn't.)"""
    cited = {(of or other, name or inner) for it in sources for of, name, other, inner in CITED.findall(it.read) if (of or other) not in (it.crate, "crate")}
    for it in [it for it in sources if it.path.endswith("/proofs/Lib.antt")]:
        yield from (f"{it.path}: {name}" for name in re.findall(r"(?m)^pub mod (\w+)", it.read) if (it.crate, name) not in cited)


def wide(sources):
    for it in [it for it in sources if it.ext == "rt"]:
        for clause in CLAUSE.finditer(it.read):
            said = " ".join(it.text[clause.end() + 1 : closed(it.read, clause.end()) - 1].split())
            if len(said) > WIDE:
                yield f"{it.line(clause.start())}: {len(said)} characters"


def long_bodies(sources):
    """Functions as rt fmt lays them out: a body stands between lines with a brace alone."""
    for it in [it for it in sources if it.ext == "rt"]:
        head = body = None
        for number, line in enumerate(it.text.split("\n"), 1):
            if found := FUNCTION.match(line):
                head, body = (found[1], found[2], number), None
            if not head:
                continue
            indent, name, first = head
            if body is None and (line == f"{indent}{{" or number == first and line.endswith("{")):
                body = number
            if line.startswith(f"{indent}}}") or number == first and line.endswith(("}", ";")):
                if number - (body or number) - 1 > LONG_BODY:
                    yield f"{it.path}:{first}: {name}, {number - body - 1} lines"
                head = None


def twins(sources, is_wanted):
    """The names that two pages of specs/ define, where a name on these pages is wanted."""
    pages, block = defaultdict(list), ""
    for it in sources:
        for line in it.read.split("\n") if it.part == "specs" else ():
            block = line if line[:1].strip() else block
            found = HEADER.match(line)
            # (in a record they are its fields)
            if found and found[1] != "use" and (line == block or "mutual" in block or block.startswith("module")):
                pages[found[1]].append(it.path)
    yield from (f"{name}: {' '.join(pages[name])}" for name in sorted(pages) if len(pages[name]) > 1 and is_wanted(name, pages[name]))


def ambiguous(sources):
    """Names in the pages on what is proved, beside their quotations."""
    text = "".join(re.sub(r"(?s)```.*?```", "", text_of(os.path.join(TOP, "docs", f"{page}.md"))) for page in PAGES)
    named = {name for code in re.findall(r"`([^`]+)`", text) for name in NAME.findall(code)}
    return twins(sources, lambda name, pages: name in named)


def shared(sources):
    """Names that another crate cites."""
    uses = [use for it in sources for use in USE[it.ext].finditer(it.read) if not use[2].startswith(f"{it.crate}.")]
    cited = {(f"crates/{use[2].replace('.', '/')}.antt", it.split()[0]) for use in uses for it in (use[3] or "").split(",") if it.strip()}
    return twins(sources, lambda name, pages: any((page, name) in cited for page in pages))


def long_files(sources):
    for path in [it.path for it in sources] + [it for pattern in SCRIPTS for it in glob.glob(pattern, root_dir=TOP)]:
        if (lines := text_of(os.path.join(TOP, path)).count("\n")) > LONG_FILE:
            yield f"{path}: {lines} lines"


def large(sources):
    counts = Counter(it.crate for it in sources if it.ext == "rt" for _ in re.finditer(rf"(?m)^{FUNCTION.pattern}", it.text))
    yield from (f"{crate}: {count} functions" for crate, count in counts.items() if count > LARGE)


LOOKS = {
    "imported names that nothing uses": unused,
    "definitions of specs/ that no clause comes to": uncited,
    "public modules of proofs/ that no other crate cites": shown,
    f"clauses of over {WIDE} characters": wide,
    f"function bodies of over {LONG_BODY} lines": long_bodies,
    "documented names that two pages of specs/ define": ambiguous,
    "names that two pages of specs/ define and another crate cites": shared,
    f"files of over {LONG_FILE} lines": long_files,
    f"crates of over {LARGE} functions": large,
}


def text_of(path):
    """The text of a file, or nothing where there is none."""
    with contextlib.suppress(OSError, UnicodeDecodeError):
        return read(path)
    return ""


def found():
    """What breaks each rule."""
    names = (f"{TOP}/crates/*/{part}/**/*.{ext}" for part in PARTS for ext in USE)
    sources = [Source(path) for path in sorted(it for name in names for it in glob.glob(name, recursive=True))]
    return {rule: list(look(sources)) for rule, look in LOOKS.items()}


def kept():
    return {rule: int(count) for count, rule in re.findall(r"(?m)^(\d+) (.*)$", text_of(KEPT))}


def wrong():
    """Where tools/house.txt isn't what the crates are."""
    for rule, broken in found().items():
        had, told = kept().get(rule, 0), f"{len(broken)} {rule}, where tools/house.txt"
        if len(broken) != had:
            yield f"{told} has {had}: `tools/crates house` names them" if len(broken) > had else f"{told} still has {had}: tools/crates renew"


def page():
    """The text of tools/house.txt: no more than it has, where it has a row."""
    had = kept()
    rows = [f"{min(len(broken), had.get(rule, len(broken)))} {rule}" for rule, broken in found().items()]
    return "\n".join(["# How often the house's rules are broken, which only shrinks: tools/crates renew.", *rows, ""])
