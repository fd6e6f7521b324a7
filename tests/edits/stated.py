"""What the refusal of an edit rests on: the functions that it changes, and all that is stated of what these name.

A wrong body is refused because a contract says more than it does. So an edit has to be tried again where a function that it
changes reads differently, or where one of these does: the function's contract, the contracts and types of what it calls, and
the definitions that all of these cite, in its own crate and below. Proofs and other functions' bodies say nothing of it.
What the kit's own libraries state isn't followed. A change of how this file or tools/sources.py reads makes all edits due.
"""
import hashlib
import os
import re
import sys

HERE = os.path.dirname(os.path.abspath(__file__))
TOP = os.path.dirname(os.path.dirname(HERE))
sys.path[:0] = [HERE, os.path.join(TOP, "tools"), os.path.join(TOP, "tests")]
from edited import changes
from functions import functions_in, types_in
from kit import needed
from sources import Definition, Tree, read, rust_lines

PARTS = ("src", "specs", "proofs")
NAME = re.compile(r"\w+")


def digest(texts):
    return hashlib.sha256("\0".join(texts).encode()).hexdigest()[:12]


def homes_in(folder):
    """The file of each type that a crate declares."""
    files = [os.path.relpath(os.path.join(at, name), folder) for at, _, names in os.walk(os.path.join(folder, "src")) for name in names]
    return {it: file for file in sorted(files) for it in types_in(read(os.path.join(folder, file)))}


def functions_of(edit, folder):
    """The functions that an edit changes, each with its file's text; none where it changes more than functions, or doesn't apply."""
    changed, homes = [], homes_in(folder)
    for file, old, _ in changes(edit):
        path = os.path.join(folder, file)
        text = read(path) if os.path.isfile(path) else ""
        at = text[: text.find(old)].count("\n") + 1
        its = [it for it in functions_in(file, text, homes) if it.first <= at <= it.last] if file.startswith("src/") else []
        if text.count(old) != 1 or not its:
            return []
        changed += its
    return changed


def files_of(crate):
    """The texts of a crate's files, by their names in its folder."""
    folder, found = os.path.join(TOP, "crates", crate), {}
    for part in PARTS:
        for at, _, names in os.walk(os.path.join(folder, part)):
            found.update({os.path.relpath(os.path.join(at, name), folder): read(os.path.join(at, name)) for name in names})
    return found


class Stated:
    """The digests of what edits rest on, in this checkout."""

    def __init__(self):
        self.tree, self.known = Tree(TOP), {}

    def of(self, edit, path):
        """The digest of an edit with the functions that it changes, and that of what these rest on. Where it changes anything else these
        are all of its crate, and what all crates below state."""
        crate = edit.partition("/")[0]
        functions = functions_of(path, os.path.join(TOP, "crates", crate))
        if not functions:
            own = [it for file in sorted(files_of(crate).items()) for it in file]
            return digest([read(path), *own]), digest(self.all_below(crate))
        texts = [it.text for it in functions]
        found = {id(it): it for function in functions for it in self.reached(crate, function)}
        stated = sorted(f"{os.path.relpath(it.module.file, TOP)} " + "\n".join(it.lines) for it in found.values())
        return digest([read(path), *texts]), digest(stated)

    def all_below(self, crate):
        """What the crates below one state."""
        for it in needed(crate)[:-1]:
            yield from (line for module in self.tree.code[it] for found in module.defined.values() for line in found.lines)
            yield from (text for file, text in sorted(files_of(it).items()) if file.startswith("specs/"))

    def reached(self, crate, function):
        """The definitions that a function of a crate comes to: those that its text names, and the contracts and types of what it calls."""
        module = next(it for it in self.tree.code[crate] if os.path.relpath(it.file, os.path.join(TOP, "crates", crate)) == function.file)
        text = Definition(module, [], rust_lines(function.text))
        names, crates = {*NAME.findall("\n".join(text.lines))}, needed(crate)
        left = self.tree.cited(text) + [it for name in names | {*function.types} for it in self.type_of(module, name)]
        found, before = {}, -1
        while before < len(found):
            before = len(found)
            left += self.called(module, crates, names, found.values())
            while left:
                it = left.pop()
                if not isinstance(it, str) and id(it) not in found:
                    found[id(it)] = it
                    left += self.beside(it)
        return found.values()

    def type_of(self, module, name):
        """The type that a word of a file may be."""
        return self.tree.of_type(*module.passed_on.get(name, (module.path.split(".")[1], name))) if name[:1].isupper() else []

    def beside(self, definition):
        """What a definition cites, and what is stated of all values of a type."""
        if id(definition) not in self.known:
            types = [it.removeprefix("type ") for it in definition.names if it.startswith("type ")]
            modules = self.tree.code[definition.module.path.split(".")[1]] if types else []
            invariants = [it.invariants[name] for it in modules for name in types if name in it.invariants]
            self.known[id(definition)] = self.tree.cited(definition) + invariants
        return self.known[id(definition)]

    def called(self, module, crates, names, found):
        """The heads of the functions of these names that are in reach: of the file's own crate, brought by name, or of a type that was reached."""
        own, types = module.path.split(".")[1], {it.removeprefix("type ") for definition in found for it in definition.names if it.startswith("type ")}
        for crate in crates:
            for there in self.tree.code[crate]:
                for owner, name, head in there.functions:
                    if name in names and (owner in types or not owner and (crate == own or crate in names or name in module.passed_on)):
                        yield head
