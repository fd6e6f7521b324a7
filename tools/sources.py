"""The crates' files as text: their definitions, and what these cite.

From a definition others are followed by name: through the `use` lines of its file, and for a Rust type to what its model says. In src/ the
definitions are types, traits, heads of functions with their contracts, and the ghost members of impls.
"""
import glob
import os
import re

WORD = re.compile(r"[^\s(){}\[\],;:|×→↔⊎λ≡≢≤<=+&∷!\"]+")
HEADER = re.compile(r"^((?:(?:pub|abbrev|unfoldable|opaque|data|record)\s+)*)([^\s:(){},=|]+)\s*(?:\(|\{|:\s|:$)")
ITEM = re.compile(r"^( *)(?:pub(?:\([^)]*\))? )?(?:const )?(struct|enum|trait|fn|impl)\b ?([^\n{;]*)", re.MULTILINE)


def read(path):
    with open(path, encoding="utf-8") as file:
        return file.read()


class Definition:
    """Some lines that are read together, under the names that they define."""

    def __init__(self, module, names, lines):
        self.module, self.names, self.lines = module, names, lines

    def words(self):
        """The words of its lines: plain ones, and pairs of a module's short name and a word of it. (Those may be a value and its field.)"""
        for line in self.lines:
            for word in WORD.findall(re.sub(r'"[^"]*"', "", line.partition(" -- ")[0])):
                if not word.startswith("."):
                    first, *rest = word.rstrip(".").split(".")
                    yield None, first
                    yield from ((first, it) for it in rest[:1])


class Module:
    """A file: its definitions by name, and what its `use` lines bring, as places (module's path, name)."""

    def __init__(self, path, file):
        self.path, self.file, self.defined, self.brought, self.short, self.passed_on = path, file, {}, {}, {}, {}
        # (of src/: each function's head with its type, if it has one, and its name; and the invariants of types)
        self.functions, self.invariants = [], {}

    def define(self, names, lines):
        definition = Definition(self, names, lines)
        for name in names:
            self.defined.setdefault(name, definition)
        return definition

    def use(self, text):
        """A `use` item of the program logic: `A.B.{c, d as e}`, `A.B as m` or `A.B.{c}` behind `pub`."""
        text = re.sub(r"^(pub\s+)?use\s+", "", text.strip().rstrip(";"))
        listed = re.match(r"([\w.]+)\.\{(.*)\}$", text, re.DOTALL)
        for item in filter(None, map(str.strip, listed[2].split(",") if listed else ())):
            name, _, other = item.partition(" as ")
            self.brought[other.strip() or name] = (listed[1], name)
        if not listed:
            path, _, short = text.partition(" as ")
            self.short[short.strip() or path.rpartition(".")[2]] = path


def logic_module(path, file):
    """Reads a file of specs/ or proofs/, without blank lines and comments."""
    module, at, parameters = Module(path, file), 0, []
    lines = [line for line in read(file).split("\n") if line.strip() and not line.strip().startswith("--")]
    while at < len(lines):
        end = at + 1
        while end < len(lines) and (lines[end][0] in " ])}" or lines[end].startswith("unfolding ")):
            end += 1
        block, first = lines[at:end], lines[at]
        if re.match(r"(pub )?use\s", first):
            module.use(" ".join(map(str.strip, block)))
        elif re.match(r"((pub|abbrev|unfoldable|opaque)\s+)*mutual\s*$", first):
            module.define(names_in_block(block), block)
        elif first.startswith("module _"):
            parameters = [first]
            lines[at:end] = [line[2:] if line.startswith("  ") else line for line in block[1:]]
            continue
        else:
            define(module, block, parameters)
        at = end
    return module


def names_in_block(block):
    """What a block of mutual recursion defines: functions, types and their constructors."""
    kinds = r"(?:(?:pub|abbrev|unfoldable|data|record)\s+)*"
    heads = [re.match(rf"  {kinds}([^\s:(){{}},=|]+) (?::|\()", line) for line in block]
    constructors = [re.match(r"    ([^\s:(){},=|]+) : ", line) for line in block]
    return list(dict.fromkeys(it[1] for it in heads + constructors if it and it[1] not in ("elim", "let")))


def define(module, block, parameters):
    """Takes a definition's head, or an equation of the definition before."""
    known, header = module.defined.get(block[0].split()[0]), HEADER.match(block[0])
    if known and not (header and header[1]):
        known.lines += block
        return
    if not header:
        raise SystemExit(f"{module.file}: what is this line? {block[0]!r}")
    forms = [re.match(form, line) for form in (r"  ([^\s:]+) :", r"  ([^\s:(){}]+)$") for line in block[1:] if "data " in header[1]]
    module.define([header[2], *(it[1] for it in forms if it)], parameters + block)


def closed(text, at):
    """Where the brace at this place closes."""
    depth = 0
    for k in range(at, len(text)):
        depth += {"{": 1, "}": -1}.get(text[k], 0)
        if depth == 0:
            return k + 1
    raise SystemExit("a brace that isn't closed")


def head_end(text, at):
    """Where a function's head ends: at its body's brace or its semicolon, behind the clauses."""
    while True:
        found = re.compile(r"(?:requires|ensures)\b[^{;]*\{|\{|;").search(text, at)
        if not found or not found[0].startswith(("requires", "ensures")):
            return found.start() if found else len(text)
        at = closed(text, found.end() - 1)


def code_module(path, file):
    """Reads a file of src/: types, traits, heads of functions, and the ghost members of impls."""
    text = re.sub(r"^\s*(//.*|#!?\[.*\])\n", "", read(file), flags=re.MULTILINE)
    module = Module(path, file)
    for it in re.findall(r"^\s*ghost use ([^;]*);", text, re.MULTILINE):
        module.use(re.sub(r"\s+", " ", it))
    for it in re.findall(r"^(?:pub )?use ([^;]*);", text, re.MULTILINE):
        module.passed_on.update(rust_uses(re.sub(r"\s+", "", it.replace(" as ", "@")), path))
    owner, owned = "", 0
    for found in ITEM.finditer(text):
        kind, name = found[2], re.match(r"\w+", found[3])
        if kind == "fn":
            definition = module.define([f"fn {name[0]}"], rust_lines(text[found.start() : head_end(text, found.end())]))
            module.functions.append((owner if found.start() < owned else "", name[0], definition))
        elif kind == "impl":
            owner, owned = impl(module, text, found)
        elif name:
            body = re.compile(r"[{;]").search(text, found.start())
            end = closed(text, body.start()) if body[0] == "{" else body.end()
            module.define([f"{kind} {name[0]}", f"type {name[0]}"], rust_lines(text[found.start() : end]))
    return module


def impl(module, text, found):
    """What an impl says of a type: its model, and the ghost members of a trait's impl. Returns the type, and where the impl ends."""
    head = re.match(r"(?:<[^{]*?> )?(?:(\w+)(?:<[^{]*?>)? for )?(\w+)", found[3])
    end = closed(text, text.index("{", found.start()))
    if not head or not head[1]:
        return (head[2] if head else ""), end
    ghosts = re.findall(r"^\s*ghost (?!use)[^;]*(?:\{[^;]*\})?;", text[found.start() : end], re.MULTILINE)
    # (an invariant is a premise of no clause: who makes a value meets it, and the view alone says what the value is)
    invariants = [it for it in ghosts if re.match(r"\s*ghost invariant\b", it)]
    if invariants:
        module.invariants[head[2]] = Definition(module, [f"invariant of {head[2]}"], [line for it in invariants for line in rust_lines(it)])
    ghosts = [it for it in ghosts if it not in invariants]
    for it in ghosts:
        # (of a trait's laws an impl has the proofs, which nobody needs to read)
        member = re.match(r"\s*ghost (\w+)", it)[1]
        module.define([f"{member} of {head[2]}"], rust_lines(it))
    if ghosts:
        names = [f"impl {head[1]} for {head[2]}"] + [f"model {head[2]}"] * (head[1] == "Model")
        module.define(names, [line for it in ghosts for line in rust_lines(it)])
    return head[2], end


def rust_lines(text):
    return [line for line in text.split("\n") if line.strip() and not line.strip().startswith(("//", "ghost use"))]


def rust_uses(text, path):
    """The names that a Rust `use` brings, each with the crate and the name there."""
    listed = re.match(r"(.*?)::\{(.*)\}$", text)
    if listed:
        # (a comma outside of inner braces parts them)
        for it in filter(None, re.findall(r"(?:[^,{]|\{(?:[^{}]|\{[^{}]*\})*\})+", listed[2])):
            yield from rust_uses(f"{listed[1]}::{it}", path)
        return
    whole, _, other = text.partition("@")
    words = whole.split("::")
    yield other or words[-1], (path.split(".")[1] if words[0] in ("crate", "self", "super") else words[0], words[-1])


def rust_files(folder):
    """Without tests."""
    files = glob.glob(os.path.join(folder, "src", "**", "*.rt"), recursive=True)
    return sorted(it for it in files if not re.search(r"/tests?(/|\.rt$)", it))


class Tree:
    """All files of a working tree."""

    def __init__(self, top):
        self.logic, self.code = {}, {}
        for crate in sorted(os.listdir(os.path.join(top, "crates"))):
            folder = os.path.join(top, "crates", crate)
            for part in ("specs", "proofs"):
                for file in glob.glob(os.path.join(folder, part, "**", "*.antt"), recursive=True):
                    inner = os.path.relpath(file, os.path.join(folder, part)).removesuffix(".antt").replace(os.sep, ".")
                    if part == "specs" or inner.rpartition(".")[2] not in ("Answers", "Invariants", "Facts"):
                        self.logic[f"Rattle.{crate}.{part}.{inner}"] = (file, None)
            self.code[crate] = [code_module(f"Rattle.{crate}.src", file) for file in rust_files(folder)]

    def module(self, path):
        file, module = self.logic[path]
        self.logic[path] = (file, module or logic_module(path, file))
        return self.logic[path][1]

    def at(self, path, name):
        """The definitions that a place names; a word of the kit as a text."""
        declared = re.match(r"Rattle\.(\w+)\.specs\.declared\.(?:.*\.)?(\w+)(\.TheVariants)?$", path)
        if declared and declared[1] in self.code:
            return self.of_type(declared[1], declared[2])
        if path in self.logic:
            module = self.module(path)
            if name in module.defined:
                return [module.defined[name]]
            return self.at(*module.brought[name]) if name in module.brought else []
        crate = re.match(r"Rattle\.(\w+)\.", path)
        return self.of_type(crate[1], name) if crate and crate[1] in self.code else [f"{path}.{name}"]

    def of_type(self, crate, name):
        """A Rust type or trait, and what its model says."""
        keys = (f"type {name}", f"model {name}")
        found = [it.defined[key] for it in self.code.get(crate, []) for key in keys if key in it.defined]
        passed = [it.passed_on[name] for it in self.code.get(crate, []) if name in it.passed_on]
        return self.of_type(*passed[0]) if not found and passed and passed[0] != (crate, name) else found

    def cited(self, definition):
        """What a definition cites."""
        module, found = definition.module, []
        for short, name in definition.words():
            if short in module.short:
                found += self.at(module.short[short], name)
            elif short is not None:
                continue
            elif name in module.defined and module.defined[name] is not definition:
                found.append(module.defined[name])
            elif name in module.brought:
                found += self.at(*module.brought[name])
            elif module.path.endswith(".src") and name[:1].isupper():
                found += self.of_type(*module.passed_on.get(name, (module.path.split(".")[1], name)))
        # (an operator is named by its parts; those of the kit need no word)
        for name, place in module.brought.items():
            if "◌" in name and place[0] in self.logic and all(it in "\n".join(definition.lines) for it in name.split("◌")):
                found += self.at(*place)
        return found

    def root(self, crate, item):
        """The definitions of a theorem's clauses; of any crate where none is named, or that one hasn't got it."""
        found = [it.defined[item] for it in self.code.get(crate, []) if item in it.defined]
        found = found or [it.defined[item] for files in self.code.values() for it in files if item in it.defined]
        if len(found) != 1:
            raise SystemExit(f"tools/trusted: {crate or 'all crates'} has {item!r} {len(found)} times")
        return found[0]

    def reached(self, left):
        """Some definitions and all that they cite, and the words of the kit."""
        seen, kit, left = {}, set(), [*left]
        while left:
            it = left.pop()
            if isinstance(it, str):
                kit.add(it)
            elif id(it) not in seen:
                seen[id(it)] = it
                left += self.cited(it)
        return [*seen.values()], kit
