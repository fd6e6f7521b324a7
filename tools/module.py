"""Cuts the LLVM module that `rt try` makes of a program into parts that can be compiled side by side.

What the module has for a try alone is left out: the checks, the filling of local variables, the address sanitizer. Functions get the
inline attributes of their sources, which `rt try` doesn't write. With a function stand in one part those that it alone calls, and of small
functions each part has a copy that calls them, so that what would be inlined in one module is inlined in the part.
"""
import glob
import os
import re

# A function that with those which it alone calls has more lines of LLVM's text than these is in one part.
LINES_OF_A_COPY = 200
TRIED = re.compile(rb'^  call void (?:@"rattle-(?:llvm-checks::|try::site-\d+"\(\))|@llvm\.memset\.p0\.i64\(ptr %r\d+, i8 -86, ).*\n', re.MULTILINE)
FUNCTION = re.compile(rb'^define [^@]*@("[^"]*"|\w+)\(.*?^}\n', re.MULTILINE | re.DOTALL)
NAME = re.compile(rb'@("[^"]*"|\w+)')
ELSEWHERE = re.compile(rb"^(?:declare|attributes|target|!).*\n", re.MULTILINE)
VARIABLE = re.compile(rb"^@.*\n", re.MULTILINE)
INLINED = re.compile(
    r"#\[(inline\(always\)|inline\(never\)|cold)\]\s*(?:(?:#\[|//)[^\n]*\s*)*"
    r"(?:pub(?:\([^)]*\))? )?(?:const )?(?:unsafe )?(?:extern \"C\" )?fn (\w+)"
)
# The numbers of LLVM's attributes that a function has beside those that all have, and what is written for each.
GROUPS = {"inline(always)": 901, "inline(never)": 902, "cold": 903}
WORDS = {901: b"alwaysinline", 902: b"noinline", 903: b"cold noinline"}
COMMON = b'nounwind "probe-stack"="inline-asm" "stack-probe-size"="3072" "target-cpu"="x86-64-v2"'
# What attributes are in a try and in a program.
ATTRIBUTES = {b" sanitize_address": b"", b' "frame-pointer"="all"': b"", b'"target-cpu"="x86-64"': b'"target-cpu"="x86-64-v2"', b"{ }": b"{ nounwind }"}


def inlined(folders):
    """The numbers of attributes of functions, by module and name, of the crates whose sources are in these folders."""
    found = {}
    for folder in folders:
        for path in glob.glob(os.path.join(folder, "**", "*.rt"), recursive=True):
            inside = [it for it in os.path.relpath(path, folder)[:-3].split("/") if it not in ("lib", "main", "mod")]
            with open(path, encoding="utf-8", errors="replace") as file:
                for kind, name in INLINED.findall(file.read()):
                    found["::".join([os.path.basename(os.path.dirname(folder)), *inside]), name] = GROUPS[kind]
    return found


def group_of(name, known):
    """The number of the attributes of a function, whose name has its module, then the type of its impl, if any, then its own; or 0."""
    *path, own = name.strip(b'"').decode().partition("::<")[0].partition("+")[0].split("::")
    return known.get(("::".join(path), own)) or known.get(("::".join(path[:-1]), own), 0)


class Module:
    """A program: its functions' texts and what each calls, by name and in their order, and the other lines."""

    def __init__(self, text, known):
        self.functions = {found[1]: TRIED.sub(b"", found[0]) for found in FUNCTION.finditer(text)}
        rest = FUNCTION.sub(b"", text)
        self.variables, self.others = VARIABLE.findall(rest), []
        for line in ELSEWHERE.findall(rest):
            for word, other in ATTRIBUTES.items() if line.startswith(b"attributes ") else ():
                line = line.replace(word, other)
            self.others.append(line)
        self.others += [b"attributes #%d = { %s %s }\n" % (group, words, COMMON) for group, words in WORDS.items()]
        self.named = {it for line in self.variables for it in NAME.findall(line)}
        self.calls, left = {}, [b"main", *self.named]
        while left:
            name = left.pop()
            if name in self.functions and name not in self.calls:
                self.calls[name] = set(NAME.findall(self.functions[name])) - {name}
                left += self.calls[name]
        # (others aren't reached from main)
        for name in [*self.functions]:
            its = self.functions.pop(name)
            if name in self.calls:
                self.functions[name] = its.replace(b" #0 {\n", b" #%d {\n" % group_of(name, known), 1)

    def groups(self):
        """The functions in groups, by the first of each: with a function stand those that it alone calls, which may be inlined there."""
        # (what a variable names stands in one part, as if several called it)
        callers, first, found = {name: [b"", b""] for name in self.named}, {}, {}
        for name, called in self.calls.items():
            for it in called:
                callers.setdefault(it, []).append(name)
        for name in self.functions:
            chain = [name]
            while chain[-1] not in first and len(callers.get(chain[-1], ())) == 1 and callers[chain[-1]][0] not in chain:
                chain.append(callers[chain[-1]][0])
            first.update(dict.fromkeys(chain, first.get(chain[-1], chain[-1])))
        for name in self.functions:
            found.setdefault(first[name], []).append(name)
        return found

    def is_copied(self, name, group):
        """Whether each part has a group that calls its first function."""
        text, lines = self.functions[name], sum(self.functions[it].count(b"\n") for it in group)
        return name != b"main" and name not in self.named and (lines <= LINES_OF_A_COPY or b" #901 {\n" in text[: text.index(b"\n") + 1])

    def copies(self, names, copied):
        """The groups to be copied that some functions call, and these, and so on."""
        found, left = set(), [it for name in names for it in self.calls[name]]
        while left:
            name = left.pop()
            if name in copied and name not in found:
                found.update(copied[name])
                left += [it for inside in copied[name] for it in self.calls[inside]]
        return found

    def homes(self, groups, count):
        """The functions of groups in so many rows of about the same length; neighbours call one another."""
        sizes = {name: sum(len(self.functions[it]) for it in group) for name, group in groups.items()}
        whole, rows, done = sum(sizes.values()), [[] for _ in range(count)], 0
        for name, group in groups.items():
            rows[min(done * count // whole, count - 1)] += group
            done += sizes[name]
        return [it for it in rows if it]


def declaration(text):
    head = text[: text.index(b"\n")]
    return head.replace(b"define internal ", b"declare hidden ").replace(b"define ", b"declare ").removesuffix(b" {") + b"\n"


def parts(module, count):
    """The texts of the parts."""
    groups = module.groups()
    copied = {name: group for name, group in groups.items() if module.is_copied(name, group)}
    rows = module.homes({name: group for name, group in groups.items() if name not in copied}, count)
    inside = [{*row} | module.copies(row, copied) for row in rows]
    needs = [{it for name in names for it in module.calls[name]} - names for names in inside]
    shared = set().union(*needs, *(NAME.findall(line) for line in module.variables))
    for at, names in enumerate(inside):
        as_here = b" = hidden " if at == 0 else b" = available_externally hidden "
        text = module.others + [line.replace(b" = private ", as_here, 1) for line in module.variables]
        text += [declaration(module.functions[it]) for it in sorted(needs[at]) if it in module.functions]
        for name in filter(names.__contains__, module.functions):
            linkage = b"define hidden " if name in shared else b"define internal "
            text.append(module.functions[name].replace(b"define internal ", linkage, 1))
        yield b"".join(text)
