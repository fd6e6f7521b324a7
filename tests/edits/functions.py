"""The functions of a source file, as rt fmt lays them out."""
import re

# What is said of a proof file that names what an edit took away tells nothing of a contract.
LOST = re.compile(r"(\./)?proofs/.*(has no field|is not in scope|has no `|was not admitted)")

# What is said where no proof of a function is written, and the search left a goal. (A loop without a measure has no goal.)
SEARCHED = re.compile(r"fn \w+::(?P<at>\S+): no proof: .*`search` did not prove (?P<goal>`.*)")
PLACED = re.compile(r"(?:note: )?(?:\./)?src/(?P<at>\S+?)\.rt:\d+:\d+: it is not proved that .*? \((?P<goal>`[^`]+`)\)")
UNMEASURED = re.compile(r"fn \w+::(?P<at>\S+): no proof: expected a measure")
# What is said where a proof is written, and doesn't prove the goal.
ANSWERED = re.compile(r"(?:note: )?(?:\./)?proofs/(?P<at>\S+?)/(?:Answers|Invariants|Proof)\S*:\d+:\d+: error: (?P<goal>`[^`]+`)")


def modules_of(file):
    """The modules that a source file is."""
    found = re.fullmatch(r"src/(.+)\.rt", file)[1].split("/")
    return [] if found in (["lib"], ["main"]) else found


class Function:
    """A function of a source file: its lines, its type and the trait, if it has any, the cycle of calls that it is in, the name that tells
    it from others, and what `rt check --only` calls it, if it does."""

    def __init__(self, file, lines, first, owner, name, cycle, home):
        self.file, self.first, self.last, self.name = file, first, first + len(lines) - 1, name
        # (a function that calls itself is a cycle of its own)
        self.text, self.types, self.cycle, self.is_of_cycle = "\n".join(lines), owner or (), cycle or name, cycle is not None
        # (the prover has a type's functions where the type is)
        self.modules = modules_of(home)
        self.key = file, first
        self.word = None if owner is None else "::".join([*self.modules, *filter(None, ["".join(owner)]), name])

    def is_meant(self, line):
        """Whether a line says that a goal of the function isn't proved."""
        found = SEARCHED.match(line) or ANSWERED.match(line)
        goals = re.findall("`([^`]+)`", found["goal"].partition(";")[0]) if found else []
        of_it = [it for it in goals if self.cycle == self.name or it.startswith(f"{self.name}-")]
        if found and f"+{self.cycle}" in re.split("/|::", found["at"]):
            return bool(of_it)
        if SEARCHED.match(line):
            return found["at"] == self.word and (not self.is_of_cycle or bool(of_it))
        place = re.match(r"(note: )?(\./)?(\S+?):(\d+):\d+: (.*)", line)
        if not place or not re.search(r"\berror\b|is not proved", place[5]):
            return False
        if place[3] == self.file:
            return self.first <= int(place[4]) <= self.last
        return self.is_proved_in(place[3]) and not LOST.match(line.removeprefix("note: "))

    def is_proved_in(self, file):
        """Whether a file has a part of the function's proof."""
        return file.startswith("/".join(["proofs", *self.modules]) + "/") and bool({self.name, f"+{self.cycle}"} & {*file.split("/")})

    def loses_a_name(self, line):
        """Whether a line says that the function's proof names what isn't there."""
        line = line.removeprefix("note: ")
        return bool(LOST.match(line)) and self.is_proved_in(line.removeprefix("./").partition(":")[0])

    def is_proved(self, lines):
        """Whether lines of a check say that the function is proved, or would be where no other had a hole."""
        told = rf"fn \w+::{re.escape(self.word or '')}: (proved|no holes|depends on a hole in .*)"
        return self.word is not None and any(re.fullmatch(told, it) for it in lines)

    def has_no_measure(self, line):
        """Whether a line says that a loop of the function has no measure, so that no goal of it was tried."""
        found = UNMEASURED.match(line)
        return bool(found) and found["at"] == self.word


def types_in(text):
    """The types that a source file declares."""
    return re.findall(r"(?m)^(?:pub(?:\(.*?\))? )?(?:struct|enum) (\w+)", text)


def functions_in(file, text, homes=()):
    """The functions of a source file of a crate that declares types in other files."""
    found, owner, indent, begun, cycle, lines = [], (), "", None, None, text.split("\n")
    for number, line in enumerate(lines, 1):
        if line.startswith("impl"):
            head = re.match(r"impl(?:<.*?>)? (?:(\w+)(?:<(\w+)>)? for )?(\w+)(?:<.*>)? \{$", line)
            owner, indent = (head[3], (head[1] or "") + (head[2] or "")) if head else None, "    "
        elif line == "}" and indent and not begun:
            owner, indent = (), ""
        cycle = (re.match(r"\s*#\[cycle\((\w+)\)\]", line) or [None, cycle])[1]
        head = re.match(indent + r"(?:pub(?:\(.*?\))? )?(?:const )?fn (\w+)", line)
        if head:
            begun = number, head[1]
        if begun and line == indent + "}":
            home = dict(homes).get(owner[0], file) if owner and not owner[1] else file
            found.append(Function(file, lines[begun[0] - 1 : number], begun[0], owner, begun[1], cycle, home))
            begun, cycle = None, None
    return found
