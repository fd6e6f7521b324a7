"""A plain model of docs/SCRIPT.md: what a script prints.

A replica is a set of writes and a set of actions, each command goes over whole sets, and nothing is kept sorted. What a
text declares, which faults it has and what it prints is said by whoever made it, as a File.
"""
import collections
import hashlib
import sys

sys.dont_write_bytecode = True
from workspace import GREATEST, LONGEST_TEXTS, REFUSALS, Refused, directory, edition_of, is_counted, is_of_package, is_path, name_of, number, targets_of, text_error

# A chain of 1,000 imports is asked for its end before it answers.
sys.setrecursionlimit(20000)
# how many calls may be open, by edition
MOST_OPEN = {1: 1000, 2: 4000}
FAULTS = {1: "scan", 2: "leftout", 3: "parse", 4: "deep", 5: "size", 6: "packagename", 7: "noimport", 8: "cycle", 9: "program"}
FAULTS |= {10: "redeclared", 11: "undeclared", 12: "unusedimport", 13: "mismatch", 14: "range", 15: "constant", 16: "zero"}
FAULTS |= {17: "index", 18: "noreturn", 19: "assign", 20: "count", 21: "recursive", 22: "initcycle", 23: "main", 24: "branch", 25: "unexported"}
FAULTS |= {26: "large"}


def numeral(count):
    return count.to_bytes(8, "big")


def field(data):
    data = data.encode() if isinstance(data, str) else data
    return numeral(len(data)) + data


# the texts that were hashed, by their digests
HASHED = {}


def digest(text):
    """The digest of a text, which no other text has: so each script that the model runs is clear."""
    its = hashlib.sha256(text).digest()
    assert HASHED.setdefault(its, text) == text, "two texts clash"
    return its


def spelled(value):
    """A value as a program prints it."""
    return ("false", "true")[value] if isinstance(value, bool) else str(value)


class Export:
    """What a name is to importers: a letter, and the types and the value behind it. The value may hang on the exports of imports."""

    def __init__(self, letter, *types, value=None, results=()):
        self.letter, self.types, self.value, self.results = letter, types, value, results

    def text(self):
        """The fields of it in a summary's text, by docs/TEXTS.md."""
        text = field(self.letter)
        if self.letter == "F":
            return text + b"".join(numeral(len(part)) + b"".join(map(field, part)) for part in (self.types, self.results))
        return text + field(*self.types) + (field(spelled(self.value)) if self.letter == "C" else b"")


class Initial:
    """The place of a variable with a value of its own, or of the first that one call gives values; their names, of which `_` is none;
    what gives the values, by a run and the directory, and which of the package's names stand in it."""

    def __init__(self, at, names, values, uses=()):
        self.at, self.names, self.values, self.uses = at, names, values, uses


class File:
    """What a build makes of a text: its fault, or its package, its imports, and in their order the faults of checking and the
    names that it declares, each with its place; what it exports, and its functions; the initial values of its variables, what of
    the package its functions use by their names, and its functions init.

    The number of a fault may be asked of what the imports export, and so may all that it exports; nothing is no fault."""

    def __init__(self, text, name=None, at=(1, 9), fault=None, imports=(), items=(), prints=b"", exports=None, functions=None, initials=(), uses=None, inits=()):
        self.text, self.name, self.at, self.fault, self.items = text, name, at, fault, items
        self.initials, self.uses, self.inits = initials, uses or {}, inits
        self.imports = [Import(*it) for it in imports]
        self.exports = exports or (lambda seen: {})
        self.functions = functions or {it[0]: lambda run: run.write(prints) for it in items if it[0] == "main"}


class Import:
    """A line and a column, the path, the name that is given, and the name that the file refers to, if there is one."""

    def __init__(self, line, column, path, name=None, used=None):
        self.line, self.column, self.path, self.name, self.used = line, column, path, name, used


def led_to(uses, names):
    """These names of a package, and those that they use, and so on."""
    found, left = set(), list(names)
    while left:
        name = left.pop()
        if name not in found:
            found.add(name)
            left += uses.get(name, ())
    return found


class Cut(Exception):
    """A tick was wanted and none was left."""


class Panic(Exception):
    """A panic, by its word, and the text of a panic of the program's own."""


class Run:
    """A run of a program: the functions of its packages, by directory and name, the ticks that are left, the output, and how many
    calls may be open."""

    def __init__(self, functions, exports, ticks, packages, most_open):
        self.functions, self.exports, self.left, self.output, self.open = functions, exports, ticks, b"", 0
        self.variables, self.packages, self.most_open = {}, packages, most_open

    def tick(self):
        if self.left == 0:
            raise Cut
        self.left -= 1

    def write(self, text):
        self.output += text

    def print(self, *operands):
        self.output += " ".join(map(spelled, operands)).encode() + b"\n"

    def call(self, at, name, *arguments):
        return self.enter(self.functions[at][name], *arguments)

    def enter(self, function, *arguments):
        self.tick()
        if self.open == self.most_open:
            raise Panic("depth")
        self.open += 1
        result = function(self, *arguments)
        self.open -= 1
        return result

    def start(self):
        """What comes before main: package by package its variables get their values, then its functions init run."""
        for at, initials, inits in self.packages:
            for it in initials:
                for name, value in zip(it.names, it.values(self, at)):
                    if name != "_":
                        self.variables[(at, name)] = value
            for init in inits:
                self.enter(init, at)

    def told(self, start):
        """What the line of the run says of it, and what comes behind that line."""
        try:
            self.start()
            self.call(start, "main")
            return b"ended %d" % len(self.output), self.output
        except Cut:
            return b"cut %d" % len(self.output), self.output
        except Panic as why:
            kind, *text = why.args
            behind = [it.encode() for it in text]
            sizes = b"".join(b" %d" % len(it) for it in behind)
            return b"panic %s %d%s" % (kind.encode(), len(self.output), sizes), self.output + b"".join(it + b"\n" for it in behind)


class Replica:
    """Writes are (path, counter, number, text or None); actions are an edition, a directory, its files by name and text, and the
    summaries of its imports, by path and text."""

    def __init__(self, number):
        self.number, self.writes, self.actions = number, frozenset(), frozenset()

    def held(self):
        """The greatest write of each path."""
        order = lambda write: (write[1], write[2], write[3] is not None, write[3] or b"")
        return list({it[0]: it for it in sorted(self.writes, key=lambda write: (write[0], order(write)))}.values())

    def is_missing(self, path):
        return not any(it[0] == path and it[3] is not None for it in self.held())

    def edit(self, path, text):
        top = max((it[1] for it in self.writes), default=0)
        if top == GREATEST:
            raise Refused(6)
        return path, top + 1, self.number, text

    def packages(self):
        """The files of each directory's package, by name."""
        there = collections.defaultdict(list)
        for path, _, _, text in self.held():
            name = path.rpartition(b"/")[2]
            if text is not None and is_of_package(name):
                there[directory(path)].append((name, text))
        return there


def id_of(action):
    """The id of an action in hexadecimal digits, by docs/TEXTS.md."""
    edition, at, *parts = action
    text = field(b"goset action") + field(b"%d" % edition) + field(at)
    text += b"".join(numeral(len(part)) + b"".join(field(name) + field(digest(it)) for name, it in part) for part in parts)
    return digest(text).hex().encode()


def kept(method):
    """The method, of which the object keeps what it answers for each directory."""

    def ask(self, at):
        answers = self.answers.setdefault(method.__name__, {})
        if at not in answers:
            answers[at] = method(self, at)
        return answers[at]

    return ask


class Plan:
    """Of the directories that a target reaches in what a replica holds, by what each text is in an edition."""

    def __init__(self, edition, by_text, replica, target):
        self.edition, self.by_text, self.answers, self.known = edition, by_text, {}, {}
        self.packages, self.held = replica.packages(), replica.actions
        self.reached = self.reach(target)

    def files(self, at):
        return self.packages.get(at, [])

    def text_fault(self, text):
        """Of a text that is too long, or no file."""
        return (1, 1, 26) if len(text) > LONGEST_TEXTS[self.edition] else self.by_text[text].fault

    @kept
    def own_fault(self, at):
        """Of a directory's files, by themselves."""
        files = self.files(at)
        for name, text in files:
            if self.text_fault(text):
                return name, *self.text_fault(text)
        first = self.by_text[files[0][1]]
        for name, text in files:
            if self.by_text[text].name != first.name:
                return name, *self.by_text[text].at, 6
        return None

    @kept
    def specs(self, at):
        """The import specs of a directory, each with its file's name. One whose files don't stand together has none."""
        files = self.files(at)
        return [] if not files or self.own_fault(at) else [(name, it) for name, text in files for it in self.by_text[text].imports if it.path != b"fmt"]

    @kept
    def imports(self, at):
        return {it.path for _, it in self.specs(at) if self.files(it.path)}

    def reach(self, start):
        found, left = set(), [start]
        while left:
            at = left.pop()
            if at in self.known:
                found |= self.known[at]
            elif at not in found:
                found.add(at)
                left += self.imports(at)
        self.known[start] = found
        return found

    def is_program(self, at):
        files = self.files(at)
        return bool(files) and not any(self.text_fault(text) for _, text in files) and self.by_text[files[0][1]].name == "main"

    @kept
    def fault(self, at):
        files, specs = self.files(at), self.specs(at)
        kinds = (lambda path: not self.files(path), 7), (lambda path: at in self.reach(path), 8), (self.is_program, 9)
        ways = [(name, it.line, it.column, number) for holds, number in kinds for name, it in specs if holds(it.path)]
        return (self.own_fault(at) if files else None) or (ways[0] if ways else None)

    @kept
    def is_blocked(self, at):
        """Whether a fault below it, and none of its own plan, keeps it from being compiled: an import is faulty or blocked."""
        return not self.fault(at) and not all(self.is_good(it) for it in self.imports(at))

    @kept
    def is_good(self, at):
        return not self.fault(at) and not self.is_blocked(at) and not self.check_fault(at)

    def package(self, at):
        return "fmt" if at == b"fmt" else self.by_text[self.files(at)[0][1]].name

    @kept
    def exports(self, at):
        """What a good directory's package exports, by name."""
        seen = {it: self.exports(it) for it in self.imports(at)}
        return {name: it for _, text in self.files(at) for name, it in self.by_text[text].exports(seen).items()}

    @kept
    def summary(self, at):
        """The text of a good directory's summary."""
        exports = sorted((name.encode(), it) for name, it in self.exports(at).items())
        head = field(b"goset summary") + field(at) + field(self.package(at)) + numeral(len(exports))
        return head + b"".join(field(name) + it.text() for name, it in exports)

    @kept
    def action(self, at):
        """Of a directory whose imports are good."""
        return self.edition, at, tuple(self.files(at)), tuple((it, self.summary(it)) for it in sorted(self.imports(at)))

    def actions(self):
        return [self.action(it) for it in self.reached if not self.fault(it) and not self.is_blocked(it)]

    def import_faults(self, text, names):
        """Of a file's import specs, beside the names that its package declares."""
        seen = set(names)
        for it in self.by_text[text].imports:
            name = it.name.decode() if it.name else self.package(it.path)
            if name == "_":
                continue
            if name in seen:
                yield it.line, it.column, 10
            elif name != it.used:
                yield it.line, it.column, 12
            seen.add(name)

    @kept
    def check_fault(self, at):
        """Of a package without a plan's fault, whose imports are good."""
        files, seen = self.files(at), {it: self.exports(it) for it in self.imports(at)}
        names, declared = {it[0] for _, text in files for it in self.by_text[text].items if isinstance(it[0], str)}, set()
        for name, text in files:
            for fault in self.import_faults(text, names):
                return name, *fault
            for kind, line, column in self.by_text[text].items:
                kind = kind(seen) if callable(kind) else 10 if kind in declared else kind
                if isinstance(kind, int):
                    return name, line, column, kind
                declared.add(kind)
        first = self.by_text[files[0][1]]
        if first.name == "main" and "main" not in names:
            return files[0][0], *first.at, 23
        return next(((name, *it.at, 22) for name, it in self.initials(at)[1]), None)

    @kept
    def initials(self, at):
        """The initial values of a directory's variables in their order, and those that are left over, each with its file's name.

        The next is always the first that leads to none that is left."""
        files = [(name, self.by_text[text]) for name, text in self.files(at)]
        left, order = [(name, it) for name, file in files for it in file.initials], []
        uses = {key: names for _, file in files for key, names in file.uses.items()}
        uses.update({key: it.uses for _, it in left for key in it.names})
        while True:
            waiting = {key for _, it in left for key in it.names}
            ready = next((one for one in left if not led_to(uses, one[1].uses) & waiting), None)
            if not ready:
                return order, left
            left.remove(ready)
            order.append(ready)

    def in_order(self):
        """The directories of a good program: always the first by path whose imports all stand before it."""
        left, order = sorted(self.reached), []
        while left:
            at = next(it for it in left if all(other in order for other in self.imports(it)))
            left.remove(at)
            order.append(at)
        return order

    @kept
    def is_held(self, at):
        """Whether a result is held of a directory whose imports are good."""
        return self.action(at) in self.held

    @kept
    def is_standing(self, at):
        """Whether a directory is held and good, and so is each that it imports."""
        return self.is_good(at) and all(self.is_standing(it) for it in self.imports(at)) and self.is_held(at)

    def standing(self, at):
        """What ids say of a directory: nothing where one that it imports isn't held and good."""
        if self.fault(at) or not all(self.is_standing(it) for it in self.imports(at)):
            return b"none"
        return id_of(self.action(at)) + (b" held" if self.is_held(at) else b" absent")

    def report(self, name, target, count):
        """What a build of so many actions prints of this target."""
        bad = [it for it in sorted(self.reached) if not self.is_good(it)]
        summary = b"faults %d" % len(bad) if bad else b"ok %d" % len(self.reached)
        return b"build %s %s %s compiled %d\n" % (name, target, summary, count) + b"".join(self.line(it) for it in bad)

    def line(self, at):
        """What a report says of a directory that isn't good."""
        if self.is_blocked(at):
            return b"blocked %s\n" % at
        fault = self.fault(at) or self.check_fault(at)
        return b"fault %s/%s:%d:%d %d %s\n" % (at, *fault, FAULTS[fault[3]].encode())

    def run(self, at, ticks):
        """What a run of a program all of whose actions are held prints behind its words."""
        functions = {it: {name: f for _, text in self.files(it) for name, f in self.by_text[text].functions.items()} for it in self.reached}
        packages = [(it, [one for _, one in self.initials(it)[0]], [f for _, text in self.files(it) for f in self.by_text[text].inits]) for it in self.in_order()]
        return Run(functions, {it: self.exports(it) for it in self.reached}, ticks, packages, MOST_OPEN[self.edition]).told(at)


class World:
    """The replicas of a session, the edition that commands go by, and what texts are, some of them something else in the second."""

    def __init__(self, script, by_text, edition=1, second=None):
        self.left, self.edition, self.replicas, self.printed = script, edition, {}, b""
        self.by_text = {1: by_text, 2: collections.ChainMap(second or {}, by_text)}

    def plan(self, replica, at):
        return Plan(self.edition, self.by_text[self.edition], replica, at)

    def line(self):
        line, _, self.left = self.left.partition(b"\n")
        return line

    def text(self, count):
        """The next lines, and whether there are so many."""
        text, lacks = b"", False
        while count and not lacks:
            lacks = not self.left
            text += b"" if lacks else self.line() + b"\n"
            count -= 1
        return text, lacks

    def replica(self, name):
        if name not in self.replicas:
            raise Refused(2)
        return self.replicas[name]

    def run(self):
        while self.left:
            line = self.line()
            words = [it for it in line.removesuffix(b"\r").split(b" ") if it]
            if not words:
                continue
            try:
                self.printed += self.answer(*words) or b""
            except Refused as why:
                self.printed += b"refused %d %s\n" % (why.args[0], REFUSALS[why.args[0]][0].encode())
        return self.printed

    def answer(self, command, *words):
        if not is_counted(command, words):
            raise Refused(1)
        return getattr(self, "do_" + command.decode())(*words)

    def do_replica(self, word):
        name = name_of(word)
        if len(self.replicas) == 64:
            raise Refused(1)
        if name in self.replicas:
            raise Refused(3)
        self.replicas[name] = Replica(len(self.replicas) + 1)

    def do_write(self, word, path, lines):
        name, (text, lacks) = name_of(word), self.text(number(lines))
        replica = self.replica(name)
        if not is_path(path):
            raise Refused(4)
        write = replica.edit(path, text)
        if lacks or text_error(text, self.edition):
            raise Refused(7)
        replica.writes |= {write}

    def do_remove(self, word, path):
        replica = self.replica(name_of(word))
        if not is_path(path):
            raise Refused(4)
        if replica.is_missing(path):
            raise Refused(5)
        replica.writes |= {replica.edit(path, None)}

    def do_apply(self, word, path, counter, by, lines):
        name, version = name_of(word), (number(counter, 1), number(by, 1, 2**32 - 1))
        text, lacks = (None, False) if lines == b"-" else self.text(number(lines))
        replica = self.replica(name)
        if not is_path(path):
            raise Refused(4)
        if lacks or text is not None and text_error(text, self.edition):
            raise Refused(7)
        replica.writes |= {(path, *version, text)}

    def do_edition(self, word):
        self.edition = edition_of(word)

    def do_merge(self, word, other):
        name, other = name_of(word), name_of(other)
        replica, other = self.replica(name), self.replica(other)
        replica.writes |= other.writes
        replica.actions |= other.actions

    def do_settle(self):
        writes = frozenset().union(*(it.writes for it in self.replicas.values()))
        actions = frozenset().union(*(it.actions for it in self.replicas.values()))
        for replica in self.replicas.values():
            replica.writes, replica.actions = writes, actions

    def do_show(self, word):
        held = self.replica(name_of(word)).held()
        lines = [b"show %s %d\n" % (word, len(held))]
        for path, counter, by, text in held:
            lines.append(b"%s %d.%d %s\n" % (path, counter, by, b"removed" if text is None else b"text %d" % len(text)))
        return b"".join(lines)

    def do_build(self, *words):
        """All replicas that are named share what each of them holds and what is compiled."""
        targets = targets_of(words)
        replicas = [self.replica(name) for name, _ in targets]
        plans = [self.plan(replica, at) for replica, (_, at) in zip(replicas, targets)]
        if not all(plan.files(at) for plan, (_, at) in zip(plans, targets)):
            raise Refused(8)
        held = frozenset().union(*(it.actions for it in replicas))
        sought = frozenset().union(*(plan.actions() for plan in plans))
        for replica in replicas:
            replica.actions = held | sought
        return b"".join(plan.report(*target, len(sought - held)) for plan, target in zip(plans, targets))

    def do_ids(self, word, at):
        plan = self.plan(self.replica(name_of(word)), at)
        if not plan.files(at):
            raise Refused(8)
        lines = [b"id %s %s\n" % (it, plan.standing(it)) for it in sorted(plan.reached)]
        return b"ids %s %s %d\n" % (word, at, len(lines)) + b"".join(lines)

    def do_run(self, word, at, ticks):
        name, ticks = name_of(word), number(ticks)
        plan = self.plan(self.replica(name), at)
        if not plan.files(at):
            raise Refused(8)
        if not all(plan.is_good(it) and plan.is_held(it) for it in plan.reached) or plan.package(at) != "main":
            raise Refused(9)
        line, behind = plan.run(at, ticks)
        return b"run %s %s %s\n" % (word, at, line) + behind
