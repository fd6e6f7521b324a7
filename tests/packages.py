"""Random packages that import one another, each beside what it means: python that counts its own ticks.

A workspace has a program and a few packages below it. A declaration keeps its text and a function of a run; an edit gives
one another body or value, takes it from what is exported or back, or moves it. What importers may use keeps its type. The
meaning is by hand: operands from the left, each read when it is reached; a tick at each entry into a function behind its
arguments, and at each turn of a loop.
"""
import random
import re

from model import Export, File, Initial, Panic, led_to

KINDS = {"int": (64, True), "int8": (8, True), "uint8": (8, False), "int16": (16, True), "uint64": (64, False)}
LONGEST = 16_777_216
LINE = b"package main\n"
# which functions may call which: main and init all others, and what gives an initial value those too
MAIN, INITIAL = -1, -2


def wrapped(kind, value):
    bits, signed = KINDS[kind]
    value &= (1 << bits) - 1
    return value - (1 << bits) if signed and value >> (bits - 1) else value


class Type:
    """A basic type; an array of three; or one that a package declares, whose fields all have types."""

    def __init__(self, kind, name=None, owner=None, part=None, fields=()):
        self.kind, self.name, self.owner, self.part, self.fields = kind, name, owner, part, fields

    def spelled(self, number):
        """As a file of a package writes it."""
        if self.owner is not None:
            return self.name if self.owner == number else f"p{self.owner}.{self.name}"
        return f"[3]{self.part.spelled(number)}" if self.part else self.kind

    def hashed(self):
        """As summaries' texts have it."""
        if self.part:
            return f"[3]{self.part.hashed()}"
        under = "struct{" + "".join(f"{self.field(n)} {t.hashed()};" for n, t in self.fields) + "}" if self.fields else self.kind
        return under if self.owner is None else f"(d{self.owner}.{self.name} {under})"

    def field(self, name):
        return name if name[0].isupper() else f"d{self.owner}.{name}"

    def zero(self):
        if self.part:
            return 3 * (self.part.zero(),)
        if self.fields:
            return tuple(t.zero() for _, t in self.fields)
        return {"bool": False, "string": ""}.get(self.kind, 0)

    def owners(self):
        """The packages that a file imports to write it."""
        return {self.owner} if self.owner is not None else self.part.owners() if self.part else set()


INT, BOOL, STRING = Type("int"), Type("bool"), Type("string")
BASIC = [Type(kind) if kind != "int" else INT for kind in KINDS]


class Declared:
    """A declaration of a package: its key, which is its name where that is exported, and what it is."""

    def __init__(self, key, letter, of=None, parameters=(), results=()):
        self.key, self.letter, self.of, self.parameters, self.results = key, letter, of, parameters, results
        self.is_shown, self.file, self.text, self.meaning = True, 0, None, None
        self.index, self.giver = None, None

    @property
    def name(self):
        return self.key if self.is_shown else self.key.lower()

    def export(self, value):
        if self.letter == "F":
            return Export("F", *(t.hashed() for t in self.parameters), results=[t.hashed() for t in self.results])
        return Export(self.letter, self.of.hashed() if isinstance(self.of, Type) else self.of, value=value)


class Body:
    """Writes the body of a function: lines, and what they do to the frame of a run. A frame has the run and the locals by name."""

    def __init__(self, rand, package, index):
        self.random, self.package, self.index, self.names, self.scopes, self.loops = rand, package, index, 0, [[]], 0
        # most initial values use nothing of their package, so that few depend on themselves
        self.is_apart = index == INITIAL and self.chance(70)

    def chance(self, percent):
        return self.random.randrange(100) < percent

    def new(self):
        self.names += 1
        return f"v{self.names}"

    # ---- expressions: the type, the text and what gives the value of a frame

    def locals(self, fits):
        return [(of, name) for scope in self.scopes for name, of in scope if fits(of)]

    def variables(self, fits):
        """All that is read and assigned: a type, a text, what reads it, what assigns to it."""
        found = []
        for of, name in self.locals(fits):
            found.append((of, name, lambda f, n=name: f[n], lambda f, v, n=name: f.__setitem__(n, v)))
        for number, it in self.package.seen("V"):
            if fits(it.of) and not (self.is_apart and number == self.package.number):
                at = (f"d{number}".encode(), it.key)
                read = lambda f, at=at, of=it.of: f["run"].variables.get(at, of.zero())
                found.append((it.of, self.package.spelled(number, it), read, lambda f, v, at=at: f["run"].variables.__setitem__(at, v)))
        return found

    def variable(self, fits):
        return self.random.choice(self.variables(fits))

    def integer(self):
        """A variable of an integer type, or a part of one."""
        return self.variable(lambda of: of.kind in KINDS and not of.part and not of.fields)

    def of_type(self, of):
        """A variable of this type, which each function has of the basic ones."""
        return self.variable(lambda it: it is of)

    def value(self, of, depth):
        """A value that isn't constant."""
        choice = self.random.randrange(10)
        if depth > 0 and choice < 3:
            call = self.call(of, depth)
            if call:
                return call
        if of.part or of.fields or depth <= 0:
            return self.of_type(of)[1:3]
        if of.kind == "bool":
            return self.truth(depth)
        return self.joined(depth) if of.kind == "string" else self.number(of, depth, choice)

    def number(self, of, depth, choice):
        left, read = self.of_type(of)[1:3]
        if choice < 5:
            other, text, get, _ = self.integer()
            return f"{of.spelled(self.package.number)}({text})" if other is not of else text, lambda f: wrapped(of.kind, get(f))
        if choice == 5 and of is INT:
            text, get = self.value(STRING, depth - 1)
            return f"len({text})", lambda f: len(get(f))
        if choice == 6:
            constants = [(n, it) for n, it in self.package.seen("C") if it.of == ("untyped int" if of is INT else of)]
            if constants:
                at, it = self.random.choice(constants)
                return f"({left} - {self.package.spelled(at, it)})", lambda f: wrapped(of.kind, read(f) - f["run"].functions[b"d%d" % at][it.key](f["run"]))
        right, get = self.value(of, depth - 1)
        word, what = self.random.choice([("+", int.__add__), ("-", int.__sub__), ("*", int.__mul__), ("^", int.__xor__), ("&", int.__and__), ("/", quotient), ("%", rest), ("<<", None), (">>", None)])
        if what is None:
            return f"({left} {word} {right})", lambda f: shifted(of.kind, word, read(f), get(f))
        if what in (quotient, rest) and self.chance(90):
            return f"({left} {word} ({right} | 1))", lambda f: wrapped(of.kind, what(read(f), get(f) | 1))
        return f"({left} {word} {right})", lambda f: wrapped(of.kind, what(read(f), get(f)))

    def truth(self, depth):
        if self.chance(30):
            (left, one), (right, other), word = self.value(BOOL, depth - 1), self.value(BOOL, depth - 1), self.random.choice(["&&", "||"])
            return f"({left} {word} {right})", lambda f: one(f) and other(f) if word == "&&" else one(f) or other(f)
        of, left, read, _ = self.variable(lambda it: True)
        right, get = self.value(of, depth - 1)
        if of.kind in KINDS or of.kind == "string" and not of.part:
            word = self.random.choice(["<", "==", ">="])
            return f"({left} {word} {right})", lambda f: compared(word, read(f), get(f))
        return f"({left} == {right})", lambda f: same(read(f), get(f))

    def joined(self, depth):
        left, read = self.of_type(STRING)[1:3]
        constants = [(n, it) for n, it in self.package.seen("C") if it.of == "untyped string"]
        if constants and self.chance(50):
            at, it = self.random.choice(constants)
            return f"({left} + {self.package.spelled(at, it)})", lambda f: long(read(f) + f["run"].functions[b"d%d" % at][it.key](f["run"]))
        right, get = self.value(STRING, depth - 1)
        return f"({left} + {right})", lambda f: long(read(f) + get(f))

    def callable(self, fits):
        """Functions that come behind this one, so that calls end, of whose parameters' types there are variables."""
        behind = [(n, it) for n, it in self.package.seen("F") if (n > self.package.number or it.index > self.index and not self.is_apart) and fits(it)]
        return [(n, it) for n, it in behind if all(self.variables(lambda t, of=of: t is of) for of in it.parameters)]

    def call(self, of, depth):
        found = self.callable(lambda it: [*it.results] == ([of] if of else []))
        if not found:
            return None
        number, it = self.random.choice(found)
        given = [self.value(t, depth - 1) for t in it.parameters]
        text = f"{self.package.spelled(number, it)}({', '.join(text for text, _ in given)})"
        return text, lambda f: f["run"].call(b"d%d" % number, it.key, *[get(f) for _, get in given])

    # ---- statements: lines, and what they do; what that answers is None, or how the block is left

    def block(self, depth):
        self.scopes.append([])
        made = [self.statement(depth) for _ in range(self.random.randrange(1, 4))]
        self.scopes.pop()
        return ["\t" + line for lines, _ in made for line in lines], lambda f: done([do for _, do in made], f)

    def statement(self, depth):
        kinds = [self.define, self.assign, self.assign, self.both, self.update, self.element, self.print, self.print, self.performed]
        kinds += [self.branch, self.loop, self.walk, self.choice] if depth > 0 else []
        kinds += [self.leave] if self.loops else []
        kinds += [self.stop] if self.chance(10) else []
        return self.random.choice(kinds)(depth)

    def define(self, depth):
        """Also of a type that this package can't write."""
        of = self.variable(lambda it: True)[0]
        found = self.callable(lambda it: len(it.results) == 1)
        if found and self.chance(50):
            of = self.random.choice(found)[1].results[0]
        (text, get), name = self.call(of, 1) or self.value(of, 2), self.new()
        self.scopes[-1].append((name, of))
        return [f"{name} := {text}", f"_ = {name}"], lambda f: f.__setitem__(name, get(f))

    def assign(self, depth):
        of, left, _, put = self.variable(lambda it: True)
        text, get = self.value(of, 3)
        return [f"{left} = {text}"], lambda f: put(f, get(f))

    def both(self, depth):
        (one, left, _, put), (other, right, _, set_) = self.variable(lambda it: True), self.variable(lambda it: True)
        (first, get), (second, read) = self.value(one, 1), self.value(other, 1)

        def do(f):
            values = get(f), read(f)
            put(f, values[0])
            set_(f, values[1])

        return [f"{left}, {right} = {first}, {second}"], do

    def update(self, depth):
        of, left, read, put = self.integer()
        if self.chance(40):
            return [left + "++"], lambda f: put(f, wrapped(of.kind, read(f) + 1))
        text, get = self.value(of, 2)
        return [f"{left} -= {text}"], lambda f: put(f, wrapped(of.kind, read(f) - get(f)))

    def element(self, depth):
        """An element of an array, now and then out of range; the bounds are tested when it is assigned."""
        found = self.variables(lambda of: bool(of.part))
        if not found:
            return self.update(depth)
        of, left, read, put = self.random.choice(found)
        index, at = self.value(INT, 1)
        index, at = (f"({index}) & 1", lambda f, at=at: at(f) & 1) if self.chance(90) else (index, at)
        text, get = self.value(of.part, 2)

        def do(f):
            k = at(f)
            v = get(f)
            if not 0 <= k < 3:
                raise Panic("index")
            put(f, tuple(v if j == k else old for j, old in enumerate(read(f))))

        return [f"{left}[{index}] = {text}"], do

    def print(self, depth):
        given = [self.value(self.variable(lambda of: not of.part and not of.fields)[0], 2) for _ in range(self.random.randrange(1, 4))]
        found = self.variables(lambda of: bool(of.fields))
        if found and self.chance(40):
            of, text, get, _ = self.random.choice(found)
            k = self.random.choice([k for k, (n, t) in enumerate(of.fields) if not t.part and (n[0].isupper() or of.owner == self.package.number)])
            given.append((f"{text}.{of.fields[k][0]}", lambda f: get(f)[k]))
        return [f"fmt.Println({', '.join(text for text, _ in given)})"], lambda f: f["run"].print(*[get(f) for _, get in given])

    def performed(self, depth):
        found = self.call(None, 2)
        if not found:
            return self.print(depth)
        text, get = found
        return [text], lambda f: get(f)

    def branch(self, depth):
        (text, get), (lines, do), (others, other) = self.truth(2), self.block(depth - 1), self.block(depth - 1)
        return [f"if {text} {{", *lines, "} else {", *others, "}"], lambda f: do(f) if get(f) else other(f)

    def turns(self, depth, name=None):
        """The body of a loop."""
        self.loops += 1
        self.scopes.append([(name, INT)] if name else [])
        lines, do = self.block(depth - 1)
        self.scopes.pop()
        self.loops -= 1
        return lines, do

    def loop(self, depth):
        name, most = self.new(), self.random.randrange(4)
        lines, do = self.turns(depth)

        def run(f):
            f[name] = 0
            while f[name] < most:
                f["run"].tick()
                left = do(f)
                if left == "break":
                    break
                if left not in (None, "continue"):
                    return left
                f[name] = f[name] + 1
            return None

        return [f"for {name} := 0; {name} < {most}; {name}++ {{", *lines, "}"], run

    def walk(self, depth):
        name, (text, get) = self.new(), self.value(INT, 1)
        lines, do = self.turns(depth, name)

        def run(f):
            for k in range(get(f) & 3):
                f["run"].tick()
                f[name] = k
                left = do(f)
                if left == "break":
                    break
                if left not in (None, "continue"):
                    return left
            return None

        return [f"for {name} := range ({text}) & 3 {{", *lines, "}"], run

    def choice(self, depth):
        of, tag, read, _ = self.variable(lambda it: not it.part and not it.fields and it.kind != "bool")
        self.loops, loops = 0, self.loops
        cases = [(*self.value(of, 1), *self.block(depth - 1)) for _ in range(2)]
        others, other = self.block(depth - 1)
        self.loops = loops
        falls = self.chance(30)

        def run(f):
            value = read(f)
            for k, (_, get, _, do) in enumerate(cases):
                if same(get(f), value):
                    left = do(f)
                    return other(f) if left is None and falls and k == 1 else left
            return other(f)

        lines = [line for k, (text, _, inner, _) in enumerate(cases) for line in [f"case {text}:", *inner, *(["\tfallthrough"] if falls and k == 1 else [])]]
        return [f"switch {tag} {{", *lines, "default:", *others, "}"], run

    def leave(self, depth):
        (text, get), word = self.truth(1), self.random.choice(["break", "continue"])
        return [f"if {text} {{", f"\t{word}", "}"], lambda f: word if get(f) else None

    def stop(self, depth):
        (text, get), (told, said) = self.truth(1), self.value(STRING, 1)

        def run(f):
            if get(f):
                raise Panic("user", said(f))

        return [f"if {text} {{", f"\tpanic({told})", "}"], run

    # ---- the function

    def whole(self, it):
        """The lines of a declared function's body, and its meaning."""
        names = [f"a{k}" for k in range(len(it.parameters))]
        lines, start = [], {}
        for of in [*BASIC, BOOL, STRING, *self.package.types(), *(of for of in it.results if of.part)]:
            name = self.new()
            start[name], text = self.first(of)
            lines.append(f"\tvar {name} {of.spelled(self.package.number)}" + (f" = {text}" if text else ""))
            self.scopes[0].append((name, of))
        self.scopes[0] += list(zip(names, it.parameters))
        made, do = self.block(2)
        ending = self.value(it.results[0], 2) if it.results else None

        def meaning(run, *arguments):
            frame = {"run": run, **start, **dict(zip(names, arguments))}
            do(frame)
            return ending[1](frame) if ending else None

        return lines + made + ([f"\treturn {ending[0]}"] if ending else []), meaning

    def first(self, of):
        """A value that a variable begins with, and its text; none for the zero value."""
        if of.part or of.fields or self.chance(30):
            return of.zero(), ""
        if of.kind == "bool":
            return True, "true"
        if of.kind == "string":
            return "xy", '"xy"'
        value = self.random.randrange(1, 128)
        return value, str(value)


def done(steps, frame):
    for do in steps:
        left = do(frame)
        if left in ("break", "continue"):
            return left
    return None


def quotient(x, y):
    if y == 0:
        raise Panic("divide")
    return abs(x) // abs(y) * (1 if (x < 0) == (y < 0) else -1)


def rest(x, y):
    return x - y * quotient(x, y)


def shifted(kind, word, x, count):
    if count < 0:
        raise Panic("shift")
    return wrapped(kind, x << min(count, 64)) if word == "<<" else x >> min(count, 64)


def compared(word, x, y):
    return x < y if word == "<" else x >= y if word == ">=" else x == y


def same(x, y):
    return x == y


def long(text):
    if len(text) > LONGEST:
        raise Panic("long")
    return text


class Package:
    """A package of a workspace: the program, which is number 0, or one below it. It imports packages of greater numbers."""

    def __init__(self, rand, number, workspace):
        self.random, self.number, self.workspace, self.declared, self.salt = rand, number, workspace, [], 0
        self.imports = sorted(rand.sample(list(workspace), rand.randrange(bool(workspace) and number == 0, min(3, len(workspace)) + 1)))
        if number:
            self.declare()
        for index in range(rand.randrange(1, 4) if number else 2):
            self.add_function(index)
        if not number:
            self.add_main()
        for it in [it for it in self.declared if it.letter == "V" and rand.randrange(2)]:
            self.add_giver(it)
        for index in range(rand.choice([0, 0, 1, 2])):
            self.add_init(index)

    def visible(self):
        """The packages that are named here, with this one."""
        return [(number, self.workspace[number]) for number in self.imports] + [(self.number, self)]

    def seen(self, letter):
        return [(number, it) for number, package in self.visible() for it in package.declared if it.letter == letter and (number == self.number or it.is_shown)]

    def spelled(self, number, it):
        """Marks of this package's own names stand in texts until a file is written, as they change."""
        return f"<{it.key}>" if number == self.number else f"p{number}.{it.key}"

    def types(self):
        return [it.of for _, it in self.seen("T")]

    def declare(self):
        kind = self.random.choice(list(KINDS))
        named = Type(kind, "N", self.number)
        fields = (("A", self.random.choice(BASIC)), ("B", STRING), ("c", named), ("D", Type("array", part=INT)))
        for key, letter, of in [("N", "T", named), ("S", "T", Type("struct", "S", self.number, fields=fields)), ("K", "C", "untyped int"), ("L", "C", "untyped string"), ("M", "C", named)]:
            self.declared.append(Declared(key, letter, of))
        for key, of in [("V", INT), ("W", self.declared[1].of), ("X", Type("array", part=named))]:
            self.declared.append(Declared(key, "V", of))
        for it in self.declared:
            self.renew(it)

    def renew(self, it):
        """Gives a declaration another value or body of its kind."""
        if it.letter == "T":
            inner = "; ".join(f"{n} {t.spelled(self.number)}" for n, t in it.of.fields)
            it.text = f"type <{it.key}> " + (f"struct {{ {inner} }}" if inner else it.of.kind)
        elif it.letter == "V":
            of = it.of.spelled(self.number)
            value = self.random.choice([f" {of} = <{it.giver.key}>()", f" = <{it.giver.key}>()", f" {of}"]) if it.giver else f" {of}"
            it.text, it.meaning = f"var <{it.key}>{value}", lambda get: None
        elif it.letter == "C":
            self.renew_constant(it)
        else:
            body = Body(self.random, self, it.index)
            lines, it.meaning = body.whole(it)
            parameters = ", ".join(f"a{k} {t.spelled(self.number)}" for k, t in enumerate(it.parameters))
            result = it.results[0].spelled(self.number) + " " if it.results else ""
            name = "init" if it.letter == "I" else f"<{it.key}>"
            it.text = "\n".join([f"func {name}({parameters}) {result}{{", *lines, "}"])

    def renew_constant(self, it):
        """A value, or that of the same constant of an import with something behind it."""
        of = "" if isinstance(it.of, str) else f" {it.of.spelled(self.number)}"
        found = [(n, other) for n, other in self.seen("C") if n != self.number and isinstance(it.of, str) and other.of == it.of]
        if it.of == "untyped string":
            value, text = (lambda given: "k" * given), lambda n: '"' + "k" * n + '"'
        else:
            value, text = (lambda given: given), str
        own = self.random.randrange(4)
        if found and self.random.random() < 0.5:
            number, other = self.random.choice(found)
            it.text = f"const <{it.key}> = p{number}.{other.key} + {text(own)}"
            it.meaning = lambda get: get(b"d%d" % number, other.key) + value(own)
        else:
            it.text, it.meaning = f"const <{it.key}>{of} = {text(own)}", lambda get: value(own)

    def add_function(self, index):
        types = [*BASIC, BOOL, STRING, *self.types()]
        it = Declared(f"F{index}" if self.number else f"G{index}", "F", None, [self.random.choice(types) for _ in range(self.random.randrange(3))], [self.random.choice(types)] if self.random.random() < 0.7 else [])
        it.index = index
        self.declared.append(it)

    def add_main(self):
        it = Declared("main", "F")
        it.index = MAIN
        self.declared.append(it)

    def add_init(self, number):
        it = Declared(f"init{number}", "I")
        it.index = MAIN
        self.declared.append(it)

    def add_giver(self, of):
        """A function that gives a variable its value, which the variable has or has not."""
        it = Declared(f"Give{of.key}", "F", None, [], [of.of])
        it.index, it.is_shown, of.giver = INITIAL, False, it
        self.declared.append(it)

    def finish(self):
        """Bodies come when all functions are known."""
        for it in self.declared:
            if it.letter in "FI" or it.giver:
                self.renew(it)

    def edit(self):
        """Changes something, and says nothing of what."""
        it, kind = self.random.choice(self.declared), self.random.randrange(10)
        if kind < 5:
            self.renew(it)
        elif kind < 7 and self.number and it.letter in "CFV" and it.index != INITIAL:
            it.is_shown = not it.is_shown
        elif kind == 7:
            self.random.shuffle(self.declared)
        elif kind == 8:
            it.file = 1 - it.file
        else:
            self.salt = self.random.randrange(100)

    def settle(self):
        """Most values that depend on themselves go."""
        uses = {it.key: marks(it) for it in self.declared}
        for it in self.declared:
            if it.letter == "V" and it.key in led_to(uses, marks(it)) and self.random.randrange(10):
                it.text = f"var <{it.key}> {it.of.spelled(self.number)}"
                uses[it.key] = marks(it)

    def files(self):
        """The package's files by path, each with its text and what it is."""
        self.settle()
        made = {}
        for number, name in enumerate(["x.go", "y.go"]):
            held = [it for it in self.declared if it.file == number]
            names = {it.key: it.name for it in self.declared}
            inner = re.sub(r"<(\w+)>", lambda it: names[it[1]], "\n".join(it.text for it in held))
            used = [n for n in self.imports if f"p{n}." in inner]
            specs = [f'import "d{n}"' for n in used] + (['import "fmt"'] if "fmt." in inner else [])
            text = "\n".join([f"package {f'p{self.number}' if self.number else 'main'}", *specs, f"// {self.salt}", inner]) + "\n"
            made[f"d{self.number}/{name}"] = self.file(text, held, used, "fmt." in inner)
        return made

    def file(self, text, held, used, prints):
        imports = [(2 + k, 8, b"d%d" % n, None, f"p{n}") for k, n in enumerate(used)]
        imports += [(2 + len(used), 8, b"fmt", None, "fmt")] if prints else []
        items = [(it.name, 0, 0) for it in held if it.letter != "I"]
        for it in re.finditer(r"\bp(\d+)\.([A-Z]\w*)", text):
            before = text[: it.start()]
            missing = lambda seen, at=b"d" + it[1].encode(), key=it[2]: None if key in seen[at] else 11
            items.append((missing, before.count("\n") + 1, it.start() - before.rfind("\n")))
        shown = [(it.key, it, it.meaning) for it in held if it.is_shown and it.key[0].isupper()]
        exports = lambda seen: {key: it.export(meaning(lambda at, name: seen[at][name].value) if it.letter == "C" else None) for key, it, meaning in shown}
        functions = {it.key: it.meaning if it.letter == "F" else constant_of(it.meaning) for it in held if it.letter in "CF"}
        initials = [self.initial(text, it) for it in held if it.letter == "V" and "=" in it.text]
        inits = [lambda run, at, does=it.meaning: does(run) for it in held if it.letter == "I"]
        uses = {it.key: marks(it) for it in held if it.letter == "F"}
        return File(text.encode(), f"p{self.number}" if self.number else "main", imports=imports, items=items, exports=exports, functions=functions, initials=initials, uses=uses, inits=inits)

    def initial(self, text, it):
        before = text[: re.search(rf"(?m)^var {it.name} ", text).end()]
        return Initial((before.count("\n") + 1, 5), [it.key], lambda run, at: [run.call(at, it.giver.key)], marks(it))


def marks(it):
    """The names of its own package in a declaration's text, but the one that it declares."""
    return set(re.findall(r"<(\w+)>", it.text)) - {it.key} if it.letter == "V" else set(re.findall(r"<(\w+)>", it.text.split("\n", 1)[-1]))


def constant_of(meaning):
    """The value of a constant in a run."""
    return lambda run: meaning(lambda at, name: run.functions[at][name](run))


class Workspace:
    """Packages that replicas edit, and the script that does so; each text that it writes becomes one that is known."""

    def __init__(self, seed, by_text):
        self.random, self.by_text, self.packages = random.Random(seed), by_text, {}
        for number in range(self.random.randrange(1, 5), -1, -1):
            self.packages[number] = Package(self.random, number, dict(self.packages))
            self.packages[number].finish()

    def write(self, replica, number):
        script = b""
        for path, file in self.packages[number].files().items():
            self.by_text[file.text] = file
            script += b"write %s %s %d\n" % (replica, path.encode(), file.text.count(b"\n")) + file.text
        return script

    def command(self):
        """Builds and runs of the program are most of all."""
        replica, number = self.random.choice([b"a", b"b"]), self.random.randrange(len(self.packages))
        kind = self.random.randrange(13)
        if kind < 4:
            self.packages[number].edit()
            return self.write(replica, number)
        if kind < 6:
            return self.random.choice([b"merge a b\n", b"merge b a\n", b"settle\n"])
        if kind < 8:
            return b"ids %s d%d\n" % (replica, self.random.choice([0, number]))
        if kind == 12:
            return b"edition %d\n" % self.random.choice([1, 2]) + self.run(replica)
        return self.run(replica) if kind < 10 else b"build a d0 b d%d %s d0\n" % (number, replica) + self.run(replica)

    def run(self, replica):
        ticks = self.random.choice([self.random.randrange(30), self.random.randrange(300), 4000])
        return b"build %s d0\n" % replica + b"run %s d0 %d\n" % (replica, ticks)

    def script(self):
        script = b"replica a\nreplica b\n" + b"".join(self.write(b"a", number) for number in self.packages)
        script += b"ids a d0\nbuild a d0\nids a d0\n" + b"".join(b"run a d0 %d\n" % ticks for ticks in [*range(12), 100, 5000])
        return script + b"merge b a\n" + b"".join(self.command() for _ in range(self.random.randrange(20)))
