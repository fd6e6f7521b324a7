#!/usr/bin/env python3
"""Tries random programs: prints the first whose output by Go is another than that by a program of this project.

    python3 tests/programs/random_rows.py PROGRAM COUNT SEED

PROGRAM is goset. Each program has functions, named types, arrays, structs, all integer
types, loops and switches. It does nothing whose order the Go specification leaves open: functions print, but change no
variable of others, and no index is out of range where another operand is a call.
"""
import random
import subprocess
import sys
import tempfile

import make
import table

INTEGERS = ["int", "int8", "int16", "int32", "int64", "uint", "uint8", "uint16", "uint32", "uint64", "Small", "Wide"]
TYPES = INTEGERS + ["bool", "string", "Pair", "Row", "Grid"]
PARTS = {"Pair": [("a", "int16"), ("b", "string"), ("c", "Row")]}
ELEMENTS = {"Row": (3, "int8"), "Grid": (2, "Pair")}
HEAD = """package main

import "fmt"

type Small uint8

type Wide int64

type Row [3]int8

type Pair struct {
	a int16
	b string
	c Row
}

type Grid [2]Pair

func show(name string, g Grid) {
	fmt.Println(name, g[0].a, g[0].b, g[0].c[0], g[0].c[1], g[0].c[2], g[1].a, g[1].b, g[1].c[0], g[1].c[1], g[1].c[2])
}
"""


class Writer:
    """Writes one program."""

    def __init__(self, seed):
        self.random = random.Random(seed)
        self.functions = []
        self.lines = []
        self.scopes = []
        self.names = 0
        self.loops = []

    def pick(self, items):
        return self.random.choice(items)

    def chance(self, percent):
        return self.random.randrange(100) < percent

    def new(self):
        self.names += 1
        return f"v{self.names}"

    # ---- expressions

    def variables(self, of):
        return [name for scope in self.scopes for name, kind in scope if kind == of]

    def places(self, of):
        """Variables and parts of variables of a type."""
        found = self.variables(of)
        if of == "int16":
            found += [f"{v}.a" for v in self.variables("Pair")] + [f"{v}[{self.index(2)}].a" for v in self.variables("Grid")]
        if of == "string":
            found += [f"{v}.b" for v in self.variables("Pair")] + [f"{v}[{self.index(2)}].b" for v in self.variables("Grid")]
        if of == "Row":
            found += [f"{v}.c" for v in self.variables("Pair")] + [f"{v}[{self.index(2)}].c" for v in self.variables("Grid")]
        if of == "Pair":
            found += [f"{v}[{self.index(2)}]" for v in self.variables("Grid")]
        if of == "int8":
            found += [f"{v}[{self.index(3)}]" for v in self.variables("Row")]
            found += [f"{v}.c[{self.index(3)}]" for v in self.variables("Pair")]
            found += [f"{v}[{self.index(2)}].c[{self.index(3)}]" for v in self.variables("Grid")]
        return found

    def index(self, count):
        """An index that is in range."""
        if self.chance(50):
            return str(self.random.randrange(count))
        kind = self.pick(["uint", "uint8", "uint64", "uint16"])
        names = self.variables(kind)
        return f"{self.pick(names)}%{count}" if names else "0"

    def leaf(self, of):
        places = self.places(of)
        if places and self.chance(85):
            return self.pick(places)
        if of in INTEGERS:
            return f"{of}(l0 + {self.random.randrange(128)})"
        if of == "bool":
            return self.pick(["true", "false"])
        if of == "string":
            return '"' + self.pick(["", "a", "bc", "xyz", "é"]) + '"'
        if of == "Row":
            return f"Row{{{', '.join(self.leaf('int8') for _ in range(self.random.randrange(4)))}}}"
        if of == "Pair":
            return f"Pair{{a: {self.leaf('int16')}, c: {self.leaf('Row')}}}"
        return f"Grid{{{self.leaf('Pair')}}}"

    def call(self, of, depth):
        fitting = [f for f in self.functions if f[2] == of]
        if not fitting:
            return self.leaf(of)
        name, kinds, _ = self.pick(fitting)
        return f"{name}({', '.join(self.value(kind, depth - 1) for kind in kinds)})"

    def value(self, of, depth):
        if depth <= 0:
            return self.leaf(of)
        if self.chance(12):
            return self.call(of, depth)
        if of in INTEGERS:
            return self.integer(of, depth)
        if of == "bool":
            return self.truth(depth)
        if of == "string":
            return f"{self.value(of, depth - 1)} + {self.value(of, depth - 1)}" if self.chance(40) else self.leaf(of)
        if of == "Row":
            return f"Row{{{', '.join(self.value('int8', depth - 2) for _ in range(self.random.randrange(4)))}}}"
        if of == "Pair":
            return f"Pair{{{self.value('int16', depth - 1)}, {self.value('string', depth - 1)}, {self.value('Row', depth - 1)}}}"
        return f"Grid{{{self.value('Pair', depth - 2)}, {self.value('Pair', depth - 2)}}}"

    def variable(self, of):
        names = self.variables(of)
        return self.pick(names) if names else None

    def integer(self, of, depth):
        choice = self.random.randrange(10)
        if choice < 4:
            operator = self.pick(["+", "-", "*", "&", "|", "^", "&^"])
            return f"({self.operand(of, depth - 1)} {operator} {self.operand(of, depth - 1)})"
        if choice == 4:
            name = self.variable(of)
            return f"({self.operand(of, depth - 1)} {self.pick(['/', '%'])} ({name} | 1))" if name else self.leaf(of)
        if choice == 5:
            count = self.variable(self.pick(["uint", "uint8", "uint64", "Small"]))
            return f"({self.operand(of, depth - 1)} {self.pick(['<<', '>>'])} {count})" if count else self.leaf(of)
        if choice == 6:
            name = self.variable(of)
            return f"{self.pick(['-', '^', '+'])}{name}" if name else self.leaf(of)
        if choice < 9:
            other = self.pick(INTEGERS)
            name = self.variable(other)
            return f"{of}({name} + {self.operand(other, depth - 2)})" if name else self.leaf(of)
        return f"{of}(len({self.value('string', depth - 1)} + {self.leaf('string')} + s0))"

    def operand(self, of, depth):
        """An operand with a variable in it, so that no whole is constant."""
        name = self.variable(of)
        if name is None or depth > 0:
            return self.value(of, depth) if name is None else f"({name} ^ {self.value(of, depth)})"
        return name

    def truth(self, depth):
        choice = self.random.randrange(6)
        if choice == 0:
            return f"({self.value('bool', depth - 1)} {self.pick(['&&', '||', '==', '!='])} {self.value('bool', depth - 1)})"
        if choice == 1:
            return f"!({self.value('bool', depth - 1)})"
        of = self.pick(TYPES)
        if of in INTEGERS or of == "string":
            name = self.variable(of)
            return f"({name} {self.pick(['==', '!=', '<', '<=', '>', '>='])} {self.value(of, depth - 1)})" if name else "t0"
        name = self.variable(of)
        return f"({name} {self.pick(['==', '!='])} {self.leaf(of) if self.places(of) == [] else self.pick(self.places(of))})" if name else "t0"

    # ---- statements

    def put(self, depth, text):
        self.lines.append("\t" * depth + text)

    def define(self, depth):
        of, name = self.pick(TYPES), self.new()
        self.put(depth, f"var {name} {of} = {self.value(of, 3)}" if self.chance(50) else f"{name} := {of}({self.value(of, 3)})")
        self.put(depth, f"_ = {name}")
        self.scopes[-1].append((name, of))

    def assign(self, depth):
        of = self.pick(TYPES)
        places = self.places(of)
        if not places:
            return
        left = self.pick(places)
        if of in INTEGERS and self.chance(40):
            self.put(depth, f"{left} {self.pick(['+=', '-=', '*=', '&=', '|=', '^=', '&^='])} {self.value(of, 2)}")
        elif of in INTEGERS and self.chance(20):
            self.put(depth, left + self.pick(["++", "--"]))
        elif self.chance(30):
            other = self.pick(TYPES)
            seconds = self.places(other)
            if seconds:
                self.put(depth, f"{left}, {self.pick(seconds)} = {self.leaf(of)}, {self.leaf(other)}")
        else:
            self.put(depth, f"{left} = {self.value(of, 3)}")

    def block(self, depth, names=()):
        self.scopes.append(list(names))
        for _ in range(self.random.randrange(1, 4)):
            self.statement(depth)
        self.scopes.pop()

    def branch(self, depth):
        self.put(depth, f"if {self.value('bool', 3)} {{")
        self.block(depth + 1)
        if self.chance(50):
            self.put(depth, "} else {")
            self.block(depth + 1)
        self.put(depth, "}")

    def loop(self, depth):
        name = self.new()
        if self.chance(50):
            self.put(depth, f"for {name} := 0; {name} < {self.random.randrange(1, 4)}; {name}++ {{")
        else:
            self.put(depth, f"for {name} := range {self.random.randrange(1, 4)} {{")
            self.put(depth + 1, f"_ = {name}")
        self.loops.append("loop")
        self.scopes.append([])
        self.put(depth + 1, f"n{name} := {name}")
        self.put(depth + 1, f"_ = n{name}")
        self.scopes[-1].append((f"n{name}", "int"))
        self.block(depth + 1)
        self.scopes.pop()
        self.loops.pop()
        self.put(depth, "}")

    def choice(self, depth):
        of = self.pick(["int", "int8", "string", "bool", "Row", "uint16"])
        name = self.variable(of)
        if name is None:
            return
        self.put(depth, f"switch {name} {{")
        self.loops.append("switch")
        count = self.random.randrange(1, 4)
        default = self.random.randrange(4)
        for at in range(count):
            if at == default:
                self.put(depth, "default:")
            else:
                cases = [self.variable(of) or name for _ in range(self.random.randrange(1, 3))]
                self.put(depth, f"case {', '.join(cases)}:")
            self.block(depth + 1)
            if at + 1 < count and self.chance(25):
                self.put(depth + 1, "fallthrough")
        self.loops.pop()
        self.put(depth, "}")

    def leave(self, depth):
        if not self.loops:
            return
        word = "continue" if "loop" in self.loops and self.chance(50) else "break"
        self.put(depth, f"if {self.value('bool', 2)} {{")
        self.put(depth + 1, word)
        self.put(depth, "}")

    def print(self, depth):
        operands = [self.value(self.pick(INTEGERS + ["bool", "string"]), 3) for _ in range(self.random.randrange(1, 4))]
        self.put(depth, f"fmt.Println({', '.join(operands)})")

    def wild(self, depth):
        """What may panic, without a call beside it, whose order would be open."""
        of, index = self.pick(INTEGERS), self.variable(self.pick(INTEGERS)) or "l0"
        name, row, left = self.variable(of), self.pick(self.places("Row")), self.variable("int8")
        forms = [f"fmt.Println({row}[{index}])", f"{row}[{index}]++", f"{row}[{index}] = {left}", f"fmt.Println({row} == l8, s0[{index}])"]
        if name:
            other, count = self.variable(of), self.variable(self.pick(["int", "int8", "int64", "Wide"])) or "l0"
            forms += [f"{name} {self.pick(['/=', '%='])} {other} & {other} >> 1", f"{name} {self.pick(['<<=', '>>='])} {count}"]
        if self.chance(5):
            forms = ["panic(s0)", f"panic({self.pick(self.places('string'))} + s0)"]
        self.put(depth, f"if {self.pick(['t0', 'l1 > 40', 'l11 < 50', 'true'])} {{")
        self.put(depth + 1, self.pick(forms))
        self.put(depth, "}")

    def statement(self, depth):
        if depth > 4:
            self.print(depth)
            return
        if self.chance(4):
            self.wild(depth)
            return
        kinds = [self.define, self.define, self.assign, self.assign, self.assign, self.print, self.branch, self.loop, self.choice, self.leave]
        self.pick(kinds)(depth)

    # ---- functions

    def start(self, kinds):
        """The scope of a function: a parameter or a variable of each of some types."""
        self.scopes = [[(f"p{at}", kind) for at, kind in enumerate(kinds)]]
        for at, kind in enumerate(["int", "uint8", "uint", "int8", "uint64", "int64", "Wide", "Small", "Row", "Pair", "Grid", "int16"]):
            value = {"Row": "Row{1, -2, 127}", "Pair": 'Pair{-300, "p", Row{5}}', "Grid": 'Grid{1: Pair{b: "g"}}'}.get(kind)
            if kind == "Grid":
                value = 'Grid{Pair{}, Pair{b: "g"}}'
            self.put(1, f"l{at} := {value or f'{kind}({self.random.randrange(128)})'}")
            self.put(1, f"_ = l{at}")
            self.scopes[0].append((f"l{at}", kind))
        self.put(1, f's0, t0 := "s", {self.pick(["true", "false"])}')
        self.put(1, "_, _ = s0, t0")
        self.scopes[0] += [("s0", "string"), ("t0", "bool")]

    def function(self, number):
        kinds, of = [self.pick(TYPES) for _ in range(self.random.randrange(4))], self.pick(TYPES)
        parameters = ", ".join(f"p{at} {kind}" for at, kind in enumerate(kinds))
        self.put(0, f"func f{number}({parameters}) {of} {{")
        self.put(1, f'fmt.Println("f{number}")')
        self.start(kinds)
        for _ in range(self.random.randrange(1, 4)):
            self.statement(1)
        self.put(1, f"return {self.value(of, 3)}")
        self.put(0, "}\n")
        self.functions.append((f"f{number}", kinds, of))

    def program(self):
        for number in range(4):
            self.function(number)
        self.put(0, "func main() {")
        self.start([])
        for _ in range(12):
            self.statement(1)
        for name, kind in self.scopes[0]:
            if kind == "Grid":
                self.put(1, f'show("{name}", {name})')
            elif kind in INTEGERS + ["bool", "string"]:
                self.put(1, f'fmt.Println("{name}", {name})')
        self.put(0, "}")
        return HEAD + "\n" + "\n".join(self.lines) + "\n"


def differs(row, told, wanted):
    """Whether goset tells another thing of a row than Go; where Go refuses it, it is to have a fault."""
    return not told.startswith("fault ") if wanted.startswith(make.REFUSED) else told != wanted


def main(words):
    program, count, seed = words[0], int(words[1]), int(words[2])
    rows = [table.Row(f"random_{seed + at}", 100000, Writer(seed + at).program()) for at in range(count)]
    ran = subprocess.run([program], input=table.script(rows), capture_output=True, check=True)
    told, refused = table.told(ran.stdout), 0
    with tempfile.TemporaryDirectory() as folder:
        for row in rows:
            wanted = make.go_told(row, folder)
            refused += wanted.startswith(make.REFUSED)
            if differs(row, told.get(row.name, ""), wanted):
                print(row.text)
                print(f"{row.name} is\n{told.get(row.name)}\nbut by Go\n{wanted}")
                return 1
    print(f"{count} programs agree; {refused} of them both refuse")
    return 0


if __name__ == "__main__":
    sys.exit(main(sys.argv[1:]))
