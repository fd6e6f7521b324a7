"""Rows of Go programs: what each prints and how it ends, and a script by which goset says so.

A row is a line with a name and a number of ticks, the text of one Go file, or of several with a line `---- next` between
each two, a line `==== WHY`, then what the program prints and how it ends, or its fault, and a line `----`. WHY is `by Go`
where Go was asked, and else it says why Go can't be.
"""
import os
import re

import ticks

HERE = os.path.dirname(os.path.abspath(__file__))
# The folder of each edition's rows.
FOLDERS = {1: "rows", 2: "slices"}
END, NEXT, BY_GO = "----\n", "---- next\n", "by Go"
BUILD = re.compile(rb"build a (\S+) (?:ok 1|faults 1) compiled [01]\n")
FAULT = re.compile(rb"fault \S+:(\d+:\d+) (\d+ \w+)\n")
RUN = re.compile(rb"run a \S+ (?:(ended|cut)|panic (\w+)) (\d+)(?: (\d+))?\n")
REFUSED = re.compile(rb"refused 9 notbuilt\n")


class Row:
    """A program with its name and its ticks, what is wanted of it, and why that is known."""

    def __init__(self, name, limit, text, wanted=None, why=BY_GO):
        self.name, self.limit, self.text, self.wanted, self.why = name, limit, text, wanted, why

    def is_by_go(self):
        return self.why == BY_GO

    def files(self):
        """The names and the texts of its files, in the order of names."""
        return [(f"{number}.go", text) for number, text in enumerate(self.text.split(NEXT), 10)]

    def kept(self):
        """The row as its table has it."""
        return f"{self.name} {self.limit}\n{self.text}==== {self.why}\n{self.wanted}{END}"


def row_of(text):
    """The row that a text is, whose header is first."""
    header, program = text.split("\n", 1)
    program, behind = program.split("\n==== ", 1)
    why, wanted = behind.split("\n", 1)
    return Row(*header.split(" "), program + "\n", wanted, why)


def table(folder, name):
    """The rows of one table."""
    with open(os.path.join(HERE, folder, name), encoding="utf-8", newline="") as file:
        return [row_of(text) for text in file.read().split(END) if text]


def tables(edition):
    """The tables of an edition, by name. Those of the first have the programs that are cut at every tick besides."""
    folder = FOLDERS[edition]
    found = {name: table(folder, name) for name in sorted(os.listdir(os.path.join(HERE, folder)))}
    if edition == 1:
        found["ticks"] = [Row(*row, "by the same program in python") for row in ticks.programs()]
    return found


def script(rows):
    """A script that builds and runs the programs of rows, each in a directory of its own."""
    lines = ["replica a\n"]
    for row in rows:
        lines += [f"write a {row.name}/{name} {text.count(chr(10))}\n{text}" for name, text in row.files()]
        lines.append(f"build a {row.name}\nrun a {row.name} {row.limit}\n")
    return "".join(lines).encode()


class Printed:
    """What a script printed, from some place on."""

    def __init__(self, text):
        self.text, self.at = text, 0

    def find(self, pattern):
        """The match of a pattern at the place, behind which the place is then, or nothing."""
        found = pattern.match(self.text, self.at)
        if found:
            self.at = found.end()
        return found

    def bytes(self, count):
        self.at += count
        return self.text[self.at - count : self.at]

    def run(self):
        """What a run printed and how it ended, in the words of rows; nothing where there is none."""
        found = self.find(RUN)
        if not found:
            return None
        ended, panicked, size, size_of_text = found.groups()
        output = self.bytes(int(size))
        if ended:
            return output + ended + b"\n"
        text = b" " + self.bytes(int(size_of_text) + 1) if size_of_text else b"\n"
        return output + b"panicked " + panicked + text

    def program(self):
        """The name of a program, and what came of it; nothing where the text isn't about one."""
        built = self.find(BUILD)
        if not built:
            return None
        fault = self.find(FAULT)
        if not self.find(REFUSED):
            told = self.run()
            return (built[1].decode(), told.decode()) if told is not None else None
        told = b"fault %s %s\n" % (fault[2], fault[1]) if fault else b"no main\n"
        return built[1].decode(), told.decode()


def told(printed):
    """What came of each program of a script that `script` made, by its name."""
    left, found = Printed(printed), {}
    while program := left.program():
        found[program[0]] = program[1]
    return found
