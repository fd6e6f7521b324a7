#!/usr/bin/env python3
"""Says which runs of the rows of initialization (tests/rows) print another thing than Go itself.

    python3 tests/programs/scripts.py [-v]

The packages that a replica holds are built by the `go` that is installed, each import path a directory, and run. So
that Go is cut as a run is, each function and each loop takes its tick from a package `take` that ends the program when
there is none. A package that is told 22 is one in which Go finds an initialization cycle, at whatever place.

Where Go can't be asked, a row's title ends in `by hand` with why: for an order that the specification leaves open, that
it fixed in Go 1.21, or for a limit of this project. Of these rows it is said whether Go differs (-v).
"""
import concurrent.futures
import os
import re
import shutil
import subprocess
import sys
import tempfile

import make

sys.dont_write_bytecode = True
TOP = os.path.dirname(os.path.dirname(make.HERE))
FILES = ["initial_values", "init_functions", "initialized_packages", "initialization_cycles"]
TAKE = """package take

import (
	"os"
	"strconv"
)

var left, _ = strconv.Atoi(os.Getenv("TICKS"))

func Tick() {
	if left == 0 {
		os.Exit(77)
	}
	left--
}
"""
BODY = re.compile(r"^(func [^{]*\{|.*\bfor (?:[^{]* )?\{)(?!\d)", re.MULTILINE)


def ticking(text):
    """The file, which takes its ticks."""
    text, count = BODY.subn(r"\1 take.Tick();", text)
    return re.sub(r"\A(package \w+)", r'\1; import "take"', text) if count else text


def rows():
    """The name, the script and what is wanted of each row."""
    for name in FILES:
        with open(os.path.join(TOP, "tests", "rows", name), encoding="utf-8") as file:
            for row in file.read().split("====\n"):
                title, row = row.split("\n", 1)
                given, printed = row.split("----\n", 1)
                yield f"{name}: {title}", given.replace("\\t", "\t"), printed.replace("\\t", "\t")


def commands(given):
    """The words of each command, and its text."""
    lines = given.split("\n")
    while lines:
        words = lines.pop(0).split()
        count = int(words[-1]) if words[:1] == ["write"] else 0
        text, lines = lines[:count], lines[count:]
        if words:
            yield words, "".join(line + "\n" for line in text)


def answers(printed):
    """What is wanted of each command that prints, in their order."""
    return re.split(r"(?m)^(?=build |run |refused )", printed)[1:]


def build(files, target, room):
    """Has Go build a program or a package of a replica's files; what Go complains of."""
    root = os.path.join(room, "src")
    shutil.rmtree(room, ignore_errors=True)
    for path, text in {**files, "take/take.go": TAKE}.items():
        place = os.path.join(root, path)
        os.makedirs(os.path.dirname(place), exist_ok=True)
        with open(place, "w", encoding="utf-8") as file:
            file.write(text if path.startswith("take/") else ticking(text))
    env = {**os.environ, "GO111MODULE": "off", "GOPATH": room, "GOFLAGS": "-p=1"}
    done = subprocess.run(["go", "build", "-o", os.path.join(room, "program"), target], env=env, capture_output=True, check=False)
    return done.stderr.decode() if done.returncode else None


def told(target, words, room):
    """The text of a run, by Go."""
    ran = subprocess.run([os.path.join(room, "program")], env={"TICKS": words[3]}, capture_output=True, check=False, timeout=60)
    ends = "cut" if ran.returncode == 77 else make.ending(ran).strip("\n").replace("panicked", "panic")
    user = re.match(r"panic user(?: (.*))?", ends, re.DOTALL)
    head, tail = ("panic user", user[1] or "") if user else (ends, None)
    sizes = f"{len(ran.stdout)}" + (f" {len(tail.encode())}" if user else "")
    return f"run {words[1]} {target} {head} {sizes}\n{ran.stdout.decode()}" + (f"{tail}\n" if user else "")


class Replayed:
    """A row's script: the files that each replica holds, and what Go has built of them last."""

    def __init__(self, room):
        self.held, self.room, self.built = {}, room, None

    def changed(self, words, text):
        files = self.held.setdefault(words[1], {})
        self.built = None
        if words[0] == "write":
            files[words[2]] = text
        elif words[0] == "remove":
            del files[words[2]]
        elif words[0] == "merge":
            files.update(self.held[words[2]])

    def complaint(self, replica, target):
        """What Go complains of where it builds a directory, or nothing."""
        self.built = target
        return build(self.held[replica], target, self.room)

    def wrong(self, words, want):
        """What Go says in place of what is wanted of a command, for each time that it is asked."""
        if want.startswith("run "):
            if self.built != words[2]:
                self.complaint(words[1], words[2])
            got = told(words[2], words, self.room)
            yield None if got == want else got
        elif " ok " in want:
            yield self.complaint(words[1], words[2])
        for place in re.findall(r"(?m)^fault (.*)/[^/]*:\d+:\d+ 22 ", want):
            said = self.complaint(words[1], place)
            yield None if re.search("initialization (cycle|loop)", said or "") else f"no cycle: {said}"


def compared(row, folder):
    """The name of a row, where Go differs, and how many times it was asked."""
    number, (name, given, printed) = row
    replayed, wanted, asked = Replayed(os.path.join(folder, str(number))), answers(printed), []
    if name.endswith("a limit of this project"):
        return name, [], 0
    for words, text in commands(given):
        if words[0] not in ("build", "run"):
            replayed.changed(words, text)
            continue
        want = wanted.pop(0)
        asked += [(" ".join(words), want, got) for got in replayed.wrong(words, want)]
    return name, [it for it in asked if it[2] is not None], len(asked)


def main(words):
    with tempfile.TemporaryDirectory() as folder, concurrent.futures.ThreadPoolExecutor(3) as pool:
        results = list(pool.map(lambda row: compared(row, folder), enumerate(rows())))
    status, asked, by_hand = 0, 0, 0
    for name, found, count in results:
        is_by_hand = "; by hand" in name
        by_hand += is_by_hand
        asked += 0 if is_by_hand else count
        if found and not is_by_hand:
            status = 1
        if found and (not is_by_hand or "-v" in words):
            for command, want, got in found:
                print(f"{name}\n  {command}\n  wanted {want!r}\n  Go     {got!r}")
        if is_by_hand and not found and "-v" in words:
            print(f"{name}\n  Go does the same")
    print(f"{len(results)} rows, {by_hand} by hand; {asked} commands by Go")
    return status


if __name__ == "__main__":
    sys.exit(main(sys.argv[1:]))
