#!/usr/bin/env python3
"""Says which rows of programs want something else than Go prints.

    python3 tests/programs/make.py           names the rows that differ
    python3 tests/programs/make.py --write   writes what Go prints into their tables, and makes that of the integer types

Rows of the first edition stand in rows/, of which integers.rows is made of templates for each integer type (templates.py);
those of the second, which has slices, in slices/. table.py has their form. Three programs that are cut at every tick have
no table: ticks.py has them in python too.

What a row's program prints is what Go prints: the row is built and run by the `go` that is installed, which is to be Go
1.19 or later, and its end is told in this project's words. Two things are rewritten for a Go before 1.22: a range over
an integer becomes a loop of three parts over a copy, as the specification of 1.22 defines it. Where Go can't be asked,
for a limit of this project or for a form that is left out, the row says why, and what is wanted was worked out by hand;
where that is a fault of the language itself, Go must refuse the program too.
"""
import concurrent.futures
import os
import re
import shutil
import subprocess
import sys
import tempfile

import templates
from table import FOLDERS, HERE, Row, table

INTEGERS_TABLE = ("rows", "integers.rows")
REFUSED = "?? Go refuses it"
# How a Go program says that it panicked, and the word for that here.
PANICS = [
    (re.compile(r"panic: runtime error: index out of range"), "panicked index\n"),
    (re.compile(r"panic: runtime error: slice bounds out of range"), "panicked slice\n"),
    (re.compile(r"panic: runtime error: makeslice: (len|cap) out of range"), "panicked make\n"),
    (re.compile(r"panic: runtime error: integer divide by zero"), "panicked divide\n"),
    (re.compile(r"panic: runtime error: negative shift amount"), "panicked shift\n"),
]
USER = re.compile(r"\Apanic: (.*?)\n\ngoroutine 1 ", re.DOTALL)
COUNTED = re.compile(r"for (?:(\w+) := )?range (.+) \{$", re.MULTILINE)
INTEGERS = "~int | ~int8 | ~int16 | ~int32 | ~int64 | ~uint | ~uint8 | ~uint16 | ~uint32 | ~uint64"


def counted(match):
    """A loop of three parts over a copy, for a range over an integer."""
    name, bound = match.group(1) or "turn", match.group(2)
    start = f"for {name}_, {name}_end := upTo({bound}); {name}_ < {name}_end; {name}_++ {{"
    return start + (f"\n{name} := {name}_\n_ = {name}" if match.group(1) else "")


def for_old_go(text):
    """The program, with loops in place of ranges over integers."""
    changed, count = COUNTED.subn(counted, text)
    if count == 0:
        return text
    return changed + f"\nfunc upTo[T {INTEGERS}](n T) (T, T) {{ return 0, n }}\n"


def ending(ran):
    """How a program ended, in this project's words."""
    if ran.returncode == 0:
        return "ended\n"
    errors = ran.stderr.decode()
    for pattern, told in PANICS:
        if pattern.match(errors):
            return told
    user = USER.match(errors)
    return f"panicked user {user.group(1)}\n" if user else f"?? {errors}\n"


def go_told(row, folder):
    """What Go says of a row."""
    place = os.path.join(folder, row.name)
    os.mkdir(place)
    names = []
    for name, text in row.files():
        names.append(name)
        with open(os.path.join(place, name), "w", encoding="utf-8") as file:
            file.write(for_old_go(text))
    env = {**os.environ, "GO111MODULE": "off", "GOFLAGS": "-p=1"}
    made = subprocess.run(["go", "build", "-o", "program", *names], cwd=place, env=env, capture_output=True, check=False)
    if made.returncode != 0:
        return f"{REFUSED}: {made.stderr.decode()}"
    ran = subprocess.run([os.path.join(place, "program")], capture_output=True, check=False, timeout=60)
    return ran.stdout.decode() + ending(ran)


def is_no_go(row):
    """Whether Go is to refuse a row of which it isn't asked: it has a fault that isn't one of this project alone."""
    return not row.is_by_go() and row.wanted.startswith("fault") and not re.search("left out|this project", row.why)


def wanted_of(row, folder):
    if row.is_by_go():
        return go_told(row, folder)
    if is_no_go(row) and not go_told(row, folder).startswith(REFUSED):
        return f"?? Go takes it: {row.wanted}"
    return row.wanted


def rows_of(folder, name):
    """The rows of a table; those of the integer types as the templates make them, with what is kept of each."""
    if (folder, name) != INTEGERS_TABLE:
        return table(folder, name)
    kept = {row.name: row.wanted for row in table(folder, name)}
    return [Row(it, "100000", text, kept.get(it)) for it, text in templates.programs()]


def differing(rows):
    """The rows of which something else is wanted, each with that."""
    with tempfile.TemporaryDirectory() as folder, concurrent.futures.ThreadPoolExecutor(2) as pool:
        wanted = list(pool.map(lambda row: wanted_of(row, folder), rows))
    return [(row, it) for row, it in zip(rows, wanted) if row.wanted != it]


def made(folder, name, is_written):
    """The rows of a table, of which it is said what differs, and the table is written where that is wanted; how many differ."""
    rows = rows_of(folder, name)
    others = differing(rows)
    for row, wanted in others:
        print(f"{folder}/{name}: {row.name} is to want\n{wanted}")
        row.wanted = row.wanted if "?? " in wanted else wanted
    if is_written:
        with open(os.path.join(HERE, folder, name), "w", encoding="utf-8", newline="") as file:
            file.write("".join(row.kept() for row in rows))
    return rows, len(others)


def main(words):
    if not shutil.which("go"):
        sys.exit("tests/programs/make.py: there is no go on the path: what programs print is what Go itself prints")
    status = 0
    for edition, folder in FOLDERS.items():
        results = [made(folder, name, words == ["--write"]) for name in sorted(os.listdir(os.path.join(HERE, folder)))]
        rows = [row for its, _ in results for row in its]
        by_go, others = sum(row.is_by_go() for row in rows), sum(count for _, count in results)
        print(f"edition {edition}: {len(rows)} rows, {by_go} by Go, {len(rows) - by_go} by hand, {others} differ")
        status = 1 if others or len({row.name for row in rows}) < len(rows) else status
    return status


if __name__ == "__main__":
    sys.exit(main(sys.argv[1:]))
