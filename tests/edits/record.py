"""What was seen of must-fail edits: which were refused, by what, and on which sources.

tests/edits/seen.txt has a line for each edit that was tried. An edit is due where its text, a function that it changes, or
anything that is stated of what this function names differs from what was tried then. The tables of README.md are made of
that file.
"""
import glob
import os
import re
import subprocess
import sys

HERE = os.path.dirname(os.path.abspath(__file__))
TOP = os.path.dirname(os.path.dirname(HERE))
SEEN, PAGE = os.path.join(HERE, "seen.txt"), os.path.join(HERE, "README.md")
sys.path.insert(0, HERE)
from functions import ANSWERED, LOST, PLACED, SEARCHED
from stated import Stated, read

TITLE = """\
# The must-fail edits that were tried, by `tests/edits/try` or the gate. A line has the edit; digests of its text with the
# functions that it changes, and of what is stated of all that these name; the kit; and what the prover said of it.
"""

SECTION = "## What was seen, and what is due\n"
MADE = """
`tests/edits/try --page` makes this table from seen.txt. An edit is due where its text or the function that it changes isn't
what was tried, or anything that its refusal rests on: the function's contract, the contracts and types of what it calls, and
the definitions that these cite, in any crate. `tests/edits/try --due` says which are due, and why. Where no line of the
prover was kept, an earlier run of the gate that passed refused the edit, on sources that are the same by this rule.

| Crate | Edits | Refused | Not refused | Due |
|---|---|---|---|---|
"""


def edits():
    """Each edit of both circles: its crate and its name, and its file."""
    found = {}
    for path in glob.glob(os.path.join(TOP, "crates", "*", "must-fail", "*.edit")):
        found[path.split(os.sep)[-3] + "/" + os.path.basename(path).removesuffix(".edit")] = path
    for path in glob.glob(os.path.join(HERE, "*", "*.edit")):
        found[path.split(os.sep)[-2] + "/" + os.path.basename(path).removesuffix(".edit")] = path
    return dict(sorted(found.items()))


def kit_name():
    said = subprocess.run(["rt", "version"], capture_output=True, text=True, check=False).stdout.split()
    return said[0] if said else "unknown"


def seen():
    """What was seen of each edit: the digests of what it changes and of what is stated of that, the kit, and what was said."""
    if not os.path.exists(SEEN):
        return {}
    rows = [line.split(" ", 4) for line in read(SEEN).split("\n") if line and not line.startswith("#")]
    return {edit: tuple(rest) for edit, *rest in rows}


def note(told, kit=None):
    """Keeps what was said of some edits, on the sources as they are."""
    known, files, now, kit = seen(), edits(), Stated(), kit or kit_name()
    for edit, said in told.items():
        if edit in files:
            known[edit] = (*now.of(edit, files[edit]), kit, said.strip())
    rows = [" ".join([edit, *known[edit]]) for edit in sorted(known) if edit in files]
    with open(SEEN, "w", encoding="utf-8") as file:
        file.write(TITLE + "\n".join(rows) + "\n")


def why_due(edit, path, known, now):
    """Why an edit is due, or nothing where what was seen of it holds."""
    if edit not in known:
        return "it was never tried"
    changed, stated = now.of(edit, path)
    if known[edit][0] != changed:
        return "its text changed, or what it changes"
    return "" if known[edit][1] == stated else "a contract, type or definition changed that its function names"


def due():
    """The edits that are due, each with why."""
    known, now = seen(), Stated()
    reasons = {edit: why_due(edit, path, known, now) for edit, path in edits().items()}
    return {edit: why for edit, why in reasons.items() if why}


# what is said of edits

REFUSED, LOST_ALONE = "refused by ", "refused only because a proof names what it took away"
NO_MEASURE, NOT_TRIED = "refused only because a loop of its has no measure", "not tried"
NOT_REFUSED = "not refused: all is still proved"


def is_refused(said):
    return said.startswith(REFUSED)


def refused_by(line, function=None):
    """What is kept of the line that says which goals aren't proved: the function, where it is known, and the first goal of it."""
    found = ANSWERED.match(line) or SEARCHED.match(line) or PLACED.match(line)
    if not found:
        return REFUSED + line.removeprefix("note: ").strip()[:160]
    goals = re.findall("`([^`]+)`", found["goal"].partition(";")[0]) or [found["goal"].strip("`")]
    own = [it for it in goals if function and it.startswith(f"{function.rpartition('::')[2]}-")]
    return f"{REFUSED}{function or found['at'].replace('/', '::')}, `{[*own, *goals][0][:80]}`"


def of_must_fail(line):
    """What a line of `rt must-fail` says, with the edit that it is of; nothing for any other line."""
    found = re.match(r"(?:rt: )?must-fail (\S+)\.edit: (.*)", line)
    if not found:
        return None
    edit, text = found[1], found[2].strip()
    rest = text.removeprefix("refused, as it must be")
    if rest == text:
        return edit, text[:160]
    if rest.startswith(" (only because "):
        return edit, LOST_ALONE
    return edit, refused_by(rest[2:]) if rest.startswith(": ") else REFUSED + "a goal that rt doesn't name"


def of_check(status, lines):
    """What a check of a whole crate with an edit says of the edit."""
    if not status:
        return NOT_REFUSED
    told = [it for it in lines if ANSWERED.match(it) or SEARCHED.match(it) or PLACED.match(it)]
    first = next((it for it in told if not LOST.match(it.removeprefix("note: "))), None)
    if first:
        return refused_by(first)
    return LOST_ALONE if lines and lines[-1].startswith("logic=not-proved") else NOT_TRIED


def git(*words):
    return subprocess.run(["git", *words], cwd=TOP, capture_output=True, text=True, check=False).stdout.strip()


def read_gate(log):
    """Keeps what a log of the gate says of edits, where the crates are those that it ran on; or says why they aren't."""
    if not os.path.isfile(log):
        return f"there is no log {os.path.relpath(log)}: a run of .ci/run writes out/gate.log"
    lines = [re.sub(r"^ *\d+\.\d\d ", "", line) for line in read(log).split("\n")]
    tree = next((line.rpartition(" ")[2] for line in lines if line.startswith("gate: crates of tree ")), None)
    if not tree or tree != git("rev-parse", "HEAD:crates") or git("status", "--porcelain", "crates", "crates.txt"):
        return f"{os.path.relpath(log)} isn't of the crates as they are here"
    kit = next((line.split()[1] for line in lines if line.startswith("gate: rattle-kit")), "unknown")
    note(dict(filter(None, map(of_must_fail, lines))), kit)
    return ""


# the page


def told(edit, path, known, now):
    """What the page says of an edit."""
    if why_due(edit, path, known, now):
        return "due"
    said = known[edit][3]
    return said.removeprefix(REFUSED) if is_refused(said) else f"**{said}**"


def with_causes(line, files, known, now):
    """A row of the table of wrong bodies, with what refuses its edit."""
    cells = line.split(" | ")
    if len(cells) > 3 and cells[1] in files:
        cells[2] = told(cells[1], files[cells[1]], known, now)
    return " | ".join(cells)


def counts(files, known, now):
    """For each crate how many edits it has, and how many of these were refused, weren't, and are due."""
    found = {}
    for edit, path in files.items():
        row = found.setdefault(edit.partition("/")[0], [0, 0, 0, 0])
        which = 3 if why_due(edit, path, known, now) else 1 if is_refused(known[edit][3]) else 2
        row[0] += 1
        row[which] += 1
    return found


def page():
    """Writes the tables of the page anew."""
    files, known, now = edits(), seen(), Stated()
    written, _, _ = read(PAGE).partition(SECTION)
    rows = counts(files, known, now)
    total = [sum(row[at] for row in rows.values()) for at in range(4)]
    lines = [with_causes(line, files, known, now) for line in written.split("\n")]
    table = [f"| {crate} | {' | '.join(str(it or '') for it in row)} |" for crate, row in rows.items()]
    table.append(f"| all {len(rows)} | {' | '.join(map(str, total))} |")
    with open(PAGE, "w", encoding="utf-8") as file:
        file.write("\n".join(lines) + SECTION + MADE + "\n".join(table) + "\n")
