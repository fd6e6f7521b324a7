"""A crate's copy in which some functions stand alone: each other function calls itself, and a hole stands for its proof.

A check of the functions that stay, with --allow-holes, then reads their proofs and the contracts of what they call, and no other
proof. Lines keep their numbers. What isn't rewritten, as functions of a trait, keeps its proof.
"""
import glob
import os
import re
import shutil

from functions import functions_in
from stated import homes_in

HOLE = "use Rattle.{crate}.proofs.{path}.{{statement}}\n\npub +{name}_spec : {{M : Type 1}} → statement M\n+{name}_spec = ?\n"
RECEIVER = re.compile(r"(&('\w+ )?)?(mut )?self(: .*)?")
BRACKETS = {"(": 1, "<": 1, "[": 1, "{": 1, ")": -1, ">": -1, "]": -1, "}": -1}


def depths(text):
    """The characters of a text, each with how many brackets are open behind it. (The `>` of an arrow is none.)"""
    depth, before = 0, ""
    for at, it in enumerate(text):
        depth += BRACKETS.get(it, 0) if before + it != "->" else 0
        yield at, it, depth
        before = it


def parts_of(text):
    """The parts of a list of parameters."""
    cuts = [at for at, it, depth in depths(text) if it == "," and depth == 0]
    parts = [text[one + 1 : other].strip() for one, other in zip([-1, *cuts], [*cuts, len(text)])]
    return [it for it in parts if it]


def enclosed(text):
    """What the brackets enclose that a text begins with, and what stands behind them."""
    end = next(at for at, _, depth in depths(text) if depth == 0)
    return text[1:end], text[end + 1 :]


def own_call(function, head):
    """The call of a function by its own parameters; nothing where it can't be written."""
    rest, kinds = re.split(rf"\bfn {function.name}\b", head, 1)[1], ""
    if rest.startswith("<"):
        kinds, rest = enclosed(rest)
    parameters, behind = enclosed(rest)
    named = [RECEIVER.fullmatch(it) and "self" or re.match(r"(?:mut )?(\w+):", it) for it in parts_of(parameters)]
    if not all(named) or "-> impl" in behind or "-> !" in behind:
        return None
    names = [it if isinstance(it, str) else it[1] for it in named]
    types = [re.match(r"\w+", it)[0] for it in parts_of(kinds) if not it.startswith(("'", "const "))]
    written = f"::<{', '.join(types)}>" if types and "impl " not in parameters else ""
    return f"{'Self::' if function.types else 'self::'}{function.name}{written}({', '.join(names)})"


def calling_itself(function):
    """The lines of a function that calls itself; nothing where it can't be written."""
    lines = function.text.split("\n")
    indent = re.match(r"\s*", lines[0])[0]
    body = next((at for at, it in enumerate(lines) if it == indent + "{"), None)
    if body is None:
        body = next((at for at, it in enumerate(lines) if it.endswith(" {")), None)
    if body is None or len(lines) - body < 3:
        return None
    call = own_call(function, re.sub(r"\s+", " ", " ".join(lines[: body + 1])))
    return call and [*lines[: body + 1], f"{indent}    {call}", *[""] * (len(lines) - body - 3), lines[-1]]


def leave_hole(function, folder):
    """Puts a hole in the place of the proof of a function that calls itself."""
    owner = ["".join(function.types)] if function.types else []
    at = os.path.join(folder, "proofs", *function.modules, *owner)
    for name in (function.name, f"+{function.name}"):
        shutil.rmtree(os.path.join(at, name), ignore_errors=True)
    os.makedirs(os.path.join(at, f"+{function.name}"))
    path = ".".join([*function.modules, *owner, f"+{function.name}"])
    with open(os.path.join(at, f"+{function.name}", "Proof.antt"), "w", encoding="utf-8") as file:
        file.write(HOLE.format(crate=os.path.basename(folder), path=path, name=function.name))


def without_attributes(lines, first):
    """Removes what is said above a function of its cycle and its tactics."""
    at = first - 2
    while at >= 0 and lines[at].strip().startswith(("#[", "//")):
        if re.match(r"\s*#\[(cycle|tactic)\b.*\]$", lines[at]):
            lines[at] = ""
        at -= 1


def stand_alone(folder, kept):
    """Has every function of a crate's copy call itself, but those of some keys and their cycles."""
    homes, files = homes_in(folder), sorted(glob.glob(os.path.join(folder, "src", "**", "*.rt"), recursive=True))
    texts = {it: open(it, encoding="utf-8").read() for it in files}
    every = {it: functions_in(os.path.relpath(it, folder), text, homes) for it, text in texts.items()}
    cycles = {it.cycle for its in every.values() for it in its if it.key in kept}
    for at in glob.glob(os.path.join(folder, "proofs", "**", "+*"), recursive=True):
        if os.path.isdir(at) and os.path.basename(at)[1:] in {it.cycle for its in every.values() for it in its} - cycles:
            shutil.rmtree(at)
    for path, its in every.items():
        lines = texts[path].split("\n")
        for it in its:
            stays = it.key in kept or it.cycle != it.name and it.cycle in cycles
            made = None if stays or it.word is None or it.types[1:] and it.types[1] else calling_itself(it)
            if made:
                lines[it.first - 1 : it.last] = made
                without_attributes(lines, it.first)
                leave_hole(it, folder)
        with open(path, "w", encoding="utf-8") as file:
            file.write("\n".join(lines))
