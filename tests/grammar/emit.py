#!/usr/bin/env python3
"""Writes the rows into the table that the crate lang_rows answers."""
import os
import sys
import unicodedata

from check import deeps, groups

sys.path.insert(0, os.path.dirname(os.path.dirname(os.path.abspath(__file__))))
from rows_of_language import renew

ABOUT = " of tests/grammar/rows.py: whether texts are files, and else where and by which fault they are none."
# The kinds of groups, and what stands before each of their texts.
KINDS = [
    ("file", "", ["package_clauses", "build_lines"]),
    ("declarations", "package p\n", [
        "numbers", "names_and_literals", "semicolons",
        "imports", "declarations", "functions", "types", "declarations_midway",
        "operators", "left_out_in_expressions", "expressions_midway",
        "simple_statements", "statements", "if_and_for", "switches", "header_rule", "statements_midway"]),
]
DEEP = {
    "parentheses": "Parentheses, each a level of its own.",
    "chains": "Chains, whose every link makes the first operand deeper.",
    "behind an operand at level 250": "What stands behind, or in the place of, an operand at level 250.",
    "calls and indexes": "Calls and indexes in one another.",
    "literals and conversions": "Literals and conversions in one another.",
    "types": "Types in one another.",
    "blocks": "Blocks, loops and chains of else.",
    "a statement at level 249": "Statements at level 249 (248 in the last row), in clauses, which are no levels.",
    "a statement at level 250": "Statements at level 250.",
    "expressions at their last level and past it": "Expressions of each form at their last level, and one past it.",
    "types at their last level and past it": "Types wherever they stand at their last level, and one past it.",
    "statements at their last level and past it": "Statements of each form at their last level, and one past it.",
}


def is_seen(c):
    """Whether a character is one that a reader can tell from others."""
    return c in "\n\t " or unicodedata.category(c)[0] in "LNPS"


def signed(text):
    """A text with signs for what isn't seen in it."""
    assert not set(text) & set("␍␊␠⟦⟧"), text
    text = text.replace("\r", "␍")
    text = "".join(c if is_seen(c) else f"⟦U+{ord(c):04X}⟧" for c in text)
    text = text[:-1] + "␠" if text.endswith(" ") else text
    assert not any(line.endswith(" ") for line in text.split("\n")), text
    return text


def row(text, wanted):
    """A row in one line, or in lines where its text has several or could be taken for something else."""
    if text and "\n" not in text and not text.startswith(("#", "= ", ">", "=> ")):
        return f"{text} => {wanted}\n"
    return "".join(f"> {line}".rstrip(" ") + "\n" for line in text.split("\n")) + f"=> {wanted}\n"


def deep_text(head, opener, core, closer, tail, count, wanted):
    text = f"{head}⟦{count}:{opener}¦{core}¦{closer}⟧{tail}"
    assert "¦" not in opener + core + closer and not text.endswith(" "), text
    return text


def tables():
    """Each heading with its rows."""
    found = {name: (note, rows) for name, note, _, rows in groups()}
    for kind, before, members in KINDS:
        for member in members:
            note, rows = found.pop(member)
            yield f"= {kind}: {note}\n" + "".join(row(signed(text.removeprefix(before)), wanted) for _, text, wanted, _ in rows)
    assert not found, found
    for group, _, rows in deeps():
        yield f"= declarations: {DEEP[group]}\n" + "".join(row(deep_text(*parts[:6], wanted), wanted) for parts, _, wanted, _ in rows)


if __name__ == "__main__":
    renew("tests/grammar/emit.py", ABOUT, "\n".join(tables()))
