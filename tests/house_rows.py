"""Rows for what `tools/crates check` counts by tools/house.txt."""
import os
import shutil
import sys

from row import TOP, has, ran, row, same, written

# Breaks each rule of the house once, and names in comments, in quotes, in a module's own name and in `pub use` what nothing else does.
ROOT = """//! Texts.
ghost use Rattle.go_text.specs.A.{Whole, Lost as gone, ◌+◌};
ghost use Rattle.go_text.specs.B as b;

/// gone { brace }
fn first(a: u8) -> u8
    requires short { Whole a + 1 }
    ensures long { NAMES }
{
    let c = '{'; // gone
BODY
}

fn second() -> char { "gone" }
"""
SPECS = {
    "A": 'use Rattle.std.specs.Prelude.{ℕ, Bool}\n\n-- Bool\nabbrev pub Whole : ℕ → ℕ\nWhole n = part n\n\npart : ℕ → ℕ\npart n = n\n\n'
    'record pub Lost : Type 0\n  of : ℕ\n\nabbrev pub ◌+◌ : ℕ\n◌+◌ = "Bool"\n',
    "B": "pub use Rattle.std.specs.Prelude.{ℕ}\n\nabbrev pub Whole : ℕ\nWhole = 1\n\nabbrev pub alone : ℕ\nalone = 1\n",
}
COUNTS = """# How often the house's rules are broken, which only shrinks: tools/crates renew.
2 imported names that nothing uses
1 definitions of specs/ that no clause comes to
1 public modules of proofs/ that no other crate cites
1 clauses of over 160 characters
1 function bodies of over 40 lines
1 documented names that two pages of specs/ define
1 names that two pages of specs/ define and another crate cites
1 files of over 800 lines
1 crates of over 120 functions
"""


def house(room, names="Whole b.alone " * 12, lines=41, functions=119, long=801):
    """A repository of two crates, whose rules are broken as far as these numbers say."""
    os.makedirs(os.path.join(room, "tools"), exist_ok=True)
    for name in ("crates", "house.py", "kit.py", "sources.py", "gate"):
        shutil.copy(os.path.join(TOP, "tools", name), os.path.join(room, "tools"))
    written(room, {f"crates/go_text/specs/{name}.antt": text for name, text in SPECS.items()})
    body = ROOT.replace("NAMES", names.strip()).replace("BODY", "\n".join(["    c;"] * (lines - 1)))
    written(room, {"crates/go_text/proofs/Lib.antt": "pub mod Seen\nmod Shut\n-- pub mod None\n"})
    written(room, {"crates/go_text/src/lib.rt": body + "fn more() {}\n" * (functions)})
    written(room, {"crates/go_scan/src/lib.rt": "//! Tokens.\nghost use Rattle.go_text.specs.A.{Whole};\n\nfn third()\n    ensures { Whole 1 }\n{}\n"})
    written(room, {"crates.txt": "go_text:\ngo_scan: go_text\n", "docs/GATE.md": "", "tests/rows": "\n" * long})
    written(room, {"docs/CRATES.md": "# Crates\n| **Basics** | |\n| go_text | Texts. |\n| **Tokens** | |\n| go_scan | Tokens. |\n"})
    written(room, {"docs/PROOFS.md": "Of `first`: `Whole`.\n```\nalone\n```\n"})
    return lambda *words: ran(sys.executable, "tools/crates", *words, folder=room)


@row
def house_names_what_breaks_its_rules(room):
    told = house(room)("house")[1].splitlines()
    lib, a, b = ("crates/go_text/" + it for it in ("src/lib.rt", "specs/A.antt", "specs/B.antt"))
    same(told, [
        f"{a}:1: Bool: imported names that nothing uses",
        f"{lib}:2: gone: imported names that nothing uses",
        f"{b}: Whole: definitions of specs/ that no clause comes to",
        "crates/go_text/proofs/Lib.antt: Seen: public modules of proofs/ that no other crate cites",
        f"{lib}:8: 167 characters: clauses of over 160 characters",
        f"{lib}:6: first, 41 lines: function bodies of over 40 lines",
        f"Whole: {a} {b}: documented names that two pages of specs/ define",
        f"Whole: {a} {b}: names that two pages of specs/ define and another crate cites",
        "tests/rows: 801 lines: files of over 800 lines",
        "go_text: 121 functions: crates of over 120 functions",
    ])


@row
def house_only_shrinks(room):
    crates = house(room)
    same(crates("renew")[0], 0)
    with open(os.path.join(room, "tools", "house.txt"), encoding="utf-8") as file:
        same(file.read(), COUNTS)
    same(crates("check")[0], 0)
    # (fewer: the kept numbers have to follow)
    crates = house(room, "Whole b.alone", 40, 118, 800)
    status, printed, _ = crates("check")
    same((status, printed.count("tools/crates renew"), printed.count("\n")), (1, 4, 4))
    has(printed, "0 clauses of over 160 characters, where tools/house.txt still has 1")
    same((crates("renew")[0], crates("check")[0]), (0, 0))
    # (and more again: no command keeps that)
    crates = house(room)
    for _ in range(2):
        status, printed, _ = crates("check")
        same((status, printed.count("`tools/crates house` names them"), printed.count("\n")), (1, 4, 4))
        same(crates("renew")[0], 0)
