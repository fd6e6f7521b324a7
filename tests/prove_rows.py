"""Rows for tools/prove, with a stand-in for rt: a crate is proved unless its sources say `bad`."""
import os
import shutil
import sys

from row import TOP, has, ran, row, same, written

RT = '''#!/usr/bin/env python3
import os, sys
from types import SimpleNamespace


class Crate:
    def __init__(self, name, deps):
        self.name, self.deps, self.folder = name, deps, os.path.abspath(f"crates/{name}")
        self.rlib = f"{self.folder}/out/rlib/{name}.rlib"

    def below(self):
        return [it for dep in self.deps for it in [*dep.below(), dep]]

    def words(self, flags, as_source):
        return [self.name, *flags, f"source={as_source}"]

    def call(self, *words):
        print(*words)
        return 1


def crates_below(top):
    made = {}
    for line in open(f"{top}/crates.txt"):
        name, _, deps = line.partition(":")
        made[name] = rtlib.Crate(name, [made[it] for it in deps.split() if it in made])
    return list(made.values())


nothing = lambda *_: None
stop, handles_of = nothing, lambda root: ()
rtlib = SimpleNamespace(Crate=Crate, RATTLE="rattle", crates_below=crates_below, guarded=nothing)
if __name__ == "__main__":
    name = os.path.basename(os.getcwd())
    if sys.argv[1:] == ["lib"]:
        print("said of", name)
        os.makedirs(f"out/rlib/{name}.rlib", exist_ok=True)
        sys.exit(int("bad" in open("src/lib.rt").read()))
    print("a kit")
'''


def checkout(room):
    """A checkout of three crates, one above the other, and tools/prove in it: what it answers."""
    top = os.path.join(room, "here")
    written(room, {"bin/rt": RT})
    os.chmod(os.path.join(room, "bin", "rt"), 0o755)
    written(top, {"crates.txt": "low: std\nmid: low\ntop: mid\n", "docs/GATE.md": "", **{f"crates/{it}/src/lib.rt": f"{it}\n" for it in ("low", "mid", "top")}})
    os.makedirs(os.path.join(top, "tools"))
    for file in ("prove", "kit.py"):
        shutil.copy(os.path.join(TOP, "tools", file), os.path.join(top, "tools", file))
    return lambda *words: ran(sys.executable, "tools/prove", *words, folder=top, path=os.path.join(room, "bin")), lambda files: written(top, files)


@row
def prove_proves_what_is_below(room):
    prove, change = checkout(room)
    status, printed, told = prove("mid")
    same((status, printed), (0, ""))
    has(told, "proving 2 crates: about 5 minutes", "2 of 2 crates proved\n")
    with open(os.path.join(room, "here", "out", "build.log"), encoding="utf-8") as file:
        has(file.read(), " said of low\n", " said of mid\n")
    change({"crates/mid/src/lib.rt": "bad\n"})
    status, printed, told = prove("low", "top")
    same((status, printed), (1, ""))
    has(told, "said of mid\n", "these are the first errors and the end of out/build.log")
    assert "said of top" not in told, told
    same(prove("none"), (1, "", "tools/prove: crates.txt has no crate none\n"))
    for words in ([], ["--other"], ["--check"]):
        status, printed, told = prove(*words)
        same((status, printed, "tools/prove --check CRATE" in told), (2, "", True))


@row
def prove_checks_over_libraries(room):
    prove, _ = checkout(room)
    status, printed, told = prove("--check", "mid")
    same((status, printed, told.startswith("tools/prove: no proved library is here of low: ")), (1, "", True))
    same(prove("low")[0], 0)
    kept = "out/incremental --progress"
    same(prove("--check", "mid", "--only", "a::b"), (1, f"rattle check mid --only a::b source=False --incremental {kept}\n", ""))
    has(prove("--check", "top", "--source")[1], "source=True --incremental out/incremental-source")
