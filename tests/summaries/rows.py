#!/usr/bin/env python3
"""Writes the rows of summaries into the table that the crate lang_rows answers: the size and the SHA-256 digest of their texts.

    python3 tests/summaries/rows.py

A row here is `PATH NAME | DECLARATION | ..`, and below it packages of which the last declares these. A declaration is
`const NAME VALUE TYPE`, `var NAME TYPE`, `type NAME TYPE` or `func NAME TYPES -> TYPES`. A type is words: a basic one, or one
made of the types before it: `[3` an array of the newest, `{A,p:b` a struct of the two newest ones, `=p:T` a declared one. A
string is written behind a `"`. What is wanted is the size, the digest, the path, the name, and the names that are exported, in
byte order, each behind the letter of what it is.

The digests are hashlib's; `printf` of the same bytes into `sha256sum` prints them too. A summary has no text, and is `none`,
where a type in it has a brace in a path: no package that is imported has such a path.
"""
import hashlib
import os
import sys
import unicodedata

sys.path.insert(0, os.path.dirname(os.path.dirname(os.path.abspath(__file__))))
from rows_of_language import renew

ROWS = """\
lib lib | const K 1 untyped_int
lib: const K = 1
lib lib | const K 5 untyped_int
lib: const K = 5
lib lib | const k 2 untyped_int | const K 1 untyped_int
lib: const k = 2; const K = 1
lib/q r
lib/q: package r
cmd/a main
cmd/a: package main; func main() {}
p p | type Tb int =p:Tb | var T int | const k 3 untyped_int | func F -> | type Ta bool =p:Ta | const A 2 untyped_int
p: type Tb int; var T int; const k = 3; func F() {}; type Ta bool; const A = 2
p p | var Z string | var \u00c9 int | var \u00e9 int | var \u01c5 int | var _X int | var \u03a98 int | var \U0001d400_ int | var \u65e5A int | var \u00e9A int | var Aa int | var A int
p: var Z string; var \u00c9, \u00e9, \u01c5, _X, \u03a98, \U0001d400_, \u65e5A, \u00e9A, Aa, A int
p p | const N -170141183460469231731687303715884105728 untyped_int | const M 170141183460469231731687303715884105727 untyped_int
p: const N = -170141183460469231731687303715884105727 - 1; const M = 170141183460469231731687303715884105727
p p | const Zero 0 untyped_int | const R 97 untyped_rune | const B true untyped_bool | const U false bool | const V -1 int8 =p:t
p: const Zero = 0; const R = 'a'; const B = true; const U bool = false; const V t = -1; type t int8
p p | const S "a_b untyped_string | const E " string =q:S | const F "true untyped_string | const C "1 untyped_string
q: type S string \u00a6 p: import "q"; const S = "a_b"; const E q.S = ""; const F = "true"; const C = "1"
p p | func F int string bool -> int uint8 [3 | func f int -> | func G -> | func H -> int | func I int ->
p: func F(a int, b string, c bool) (int, [3]uint8) { return 1, [3]uint8{} }; func f(a int) {}; func G() {}; func H() int { return 1 }; func I(a int) {}
p p | type S int [2 string {A,p:b =p:S | var V int {q:a =q:U [65536 | type E { =p:E | type A int [0 =p:A
q: type U struct { a int } \u00a6 p: import "q"; type S struct { A [2]int; b string }; var V [65536]q.U; type E struct {}; type A [0]int
p.q/a p | type T int =p.q/a:T
p.q/a: package p; type T int
p} p | const K 1 untyped_int
p}: package p; type t int; var v t; const K = 1"""

NONE = """\
p}: package p; type T int
p}: package p; var V struct { b int }
p}: package p; type t int; func F(a t) {}
p}: package p; type t int; func F() [2]struct { A t } { return F() }
p}: package p; type t int; const K t = 1"""


def be(number):
    return number.to_bytes(8, "big")


def field(data):
    return be(len(data)) + data


def dotted(name):
    return name.replace(":", ".")


def types(words):
    """The texts of the types that some words are."""
    made = []
    for word in words:
        if word[0] == "[":
            made.append(word + "]" + made.pop())
        elif word[0] == "=":
            made.append(f"({dotted(word[1:])} {made.pop()})")
        elif word[0] == "{":
            names = [name for name in word[1:].split(",") if name]
            parts = [made.pop() for _ in names][::-1]
            made.append("struct{" + "".join(f"{dotted(n)} {t};" for n, t in zip(names, parts)) + "}")
        else:
            made.append(word.replace("_", " "))
    return [text.encode() for text in made]


def listed(texts):
    return be(len(texts)) + b"".join(field(text) for text in texts)


def export(kind, words):
    """What a name exports: a letter and the parts."""
    if kind == "const":
        return field(b"C") + field(types(words[1:])[0]) + field(words[0].removeprefix('"').encode())
    if kind == "func":
        arrow = words.index("->")
        return field(b"F") + listed(types(words[:arrow])) + listed(types(words[arrow + 1:]))
    return field(b"V" if kind == "var" else b"T") + field(types(words)[0])


def row(text, packages):
    """A summary's text has constants first, then types, variables and functions."""
    head, *declared = [part.strip() for part in text.split("|")]
    path, name = head.split(" ")
    words = [part.split(" ") for part in declared]
    exports = {word[1].encode(): export(word[0], word[2:]) for word in words if unicodedata.category(word[1][0]) == "Lu"}
    parts = b"".join(field(key) + exports[key] for key in sorted(exports))
    whole = field(b"goset summary") + field(path.encode()) + field(name.encode()) + be(len(exports)) + parts
    names = "".join(f" {chr(exports[key][8])}:{key.decode()}" for key in sorted(exports))
    return f"{packages} => {len(whole)} {hashlib.sha256(whole).hexdigest()} {path} {name}{names}\n"


def tables():
    lines = ROWS.split("\n")
    yield "= ground: Rows alone.\n\u2026 => taken\n"
    yield "\n= summary: Sizes and digests of summaries, and what is exported.\n"
    yield from map(row, lines[::2], lines[1::2])
    yield "\n= summary: Types whose texts wouldn't tell them.\n"
    yield from (f"{packages} => none\n" for packages in NONE.split("\n"))


if __name__ == "__main__":
    renew("tests/summaries/rows.py", ": sizes and digests are python3's.", "".join(tables()))
