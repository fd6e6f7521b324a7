"""An independent scanner: tokens with places, or the first fault (number, place)."""
import re
import unicodedata

KEYWORDS = set("""break case chan const continue default defer else fallthrough for func go goto if import interface map
package range return select struct switch type var""".split())
OPS = """+ - * / % & | ^ << >> &^ += -= *= /= %= &= |= ^= <<= >>= &^= && || <- ++ -- == < > = ! ~ != <= >= := ... ( [ { , . ) ] }
; :""".split()
OPS.sort(key=lambda o: -len(o))
ENDERS = {"break", "continue", "fallthrough", "return", "++", "--", ")", "]", "}"}


class Fault(Exception):
    def __init__(self, number, place):
        self.number, self.place = number, place


class Token:
    __slots__ = ("kind", "text", "value", "place", "made")

    def __init__(self, kind, text, place, value=None, made=False):
        self.kind, self.text, self.place, self.value, self.made = kind, text, place, value, made

    def __repr__(self):
        return f"{self.kind}:{self.text}@{self.place[0]}:{self.place[1]}"


def letter(c):
    return c == "_" or unicodedata.category(c) in ("Lu", "Ll", "Lt", "Lm", "Lo")


def digit(c):
    return unicodedata.category(c) == "Nd"


INT = [re.compile(p, re.A) for p in (
    r"0", r"[1-9](_?[0-9])*", r"0[bB](_?[01])+", r"0[oO](_?[0-7])+", r"0(_?[0-7])+", r"0[xX](_?[0-9a-fA-F])+")]


def number_fault(run):
    if any(p.fullmatch(run) for p in INT):
        return 0
    hexa = run[:2] in ("0x", "0X")
    if "." in run or run.endswith("i"):
        return 2
    if not hexa and ("e" in run or "E" in run):
        return 2
    if hexa and ("p" in run or "P" in run):
        return 2
    return 1


SIMPLE = {"a": 7, "b": 8, "f": 12, "n": 10, "r": 13, "t": 9, "v": 11, "\\": 92}


def escape(s, i, quote):
    """s[i] is the backslash. (end, bytes or None)"""
    c = s[i + 1: i + 2]
    if c in SIMPLE and c:
        return i + 2, bytes([SIMPLE[c]])
    if c == quote:
        return i + 2, quote.encode()
    m = re.compile(r"[0-7]{3}").match(s, i + 1)
    if m:
        v = int(m.group(), 8)
        return (i + 4, bytes([v])) if v <= 255 else (0, None)
    m = re.compile(r"x[0-9a-fA-F]{2}").match(s, i + 1)
    if m:
        return i + 4, bytes([int(s[i + 2:i + 4], 16)])
    m = re.compile(r"u[0-9a-fA-F]{4}|U[0-9a-fA-F]{8}").match(s, i + 1)
    if m:
        v = int(m.group()[1:], 16)
        if v > 0x10FFFF or 0xD800 <= v <= 0xDFFF:
            return 0, None
        return m.end(), chr(v).encode()
    return 0, None


def scan(text):
    """The tokens, with inserted semicolons and an end token; raises Fault."""
    if text.startswith("\ufeff"):
        text = text[1:]
    # places: column of each code point
    n = len(text)
    places = []
    line, col = 1, 1
    for c in text:
        places.append((line, col))
        if c == "\n":
            line, col = line + 1, 1
        else:
            col += len(c.encode())
    places.append((line, col))
    out = []
    due = None   # index just after the last token, if a newline would insert

    def newline():
        nonlocal due
        if due is not None:
            out.append(Token(";", "\n", places[due], made=True))
            due = None

    i = 0
    while i < n:
        c = text[i]
        if c == "\n":
            newline()
            i += 1
            continue
        if c in " \t\r":
            i += 1
            continue
        if text.startswith("//", i):
            j = text.find("\n", i)
            j = n if j < 0 else j
            body = text[i:j]
            if not out and re.match(r"//go:build([ \t]|$)", body) and (len(body) == 10 or body[10] in " \t"):
                raise Fault(2, places[i])
            i = j
            # the newline, or the end, follows and does the rest
            continue
        if text.startswith("/*", i):
            j = text.find("*/", i + 2)
            if j < 0:
                raise Fault(1, places[i])
            if "\n" in text[i:j]:
                newline()
            i = j + 2
            continue
        start = i
        if letter(c):
            while i < n and (letter(text[i]) or digit(text[i])):
                i += 1
            word = text[start:i]
            kind = word if word in KEYWORDS else "name"
            out.append(Token(kind, word, places[start]))
        elif c in "0123456789" or (c == "." and text[i + 1:i + 2] in tuple("0123456789")):
            while i < n and (text[i] in "_." or (text[i].isascii() and text[i].isalnum())):
                i += 1
            run = text[start:i]
            f = number_fault(run)
            if f:
                raise Fault(f, places[start])
            out.append(Token("int", run, places[start]))
        elif c == "`":
            j = text.find("`", i + 1)
            if j < 0:
                raise Fault(1, places[start])
            i = j + 1
            out.append(Token("string", text[start:i], places[start], text[start + 1:j].replace("\r", "").encode()))
        elif c in "\"'":
            i += 1
            parts = []
            while True:
                if i >= n or text[i] == "\n":
                    raise Fault(1, places[start])
                if text[i] == c:
                    break
                if text[i] == "\\":
                    i, b = escape(text, i, c)
                    if b is None:
                        raise Fault(1, places[start])
                    parts.append(b)
                else:
                    parts.append(text[i].encode())
                    i += 1
            i += 1
            if c == "'" and len(parts) != 1:
                raise Fault(1, places[start])
            out.append(Token("string" if c == '"' else "rune", text[start:i], places[start], b"".join(parts)))
        else:
            for op in OPS:
                if text.startswith(op, i):
                    break
            else:
                raise Fault(1, places[start])
            i += len(op)
            out.append(Token(op, op, places[start]))
        t = out[-1]
        due = i if t.kind in ENDERS or t.kind in ("name", "int", "rune", "string") else None
    newline()
    out.append(Token("end", "", places[n]))
    return out
