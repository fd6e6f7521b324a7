#!/usr/bin/env python3
"""Writes the rows of constants into the table that the crate lang_rows answers: what each operator gives.

    python3 tests/constants/rows.py

An expression here is `KIND X OPERATOR Y` or `KIND OPERATOR X`, where `as` represents a number in a kind. A text is `t` and
its runs: `t2a.1b` is `aab`. The row is the declaration of such a constant.

Python's integers have no bounds, so what an operator gives is python's own, but for what the Go specification says
otherwise: `/` truncates, `%` has the dividend's sign, `^x` of an unsigned type is its greatest value less x. Then the
rules of a value follow: 13 where the operator isn't defined on such operands; 16 where the divisor is zero; 14 where a
shift count is no uint, or a value lies outside its type; 15 where a value without a type lies outside -2^127 ..
2^127-1, where what isn't zero is shifted left by 128 bits or more, or where a text has more than 2^24 bytes. A fault stands
at the first operand, or at the operator before it; that of a number that its declared type doesn't hold, at the name.
"""
import os
import sys

sys.path.insert(0, os.path.dirname(os.path.dirname(os.path.abspath(__file__))))
from rows_of_language import renew

SIGNED = {"int": 64, "int8": 8, "int16": 16, "int32": 32, "int64": 64}
UNSIGNED = {"uint": 64, "uint8": 8, "uint16": 16, "uint32": 32, "uint64": 64}
LONGEST = 1 << 24


def bounds(kind):
    """The least and the greatest value of a kind."""
    if kind in UNSIGNED:
        return 0, (1 << UNSIGNED[kind]) - 1
    bits = SIGNED.get(kind, 128)
    return -(1 << bits - 1), (1 << bits - 1) - 1


def quotient(x, y):
    return abs(x) // abs(y) * (1 if (x < 0) == (y < 0) else -1)


ARITHMETIC = {
    "+": lambda x, y: x + y,
    "-": lambda x, y: x - y,
    "*": lambda x, y: x * y,
    "/": quotient,
    "%": lambda x, y: x - y * quotient(x, y),
    "&": lambda x, y: x & y,
    "|": lambda x, y: x | y,
    "^": lambda x, y: x ^ y,
    "&^": lambda x, y: x & ~y,
}
COMPARISONS = {
    "==": lambda x, y: x == y,
    "!=": lambda x, y: x != y,
    "<": lambda x, y: x < y,
    "<=": lambda x, y: x <= y,
    ">": lambda x, y: x > y,
    ">=": lambda x, y: x >= y,
}


class Fault(Exception):
    pass


def checked(kind, value):
    low, high = bounds(kind)
    if not low <= value <= high:
        raise Fault(15 if kind == "untyped" else 14)
    return value


def shift(kind, x, operator, count):
    if type(x) is not int or type(count) is not int:
        raise Fault(13)
    if not 0 <= count < 1 << 64:
        raise Fault(14)
    if operator == ">>":
        return checked(kind, x >> min(count, 1000))
    if x and count >= 128:
        raise Fault(15)
    return checked(kind, x << count if x else 0)


def binary(kind, x, operator, y):
    if operator in ("<<", ">>"):
        return shift(kind, x, operator, y)
    if type(x) is not type(y):
        raise Fault(13)
    if type(x) is int:
        checked(kind, y)
    if type(x) is int and operator in ARITHMETIC:
        if operator in "/%" and y == 0:
            raise Fault(16)
        return checked(kind, ARITHMETIC[operator](x, y))
    if type(x) is bytes and operator == "+":
        if len(x + y) > LONGEST:
            raise Fault(15)
        return x + y
    if operator in COMPARISONS and (type(x) is not bool or operator in ("==", "!=")):
        return COMPARISONS[operator](x, y)
    if type(x) is bool and operator in ("&&", "||"):
        return x and y if operator == "&&" else x or y
    raise Fault(13)


def unary(kind, operator, x):
    if type(x) is bool and operator == "!":
        return not x
    if type(x) is int and operator in ("+", "-", "^", "as"):
        flipped = bounds(kind)[1] - x if kind in UNSIGNED else -1 - x
        return checked(kind, {"+": x, "as": x, "-": -x, "^": flipped}[operator])
    raise Fault(13)


def told(kind, value):
    """A constant's type and its value: truths and texts have no type."""
    if type(value) is int:
        return f"{'untyped int' if kind == 'untyped' else kind} {value}"
    return f"untyped bool {str(value).lower()}" if type(value) is bool else f'untyped string "{value.decode()}"'


def written(kind, value):
    """A constant of a kind as Go writes it, without the kind where it lies outside; the least integer has no literal."""
    if type(value) is not int:
        return str(value).lower() if type(value) is bool else f'"{value.decode()}"'
    if value == -MOST:
        return f"(-{MOST - 1} - 1)"
    low, high = bounds(kind)
    return f"{kind}({value})" if kind != "untyped" and low <= value <= high else str(value)


def value_of(word):
    if word in ("true", "false"):
        return word == "true"
    if not word.startswith("t"):
        return int(word)
    return b"".join(bytes([ord(run[-1])]) * int(run[:-1]) for run in word[1:].split(".") if run)


def declared(kind, *words):
    """A constant's declaration, and where the fault of its value stands."""
    if words[0] == "as":
        number = value_of(words[1])
        return (f"const v = {written(kind, number)}", 11) if kind == "untyped" else (f"const v {kind} = {number}", 7)
    if len(words) == 2:
        return f"const v = {words[0]}{written(kind, value_of(words[1]))}", 11
    left, right = written(kind, value_of(words[0])), written("untyped" if words[1] in ("<<", ">>") else kind, value_of(words[2]))
    return f"const v = {left} {words[1]} {right}", 11


def row(expression):
    words = expression.split()
    text, column = declared(*words)
    try:
        if len(words) == 3:
            wanted = told(words[0], unary(words[0], words[1], value_of(words[2])))
        else:
            wanted = told(words[0], binary(words[0], value_of(words[1]), words[2], value_of(words[3])))
    except Fault as fault:
        wanted = f"a.go:2:{column} {fault}"
    return f"{text} => {wanted}"


def typed():
    """At the borders of each type: what fits, sums, products, complements and shifts."""
    for kind, bits in {**SIGNED, **UNSIGNED}.items():
        low, high = bounds(kind)
        for number in (low - 1, low, high, high + 1):
            yield f"{kind} as {number}"
        yield f"{kind} {high} + 1"
        yield f"{kind} {low} - 1"
        yield f"{kind} {high} * {high}"
        yield f"{kind} {low} / -1"
        yield f"{kind} - {low}"
        yield f"{kind} - {high}"
        yield f"{kind} ^ {low}"
        yield f"{kind} ^ {high}"
        yield f"{kind} 1 << {bits - 2}"
        yield f"{kind} 1 << {bits - 1}"
        yield f"{kind} 1 << {bits}"
        yield f"{kind} {high} >> {bits - 2}"


MOST = 1 << 127
LARGE = 1 << 64

UNTYPED = f"""{MOST - 1} + 0;{MOST - 1} + 1;{MOST - 1} - -1;{-MOST} - 0;{-MOST} - 1;{-MOST} + -1;+ {-MOST};- {MOST - 1};- {-MOST};
^ {-MOST};^ {MOST - 1};^ 0;^ 1;as {-MOST};as {MOST - 1};{-MOST} / -1;{-MOST} % -1;{-MOST} / 1;{MOST - 1} / -1;{MOST - 1} * -1;{-MOST} * -1;
{LARGE} * {1 << 62};{LARGE} * {1 << 63};{-LARGE} * {1 << 63};{-LARGE} * {-(1 << 63)};{MOST - 1} * {MOST - 1};{-MOST} * {-MOST};{-MOST} * 0;
{(1 << 63) - 1} + 1;{(1 << 63)} * 2;{LARGE - 1} + 1;{-(1 << 63)} - 1;{LARGE} - {LARGE};{MOST - 1} - {MOST - 1};
7 / 2;-7 / 2;7 / -2;-7 / -2;7 % 2;-7 % 2;7 % -2;-7 % -2;6 / -3;6 % -3;0 / 5;1 / 0;1 % 0;0 / 0;{-MOST} % 0;{-MOST} / {MOST - 1};{-MOST} % {MOST - 1};
12 & 10;12 | 10;12 ^ 10;12 &^ 10;-1 & 255;-8 | 3;-8 ^ 3;-1 &^ 255;5 &^ -4;-6 & -4;-6 | -4;-6 ^ -4;-6 &^ -4;{-MOST} & {MOST - 1};{-MOST} | {MOST - 1};
{-MOST} ^ {MOST - 1};{MOST - 1} &^ {-MOST};{-MOST} &^ {MOST - 1};{LARGE - 1} & {LARGE + 5};{LARGE} | -1;
1 << 0;1 << 63;1 << 64;1 << 126;1 << 127;1 << 128;-1 << 126;-1 << 127;-1 << 128;3 << 125;3 << 126;-3 << 126;0 << 127;0 << 128;0 << 200;
0 << {LARGE - 1};0 << {LARGE};1 << {LARGE - 1};1 << {LARGE};1 << -1;0 << -1;1 << {-MOST};{MOST - 1} << 1;{-MOST} << 1;{-MOST} << 0;5 << 3;-5 << 3;
1 >> 0;1 >> 1;-1 >> 0;-1 >> 1;-1 >> 128;-5 >> 1;-7 >> 2;-8 >> 3;7 >> 1;{MOST - 1} >> 126;{MOST - 1} >> 127;{MOST - 1} >> 128;{-MOST} >> 126;{-MOST} >> 127;
{-MOST} >> 128;{-MOST} >> 129;{-MOST} >> {LARGE - 1};{MOST - 1} >> {LARGE - 1};1 >> {LARGE};1 >> -1;
-1 < 0;{MOST - 1} > {-MOST};1 <= 1;1 >= 2;1 == 1;1 != 1;{LARGE} == 0;0 < -1;-2 < -1;-1 <= -2;2 >= 1;
true && true;true && false;false && true;true || false;false || false;! true;! false;true == true;true == false;false != true;false != false;
t1a + t1b;t + t;t1a + t;t2a + t1a.1b;t1a < t1b;t1a < t1a.1b;t < t1a;t == t;t1a == t1b;t1a >= t1a;t2a != t1a;t1b > t2a;t2a <= t1b;t1a >= t1b;t1~ > t1A;
1 && 2;true + false;true & true;true < false;true >= true;t1a - t1b;t1a * t1b;t1a & t1b;t1a && t1b;1 + t1a;t1a + 1;1 == t1a;true == 1;t1a != true;1 < true;t1a / t;
! 1;! t1a;- true;- t1a;+ t1a;+ true;^ true;^ t1a;true << 1;1 << true;t1a << 1;1 >> t1a;t1a << -1;true >> true;1 || 0"""

TYPED = f"""int8 -128 / -1;int8 -128 % -1;int8 127 % -128;int8 1 / 0;uint8 1 % 0;int64 {-(1 << 63)} / -1;int64 {-(1 << 63)} % -1;uint64 {LARGE - 1} / 2;
int8 1 << 127;int8 1 << 128;int8 1 << 200;int8 -1 << 7;int8 -1 << 8;int8 0 << 200;int8 1 << -1;uint8 255 << 1;uint8 255 >> 8;uint8 255 >> 200;int8 -128 >> 7;int8 -128 >> 200;
uint64 1 << 127;uint64 1 << 128;uint8 1 - 2;uint8 200 + 56;uint8 15 &^ 5;uint8 240 | 15;uint8 255 ^ 1;int8 -128 ^ 127;int8 -128 | 1;uint8 ^ 1;int8 ^ 1;uint64 ^ 0;
uint8 16 * 16;uint8 15 * 17;int8 -8 * 16;int8 8 * 16;int32 46341 * 46341;int32 46340 * 46340;uint32 65536 * 65535;uint32 65536 * 65536;int64 4294967296 * 2147483648;
uint64 4294967296 * 4294967295;uint64 4294967296 * 4294967296;int8 1 < 2;uint64 {LARGE - 1} > 0;int8 t1a + t1b;int8 true == true;int as 0;uint as -1"""


def expressions():
    yield from typed()
    for part in UNTYPED.split(";"):
        yield f"untyped {part.strip()}"
    for part in TYPED.split(";"):
        yield part.strip()


def longest():
    """A text of 2^24 bytes, each constant twice the one before it, and one byte more."""
    texts = 't0 = "a"; ' + "; ".join(f"t{k} = t{k - 1} + t{k - 1}" for k in range(1, 25))
    more = f"const ( {texts}; t25 = t24 + t0 )"
    yield f"const ( {texts} )\u240aconst v = len(t24) => int {LONGEST}"
    yield f"{more} => a.go:2:{more.index('t24 + t0') + 1} 15"


if __name__ == "__main__":
    rows = [*dict.fromkeys(row(expression) for expression in expressions()), *longest()]
    renew("tests/constants/rows.py", ": what python3, whose integers have no bounds, has.", "= ground: Declarations of one package.\np: … => taken\n\n= any value: Operators on constants at the borders of their types.\n" + "\n".join(rows))
