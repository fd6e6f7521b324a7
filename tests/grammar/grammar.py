"""The grammar as data. `!` before an alternative: it is a node (Stmt, Block, Expr, Type, Value) that counts as a level.
`X~` is X under the header mark; a rule head `X~` makes both X and X^ (and `~` in its body is then the same mark).
Terminals stand in quotes, and: name, pname (a name that isn't _), int, rune, string, istring (a string that isn't C)."""
import re

TEXT = r"""
File     = 'package' pname ';' { Import ';' } { TopDecl ';' } .
TopDecl  = Decl | Func .
Import   = 'import' ISpec | 'import' '(' [ ISpec { ';' ISpec } [ ';' ] ] ')' .
ISpec    = [ name ] istring .
Decl     = DeclNT | TypeDecl .
DeclNT   = 'const' CSpec | 'const' '(' [ CSpec { ';' CSpec } [ ';' ] ] ')'
         | 'var' VSpec | 'var' '(' [ VSpec { ';' VSpec } [ ';' ] ] ')' .
TypeDecl = 'type' TSpec | 'type' '(' [ TSpec { ';' TSpec } [ ';' ] ] ')' .
CSpec    = Names [ [ Type ] '=' Exprs ] .
VSpec    = Names Type [ '=' Exprs ] | Names '=' Exprs .
TSpec    = TName Type .
TName    = name .
Func     = 'func' FName FOpen [ Param { ',' Param } [ ',' ] ] ')' [ Result ] Block .
FName    = name .
FOpen    = '(' .
Param    = PNames Type .
PNames   = Names .
Result   = Type | '(' [ RType { ',' RType } [ ',' ] ] ')' .
RType    = Type .
Names    = name { ',' name } .
Exprs~   = Expr~ { ',' Expr~ } .
Type     = ! name [ '.' name ] | ! '[' Expr ']' Type | ! 'struct' '{' [ Field { ';' Field } [ ';' ] ] '}' .
Literal  = ! '[' Expr ']' Type | ! 'struct' '{' [ Field { ';' Field } [ ';' ] ] '}' .
NType    = ! name [ '.' name ] .
Field    = Names FType .
FType    = Type .
Block    = ! '{' List '}' .
List     = { Stmt ';' } [ Full ] .
Stmt     = ! | Full .
Full     = ! DeclNT | ! Simple | ! 'return' [ Exprs ] | ! 'break' | ! 'continue' | ! 'fallthrough' | ! Block | ! If | ! For
         | ! Switch .
Simple~  = Post~ | Names ':=' Exprs~ .
Post~    = Call~ | Expr~ '++' | Expr~ '--' | Exprs~ '=' Exprs~ | Expr~ opeq Expr~ .
Call~    = ! Primary~ '(' Args ')' | ! '(' Call ')' .
Args     = [ Exprs [ ',' ] ] .
If       = 'if' [ [ Simple^ ] ';' ] Expr^ Block [ 'else' Else ] .
Else     = ! If | Block .
For      = 'for' [ Expr^ ] Block | 'for' [ Simple^ ] ';' [ Expr^ ] ';' [ Post^ ] Block
         | 'for' [ name ':=' ] 'range' Expr^ Block .
Switch   = 'switch' [ [ Simple^ ] ';' ] [ Expr^ ] '{' { Head ':' { Stmt ';' } } [ Head ':' List ] '}' .
Head     = 'case' Exprs | 'default' .
Expr~    = And~ | ! Expr~ '||' And~ .
And~     = Cmp~ | ! And~ '&&' Cmp~ .
Cmp~     = Sum~ | ! Cmp~ cmpop Sum~ .
Sum~     = Prod~ | ! Sum~ sumop Prod~ .
Prod~    = Unary~ | ! Prod~ mulop Unary~ .
Unary~   = Primary~ | ! unop Unary~ .
Primary~ = Operand~ | ! Primary~ '.' name | ! Primary~ '[' Expr ']' | ! Primary~ '(' Args ')' .
Operand~ = ! int | ! rune | ! string | ! name | ! '(' Expr ')' | ! Literal Value | ! Literal '(' Expr [ ',' ] ')' | Named~ .
Named    = ! NType Value .
Value    = ! '{' [ Elem { ',' Elem } [ ',' ] ] '}' .
Elem     = [ name ':' ] EValue .
EValue   = Expr | Value .
"""
def edition_two():
    t = TEXT
    def rep(a, b):
        nonlocal t
        assert t.count(a) == 1, a
        t = t.replace(a, b)
    rep("""Type     = ! name""", """Type     = ! '[' ']' Type | ! name""")
    rep("""NType    =""", """Slice    = ! '[' ']' Type .\nNType    =""")
    rep("""| ! Literal Value |""", """| ! Literal Value | ! Slice Value |""")
    rep("""| ! Primary~ '[' Expr ']' |""", """| ! Primary~ '[' Expr ']' | ! Primary~ '[' [ Expr ] ':' SliceEnd ']' |""")
    rep("""Args     = [ Exprs [ ',' ] ] .""", """SliceEnd = [ Expr ] .
Args     = [ Exprs [ ',' ] ] | Literal [ ',' Exprs ] [ ',' ] | Slice [ ',' Exprs ] [ ',' ] .""")
    return t


CLASSES = {
    "opeq": "+= -= *= /= %= &= |= ^= <<= >>= &^=".split(), "cmpop": "== != < <= > >=".split(), "sumop": "+ - | ^".split(),
    "mulop": "* / % << >> & &^".split(), "unop": "+ - ! ^".split(), "name": None, "pname": None, "int": None, "rune": None,
    "string": None, "istring": None}


def matches(terminal, t):
    if terminal == "name":
        return t.kind == "name"
    if terminal == "pname":
        return t.kind == "name" and t.text != "_"
    if terminal == "istring":
        return t.kind == "string" and t.value != b"C"
    if terminal in ("int", "rune", "string"):
        return t.kind == terminal
    if terminal in CLASSES:
        return t.kind in CLASSES[terminal]
    return t.kind == terminal


class Grammar:
    """rules: list of (lhs, weight, symbols); a symbol is ('n', X) or ('t', terminal)."""

    def __init__(self, text=TEXT):
        self.rules, self.by = [], {}
        self.fresh = 0
        toks = re.findall(r"'[^']*'|[A-Za-z]\w*[~^]?|[=|.{}\[\]!]", text)
        prods, k = [], 0
        while k < len(toks):
            j = k
            while toks[j] != ".":
                j += 1
            prods.append((toks[k], toks[k + 2:j]))
            k = j + 1
        for head, body in prods:
            if head.endswith("~"):
                self.marked = False
                self.production(head[:-1], body, "")
                self.production(head[:-1] + "^", body, "^")
            else:
                self.production(head, body, "")
        # Named under the mark derives nothing: drop the rules that use it
        dead = {"Named^"}
        self.rules = [r for r in self.rules if not any(s[0] == "n" and s[1] in dead for s in r[2])]
        for n, r in enumerate(self.rules):
            self.by.setdefault(r[0], []).append(n)
        for r in self.rules:
            for s in r[2]:
                assert s[0] == "t" or s[1] in self.by, s
        self.heights()

    def production(self, head, body, mark):
        for alt in self.split(body):
            w = 0
            if alt and alt[0] == "!":
                w, alt = 1, alt[1:]
            self.rules.append((head, w, tuple(self.sequence(alt, mark))))

    @staticmethod
    def split(body):
        alts, depth = [[]], 0
        for t in body:
            if t in "[{" and len(t) == 1:
                depth += 1
            if t in "]}" and len(t) == 1:
                depth -= 1
            if t == "|" and depth == 0:
                alts.append([])
            else:
                alts[-1].append(t)
        return alts

    def sequence(self, body, mark):
        out, k = [], 0
        while k < len(body):
            t = body[k]
            if t in ("[", "{"):
                depth, j = 1, k + 1
                while depth:
                    depth += body[j] in ("[", "{")
                    depth -= body[j] in ("]", "}")
                    j += 1
                inner = body[k + 1:j - 1]
                self.fresh += 1
                name = f"_{self.fresh}"
                if t == "[":
                    self.rules.append((name, 0, ()))
                    for alt in self.split(inner):
                        self.rules.append((name, 0, tuple(self.sequence(alt, mark))))
                else:
                    self.rules.append((name, 0, ()))
                    self.rules.append((name, 0, (("n", name),) + tuple(self.sequence(inner, mark))))
                out.append(("n", name))
                k = j
                continue
            if t.startswith("'"):
                out.append(("t", t[1:-1]))
            elif t in CLASSES:
                out.append(("t", t))
            elif t.endswith("~"):
                out.append(("n", t[:-1] + mark))
            else:
                out.append(("n", t))
            k += 1
        return out

    def heights(self):
        inf = 10 ** 9
        self.min = {a: inf for a in self.by}
        changed = True
        while changed:
            changed = False
            for a, w, body in self.rules:
                h = w + max([self.min[x] if k == "n" else 0 for k, x in body], default=0)
                if h < self.min[a]:
                    self.min[a] = h
                    changed = True
        assert all(v < inf for v in self.min.values()), [a for a, v in self.min.items() if v >= inf]
        # least height of what is still due behind a dot
        self.rest = []
        for a, w, body in self.rules:
            row = [0]
            for k, x in reversed(body):
                row.append(max(row[-1], self.min[x] if k == "n" else 0))
            self.rest.append(row[::-1])
