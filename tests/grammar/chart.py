"""Earley's chart with levels. An item (rule, dot, origin) carries the least height of what stands before its dot; each
nonterminal that is due at a place carries the least level above it. An item stands in the chart only where it can be closed
within the bound."""
from grammar import Grammar, edition_two, matches

G = Grammar()
G2 = Grammar(edition_two())
INF = 10 ** 9


class Chart:
    def __init__(self, tokens, bound=INF, grammar=G, stop=None):
        self.g, self.tokens, self.bound = grammar, tokens, bound
        self.sets, self.above, self.wait, self.nulls = [], [], [], []
        self.bad = None
        seed = [(r, 0, 0, 0) for r in grammar.by["File"]]
        i = 0
        while True:
            self.open(i)
            if i == 0:
                self.above[0]["File"] = 0
            self.fill(i, seed)
            t = tokens[i]
            if t.kind == "end":
                if not self.accepted(i):
                    self.bad = i
                return
            seed = []
            for (r, d, o), h in self.sets[i].items():
                body = grammar.rules[r][2]
                if d < len(body) and body[d][0] == "t" and matches(body[d][1], t):
                    seed.append((r, d + 1, o, h))
            if not seed:
                self.bad = i
                return
            # within the bound?
            if not any(self.fits(*x) for x in seed):
                self.bad = i
                return
            i += 1

    def open(self, i):
        self.sets.append({})
        self.above.append({})
        self.wait.append({})
        self.nulls.append({})

    def accepted(self, i):
        return any(self.g.rules[r][0] == "File" and d == len(self.g.rules[r][2]) and o == 0 for r, d, o in self.sets[i])

    def fits(self, r, d, o, h):
        a, w, _ = self.g.rules[r]
        return self.above[o][a] + w + max(h, self.g.rest[r][d]) <= self.bound

    def fill(self, i, seed):
        g, S, above, wait, nulls = self.g, self.sets[i], self.above[i], self.wait[i], self.nulls[i]
        agenda = []

        def add(r, d, o, h, force=False):
            if not self.fits(r, d, o, h):
                return
            key = (r, d, o)
            old = S.get(key)
            if old is None or h < old:
                S[key] = h
                agenda.append(key)
            elif force:
                agenda.append(key)

        for x in seed:
            add(*x)
        while agenda:
            key = agenda.pop()
            r, d, o = key
            h = S[key]
            a, w, body = g.rules[r]
            if d == len(body):
                height = w + h
                if o == i:
                    if height < nulls.get(a, INF):
                        nulls[a] = height
                for (pr, pd, po) in list(self.wait[o].get(a, ())):
                    add(pr, pd + 1, po, max(self.sets[o][(pr, pd, po)], height))
                continue
            kind, x = body[d]
            if kind == "t":
                continue
            wait.setdefault(x, {})[key] = True
            level = self.above[o][a] + w
            if x not in above or level < above[x]:
                above[x] = level
                for q in g.by[x]:
                    add(q, 0, i, 0, force=True)
                for other in list(S):
                    if other[2] == i and other[1] > 0 and g.rules[other[0]][0] == x:
                        agenda.append(other)
            if x in nulls:
                add(r, d + 1, o, max(h, nulls[x]))

    # what the rules ask of the chart before token i
    def due(self, i, *names):
        return any(n in self.above[i] for n in names)

    def items(self, i):
        for r, d, o in self.sets[i]:
            yield self.g.rules[r][0], self.g.rules[r][2], d, o

    def ended(self, i, name):
        return any(a == name and d == len(body) for a, body, d, o in self.items(i))

    def at(self, i, lhs, before, after):
        """Some item of lhs has just passed the symbol `before` and has `after` next."""
        for a, body, d, o in self.items(i):
            if a in lhs and 0 < d < len(body) and body[d - 1] == before and body[d] == after:
                return True
        return False


TOKENS2 = {"chan", "defer", "go", "goto", "interface", "map", "select", "<-", "...", "~"}


def number(chart, i):
    """2 or 3 at the first bad token i of the chart without bound."""
    toks = chart.tokens
    t = toks[i]
    prev = toks[i - 1] if i else None
    k = t.kind
    pk = prev.kind if prev else None
    if k in TOKENS2:
        return 2
    operand_or_type = chart.due(i, "Operand", "Operand^", "Type")
    if k == "func" and operand_or_type:
        return 2
    if k in ("(", "[") and chart.due(i, "FName", "FOpen"):
        return 2
    if k in ("*", "&") and operand_or_type:
        return 2
    if k == "(" and chart.due(i, "Type"):
        return 2
    if k == "]" and pk == "[":
        return 2
    if k == ":":
        P = ("Primary", "Primary^")
        E = ("n", "Expr")
        if chart.at(i, P, ("t", "["), E) or chart.at(i, P, E, ("t", "]")):
            return 2
        if chart.g is G2 and chart.at(i, P, ("n", "SliceEnd"), ("t", "]")):
            return 2
        if pk == "name" and chart.due(i - 1, "Full"):
            return 2
        if chart.ended(i, "Elem"):
            return 2
    if k == "(" and pk == ".":
        return 2
    if k == "=" and chart.at(i, ("TSpec",), ("n", "TName"), ("n", "Type")):
        return 2
    if k == "type" and chart.due(i, "Full"):
        return 2
    if k == "name" and pk in ("break", "continue"):
        return 2
    if k == "." and chart.due(i, "ISpec"):
        return 2
    if k == "string" and t.value == b"C" and any(
            d < len(body) and body[d] == ("t", "istring") for a, body, d, o in chart.items(i)):
        return 2
    if k == "range" and pk == "=":
        return 2
    if k == ")" and chart.ended(i, "PNames"):
        return 2
    if k == "string" and chart.ended(i, "FType"):
        return 2
    if k in ("name", "[", "struct") and chart.ended(i, "RType"):
        return 2
    return 3


def parse_tokens(tokens, bound=250, edition=1):
    """None, or (index of the bad token, number)."""
    g = G if edition == 1 else G2
    free = Chart(tokens, grammar=g)
    if bound is None:
        return None if free.bad is None else (free.bad, number(free, free.bad))
    tight = Chart(tokens, bound, g)
    if tight.bad is not None and (free.bad is None or tight.bad < free.bad):
        return tight.bad, 4
    assert tight.bad == free.bad, (tight.bad, free.bad)
    return None if free.bad is None else (free.bad, number(free, free.bad))


def answer(text, bound=250, edition=1):
    from scan import scan, Fault
    try:
        tokens = scan(text)
    except Fault as f:
        return f"{f.place[0]}:{f.place[1]} {f.number}"
    got = parse_tokens(tokens, bound, edition)
    if got is None:
        return "ok"
    line, col = tokens[got[0]].place
    return f"{line}:{col} {got[1]}"


if __name__ == "__main__":
    import sys
    print(answer(sys.stdin.read()))
