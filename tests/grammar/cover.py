"""Which rules the derivations of accepted texts use."""
import sys

sys.setrecursionlimit(100000)
from chart import Chart, G
from scan import scan

def used(text):
    toks = scan(text)
    ch = Chart(toks)
    assert ch.bad is None, (toks[ch.bad])
    done = {}
    for i, S in enumerate(ch.sets):
        for (r, d, o) in S:
            if d == len(G.rules[r][2]): done.setdefault((G.rules[r][0], o, i), []).append(r)
    found = set(); memo = {}
    def match(r, d, o, i):
        # split rule r's symbols before d over [o,i): list of children, from the right
        if d == 0: return [] if o == i else None
        if (r, d, o) not in ch.sets[i]: return None
        k, x = G.rules[r][2][d - 1]
        if k == 't':
            return match(r, d - 1, o, i - 1) if i - 1 >= o else None
        for j in range(i, o - 1, -1):
            if (x, j, i) in done and ((r, d - 1, o) in ch.sets[j]):
                m = match(r, d - 1, o, j)
                if m is not None: return m + [(x, j, i)]
        return None
    stack = [('File', 0, len(toks) - 1)]; seen = set(stack); count = 0
    while stack:
        a, o, i = stack.pop()
        cands = done[(a, o, i)]
        for r in cands[:]:
            m = match(r, len(G.rules[r][2]), o, i)
            # a rule whose one child is itself is passed over
            if m == [(a, o, i)]: continue
            found.add(r)
            for c in m:
                if c not in seen: seen.add(c); stack.append(c)
    # token classes
    return found, {t.kind for t in toks}

if __name__ == '__main__':
    text = open('every_production.go').read()
    f, kinds = used(text)
    for r, (a, w, body) in enumerate(G.rules):
        if r not in f: print('unused', a, body)
    from grammar import CLASSES
    for c in CLASSES.values():
        for k in c or (): 
            if k not in kinds: print('op unused', k)
    from check import groups
    tot = set()
    for *_, rows in groups():
        for _, text, wanted, _ in rows:
            if wanted == 'ok': tot |= used(text)[0]
    print('table:', [G.rules[r] for r in range(len(G.rules)) if r not in tot])
