"""A second way to levels, for small bounds: each symbol in as many copies as there are budgets, and a plain chart over that."""
import random, sys

from grammar import Grammar, matches
from chart import Chart, G
from scan import scan, Fault

class Budget:
    def __init__(self, B):
        self.by = {}
        for a, w, body in G.rules:
            for b in range(B + 1):
                if b - w < 0 or G.min[a] > b: continue
                if any(k == 'n' and G.min[x] > b - w for k, x in body): continue
                self.by.setdefault((a, b), []).append(tuple((k, (x, b - w) if k == 'n' else x) for k, x in body))
    def bad(self, tokens, B):
        sets = []
        seed = [(('File', B), r, 0, 0) for r in self.by[('File', B)]]
        i = 0
        while True:
            S = set(); sets.append(S); agenda = []
            def add(x):
                if x not in S: S.add(x); agenda.append(x)
            for x in seed: add(x)
            while agenda:
                a, body, d, o = agenda.pop()
                if d == len(body):
                    for (pa, pb, pd, po) in list(sets[o]):
                        if pd < len(pb) and pb[pd] == ('n', a): add((pa, pb, pd + 1, po))
                elif body[d][0] == 'n':
                    x = body[d][1]
                    for q in self.by[x]: add((x, q, 0, i))
                    for (ca, cb, cd, co) in list(S):
                        if ca == x and cd == len(cb) and co == i: add((a, body, d + 1, o))
            t = tokens[i]
            if t.kind == 'end':
                return None if any(a == ('File', B) and d == len(b) and o == 0 for a, b, d, o in S) else i
            seed = [(a, b, d + 1, o) for a, b, d, o in S if d < len(b) and b[d][0] == 't' and matches(b[d][1], t)]
            if not seed: return i
            i += 1

if __name__ == '__main__':
    from check import groups
    rng = random.Random(int(sys.argv[1]))
    texts = [t for *_, rows in groups() for _, t, w, _ in rows if w == 'ok' or rng.random() < .3]
    toks = []
    for t in texts:
        try: toks.append(scan(t))
        except Fault: pass
    pool = [x for t in toks for x in t[:-1]]
    n = diff = 0
    kinds = {}
    import time
    end = time.time() + float(sys.argv[2])
    tabs = {B: Budget(B) for B in (3, 4, 5, 6)}
    while time.time() < end:
        t = list(rng.choice(toks))
        for _ in range(rng.randrange(0, 3)):
            k = rng.randrange(3, max(4, len(t)))
            c = rng.random()
            if c < .4: t.insert(k, rng.choice(pool))
            elif c < .7 and k < len(t) - 1: del t[k]
            elif k < len(t) - 1: t[k] = rng.choice(pool)
        B = rng.choice((3, 4, 5, 6))
        a = Chart(t, B).bad; b = tabs[B].bad(t, B); f = Chart(t).bad
        n += 1
        kinds[(a is None, a != f)] = kinds.get((a is None, a != f), 0) + 1
        if a != b:
            diff += 1
            print('DIFF', B, a, b, ' '.join(x.text for x in t))
    print(n, 'texts', diff, 'differences', kinds)
