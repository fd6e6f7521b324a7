import sys, json

from rows import WHOLE, LINES, DEEP
from chart import answer

def work(row, whole):
    head, text = row.split(' ', 1)
    ruling = '!' in head
    col = None
    if '@' in head:
        head, c = head.split('@'); col = int(c)
    n = head.rstrip('!')
    prefix = "" if whole else "package p\n"
    if n == 'ok':
        assert '¦' not in text, row
        return prefix + text, 'ok', ruling
    assert text.count('¦') == 1, row
    before = prefix + text[:text.index('¦')]
    if before.startswith('\ufeff'): before = before[1:]
    line = before.count('\n') + 1
    c = len(before[before.rfind('\n') + 1:].encode()) + 1
    if col is not None: assert (line, c) == (1 if whole else 2, col), (row, line, c)
    return prefix + text.replace('¦', ''), f"{line}:{c} {n}", ruling

def deep(row):
    head, op, core, cl, tail, count, ans = row
    r = ans.endswith('!')
    return "package p\n" + head + op * count + core + cl * count + tail, ans.rstrip('!'), r

def groups():
    for name, _, note, rows in WHOLE:
        yield name, note, True, [(r, *work(r, True)) for r in rows]
    for name, note, rows in LINES:
        yield name, note, False, [(r, *work(r, False)) for r in rows]
def deeps():
    for name, note, rows in DEEP:
        yield name, note, [(r, *deep(r)) for r in rows]

if __name__ == '__main__':
    bad = total = rul = 0
    seen = {}
    for name, note, whole, rows in groups():
        for r, text, want, ruling in rows:
            total += 1; rul += ruling
            if text in seen: print('TWICE', name, seen[text], repr(r))
            seen[text] = name
            got = answer(text)
            if got != want:
                bad += 1
                print(name, repr(r), 'want', want, 'got', got)
    print('plain', total, 'groups', [(n, len(r)) for n, _, _, r in groups()])
    for name, note, rows in deeps():
        for r, text, want, ruling in rows:
            total += 1; rul += ruling
            got = answer(text)
            if got != want:
                bad += 1
                print('deep', name, r, 'want', want, 'got', got)
    print(total, 'rows', rul, 'of the examples', bad, 'differences')
