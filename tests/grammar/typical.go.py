#!/usr/bin/env python3
"""Writes N bytes of typical code, the same for the same N: typical.go.py N > file.go. From about 200 bytes on; at most 1,048,576."""
import sys

HEAD = """// Code of the usual kind, made to be read fast or slowly.
package main

import "fmt"

const limit = 1 << 10

"""
PARTS = ["""// Point{k} is a place on a grid.
type Point{k} struct {{
	x, y int
	tag  string
}}

""", """func distance{k}(a, b Point{p}) int {{
	dx, dy := a.x-b.x, a.y-b.y
	if dx < 0 {{
		dx = -dx
	}}
	if dy < 0 {{
		dy = -dy
	}}
	return dx + dy
}}

""", """// walk{k} adds up what lies within the limit.
func walk{k}(grid [8][8]int, start Point{p}) (int, bool) {{
	sum := 0
	for i := 0; i < 8; i++ {{
		for j := 0; j < 8; j++ {{
			if grid[i][j]%3 == 0 || (i+j)&1 != 0 {{
				continue
			}}
			sum += grid[i][j]*{k} + start.x<<2
		}}
	}}
	return sum, sum <= limit && start.tag != ""
}}

""", """const (
	first{k} = iota + {k}
	second{k}
	third{k}
)

var table{k} = [4]Point{p}{{{{1, 2, "a"}}, {{x: 3, y: 4, tag: "b\\n"}}, {{}}, {{5, -6, `raw`}}}}

""", """func name{k}(n int) string {{
	switch n {{
	case first{q}:
		return "first"
	case second{q}, third{q}:
		return "other"
	default:
		/* nothing fits */
		fmt.Println("unknown", n, 'x'+{k})
	}}
	return ""
}}

""", """func count{k}(words [3]string) int {{
	total := len(words)
	for i := range 3 {{
		w := words[i]
		if w == "" {{
			break
		}} else if w[0] == 'a' {{
			total++
		}} else {{
			total -= len(w) / 2
		}}
	}}
	for total > 100 {{
		total >>= 1
	}}
	return total
}}

"""]
TAIL = """func main() {
	fmt.Println("done")
}
"""


def typical(size):
    text, k, p, q = [HEAD], 0, 0, 0
    left = size - len(HEAD) - len(TAIL)
    while True:
        n = k % len(PARTS)
        if n == 0:
            p = k
        if n == 3:
            q = k
        part = PARTS[n].format(k=k, p=p, q=q)
        if len(part) > left:
            break
        text.append(part)
        left -= len(part)
        k += 1
    text.append(TAIL)
    whole = "".join(text)
    fill = size - len(whole)
    # blank lines and a comment make the size exact
    if fill >= 3:
        return whole + "//" + "." * (fill - 3) + "\n"
    return whole + "\n" * fill


if __name__ == "__main__":
    size = int(sys.argv[1])
    if size < len(HEAD) + len(TAIL) or size > 1_048_576:
        sys.exit("from %d to 1048576 bytes" % (len(HEAD) + len(TAIL)))
    sys.stdout.write(typical(size))
