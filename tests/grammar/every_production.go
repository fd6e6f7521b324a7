// Every production of the grammar, in each of its forms.
package shapes

import "fmt"
import m "math/bits"
import ()
import ( _ "shapes/zero" )
import (
	_ "shapes/first"
	`shapes/second`; third "shapes/third"
)

const answer = 42
const one, two int = 1, 0x_2
const ()
const ( last = answer )
const (
	a = iota; b
	c, d
	e, f p.Small = 'x', '\u00e9'
)

var count int
var x, y = f(), "s"
var grid [n + 1][two]p.Cell = [3][2]p.Cell{{}, {1, 2,},}
var ()
var ( ready bool; limit, rest int = 1_000, 0o17 )
var (
	done = !ready
)

type Number int
type ()
type ( Only int )
type (
	Row [4]Number
	Box struct {
		low, high Number; inner struct {}; of [2]p.T
	}
	Pair struct { first, second int }
)

func _() {}
func main() { fmt.Println("main", count,) }
func one_result(n int) int { return -n }
func many(a, b int, s [2]struct { t T }, last p.T,) (int, [2]Row, struct {},) {
	return a + b, [2]Row{}, struct {}{}
}
func none() () { return; }
func two_results() (int, p.T) { return f() }
func box() struct { a int } { return struct { a int }{a: 1} }

func expressions() bool {
	x = a || b && c == d
	x = a != b; x = a < b; x = a <= b; x = a > b; x = a >= b
	x = a + b - c | d ^ e
	x = a * b / c % d << e >> f & g &^ h
	x = + - ! ^ a
	x = 0 + 'r' + "i" + `raw` + n + (n)
	x = p.T{name: 1, 2, {3}, other: {}, U{},}
	x = f(a)(b, c,)().g[i][j + 1].h
	x = [2]int(y) + struct {}(z,).w
	return T{} == (T{})
}

func statements() {
	;
	const local, other = 1, 2
	var v, w int
	var ( u = 1 )
	f(); (g.h[0](1)); [1]int(x)(y)
	i++; a.b[c]--
	a, b = b, a
	a += 1; a -= 1; a *= 1; a /= 1; a %= 1; a &= 1; a |= 1; a ^= 1; a <<= 1; a >>= 1; a &^= 1
	l, _ := 1, T{}
	{ f(); { } }
	if a { f() }
	if ; a {} else { g() }
	if x := f(); x == [2]T{} {} else if f(T{}); (T{}) == x {} else if y++; y > 0 {}
	if a || b && -c * d + e.f[g](h) == 'x' {}
	if (f()); [2]T(x) == [1]U(y,) {}
	if s += "t"; s < struct { a int; b T; }{1, t}.u {}
	for { break }
	for i < 3 { continue }
	for ;; {}
	for i := 0; i < 3; i++ {}
	for i = 0; ; f() {}
	for ;; i += 2 {}
	for x--; ok; i, j = j, i { i /= 2 }
	for range 3 {}
	for i := range n { f(i) }
	switch {}
	switch { case a: f() }
	switch ; {}
	switch ; x {}
	switch x := f(); {}
	switch x, y := f(), 1; x + y { default: }
	switch f() {
	case 1, T{}.a: f()
		fallthrough
	case 2:
	default:
		;
		g(); return
	}
}
