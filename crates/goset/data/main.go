package main

import "fmt"

func main() {
	ps := [3]point{{1, 2}, {3, 4}, {x: 5}}
	sum := total(ps)
	fmt.Println("sum", sum.x, sum.y)
	for i := 0; i < len(ps); i++ {
		ps[i] = add(ps[i], point{i, -i})
		fmt.Println(i, ps[i].x, ps[i].y)
	}
	fmt.Println(fib(10), total(ps) == sum)
	switch n := gcd(84, 36); n {
	case 12:
		fmt.Println("gcd", n)
	default:
		fmt.Println("none")
	}
}
