package main

type point struct{ x, y int }

func add(p, q point) point {
	return point{p.x + q.x, p.y + q.y}
}

func total(ps [3]point) point {
	sum := point{}
	for i := 0; i < len(ps); i++ {
		sum = add(sum, ps[i])
	}
	return sum
}

func fib(n int) int {
	if n < 2 {
		return n
	}
	return fib(n-1) + fib(n-2)
}

func gcd(a, b int) int {
	for b != 0 {
		a, b = b, a%b
	}
	return a
}
