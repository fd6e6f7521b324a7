"""Three programs that are cut at every tick, and what they print until then.

Each stands here twice: as a Go file, and as the same program in python, which takes its ticks by hand: one at each
entry of a function of the package, that of main too, behind the evaluation of the arguments; and one at each turn of a
loop, behind the test and before the body, also where a range counts. A print takes none.
"""


class Cut(Exception):
    """A tick was wanted and none was left."""


class Ended(Exception):
    """A panic, by its word."""


class Run:
    """The ticks that are left, and the output so far."""

    def __init__(self, limit):
        self.left, self.output = limit, ""

    def tick(self):
        if self.left == 0:
            raise Cut
        self.left -= 1

    def print(self, *operands):
        words = {True: "true", False: "false"}
        self.output += " ".join(words[o] if isinstance(o, bool) else str(o) for o in operands) + "\n"


CALLS_TEXT = """package main

import "fmt"

func f(n int) int {
	fmt.Println("f", n)
	if n > 1 {
		return f(n-1) + 1
	}
	return n
}

func none() {}

func main() {
	fmt.Println("main")
	fmt.Println(f(3), f(f(1)))
	none()
	f(2)
	fmt.Println("end")
}
"""


def calls(run):
    def f(n):
        run.tick()
        run.print("f", n)
        if n > 1:
            return f(n - 1) + 1
        return n

    def none():
        run.tick()

    run.tick()
    run.print("main")
    run.print(f(3), f(f(1)))
    none()
    f(2)
    run.print("end")


LOOPS_TEXT = """package main

import "fmt"

func main() {
	n := 0
	for i := 0; i < 3; i++ {
		if i == 1 {
			continue
		}
		n += i
		fmt.Println("i", i)
	}
	for n < 4 {
		n++
		fmt.Println("n", n)
	}
	for {
		n--
		if n == 2 {
			break
		}
		fmt.Println("down", n)
	}
	for k := range n {
		for range k + 1 {
			fmt.Println("k", k)
		}
	}
	for false {
		fmt.Println("never")
	}
	for range 0 {
		fmt.Println("never")
	}
	fmt.Println("end", n)
}
"""


def loops(run):
    run.tick()
    n = 0
    for i in range(3):
        run.tick()
        if i == 1:
            continue
        n += i
        run.print("i", i)
    while n < 4:
        run.tick()
        n += 1
        run.print("n", n)
    while True:
        run.tick()
        n -= 1
        if n == 2:
            break
        run.print("down", n)
    for k in range(n):
        run.tick()
        for _ in range(k + 1):
            run.tick()
            run.print("k", k)
    run.print("end", n)


MIXED_TEXT = """package main

import "fmt"

var total int

func test(i, n int) bool {
	fmt.Println("test", i)
	return i < n
}

func add(n int) int {
	for range n {
		total++
	}
	return total
}

func main() {
	for i := add(1); test(i, 5) && total < 9; i += add(2) {
		switch {
		case i == 1, test(i, 3):
			fmt.Println("case", i)
			fallthrough
		default:
			total *= 2
		}
	}
	fmt.Println("total", total)
	fmt.Println(100 / (total - add(0)))
}
"""


def mixed(run):
    total = 0

    def test(i, n):
        run.tick()
        run.print("test", i)
        return i < n

    def add(n):
        nonlocal total
        run.tick()
        for _ in range(n):
            run.tick()
            total += 1
        return total

    run.tick()
    i = add(1)
    while test(i, 5) and total < 9:
        run.tick()
        if i == 1 or test(i, 3):
            run.print("case", i)
        total *= 2
        i += add(2)
    run.print("total", total)
    if total - add(0) == 0:
        raise Ended("divide")


def told(model, limit):
    """What a program prints that is given so many ticks, how it ends, and whether it is cut."""
    run = Run(limit)
    try:
        model(run)
        return run.output + "ended\n", False
    except Cut:
        return run.output + "cut\n", True
    except Ended as panic:
        return f"{run.output}panicked {panic}\n", False


def programs():
    """The name, the ticks and the text of each program, and what is wanted: for each number of ticks up to one more than it takes."""
    rows = []
    for name, text, model in (("calls", CALLS_TEXT, calls), ("loops", LOOPS_TEXT, loops), ("mixed", MIXED_TEXT, mixed)):
        limit, is_cut = 0, True
        while is_cut:
            wanted, is_cut = told(model, limit)
            rows.append((f"ticks_{name}_{limit}", limit, text, wanted))
            limit += 1
        rows.append((f"ticks_{name}_{limit}", limit, text, told(model, limit)[0]))
    return rows
