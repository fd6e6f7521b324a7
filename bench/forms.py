"""Programs for bench/run that lean on one form each: a statement, a type or an operation that many programs have. A row has a name, the ticks, and the program in Go, in Lua and in Python."""


def main_of(body):
    return "func main() {\n" + body + "}\n"


def python_of(body):
    return "def main():\n" + "".join(f"    {line}\n" for line in body.splitlines()) + "main()\n"


FORMS = [
    (
        "statements",
        600000,
        "var n int\n\nfunc add(i int) {\nn = n + i\n}\n\n" + main_of("for i := 0; i < 300000; i++ {\nadd(i)\n}\nfmt.Println(n)\n"),
        "n = 0 local function add(i) n = n + i end local i = 0 while i < 300000 do add(i) i = i + 1 end print(n)\n",
        "n = 0\ndef add(i):\n    global n\n    n += i\n" + python_of("i = 0\nwhile i < 300000:\n    add(i)\n    i += 1\nprint(n)"),
    ),
    (
        "dropped",
        600000,
        "func twice(i int) int {\nreturn i + i\n}\n\n" + main_of("n := 0\nfor i := 0; i < 300000; i++ {\ntwice(i)\nn++\n}\nfmt.Println(n)\n"),
        "local function twice(i) return i + i end local n, i = 0, 0 while i < 300000 do twice(i) n = n + 1 i = i + 1 end print(n)\n",
        "def twice(i):\n    return i + i\n" + python_of("n = i = 0\nwhile i < 300000:\n    twice(i)\n    n += 1\n    i += 1\nprint(n)"),
    ),
    (
        "tagless",
        500000,
        main_of("a, b, c, k := 0, 0, 0, 0\nfor i := 0; i < 500000; i++ {\nswitch {\ncase k < 2:\na++\ncase k == 3:\nb++\ndefault:\nc++\n}\nk++\nif k == 5 {\nk = 0\n}\n}\nfmt.Println(a, b, c)\n"),
        "local a, b, c, k, i = 0, 0, 0, 0, 0 while i < 500000 do if k < 2 then a = a + 1 elseif k == 3 then b = b + 1 else c = c + 1 end k = k + 1 if k == 5 then k = 0 end i = i + 1 end "
        'print(a .. " " .. b .. " " .. c)\n',
        python_of(
            "a = b = c = k = i = 0\nwhile i < 500000:\n    if k < 2:\n        a += 1\n    elif k == 3:\n        b += 1\n    else:\n        c += 1\n    k += 1\n    if k == 5:\n        k = 0\n    i += 1\nprint(a, b, c)"
        ),
    ),
    (
        "shifts",
        500000,
        main_of("s := 1\nfor i := 0; i < 500000; i++ {\ns = (s << 3) & 1048575\ns = s ^ (i >> 2)\n}\nfmt.Println(s)\n"),
        "local s, i = 1, 0 while i < 500000 do s = (s << 3) & 1048575 s = s ~ (i >> 2) i = i + 1 end print(s)\n",
        python_of("s, i = 1, 0\nwhile i < 500000:\n    s = (s << 3) & 1048575\n    s = s ^ (i >> 2)\n    i += 1\nprint(s)"),
    ),
    (
        "hash-64",
        300000,
        main_of("var h uint64 = 1469598103934665603\nfor i := 0; i < 300000; i++ {\nh = (h ^ uint64(i&255)) * 1099511628211\n}\nfmt.Println(h & 1073741823)\n"),
        'local h, i = 1469598103934665603, 0 while i < 300000 do h = (h ~ (i & 255)) * 1099511628211 i = i + 1 end print(h & 1073741823)\n',
        python_of("h, i = 1469598103934665603, 0\nwhile i < 300000:\n    h = ((h ^ (i & 255)) * 1099511628211) & 0xffffffffffffffff\n    i += 1\nprint(h & 1073741823)"),
    ),
    (
        "wrapping",
        300000,
        main_of("h := 1\nfor i := 0; i < 300000; i++ {\nh = h*31 + i\n}\nfmt.Println(h)\n"),
        "local h, i = 1, 0 while i < 300000 do h = h * 31 + i i = i + 1 end print(h)\n",
        python_of("h, i = 1, 0\nwhile i < 300000:\n    h = (h * 31 + i + 2**63) % 2**64 - 2**63\n    i += 1\nprint(h)"),
    ),
    (
        "upwards",
        500000,
        main_of("s, n := 0, 500000\nfor i := 1; i <= n; i++ {\nif i >= 1000 && i > s {\ns = s + 2\n}\n}\nfmt.Println(s)\n"),
        "local s, n, i = 0, 500000, 1 while i <= n do if i >= 1000 and i > s then s = s + 2 end i = i + 1 end print(s)\n",
        python_of("s, n, i = 0, 500000, 1\nwhile i <= n:\n    if i >= 1000 and i > s:\n        s += 2\n    i += 1\nprint(s)"),
    ),
    (
        "moves",
        300000,
        main_of('a, b, n := "left", "right", 0\nfor i := 0; i < 300000; i++ {\nc := a\na = b\nb = c\nif a == "left" {\nn++\n}\n}\nfmt.Println(n)\n'),
        'local a, b, n, i = "left", "right", 0, 0 while i < 300000 do local c = a a = b b = c if a == "left" then n = n + 1 end i = i + 1 end print(n)\n',
        python_of('a, b, n, i = "left", "right", 0, 0\nwhile i < 300000:\n    c = a\n    a = b\n    b = c\n    if a == "left":\n        n += 1\n    i += 1\nprint(n)'),
    ),
    (
        "swaps",
        300000,
        main_of("var x [4]int\nfor i := range 4 {\nx[i] = i\n}\nfor i := 0; i < 300000; i++ {\nx[0], x[3] = x[3], x[0]\nx[1], x[2] = x[2], x[0]\n}\nfmt.Println(x[0], x[1], x[2], x[3])\n"),
        "local x = {} for i = 0, 3 do x[i] = i end local i = 0 while i < 300000 do x[0], x[3] = x[3], x[0] x[1], x[2] = x[2], x[0] i = i + 1 end "
        'print(x[0] .. " " .. x[1] .. " " .. x[2] .. " " .. x[3])\n',
        python_of("x, i = [0, 1, 2, 3], 0\nwhile i < 300000:\n    x[0], x[3] = x[3], x[0]\n    x[1], x[2] = x[2], x[0]\n    i += 1\nprint(*x)"),
    ),
    (
        "fields",
        300000,
        "type point struct{ x, y int }\n\n" + main_of("var p point\nfor i := 0; i < 300000; i++ {\np.x = p.x + i\np.y = p.y + p.x%7\n}\nfmt.Println(p.x, p.y)\n"),
        'local p, i = { x = 0, y = 0 }, 0 while i < 300000 do p.x = p.x + i p.y = p.y + p.x % 7 i = i + 1 end print(p.x .. " " .. p.y)\n',
        "class Point:\n    __slots__ = ('x', 'y')\n\n" + python_of("p, i = Point(), 0\np.x = p.y = 0\nwhile i < 300000:\n    p.x += i\n    p.y += p.x % 7\n    i += 1\nprint(p.x, p.y)"),
    ),
    (
        "variables",
        300000,
        "var a, b, n int\n\n" + main_of("for n = 0; n < 300000; n++ {\na = a + n\nif a > 1000000 {\na = a - 1000000\nb++\n}\n}\nfmt.Println(a, b)\n"),
        'a, b, n = 0, 0, 0 while n < 300000 do a = a + n if a > 1000000 then a = a - 1000000 b = b + 1 end n = n + 1 end print(a .. " " .. b)\n',
        "a = b = n = 0\ndef main():\n    global a, b, n\n    while n < 300000:\n        a += n\n        if a > 1000000:\n            a -= 1000000\n            b += 1\n        n += 1\n    print(a, b)\nmain()\n",
    ),
]

ON_SLICES = [
    (
        "appends",
        200000,
        main_of("s := []int{}\nfor i := 0; i < 200000; i++ {\ns = append(s, i)\n}\nfmt.Println(len(s), s[777])\n"),
        'local s, n = {}, 0 while n < 200000 do s[n] = n n = n + 1 end print(n .. " " .. s[777])\n',
        python_of("s, i = [], 0\nwhile i < 200000:\n    s.append(i)\n    i += 1\nprint(len(s), s[777])"),
    ),
    (
        "cuts",
        200000,
        main_of("s, n := []int{1, 2, 3, 4, 5, 6, 7, 8}, 0\nfor i := 0; i < 200000; i++ {\nr := s[2:5]\nn = n + r[1] + len(r)\n}\nfmt.Println(n)\n"),
        "local s, n, i = { 1, 2, 3, 4, 5, 6, 7, 8 }, 0, 0 while i < 200000 do local r = { s[3], s[4], s[5] } n = n + r[2] + #r i = i + 1 end print(n)\n",
        python_of("s, n, i = [1, 2, 3, 4, 5, 6, 7, 8], 0, 0\nwhile i < 200000:\n    r = s[2:5]\n    n = n + r[1] + len(r)\n    i += 1\nprint(n)"),
    ),
    (
        "strings",
        100000,
        main_of('words, n := []string{"one", "two", "three", "four"}, 0\nfor i := 0; i < 100000; i++ {\nw := words[i%4]\nif w == "two" || len(w) > 3 {\nn++\n}\n}\nfmt.Println(n)\n'),
        'local words, n, i = { [0] = "one", "two", "three", "four" }, 0, 0 while i < 100000 do local w = words[i % 4] if w == "two" or #w > 3 then n = n + 1 end i = i + 1 end print(n)\n',
        python_of('words, n, i = ["one", "two", "three", "four"], 0, 0\nwhile i < 100000:\n    w = words[i % 4]\n    if w == "two" or len(w) > 3:\n        n += 1\n    i += 1\nprint(n)'),
    ),
    (
        "machine",
        600000,
        "func run(code []int, times int) int {\nstack, n, s := make([]int, 8), 0, 0\nfor t := 0; t < times; t++ {\nfor pc := 0; pc < len(code); pc++ {\nswitch code[pc] {\ncase 0:\nstack[n] = pc\nn++\n"
        "case 1:\nn--\nstack[n-1] = stack[n-1] + stack[n]\ncase 2:\nn--\ns = s + stack[n]\n}\n}\n}\nreturn s\n}\n\n" + main_of("fmt.Println(run([]int{0, 0, 1, 0, 1, 2}, 100000))\n"),
        "local function run(code, times) local stack, n, s = {}, 0, 0 for t = 1, times do local pc = 0 while pc < 6 do local c = code[pc] if c == 0 then stack[n] = pc n = n + 1 elseif c == 1 then "
        "n = n - 1 stack[n - 1] = stack[n - 1] + stack[n] elseif c == 2 then n = n - 1 s = s + stack[n] end pc = pc + 1 end end return s end print(run({ [0] = 0, 0, 1, 0, 1, 2 }, 100000))\n",
        "def run(code, times):\n    stack, n, s = [0] * 8, 0, 0\n    for t in range(times):\n        pc = 0\n        while pc < len(code):\n            c = code[pc]\n            if c == 0:\n                stack[n] = pc\n"
        "                n += 1\n            elif c == 1:\n                n -= 1\n                stack[n - 1] += stack[n]\n            elif c == 2:\n                n -= 1\n                s += stack[n]\n            pc += 1\n"
        "    return s\nprint(run([0, 0, 1, 0, 1, 2], 100000))\n",
    ),
    (
        "breadth",
        120000,
        main_of(
            "n := 30000\nseen, queue, s := make([]bool, n), []int{1}, 0\nseen[1] = true\nfor at := 0; at < len(queue); at++ {\nv := queue[at]\ns = s + v%10\nfor k := 2; k <= 4; k++ {\nw := v*k%n + 1\n"
            "if w < n && !seen[w] {\nseen[w] = true\nqueue = append(queue, w)\n}\n}\n}\nfmt.Println(len(queue), s)\n"
        ),
        "local n = 30000 local seen, queue, count, s = {}, { [0] = 1 }, 1, 0 for i = 0, n - 1 do seen[i] = false end seen[1] = true local at = 0 while at < count do local v = queue[at] s = s + v % 10 "
        "local k = 2 while k <= 4 do local w = v * k % n + 1 if w < n and not seen[w] then seen[w] = true queue[count] = w count = count + 1 end k = k + 1 end at = at + 1 end "
        'print(count .. " " .. s)\n',
        python_of(
            "n = 30000\nseen, queue, s, at = [False] * n, [1], 0, 0\nseen[1] = True\nwhile at < len(queue):\n    v = queue[at]\n    s += v % 10\n    k = 2\n    while k <= 4:\n        w = v * k % n + 1\n"
            "        if w < n and not seen[w]:\n            seen[w] = True\n            queue.append(w)\n        k += 1\n    at += 1\nprint(len(queue), s)"
        ),
    ),
    (
        "bodies",
        100000,
        "type body struct{ x, v int }\n\n"
        + main_of("s := []body{{0, 1}, {10, 2}, {20, 3}}\nfor t := 0; t < 30000; t++ {\nfor i := 0; i < len(s); i++ {\ns[i].x = s[i].x + s[i].v\n}\n}\nfmt.Println(s[0].x, s[1].x, s[2].x)\n"),
        "local s = { [0] = { x = 0, v = 1 }, { x = 10, v = 2 }, { x = 20, v = 3 } } for t = 1, 30000 do local i = 0 while i < 3 do s[i].x = s[i].x + s[i].v i = i + 1 end end "
        'print(s[0].x .. " " .. s[1].x .. " " .. s[2].x)\n',
        python_of("s = [[0, 1], [10, 2], [20, 3]]\nfor t in range(30000):\n    i = 0\n    while i < len(s):\n        s[i][0] += s[i][1]\n        i += 1\nprint(s[0][0], s[1][0], s[2][0])"),
    ),
]
