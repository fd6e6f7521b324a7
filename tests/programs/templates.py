"""Programs for each integer type: arithmetic that wraps, quotients, bits, shifts, comparisons and conversions."""

# The bits of each type, and whether it has a sign.
TYPES = {
    "int8": (8, True), "int16": (16, True), "int32": (32, True), "int64": (64, True), "int": (64, True), "rune": (32, True),
    "uint8": (8, False), "uint16": (16, False), "uint32": (32, False), "uint64": (64, False), "uint": (64, False),
    "byte": (8, False),
}

HEAD = 'package main\n\nimport "fmt"\n\n'

WRAPS = """func main() {
	var low, high T = LOW, HIGH
	one, two := T(1), T(2)
	fmt.Println(high+one, low-one, high+high, low+low, low-high, high-low)
	fmt.Println(high*high, low*low, high*two, low*two, high*low, high*(high-one), low*(low+one))
	fmt.Println(-low, -high, -one, ^low, ^high, ^one, +low)
	high++
	low--
	fmt.Println(low, high)
	high -= two
	low += two
	high *= high - one
	low *= low * 3
	fmt.Println(low, high)
	x := one
	for i := 0; i < 70; i += 7 {
		x = x*127 + two
		fmt.Println(x)
	}
}
"""

QUOTIENTS = """func main() {
	values := [VALUES]T{VALUE_LIST}
	for i := 0; i < len(values); i++ {
		for j := 0; j < len(values); j++ {
			a, b := values[i], values[j]
			if b != 0 {
				fmt.Println(a, b, a/b, a%b, a/b*b+a%b == a)
			}
		}
	}
}
"""

BITS = """func main() {
	values := [VALUES]T{VALUE_LIST}
	for i := 0; i < len(values); i++ {
		for j := i; j < len(values); j++ {
			a, b := values[i], values[j]
			fmt.Println(a&b, a|b, a^b, a&^b, b&^a, ^a^b, a&b|a^b == a|b)
		}
	}
}
"""

SHIFTS = """func main() {
	var low, high T = LOW, HIGH
	for n := uint8(0); n < BITS+4; n += STEP {
		fmt.Println(n, T(1)<<n, T(77)<<n, high<<n, high>>n, low<<n, low>>n)
	}
	fmt.Println(high<<(BITS-1), high>>(BITS-1), high<<BITS, high>>BITS, low>>(BITS-1), low>>BITS, low<<BITS)
	var far uint64 = 1 << 63
	fmt.Println(high<<far, high>>far, low<<far, low>>far, T(1)<<(far+1))
	var near int8 = BITS - 1
	x := T(1)
	x <<= near
	fmt.Println(x, x>>near, x>>(near-1), 1<<T(3), uint8(200)>>T(2))
}
"""

COMPARISONS = """func main() {
	values := [VALUES]T{VALUE_LIST}
	for i := 0; i < len(values); i++ {
		for j := 0; j < len(values); j++ {
			a, b := values[i], values[j]
			fmt.Println(a < b, a <= b, a == b, a != b, a > b, a >= b)
		}
	}
}
"""

CONVERSIONS = """func main() {
	values := [VALUES]T{VALUE_LIST}
	for i := 0; i < len(values); i++ {
		v := values[i]
		fmt.Println(int8(v), int16(v), int32(v), int64(v), int(v), rune(v))
		fmt.Println(uint8(v), uint16(v), uint32(v), uint64(v), uint(v), byte(v))
		fmt.Println(T(int8(v)) == v, T(uint8(v)) == v, T(int64(v)) == v, T(uint16(int32(v))) == v)
	}
}
"""

TEMPLATES = {
    "wraps": WRAPS, "quotients": QUOTIENTS, "bits": BITS, "shifts": SHIFTS, "comparisons": COMPARISONS, "conversions": CONVERSIONS,
}


def values_of(bits, signed):
    """The edges of a type, and some numbers between."""
    if signed:
        low, high = -(1 << bits - 1), (1 << bits - 1) - 1
        return low, high, [low, low + 1, -77, -7, -1, 0, 1, 3, 100, high - 1, high]
    high = (1 << bits) - 1
    return 0, high, [0, 1, 3, 7, 100, (1 << bits - 1) - 1, 1 << bits - 1, high - 1, high]


def filled(template, name):
    """The program of a template for a type."""
    bits, signed = TYPES[name]
    low, high, values = values_of(bits, signed)
    text = template.replace("VALUE_LIST", ", ".join(str(v) for v in values)).replace("VALUES", str(len(values)))
    text = text.replace("LOW", str(low)).replace("HIGH", str(high)).replace("BITS", str(bits)).replace("STEP", str(bits // 8 + 1))
    for before, behind in (("]", "{"), (" ", "("), ("(", "("), (", ", "("), ("<<", "("), (">>", "("), (" ", " =")):
        text = text.replace(f"{before}T{behind}", f"{before}{name}{behind}")
    return HEAD + text


def programs():
    """The name and the text of each program."""
    return [(f"{what}_{name}", filled(template, name)) for what, template in TEMPLATES.items() for name in TYPES]
