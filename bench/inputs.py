"""The bench's inputs: sources of Go, made by a seed.

Each maker fills a folder's src/ and returns the path of the package to build.
"""
import os
import random

OPERATORS = ["+", "-", "*", "|", "&", "^", "&^"]


def put(folder, path, name, text):
    """Writes a source of a package, and returns its size."""
    at = os.path.join(folder, "src", path)
    os.makedirs(at, exist_ok=True)
    with open(os.path.join(at, name), "w", encoding="utf-8") as out:
        out.write(text)
    return len(text.encode())


def filled(size, head, part):
    """A text of about so many bytes: a head, and parts by their numbers."""
    parts, long, number = [head], len(head), 0
    while long < size:
        text = part(number)
        parts.append(text)
        long += len(text.encode())
        number += 1
    return "".join(parts)


def word(rng):
    """A name of letters, a few of them beyond ASCII."""
    letters = "abcdefghijklmnopqrstuvwxyzABCXYZ_é"
    return "n" + "".join(rng.choice(letters) for _ in range(rng.randint(2, 11)))


def constants(rng, size, folder):
    def part(number):
        return f"const N{number} = {rng.randrange(10**9)} + 0x{rng.randrange(16**8):X} + {number}\n"

    put(folder, "a", "a.go", filled(size, "package a\n\n", part))
    return "a"


def function(rng, number):
    """A function and its types, in which most forms of the grammar stand, well typed."""
    a, b, t = f"a{word(rng)}", f"b{word(rng)}", f"T{number}"
    first, second = rng.choice(OPERATORS), rng.choice(OPERATORS)
    limit, text = rng.randrange(1, 1000), word(rng)
    return f"""
// {t} is a pair with a list.
type {t} struct {{
	{a}, {b} int
	list  []string
	table map[string][4]int
}}

type S{number}[E ~int | ~string] interface {{
	at(i int) (E, bool)
	put(key string, value *E)
}}

const (
	k{number} = iota
	m{number} = {limit} << 3
)

func (p *{t}) sum(xs []int, last bool) (total int, found bool) {{
	for i, x := range xs {{
		if x == {limit} || i >= len(xs)-1 && !last {{
			continue
		}} else if x < 0 {{
			break
		}}
		total += x {first} p.{a} {second} ({limit} - p.{b})
	}}
	return total, total != 0
}}

func f{number}({a}, {b} int, v interface{{}}) *{t} {{
	var p = {t}{{{a}: {a}, {b}: {b}, list: []string{{"{text}\\n", `{text}`}}}}
	ys := [...]int{{1, 2, 0x{limit:x}, 'x', m{number}}}
	for i := 0; i < len(ys); i++ {{
		ys[i] *= {a} + -i
	}}
	switch total, _ := p.sum(ys[1:3:4], false); {{
	case total > k{number}, {b} <= 7:
		p.list = append(p.list, p.list[:1]...)
	default:
		p.table = map[string][4]int{{"{text}": {{1, 2, 3, 4}}}}
	}}
	if s, ok := v.(string); ok {{
		p.list[0], p.list[1] = s, string([]byte(s))
	}}
	/* the answer */
	return &p
}}
"""


def grammar(rng, size, folder):
    put(folder, "a", "a.go", filled(size, "package a\n", lambda number: function(rng, number)))
    return "a"


def expression(rng, size, folder):
    """One literal of sums that goes on over lines."""
    def part(number):
        terms = [str(rng.randrange(1000)) for _ in range(1 + number % 40)]
        return f"\t{' + '.join(terms)},\n"

    put(folder, "a", "a.go", filled(size, "package a\n\nvar N = []int{\n", part) + "}\n")
    return "a"


def nesting(rng, size, folder):
    """Parentheses, 180 deep, over and over."""
    def part(number):
        return f"const N{number} = {'(' * 180}{rng.randrange(10**6)}{')' * 180}\n"

    put(folder, "a", "a.go", filled(size, "package a\n\n", part))
    return "a"


def chain(rng, count, folder):
    """Packages of which each imports the one before."""
    put(folder, "p0", "a.go", "package p0\n\nconst N = 1\n")
    for number in range(1, count):
        below = f"p{number - 1}"
        sum_ = f"{below}.N + {rng.randrange(10)}"
        text = f'package p{number}\n\nimport "{below}"\n\nconst N = {sum_}\n'
        put(folder, f"p{number}", "a.go", text)
    return f"p{count - 1}"


def summed(folder, name, below):
    """A package whose constant is the sum of those of other packages."""
    imports = "".join(f'import "{it}"\n' for it in below)
    total = " + ".join(f"{it}.N" for it in below)
    put(folder, name, "a.go", f"package {name}\n\n{imports}\nconst N = {total}\n")


def fan(rng, count, folder):
    """A package over many, by packages of 40 imports each.

    A package of constants has at most 4,096 bytes.
    """
    names = [f"p{number}" for number in range(count)]
    for name in names:
        put(folder, name, "a.go", f"package {name}\n\nconst N = {rng.randrange(10)}\n")
    tops = []
    for at in range(0, count, 40):
        tops.append(f"q{at // 40}")
        summed(folder, tops[-1], names[at : at + 40])
    summed(folder, "top", tops)
    return "top"


def files(rng, count, folder):
    """A package of many small files, of which each is a few functions."""
    for number in range(count):
        text = "package a\n" + function(rng, number)
        put(folder, "a", f"f{number:03}.go", text)
    return "a"


# Each input's maker, its whole size, and what the size counts.
INPUTS = {
    "constants": (constants, 1_000_000, "bytes"),
    "grammar": (grammar, 1_000_000, "bytes"),
    "expression": (expression, 1_000_000, "bytes"),
    "nesting": (nesting, 1_000_000, "bytes"),
    "chain": (chain, 400, "packages"),
    "fan": (fan, 400, "packages"),
    "files": (files, 256, "files"),
}


def made(name, size, seed, folder):
    """Makes an input in an empty folder. Returns the path of the package to build."""
    return INPUTS[name][0](random.Random(f"{seed} {name}"), size, folder)
