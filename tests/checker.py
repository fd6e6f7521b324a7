"""The rules of the checker a second time, for packages of a few forms: docs/CHECKING.md is what both go by.

A package is a list of declarations: `Types`, `Constants`, `Variables` and `Function`. Writing one out gives each node its
place, and `first_fault` gives the place and the number of the package's first fault, or None. A node is asked for its own
rules only if no part of it is faulty and no name in it stands for a declaration of which nothing is known.
"""
import collections

REDECLARED, MISUSED, RANGE, ZERO, RETURN, TYPE, COUNT, CYCLE, LARGE, UNDECLARED = 10, 13, 14, 16, 18, 19, 20, 21, 5, 11
LIMITS = {"int": (-2**63, 2**63 - 1), "int8": (-128, 127)}
MOST_ELEMENTS = 65536

# A type is a word, ("array", length, element) or ("named", name, underlying type); what an untyped constant has is
# "untyped int", "untyped string" or "untyped bool". A value has a type, and the constant that it is or None.
Value = collections.namedtuple("Value", "type constant")
Results = collections.namedtuple("Results", "types")


class Node:
    """A form with its place; what it holds is set by each kind."""

    def __init__(self, *parts):
        self.parts, self.place = parts, None


class Number(Node): pass          # text
class Text(Node): pass            # text with quotes
class Name(Node): pass            # name
class Add(Node): pass             # left, which is no such form, and right, in parentheses where it is one
class Divide(Node): pass          # the same
class Call(Node): pass            # name, operands: of a function, or a conversion
class Print(Node): pass           # operand
class Array(Node): pass           # length, element: a type
class Return(Node): pass          # values
class If(Node): pass              # condition, statements
class Short(Node): pass           # names, values
class Drop(Node): pass            # value, to the blank name
class Local(Node): pass           # name, value: a constant in a function
class Types(Node): pass           # name, type
class Constants(Node): pass       # specs: a group where there are several
class Spec(Node): pass            # names, type or None, values; without values it repeats the one before
class Variables(Node): pass       # names, type or None, values
class Function(Node): pass        # name, parameters as pairs of a name and a type, results, statements


class Writer:
    """The text of a package, which tells each node where it begins."""

    def __init__(self):
        self.lines, self.line = [], ""

    def here(self):
        return len(self.lines) + 1, len(self.line) + 1

    def put(self, text):
        self.line += text

    def end(self):
        self.lines.append(self.line)
        self.line = ""

    def listed(self, nodes):
        for at, node in enumerate(nodes):
            self.put(", " * (at > 0))
            self.node(node)

    def node(self, node):
        node.place = self.here()
        getattr(self, f"put_{type(node).__name__.lower()}")(*node.parts)

    def put_number(self, text):
        self.put(text)

    put_text = put_name = put_number

    def put_add(self, left, right, sign=" + "):
        self.node(left)
        self.put(sign)
        inner = isinstance(right, (Add, Divide))
        self.put("(" * inner)
        self.node(right)
        self.put(")" * inner)

    def put_divide(self, left, right):
        self.put_add(left, right, " / ")

    def put_call(self, name, operands):
        self.node(name)
        self.put("(")
        self.listed(operands)
        self.put(")")

    def put_print(self, operand):
        self.put("fmt.Println(")
        self.node(operand)
        self.put(")")

    def put_array(self, length, element):
        self.put("[")
        self.node(length)
        self.put("]")
        self.node(element)

    def put_return(self, values):
        self.put("return ")
        self.listed(values)

    def put_if(self, condition, statements):
        self.put("if ")
        self.node(condition)
        self.block(statements)

    def put_short(self, names, values):
        self.listed(names)
        self.put(" := ")
        self.listed(values)

    def put_drop(self, value):
        self.put("_ = ")
        self.node(value)

    def put_local(self, name, value):
        self.put("const ")
        self.spec([name], None, [value])

    def block(self, statements):
        self.put(" { ")
        for statement in statements:
            self.node(statement)
            self.put("; ")
        self.put("}")

    def spec(self, names, of, values):
        self.listed(names)
        if of:
            self.put(" ")
            self.node(of)
        if values:
            self.put(" = ")
            self.listed(values)

    put_spec = spec

    def put_types(self, name, of):
        self.put("type ")
        self.node(name)
        self.put(" ")
        self.node(of)

    def put_constants(self, specs):
        self.put("const (")
        self.end()
        for spec in specs:
            self.node(spec)
            self.end()
        self.put(")")

    def put_variables(self, names, of, values):
        self.put("var ")
        self.spec(names, of, values)

    def put_function(self, name, parameters, results, statements):
        self.put("func ")
        self.node(name)
        self.put("(")
        for at, (parameter, of) in enumerate(parameters):
            self.put(", " * (at > 0))
            self.node(parameter)
            self.put(" ")
            self.node(of)
        self.put(") (")
        self.listed(results)
        self.put(")")
        self.block(statements)


def written(declarations):
    """The text of a package that prints, with the places of its nodes set. The closing brace of a function ends its line."""
    writer = Writer()
    for line in ("package p", 'import "fmt"'):
        writer.put(line)
        writer.end()
    for declaration in declarations:
        writer.node(declaration)
        line = len(writer.lines) + 1
        declaration.close = line, len(writer.line)
        writer.end()
    writer.put("func last() { fmt.Println(1) }")
    writer.end()
    return writer.lines


def is_untyped(of):
    return isinstance(of, str) and of.startswith("untyped ")


def under(of):
    """The underlying type."""
    return under(of[2]) if of[0] == "named" else of


def kind(of):
    """Which untyped constants fit a type, by their kind; None of an array."""
    word = of.removeprefix("untyped ") if isinstance(of, str) else under(of)
    return "int" if word in LIMITS else word if isinstance(word, str) else None


def is_outside(value, of):
    """Whether a constant is an integer that a type doesn't hold."""
    least, most = LIMITS.get(under(of), (None, None))
    return least is not None and value.constant is not None and not least <= value.constant <= most


def assigned(value, of):
    """The fault of a value that is assigned to a type, or None."""
    if is_untyped(value.type):
        if kind(value.type) != kind(of):
            return TYPE
        return RANGE if is_outside(value, of) else None
    is_bare = any(isinstance(it, tuple) and it[0] == "array" for it in (value.type, of))
    return None if value.type == of or is_bare and under(value.type) == under(of) else TYPE


def defaulted(value):
    """The type that a value takes where none is written, and the fault of it, or None."""
    of = value.type.removeprefix("untyped ") if is_untyped(value.type) else value.type
    return of, assigned(value, of)


def cells(of):
    of = under(of)
    return of[1] * cells(of[2]) if of[0] == "array" else 1


class Checked:
    """What is found in a form: its faults in order, what is known of it, and whether it hides what is round it."""

    def __init__(self, faults=(), known=None, hides=False):
        self.faults, self.known = list(faults), known
        self.hides = hides or bool(self.faults)


def asked(node, parts, rule):
    """A node behind its parts: `rule` gives codes, of which the least counts, and what is known if there is none."""
    faults = [fault for part in parts for fault in part.faults]
    if any(part.hides for part in parts):
        return Checked(faults, None, True)
    codes, known = rule(*[part.known for part in parts])
    return Checked([(node.place, min(codes))], None) if codes else Checked(faults, known)


def names_in(node):
    """The names that a form uses."""
    if isinstance(node, Name):
        yield node.parts[0]
    elif isinstance(node, Node):
        yield from names_in(node.parts)
    elif isinstance(node, (list, tuple)):
        for part in node:
            yield from names_in(part)


class Scope:
    """The names of blocks, the innermost last; each stands for a pair of a word and what is known."""

    def __init__(self, package, iota=None, blocks=()):
        self.package, self.iota, self.blocks = package, iota, list(blocks)

    def look_up(self, name):
        for block in reversed(self.blocks):
            if name in block:
                return block[name]
        if name == "iota" and self.iota is not None:
            return "constant", Value("untyped int", self.iota)
        return self.package.look_up(name)


class Package:
    """Declarations and what is known of each name."""

    UNIVERSE = {**{it: ("type", it) for it in ("int", "int8", "string", "bool")}, "true": ("constant", Value("untyped bool", True))}

    def __init__(self, declarations):
        self.declarations, self.objects, self.known = declarations, {}, {}
        for declaration in declarations:
            self.declare(declaration)
        self.cyclic = {name for name in self.objects if self.depends_on_itself(name)}

    def declare(self, declaration):
        parts = declaration.parts
        if isinstance(declaration, Types):
            self.objects[parts[0].parts[0]] = ("type", parts[1], None, None, None)
        elif isinstance(declaration, Function):
            self.objects[parts[0].parts[0]] = ("function", declaration, None, None, None)
        elif isinstance(declaration, Variables):
            self.declare_each("variable", parts[0], parts[1], parts[2], None)
        else:
            for iota, spec in enumerate(parts[0]):
                self.declare_each("constant", spec.parts[0], *meant(parts[0], iota), iota)

    def declare_each(self, word, names, of, values, iota):
        for at, name in enumerate(names):
            if name.parts[0] != "_":
                self.objects[name.parts[0]] = (word, of, values, (at, len(names)), iota)

    def uses(self, name):
        """The names that a name depends on."""
        word, of, values, at, _ = self.objects[name]
        if word == "type":
            return names_in(of)
        if word == "function":
            return names_in([[it[1] for it in of.parts[1]], of.parts[2]])
        if word == "variable" and of:
            return names_in(of)
        return names_in([of, values[at[0]] if at[1] == len(values) else values])

    def depends_on_itself(self, name):
        seen, left = set(), [name]
        while left:
            for used in self.uses(left.pop()):
                if used == name:
                    return True
                if used in self.objects and used not in seen:
                    seen.add(used)
                    left.append(used)
        return False

    def look_up(self, name):
        if name not in self.objects:
            return self.UNIVERSE.get(name)
        if name not in self.known:
            self.known[name] = None if name in self.cyclic else self.meaning(name)
        return self.objects[name][0], self.known[name]

    def meaning(self, name):
        """What is known of a declared name, or None."""
        word, of, values, at, iota = self.objects[name]
        scope = Scope(self, iota)
        if word == "type":
            found = type_of(of, scope)
            return found.known and ("named", name, found.known)
        if word == "function":
            types = [type_of(it, scope).known for it in [*[it[1] for it in of.parts[1]], *of.parts[2]]]
            return None if None in types else (types[: len(of.parts[1])], types[len(of.parts[1]) :])
        if word == "variable" and of:
            return type_of(of, scope).known
        return self.value_alone(word, of, values, at, scope)

    def value_alone(self, word, of, values, at, scope):
        written_type = type_of(of, scope).known if of else None
        value = one_of(word, values, at, scope)
        if value is None or of and written_type is None:
            return None
        if alone(word, written_type, value):
            return None
        if word == "variable":
            return defaulted(value)[0]
        return value if written_type is None else Value(written_type, value.constant)


def meant(specs, at):
    """The type and the values of a specification of constants: those of the one before it where it has none."""
    while not specs[at].parts[2]:
        at -= 1
    return specs[at].parts[1:]


def alone(word, of, value):
    """The fault of one constant, or of one variable, by itself; or None."""
    if word == "constant" and value.constant is None:
        return MISUSED
    if of is not None:
        return assigned(value, of)
    return defaulted(value)[1] if word == "variable" else None


def one_of(word, values, at, scope):
    """The value of the name at its place among so many of a specification, or None: one call may give all variables."""
    place, count = at
    if word == "variable" and len(values) == 1 and isinstance(values[0], Call):
        found = expression(values[0], scope).known
        if isinstance(found, Results):
            return Value(found.types[place], None) if len(found.types) == count else None
        return found if count == 1 else None
    return value_of(values[place], scope).known if count == len(values) else None


def type_of(node, scope):
    """A type, behind the faults of its parts."""
    if isinstance(node, Name):
        found = scope.look_up(node.parts[0])
        if not found:
            return Checked([(node.place, UNDECLARED)])
        if found[1] is None:
            return Checked(hides=True)
        return Checked(known=found[1]) if found[0] == "type" else Checked([(node.place, MISUSED)])
    length, element = node.parts
    return asked(node, [value_of(length, scope), type_of(element, scope)], array)


def array(length, element):
    if length.constant is None or kind(length.type) != "int":
        return [MISUSED], None
    if length.constant < 0:
        return [RANGE], None
    of = ("array", length.constant, element)
    return ([LARGE], None) if length.constant > MOST_ELEMENTS or cells(of) > MOST_ELEMENTS else ([], of)


def value_of(node, scope):
    """An expression where one value is due."""
    return expression(node, scope, True)


def expression(node, scope, is_due=False):
    """An expression. A call may have no result or several, unless a value is due."""
    parts = node.parts
    if isinstance(node, Number):
        return Checked(known=Value("untyped int", int(parts[0])))
    if isinstance(node, Text):
        return Checked(known=Value("untyped string", parts[0]))
    if isinstance(node, Name):
        return named(node, scope)
    if isinstance(node, Print):
        return asked(node, [value_of(parts[0], scope)], lambda value: ([MISUSED], None))
    if isinstance(node, Call):
        return call(node, scope, is_due)
    divides = isinstance(node, Divide)
    return asked(node, [value_of(it, scope) for it in parts], lambda left, right: operated(left, right, divides))


def named(node, scope):
    found = scope.look_up(node.parts[0])
    if not found:
        return Checked([(node.place, UNDECLARED)])
    word, known = found
    if known is None:
        return Checked(hides=True)
    if word in ("type", "function"):
        return Checked([(node.place, MISUSED)])
    return Checked(known=known if word == "constant" else Value(known, None))


def operated(left, right, divides):
    """The codes of a sum or a quotient, and its value."""
    codes, of = [], right.type if is_untyped(left.type) else left.type
    for value in (left, right):
        if is_untyped(value.type) and not is_untyped(of):
            codes += [MISUSED] if kind(value.type) != kind(of) else [RANGE] * is_outside(value, of)
        elif value.type != of:
            codes.append(MISUSED)
    if kind(of) not in (["int"] if divides else ["int", "string"]):
        codes.append(MISUSED)
    if codes:
        return codes, None
    if divides and right.constant == 0:
        return [ZERO], None
    if left.constant is None or right.constant is None:
        return [], Value(of, None)
    value = Value(of, left.constant // right.constant if divides else left.constant + right.constant)
    return ([RANGE], None) if not is_untyped(of) and is_outside(value, of) else ([], value)


def call(node, scope, is_due):
    """A call of a function, or a conversion."""
    name, operands = node.parts
    found = scope.look_up(name.parts[0])
    if not found:
        return Checked([(name.place, UNDECLARED)])
    word, known = found
    callee = Checked(known=known, hides=known is None)
    parts = [callee, *[value_of(it, scope) for it in operands]]
    if word == "type":
        return asked(node, parts, converted)
    if word != "function":
        return asked(node, parts, lambda *_: ([MISUSED], None))
    return asked(node, parts, lambda function, *values: called(function, values, is_due))


def converted(of, *values):
    if len(values) != 1:
        return [COUNT], None
    value = values[0]
    if value.constant is not None:
        if kind(value.type) != kind(of):
            return [MISUSED], None
        return ([RANGE], None) if is_outside(value, of) else ([], Value(of, value.constant))
    is_good = kind(value.type) == kind(of) == "int" or under(value.type) == under(of)
    return ([], Value(of, None)) if is_good else ([MISUSED], None)


def called(function, values, is_due):
    parameters, results = function
    codes = [code for code in map(assigned, values, parameters) if code] if len(values) == len(parameters) else [COUNT]
    if is_due and len(results) != 1:
        codes.append(COUNT)
    return codes, Value(results[0], None) if len(results) == 1 else Results(results)


def suited(node, values, scope, wanted, more=()):
    """A statement with values: how many there are to be, and what each is assigned to; `...` where nothing is known of
    that, None where it takes the value's own type. `more` are codes that count as well."""
    if len(values) == 1 and isinstance(values[0], Call):
        parts = [expression(values[0], scope)]
    else:
        parts = [value_of(it, scope) for it in values]

    def rule(*known):
        if len(known) == 1 and isinstance(known[0], Results):
            known = [Value(it, None) for it in known[0].types]
        if len(known) != len(wanted) or not wanted:
            return [*more, COUNT], None
        faults = [None if of is ... else defaulted(value)[1] if of is None else assigned(value, of) for value, of in zip(known, wanted)]
        return [*more, *filter(None, faults)], None

    return asked(node, parts, rule)


class Body:
    """The statements of a function, whose parameters stand in the block of its body."""

    def __init__(self, package, parameters, results):
        self.scope = Scope(package, None, [{name.parts[0]: ("variable", of) for name, of in parameters}])
        self.results = results

    def checked(self, statements):
        found = [getattr(self, type(it).__name__.lower())(it) for it in statements]
        return Checked([fault for it in found for fault in it.faults], None, any(it.hides for it in found))

    def drop(self, node):
        return suited(node, node.parts, self.scope, [None])

    def print(self, node):
        def rule(value):
            of, code = defaulted(value)
            return ([MISUSED] if kind(of) is None else [code] if code else []), None

        return asked(node, [value_of(node.parts[0], self.scope)], rule)

    def local(self, node):
        name, value = node.parts
        block, text = self.scope.blocks[-1], name.parts[0]
        doubled = Checked([(name.place, REDECLARED)] if text in block else [])
        found = asked(node, [doubled, value_of(value, Scope(self.scope.package, 0, self.scope.blocks))],
                      lambda _, value: ([MISUSED], None) if value.constant is None else ([], value))
        found_place = [(name.place, code) for place, code in found.faults[-1:] if place == node.place]
        found.faults = found.faults[:-1] + found_place if found_place else found.faults
        if text not in block:
            block[text] = ("constant", found.known)
        return found

    def short(self, node):
        names, values = [it.parts[0] for it in node.parts[0]], node.parts[1]
        block = self.scope.blocks[-1]
        fresh = [it for it in names if it != "_" and it not in block]
        more = [REDECLARED] if not fresh or len({*names}) < len(names) else []
        more += [MISUSED for it in names if it in block and block[it][0] != "variable"]
        wanted = [None if it not in block else block[it][1] if block[it][0] == "variable" and block[it][1] else ... for it in names]
        found = suited(node, values, self.scope, wanted, more)
        # (where nothing is asked of the statement, each name takes the value at its place)
        count = len(names) if len(values) == 1 else len(values)
        known = [one_of("variable", values, (at, count), self.scope) for at in range(min(len(names), count))]
        for name, value in zip(names, known + [None] * len(names)):
            if name in fresh:
                of, code = defaulted(value) if value else (None, None)
                block.setdefault(name, ("variable", None if code else of))
        return found

    def _if(self, node):
        condition, statements = node.parts
        first = value_of(condition, self.scope)
        self.scope.blocks.append({})
        inner = self.checked(statements)
        self.scope.blocks.pop()
        inner.known = ()
        return asked(node, [first, inner], lambda value, _: ([] if kind(value.type) == "bool" else [MISUSED], None))

    def _return(self, node):
        wanted = [... if it is None else it for it in self.results]
        if not node.parts[0]:
            return Checked([(node.place, COUNT)] if wanted else [])
        return suited(node, node.parts[0], self.scope, wanted)


setattr(Body, "if", Body._if)
setattr(Body, "return", Body._return)


def faults_of(package, declaration):
    """The faults of a declaration of a package, in order."""
    scope, parts = Scope(package), declaration.parts
    cycle = lambda names: [(it.place, CYCLE) for it in names if it.parts[0] in package.cyclic]
    if isinstance(declaration, Types):
        return cycle(parts[:1]) + type_of(parts[1], scope).faults
    if isinstance(declaration, Function):
        return cycle(parts[:1]) + function_faults(package, declaration)
    if isinstance(declaration, Variables):
        return cycle(parts[0]) + specified(package, declaration, "variable", *parts, None, False)
    found = []
    for iota, spec in enumerate(parts[0]):
        of, values = meant(parts[0], iota)
        found += cycle(spec.parts[0]) + specified(package, spec, "constant", spec.parts[0], of, values, iota, not spec.parts[2])
    return found


def function_faults(package, declaration):
    _, parameters, results, statements = declaration.parts
    scope = Scope(package)
    types = [type_of(it, scope) for it in [*[of for _, of in parameters], *results]]
    body = Body(package, [(name, it.known) for (name, _), it in zip(parameters, types)], [it.known for it in types[len(parameters) :]])
    inner = body.checked(statements)
    found = [fault for it in [*types, inner] for fault in it.faults]
    is_asked = not any(it.hides for it in [*types, inner]) and results
    if is_asked and not (statements and isinstance(statements[-1], Return)):
        found.append((declaration.close, RETURN))
    return found


def specified(package, node, word, names, of, values, iota, is_repeated):
    """The faults of a specification, which stand at its first name but for those of its parts where these are its own."""
    scope, own = Scope(package, iota), {it.parts[0] for it in names}
    of_type = type_of(of, scope) if of else Checked()
    is_call = word == "variable" and len(values) == 1 and isinstance(values[0], Call)
    found = [expression(values[0], scope)] if is_call else [value_of(it, scope) for it in values]
    used = {it for it in names_in([of, values]) if it in package.objects and package.look_up(it)[1] is None}
    inner = [fault for part in [of_type, *found] for fault in part.faults]
    if used - own:
        return [] if is_repeated else inner
    codes = []
    if is_repeated:
        codes = [part.faults[0][1] for part in [of_type, *found] if part.faults]
    elif inner:
        return inner
    if not (of and of_type.known is None):
        given = found[0].known.types if is_call and isinstance(found[0].known, Results) else None
        if (len(given) if given is not None else len(values)) != len(names):
            if not used:
                codes.append(COUNT)
        else:
            known = [one_of(word, values, (at, len(names)), scope) for at in range(len(names))]
            is_whole = not used and not inner
            codes += [code for it in known if it for code in [alone(word, of_type.known, it)]
                      if code and (is_whole or word == "constant" or not of)]
    return [(names[0].place, min(codes))] if codes else []


def last_faults(package):
    """The faults of constants, and of variables without a type, whose specifications hide one another."""
    for declaration in package.declarations:
        if isinstance(declaration, Variables) and not declaration.parts[1]:
            specs = [("variable", declaration.parts[0], None, declaration.parts[2], None)]
        elif isinstance(declaration, Constants):
            specs = [("constant", it.parts[0], *meant(declaration.parts[0], at), at) for at, it in enumerate(declaration.parts[0])]
        else:
            continue
        for word, names, of, values, iota in specs:
            scope = Scope(package, iota)
            of_type = type_of(of, scope).known if of else None
            for at in range(len(names)):
                value = one_of(word, values, (at, len(names)), scope)
                code = value and not (of and of_type is None) and alone(word, of_type, value)
                if code:
                    yield names[0].place, code


def first_fault(declarations):
    """The place and the number of the first fault, or None. The declarations have been written out."""
    package = Package(declarations)
    for declaration in declarations:
        for fault in faults_of(package, declaration):
            return fault
    return next(last_faults(package), None)
