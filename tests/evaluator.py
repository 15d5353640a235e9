"""A slow evaluator of programs, which follows docs/language.md: which cells are live, which parameters are owned, how many nodes a form
has, and what a run prints. It knows nothing of images, counts or registers. tests/random uses it.
"""
from dataclasses import dataclass, field

# the statuses of `run` and `eval` (docs/refusals.md)
ENDED, HEAP_FULL, STACK_FULL = 0, 10, 11
# a run that takes more steps than this is given up
GREATEST_STEPS = 60_000


# ---- trees: a form is a tuple of its kind and its parts. `&&` and `||` are the `if` that they mean, which has them as a last part; a
# call that is written with a dot has that as a last part.


def number(value):
    return ("number", value)


def variable(name):
    return ("variable", name)


def call(function, *arguments):
    return ("call", function, list(arguments))


def make(constructor, *arguments):
    return ("make", constructor, list(arguments))


UNIT_VALUE = ("make", "()", [])


def parts(form):
    """The forms that stand directly in a form."""
    kind = form[0]
    if kind in ("call", "make", "operator"):
        return form[2]
    if kind == "if":
        return form[1:4]
    if kind == "match":
        return [form[1], *(body for _, body in form[2])]
    if kind == "block":
        return [*(value for _, value in form[1]), form[2]]
    return []


def variables_of(pattern):
    """The variables of a pattern: a name, `_`, a number, or a constructor with patterns."""
    if isinstance(pattern, tuple):
        return [name for part in pattern[1] for name in variables_of(part)]
    return [pattern] if isinstance(pattern, str) and pattern != "_" else []


FREE = {}


def free(form):
    """The variables that a form reads and does not bind."""
    if id(form) not in FREE:
        # the form is kept with its answer, so that no other form gets its number
        FREE[id(form)] = form, find_free(form)
    return FREE[id(form)][1]


def find_free(form):
    kind = form[0]
    if kind == "variable":
        return frozenset([form[1]])
    if kind == "match":
        return free(form[1]) | free_in_rows(form[2])
    if kind == "block":
        return free_in_block(form[1], form[2])
    return frozenset().union(*(free(part) for part in parts(form)))


def free_in_rows(rows):
    return frozenset().union(*(free(body) - set(variables_of(pattern)) for pattern, body in rows))


def free_in_block(statements, last):
    found = free(last)
    for name, value in reversed(statements):
        found = (found - {name}) | free(value)
    return found


# ---- how many nodes a form has: docs/language.md, "Limits"

GREATEST_NODES = 480


def nodes(form):
    inside = sum(nodes(part) for part in parts(form))
    if form[0] == "block":
        return inside + sum(name is not None for name, _ in form[1])
    if form[0] == "match":
        inside += sum(nodes_of_pattern(pattern) for pattern, _ in form[2])
    return 1 + inside


def nodes_of_pattern(pattern):
    return 1 + (sum(nodes_of_pattern(part) for part in pattern[1]) if isinstance(pattern, tuple) else 0)


# ---- which parameters are owned: docs/language.md, "Lent and owned parameters"


def has_fields(pattern):
    return isinstance(pattern, tuple) and bool(pattern[1])


def constructs(form):
    return (form[0] == "make" and bool(form[2])) or any(constructs(part) for part in parts(form))


class Ownership:
    """The owned parameters of a program, as pairs of a function and a position: the least set that obeys the rules."""

    def __init__(self, functions):
        self.functions, self.owned, self.function = functions, set(), None
        before = -1
        while before < len(self.owned):
            before = len(self.owned)
            for name, (parameters, body) in functions.items():
                self.function = name
                # a variable of a parameter, or of a match on one, has that parameter's position; only the former is the parameter
                self.value(body, {it: (at, True) for at, it in enumerate(parameters)}, True)

    def own(self, form, names):
        """What stands here is owned: where it is a parameter, so is that."""
        if form[0] == "variable" and form[1] in names and names[form[1]][1]:
            self.owned.add((self.function, names[form[1]][0]))

    def is_lent(self, form, names):
        return form[0] == "variable" and form[1] in names and (self.function, names[form[1]][0]) not in self.owned

    def value(self, form, names, tail):
        """The value of a body, a branch, a row, a block or a `val`."""
        self.own(form, names)
        self.look(form, names, tail)

    def look(self, form, names, tail=False):
        kind = form[0]
        if kind == "if":
            self.look(form[1], names)
            self.value(form[2], names, tail)
            self.value(form[3], names, tail)
        elif kind == "match":
            self.look_at_match(form, names, tail)
        elif kind == "block":
            self.look_at_block(form, names, tail)
        else:
            if kind == "call":
                self.look_at_call(form, names, tail)
            for part in parts(form):
                if kind == "make":
                    self.own(part, names)
                self.look(part, names)

    def look_at_call(self, form, names, tail):
        for at, argument in enumerate(form[2]):
            if tail and not self.is_lent(argument, names):
                self.owned.add((form[1], at))
            if (form[1], at) in self.owned:
                self.own(argument, names)

    def look_at_match(self, form, names, tail):
        scrutinee, rows = form[1], form[2]
        self.look(scrutinee, names)
        if any(has_fields(pattern) and constructs(body) for pattern, body in rows):
            self.own(scrutinee, names)
        of = names.get(scrutinee[1]) if scrutinee[0] == "variable" else None
        for pattern, body in rows:
            inside = {**names}
            for name in variables_of(pattern):
                inside.pop(name, None)
                if of:
                    inside[name] = of[0], False
            self.value(body, inside, tail)

    def look_at_block(self, form, names, tail):
        names = {**names}
        for name, value in form[1]:
            self.value(value, names, False)
            names.pop(name, None)
        self.value(form[2], names, tail)


# ---- the evaluator: a value is a number, the name of a constructor without fields, or a cell


class Cell:
    def __init__(self, constructor, fields):
        self.constructor, self.fields = constructor, fields


def wrapped(value):
    return (value + 2**31) % 2**32 - 2**31


def quotient(x, y):
    return 0 if y == 0 else wrapped(abs(x) // abs(y) * (1 if (x < 0) == (y < 0) else -1))


OPERATORS = {
    "+": lambda x, y: wrapped(x + y),
    "-": lambda x, y: wrapped(x - y),
    "*": lambda x, y: wrapped(x * y),
    "/": quotient,
    "%": lambda x, y: wrapped(x - quotient(x, y) * y),
    "==": lambda x, y: str(x == y),
    "!=": lambda x, y: str(x != y),
    "<": lambda x, y: str(x < y),
    "<=": lambda x, y: str(x <= y),
    ">": lambda x, y: str(x > y),
    ">=": lambda x, y: str(x >= y),
    "~": lambda x: wrapped(-x),
    "!": lambda x: str(x == "False"),
}


class Ended(Exception):
    """The run has ended, with this status."""


class TooLong(Exception):
    """The run takes too many steps to be of use."""


@dataclass
class Wait:
    """What waits for a value: a call, or a form of which a part is computed. `names` and `values` are still to be read behind it."""

    kind: str
    form: tuple = ()
    names: dict = field(default_factory=dict)
    values: list = field(default_factory=list)
    at: int = 0


def kept(names, read):
    """The variables that are still to be read."""
    return {it: names[it] for it in read if it in names}


class Run:
    """A run of a program."""

    def __init__(self, program, given, cells=None, depth=None):
        self.functions, self.owned = program.functions, program.owned
        self.given, self.cells, self.depth = list(given), cells, depth
        self.output, self.waits = bytearray(), [Wait("call")]
        self.frames = self.most_frames = 1
        self.most_cells = 0
        self.status = self.go()

    def go(self):
        form, names = self.functions["main"][1], {}
        try:
            for _ in range(GREATEST_STEPS):
                form, names = self.step(form, names)
        except Ended as ended:
            return ended.args[0]
        raise TooLong

    def step(self, form, names):
        """Computes a form: what is to be computed next, with its variables."""
        kind = form[0]
        if kind == "if":
            self.waits.append(Wait("if", form, kept(names, free(form[2]) | free(form[3]))))
            return form[1], names
        if kind == "match":
            self.waits.append(Wait("match", form, kept(names, free_in_rows(form[2]))))
            return form[1], names
        if kind == "block":
            return self.go_on_in_block(form, 0, names)
        if kind in ("call", "make", "operator"):
            return self.go_on_with_arguments(form, names, [])
        return self.give(names[form[1]] if kind == "variable" else self.act(form))

    def go_on_in_block(self, form, at, names):
        if at == len(form[1]):
            return form[2], names
        name, value = form[1][at]
        self.waits.append(Wait("block", form, kept(names, free_in_block(form[1][at + 1 :], form[2]) - {name}), at=at))
        return value, names

    def go_on_with_arguments(self, form, names, values):
        at = len(values)
        if at == len(form[2]):
            return self.apply(form, values)
        read = frozenset().union(*(free(it) for it in form[2][at + 1 :]))
        self.waits.append(Wait("arguments", form, kept(names, read), values))
        return form[2][at], names

    def act(self, form):
        """The value of a number, a read or a print of a text."""
        if form[0] == "number":
            return form[1]
        if form[0] == "read":
            return self.given.pop(0) if self.given else -1
        self.output += form[1]
        return "()"

    def apply(self, form, values):
        kind, name = form[0], form[1]
        if kind == "call":
            return self.enter(name, values)
        if kind == "make" and values:
            self.take_cell(values)
            return self.give(Cell(name, values))
        if kind == "make":
            return self.give(name)
        if name in ("print", "println"):
            self.output += b"%d" % values[0] + (b"\n" if name == "println" else b"")
            return self.give("()")
        return self.give(OPERATORS[name](*values))

    def take_cell(self, values):
        """A construction asks for a cell beside all that are live: its fields, and what can be reached from what waits."""
        left = [*values, *(value for wait in self.waits for value in [*wait.names.values(), *wait.values])]
        live = set()
        while left:
            value = left.pop()
            if isinstance(value, Cell) and value not in live:
                live.add(value)
                left += value.fields
        if len(live) == self.cells:
            raise Ended(HEAP_FULL)
        self.most_cells = max(self.most_cells, len(live) + 1)

    def enter(self, name, values):
        """Enters a function, by a tail call where nothing of its caller waits."""
        if self.waits[-1].kind != "call":
            if self.frames == self.depth:
                raise Ended(STACK_FULL)
            self.frames += 1
            self.most_frames = max(self.most_frames, self.frames)
            lent = [value for at, value in enumerate(values) if (name, at) not in self.owned]
            self.waits.append(Wait("call", values=lent))
        parameters, body = self.functions[name]
        return body, dict(zip(parameters, values))

    def give(self, value):
        """Gives a value to what waits for it: what is to be computed next."""
        while self.waits[-1].kind == "call":
            self.waits.pop()
            self.frames -= 1
            if not self.waits:
                raise Ended(ENDED)
        wait = self.waits.pop()
        form, names = wait.form, wait.names
        if wait.kind == "if":
            return form[2 if value == "True" else 3], names
        if wait.kind == "match":
            return chosen(form[2], value, names)
        if wait.kind == "block":
            name = form[1][wait.at][0]
            return self.go_on_in_block(form, wait.at + 1, {**names, name: value})
        return self.go_on_with_arguments(form, names, [*wait.values, value])


def chosen(rows, value, names):
    """The body of the first row that a value fits, with its variables."""
    for pattern, body in rows:
        bound = {}
        if fits(pattern, value, bound):
            return body, {**names, **bound}
    raise ValueError("no row fits")


def fits(pattern, value, bound):
    """Whether a value fits a pattern, of which it binds the variables."""
    if isinstance(pattern, str):
        if pattern != "_":
            bound[pattern] = value
        return True
    if isinstance(pattern, int):
        return value == pattern
    name, inside = pattern
    if isinstance(value, Cell):
        return value.constructor == name and all(fits(one, field, bound) for one, field in zip(inside, value.fields))
    return value == name and not inside
