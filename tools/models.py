"""Models and their properties, read and evaluated by Python alone, as `docs/MANUAL.md` says what they mean.

Arrays, definitions and steps by their values are evaluated as they are written; nothing is put in. A quantified formula stands for its
copies, and tests that written values decide are left out of formulas, since that is how the lines of `why` are named."""
import copy
import functools
import itertools
import operator
import re
import sys

LEVELS = [["=>"], ["||"], ["&&"], ["==", "!="], ["<", "<=", ">", ">="], ["+", "-"], ["*", "div", "mod"]]
BINARY = {"==": operator.eq, "!=": operator.ne, "<": operator.lt, "<=": operator.le, ">": operator.gt, ">=": operator.ge,
          "+": operator.add, "-": operator.sub, "*": operator.mul, "div": operator.floordiv, "mod": operator.mod,
          "&&": lambda x, y: x and y, "||": lambda x, y: x or y, "=>": lambda x, y: not x or y}
CALLED = {"if": lambda c, x, y: x if c else y, "min": min, "max": max, "abs": abs, "succ": lambda x: x + 1,
          "pred": lambda x: x - 1, "Pos2Nat": lambda x: x, "Pos2Int": lambda x: x, "Nat2Int": lambda x: x}
# What may stand behind a state variable `count`, so that it isn't the word.
BEHIND = {"until", "leads_to", "div", "mod"}
RANGE = re.compile(r"(?m)^%range\s+(\S+)\s+(-?\d+)\s+(-?\d+)\s*$")
TOKEN = re.compile(r"\s+|%[^\n]*|([A-Za-z_][\w']*|\d+|:=|->|=>|&&|\|\||[=!<>]=|.)")


class Node:
    """A part of a formula; an operand or a fixpoint has an equation."""

    def __init__(self, kind, *parts):
        self.kind, self.parts, self.operands = kind, parts, [part for part in parts if isinstance(part, Node)]
        self.equation, self.scope = None, None


class Unknown(Exception):
    """The value isn't known without the state."""


class Defined:
    """What a definition or an array gives of values, where names stand for these."""

    def __init__(self, parameters, value, names):
        self.parameters, self.value, self.names = parameters, value, names

    def __call__(self, *values):
        return self.value({**self.names, **dict(zip(self.parameters, values))})


def once(x, names):
    """What a term stands for, which is evaluated where it is asked for."""
    known = []
    def value(_):
        if not known:
            known.append(x(names))
        return known[0]
    return Defined([], value, {})


def named(word):
    def value(names):
        if word not in names:
            raise Unknown
        return names[word]() if isinstance(names[word], Defined) else names[word]
    return value


def decided_by(mark, x, y):
    """A connective, of which one operand may decide."""
    def value(names):
        found = []
        for part in (x, y):
            try:
                found.append(part(names))
            except Unknown:
                found.append(None)
        if mark == "=>":
            found[0] = None if found[0] is None else not found[0]
        decisive = mark != "&&"
        if decisive in found:
            return decisive
        if None in found:
            raise Unknown
        return not decisive
    return value


class Model:
    """A model; data are functions from what names stand for to values, steps (variables, guard, assignments) by name."""

    def __init__(self, text):
        self.ranges = {sort: range(int(low), int(high) + 1) for sort, low, high in RANGE.findall(text)}
        self.tokens = [token for token in TOKEN.findall(text) if token] + [""]
        self.sorts, self.functions = {"Bool": [False, True]}, dict(CALLED)
        self.values, self.steps, self.properties = {"false": False, "true": True}, {}, {}
        self.is_plain, self.definitions, self.known = self.tokens[0] != "const", {}, {}
        if self.taken("const"):
            self.separated(",", self.read_constant)
            self.take(";")
        while self.taken("sort"):
            while self.tokens[1] == "=":
                self.read_sort()
        self.take("model", "state")
        self.declared = self.state_variables()
        self.places = self.element_places()
        self.state = [(self.told(name, index), sort) for name, indices, sort in self.declared for index in self.tuples(indices)]
        self.take(";")
        if self.taken("define"):
            self.is_plain = False
            while self.tokens[0] != "step":
                name = self.take()
                parameters = self.variables(")") if self.taken("(") else []
                self.take("=")
                self.definitions[name] = [x for x, _ in parameters], self.data()
                self.take(";")
        self.take("step")
        while self.tokens[0] != "init":
            name = self.take()
            own = self.variables(")") if self.taken("(") else []
            self.take(":")
            guard = self.data()
            self.take("->")
            self.steps[name] = own, guard, [] if self.taken("skip") else sum(self.separated(",", self.assigned), [])
            self.take(";")
        self.take("init")
        terms, start = self.separated(",", self.data), self.at_start()
        self.initial = tuple(term({**start, **dict(zip([i for i, _ in indices], index))})
                             for (_, indices, _), term in zip(self.declared, terms) for index in self.tuples(indices))
        while self.taken(";") and self.taken("property"):
            name = self.take()
            self.take("=")
            self.properties[name] = self.formula(())
        if not self.is_plain:
            self.properties = {name: self.written_out(f, {}) for name, f in self.properties.items()}

    def take(self, *words):
        for word in words or self.tokens[:1]:
            if self.tokens.pop(0) != word:
                sys.exit(f"the model has no {word!r} before {' '.join(self.tokens[:5])!r}")
        return (words or [word])[-1]

    def taken(self, word):
        return self.tokens[0] == word and self.take()

    def separated(self, mark, part):
        found = [part()]
        while self.taken(mark):
            found.append(part())
        return found

    def read_constant(self):
        name = self.take()
        self.take("=")
        self.values[name] = self.data()(self.values)

    def read_bounds(self, name):
        """A sort of the numbers from one bound to another."""
        low = self.data(3)(self.values)
        self.take(".", ".")
        self.ranges[name] = range(low, self.data(3)(self.values) + 1)
        self.sorts[name] = "Int"

    def read_sort(self):
        name = self.take()
        self.take("=")
        if not self.tokens[0] == "struct" and self.tokens[1] != ";":
            self.read_bounds(name)
        elif self.taken("struct"):
            self.sorts[name] = self.separated("|", lambda: (self.take(), self.taken("?") and self.take()))
            for value, recogniser in self.sorts[name]:
                self.functions[recogniser] = lambda x, value=value: x == value
            self.sorts[name] = [value for value, _ in self.sorts[name]]
            self.values.update({value: value for value in self.sorts[name]})
        else:
            self.sorts[name] = self.take()
        self.take(";")

    def state_variables(self):
        """The state variables, each with its indices and its sort."""
        def variable():
            name = self.take()
            if not self.taken("("):
                return name, []
            self.is_plain = False
            return name, self.variables(")")
        def group():
            found = self.separated(",", variable)
            self.take(":")
            sort = self.take()
            return [(name, indices, sort) for name, indices in found]
        return sum(self.separated(",", group), [])

    def tuples(self, variables):
        return itertools.product(*[self.carrier(sort) for _, sort in variables])

    def word(self, value):
        return str(value).lower() if isinstance(value, bool) else str(value)

    def told(self, name, values):
        return f"{name}({','.join(map(self.word, values))})" if values else name

    def element_places(self):
        """For each state variable the places of its elements in a state, by their indices."""
        count = itertools.count()
        return {name: {index: next(count) for index in self.tuples(indices)} for name, indices, _ in self.declared}

    def names(self, state):
        """What names stand for at a state."""
        if state not in self.known:
            self.known = {state: self.names_at(state)}
        return self.known[state]

    def names_at(self, state):
        found = dict(self.values)
        for name, places in self.places.items():
            last = max(places.values())
            found[name] = state[last] if () in places else lambda *index, at=places, last=last: state[at.get(index, last)]
        return self.with_definitions(found)

    def with_definitions(self, found):
        base = dict(found)
        for name, (parameters, value) in self.definitions.items():
            found[name] = Defined(parameters, value, base)
            base = dict(found)
        return found

    def at_start(self):
        """What names stand for where there is no state."""
        return self.with_definitions(dict(self.values))

    def assigned(self):
        """An assignment, or one for each tuple of values, each with its terms at these."""
        if not self.taken("forall"):
            return [self.assignment()]
        self.is_plain = False
        variables = self.variables(".")
        name, index, value = self.assignment()
        at = lambda x, own: lambda names: x({**names, **own})
        copies = [dict(zip([x for x, _ in variables], own)) for own in self.tuples(variables)]
        return [(name, [at(x, own) for x in index], at(value, own)) for own in copies]

    def assignment(self):
        """What is assigned: a state variable, the terms of its index, and the term whose value it gets."""
        name = self.take()
        index = self.separated(",", self.data) if self.taken("(") else []
        self.take(*[")"] * bool(index), ":=")
        return name, index, self.data()

    def carrier(self, sort):
        found = self.ranges.get(sort) or self.sorts[sort]
        return self.carrier(found) if isinstance(found, str) else found

    def value(self, word, sort):
        """The value of a sort that a word tells, a number within its range or not; none where it tells no value."""
        if isinstance(self.carrier(sort), range):
            return int(word) if re.fullmatch(r"0|-?[1-9]\d*", word) else None
        return self.values[word] if word in self.values and self.values[word] in self.carrier(sort) else None

    def variables(self, end=None):
        def group():
            names = self.separated(",", self.take)
            self.take(":")
            sort = self.take()
            return [(name, sort) for name in names]
        found = sum(self.separated(",", group), [])
        return self.take(end) and found if end else found

    def chain(self, level, last, operand, join):
        """Operands with operators of the levels between them, read to the left from the comparisons on."""
        below = operand if level == last else lambda: self.chain(level + 1, last, operand, join)
        found = below()
        while self.tokens[0] in LEVELS[level]:
            mark = self.take()
            found = join(mark, found, below() if level > 2 else self.chain(level, last, operand, join))
        return found

    def data(self, level=0):
        return self.chain(level, 6, self.unary, lambda mark, x, y: decided_by(mark, x, y) if mark in ("&&", "||", "=>")
                          else lambda names: BINARY[mark](x(names), y(names)))

    def unary(self):
        word = self.take()
        if word == "!" or word == "-":
            x = self.unary()
            return lambda names: not x(names) if word == "!" else -x(names)
        if word == "(":
            x = self.data()
            return self.take(")") and x
        if word in ("forall", "exists"):
            self.is_plain = False
            bound = self.variables(".")
            copies = functools.reduce(lambda after, own: decided_by("&&" if word == "forall" else "||", lambda names: x({**names, **own}), after),
                                      [dict(zip([y for y, _ in bound], own)) for own in self.tuples(bound)][::-1], lambda names: word == "forall")
            x = self.data()
            return copies
        if self.counts(word):
            return self.counted()
        if self.taken("("):
            arguments = self.separated(",", self.data)
            return self.take(")") and self.called(word, arguments)
        return (lambda names: int(word)) if word.isdigit() else named(word)

    def counts(self, word):
        """Whether a word counts, and is no name."""
        return word == "count" and re.match(r"[A-Za-z_]", self.tokens[0]) and self.tokens[0] not in BEHIND

    def counted(self):
        """For how many tuples of values a term is true."""
        self.is_plain = False
        bound = self.variables(".")
        copies = [dict(zip([y for y, _ in bound], own)) for own in self.tuples(bound)]
        x = self.data()
        return lambda names: sum(x({**names, **own}) for own in copies)

    def called(self, word, arguments):
        def value(names):
            if word == "if":
                return arguments[1 if arguments[0](names) else 2](names)
            if isinstance(names.get(word), Defined):
                return names[word](*[once(x, names) for x in arguments])
            values = [x(names) for x in arguments]
            if word not in names and word not in self.functions:
                raise Unknown
            return names.get(word, self.functions.get(word))(*values)
        return value

    def formula(self, bound):
        return self.chain(0, 2, lambda: self.operand(bound), Node)

    def operand(self, bound):
        x = self.node(bound)
        if self.tokens[0] not in ("until", "leads_to"):
            return x
        word, y = self.take(), self.node(bound)
        if word == "until":
            return Node("mu", word, Node("||", y, Node("&&", x, self.goes_on(word))))
        return Node("nu", word, Node("&&", self.behind("[", word), Node("=>", x, self.inevitably(y))))

    def behind(self, modality, word):
        return Node(modality, lambda name, own, names=None: True, Node("variable", word))

    def goes_on(self, word):
        return Node("&&", Node("<", lambda name, own, names=None: True, Node("constant", True)), self.behind("[", word))

    def inevitably(self, x):
        return Node("mu", "inevitably", Node("||", x, self.goes_on("inevitably")))

    def worded(self, bound):
        """What a word stands for that stands before an operand, or alone."""
        word = self.take()
        if word == "no_deadlock":
            return Node("nu", word, self.goes_on(word))
        if word == "fair":
            return self.fair(bound)
        x = self.node(bound)
        if word == "always":
            return Node("nu", word, Node("&&", x, self.behind("[", word)))
        return Node("mu", word, Node("||", x, self.behind("<", word))) if word == "possibly" else self.inevitably(x)

    def fair(self, bound):
        """What `fair` stands for: its operand once for each set of steps."""
        sets = self.take("(") and self.separated(",", self.steps_named)
        x = self.take(")") and self.take("inevitably") and self.node(bound)
        parts = [Node("nu", "inevitably", Node("||", copy.deepcopy(x), self.waits(chosen))) for chosen in sets]
        return Node("mu", "fair", functools.reduce(lambda rest, part: Node("||", part, rest), parts[-2::-1], parts[-1]))

    def waits(self, chosen):
        """Some step can be taken, and none of this set is, though one can be."""
        tries = Node("||", Node("<", chosen, Node("constant", True)), self.behind("[", "fair"))
        fewer = Node("&&", Node("[", chosen, Node("variable", "fair")), Node("&&", tries, self.behind("[", "inevitably")))
        return Node("&&", Node("<", lambda name, own, names=None: True, Node("constant", True)), fewer)

    def node(self, bound):
        word = self.tokens[0]
        if word in ("always", "possibly", "inevitably", "no_deadlock", "fair"):
            return self.worded(bound)
        if word in ("mu", "nu"):
            name = self.take() and self.take()
            self.take(".")
            return Node(word, name, self.formula(bound + (name,)))
        if word in ("forall", "exists"):
            self.is_plain = False
            variables = self.take() and self.variables(".")
            return Node(word, variables, self.formula(bound))
        if word in ("[", "<"):
            self.take()
            steps = self.steps_named()
            self.take("]" if word == "[" else ">")
            return Node(word, steps, self.node(bound))
        if self.taken("!"):
            return Node("!", self.node(bound))
        if self.taken("("):
            x = self.formula(bound)
            return self.take(")") and x
        if word in ("true", "false"):
            return Node("constant", self.take() == "true")
        if word in bound and self.tokens[1] not in sum(LEVELS[3:], []):
            return Node("variable", self.take())
        return Node("data", self.unary() if self.taken("val") else self.data(3))

    def steps_named(self):
        """Whether a step with its own values is in the set, where names stand for these."""
        sets = self.separated("||", self.set_of_steps)
        return lambda name, own, names=None: any(chosen(name, own, names) for chosen in sets)

    def set_of_steps(self):
        word = self.take()
        if word in ("!", "("):
            chosen = self.set_of_steps() if word == "!" else self.steps_named()
            return (lambda name, own, names=None: not chosen(name, own, names)) if word == "!" else self.take(")") and chosen
        if not self.taken("("):
            return lambda name, own, names=None: word in ("true", name)
        self.is_plain = False
        values = self.separated(",", lambda: None if self.taken("_") else self.data())
        self.take(")")
        return lambda name, own, names=None: name == word and all(x is None or x(names) == v for x, v in zip(values, own))

    # ---- quantified formulas

    def decided(self, f):
        """The truth of data that the written values around it decide."""
        return f.parts[1] if f.kind == "data" and len(f.parts) > 1 else None

    def written_out(self, f, around):
        """A formula without quantifiers, where the variables of those around have these values."""
        if f.kind == "data":
            return self.written_data(f.parts[0], around)
        if f.kind in ("mu", "nu"):
            return Node(f.kind, f.parts[0], self.written_out(f.parts[1], around))
        if f.kind in ("[", "<"):
            chosen, names = f.parts[0], {**self.at_start(), **around}
            return Node(f.kind, lambda name, own: chosen(name, own, names), self.written_out(f.parts[1], around))
        if f.kind in ("forall", "exists"):
            found = Node("data", lambda names: f.kind == "forall", f.kind == "forall")
            for own in list(self.tuples(f.parts[0]))[::-1]:
                copy = self.written_out(f.parts[1], {**around, **dict(zip([x for x, _ in f.parts[0]], own))})
                found = self.joined("&&" if f.kind == "forall" else "||", copy, found)
            return found
        parts = [self.written_out(g, around) for g in f.operands]
        return Node(f.kind, *f.parts) if not parts else self.negated(parts[0]) if f.kind == "!" else self.joined(f.kind, *parts)

    def written_data(self, x, around):
        test = lambda names: x({**names, **around})
        constants = {name: Defined(parameters, value, {}) for name, (parameters, value) in self.definitions.items()}
        for defined in constants.values():
            defined.names = {**self.values, **constants}
        try:
            return Node("data", test, test({**self.values, **constants}))
        except Unknown:
            return Node("data", test)

    def negated(self, f):
        truth = self.decided(f)
        return Node("!", f) if truth is None else Node("data", lambda names: not truth, not truth)

    def joined(self, mark, f, g):
        """A connective of two formulas, of which one may be decided; `true` and `false` as formulas stay beside it."""
        first, second = self.decided(f), self.decided(g)
        unless_constant = lambda kept: Node(mark, f, g) if kept.kind == "constant" else kept
        if mark == "=>":
            if first is False:
                return Node("data", lambda names: True, True)
            if first is None and second is not None:
                return g if second else Node("!", f)
            return Node(mark, f, g) if first is None else unless_constant(g)
        unit = mark == "&&"
        if first is not None:
            return unless_constant(g) if first == unit else f
        if second is not None:
            return unless_constant(f) if second == unit else g
        return Node(mark, f, g)

    # ---- steps

    def after(self, state, step, own):
        """The state after a step, and none where the guard is false."""
        variables, guard, assignments = self.steps[step]
        names = {**self.names(state), **dict(zip([x for x, _ in variables], own))}
        if guard(names):
            then = list(state)
            for x, index, term in assignments:
                then[self.places[x][tuple(i(names) for i in index)]] = term(names)
            return tuple(then)

    def owned(self, step):
        return self.tuples(self.steps[step][0])

    def successors(self, state, chosen):
        reached = [self.after(state, step, own) for step in self.steps for own in self.owned(step) if chosen(step, own)]
        return [t for t in reached if t is not None]

    def is_within(self, state):
        return all(v in self.carrier(sort) for v, (_, sort) in zip(state, self.state))


def holds(model, f, state, truth):
    """Whether a right side is true at a state, where that is the truth of an equation at a state."""
    if f.kind == "constant":
        return f.parts[0]
    if f.kind == "data":
        return f.parts[0](model.names(state))
    if f.kind in ("variable", "mu", "nu"):
        return truth(f.scope[f.parts[0]] if f.kind == "variable" else f.equation, state)
    if f.kind in ("[", "<"):
        chosen, g = f.parts
        called = f.scope[g.parts[0]] if g.kind == "variable" else g.equation
        each = (g.parts[0] if g.kind == "constant" else truth(called, t) for t in model.successors(state, chosen))
        return all(each) if f.kind == "[" else any(each)
    parts = [holds(model, g, state, truth) for g in f.parts]
    return not parts[0] if f.kind == "!" else BINARY[f.kind](*parts)
