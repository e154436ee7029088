"""Models with their data and sets of steps as they are written, read by the reader of `tools/models.py`."""
import functools
from dataclasses import dataclass

from models import RANGE, TOKEN, Model
from opinions.terms import FUNCTIONS, QUANTIFIERS, Fault, Term, interval, place_in, rebuilt, substituted, value_of


@dataclass(frozen=True)
class Steps:
    """A set of steps: `true`, `name` with values (None for any), `!` of a set, or `||` of several."""
    mark: str
    parts: tuple = ()


ALL = Steps("true")


def places_of(text):
    """The place of each token of a text, and of the text's end."""
    return [place_in(text, token.start()) for token in TOKEN.finditer(text) if token[1]] + [place_in(text, len(text))]


class WrittenModel(Model):
    """A model whose data are terms and whose sets of steps are trees; its properties stay as they are written. Kinds aren't looked at, nor what `check`
    refuses besides."""

    def __init__(self, text):
        self.all_places, self.last_place = places_of(text), None
        self.range_places = {it[1]: place_in(text, it.start()) for it in RANGE.finditer(text)}
        super().__init__(text)
        self.recognisers = self.values_recognised()
        self.written_definitions = {}
        self.steps = {name: (own, self.resolved(guard, names_of(own)), self.resolved_assignments(assignments, names_of(own)))
                      for name, (own, guard, assignments) in self.steps.items()}

    def values_recognised(self):
        """The enumerators by their recognisers. An array that hides a function would be taken for it."""
        for name in {*self.places, *self.definitions} & {*FUNCTIONS, "if"}:
            raise Fault(f"{name} is a function's name, and isn't translated as another's")
        return {name: value for name, test in self.functions.items() if name and name not in FUNCTIONS and name != "if"
                for value in self.values.values() if isinstance(value, str) and test(value)}

    # ---- reading

    def place(self):
        return self.all_places[len(self.all_places) - len(self.tokens)]

    def take(self, *words):
        for word in words or self.tokens[:1]:
            if not self.tokens[0]:
                raise Fault("the text ends here, in the midst of a model", self.place())
            if self.tokens[0] != word:
                raise Fault(f"{word!r} is expected here, not {self.tokens[0]!r}", self.place())
            self.last_place = self.place()
            self.tokens.pop(0)
        return (words or [word])[-1]

    def separated(self, mark, part):
        """What a group of variables ends with is its sort."""
        result = super().separated(mark, part)
        for it in result:
            if isinstance(it, list):
                self.check_sort(it[-1][-1])
        return result

    def check_sort(self, sort):
        """Follows a sort's aliases to its values."""
        while isinstance(sort, str) and sort not in self.ranges:
            if sort not in self.sorts:
                raise Fault(f"there is no sort {sort} with values", self.last_place)
            sort = self.sorts[sort]

    def data(self, level=0):
        return self.chain(level, 6, self.unary, lambda mark, x, y: Term(mark, (x, y), x.place))

    def unary(self):
        place, word = self.place(), self.take()
        if word in ("!", "-"):
            return Term(word, (self.unary(),), place)
        if word == "(":
            x = self.data()
            return self.take(")") and x
        if self.counts(word):
            return self.counted()
        if word in QUANTIFIERS:
            return Term(word, (tuple(self.variables(".")), self.data()), place)
        if self.taken("("):
            arguments = self.separated(",", self.data)
            return self.take(")") and Term("call", (word, *arguments), place)
        if not word.isdigit() and not (word[:1].isalpha() or word[:1] == "_"):
            raise Fault(f"data are expected here, not {word or 'the end'!r}", place)
        return Term("value", (int(word),), place) if word.isdigit() else Term("name", (word,), place)

    def assigned(self):
        if not self.taken("forall"):
            return [self.assignment()]
        copies = self.copies(self.variables("."))
        name, index, value, place = self.assignment()
        return [(name, [substituted(i, own) for i in index], substituted(value, own), place) for own in copies]

    def copies(self, variables):
        """What variables stand for, by each tuple of their values."""
        return [{name: value_of(value) for (name, _), value in zip(variables, own)} for own in self.tuples(variables)]

    def assignment(self):
        place = self.place()
        return (*super().assignment(), place)

    def counted(self):
        """Counting is a sum, to which each tuple of values at which the term is true adds one."""
        copies, x = self.copies(self.variables(".")), self.data()
        ones = [Term("call", ("if", substituted(x, own), value_of(1), value_of(0)), x.place) for own in copies]
        return functools.reduce(lambda one, other: Term("+", (one, other), x.place), ones)

    def at_start(self):
        """Values, and those of definitions without parameters that have one by themselves."""
        known = dict(self.values)
        for name, (parameters, term) in self.definitions.items():
            try:
                known |= {name: term(known)} if not parameters else {}
            except Fault:
                continue
        return known

    def steps_named(self):
        return Steps("||", tuple(self.separated("||", self.set_of_steps)))

    def set_of_steps(self):
        place, word = self.place(), self.take()
        if word == "!":
            return Steps("!", (self.set_of_steps(),))
        if word == "(":
            chosen = self.steps_named()
            return self.take(")") and chosen
        if word != "true" and word not in self.steps:
            raise Fault(f"there is no step {word}", place)
        if not self.taken("("):
            return ALL if word == "true" else Steps("name", (word, None))
        values = self.separated(",", lambda: None if self.taken("_") else self.data())
        return self.take(")") and Steps("name", (word, tuple(values)))

    def written_out(self, f, around):
        """Formulas stay as they are written, with their quantifiers."""
        return f

    # ---- what terms mean

    def resolved(self, term, bound=()):
        """A term with its definitions and recognisers written out and its enumerators as values, where these names are variables'."""
        word = term.parts[0]
        if term.mark in QUANTIFIERS:
            return Term(term.mark, (word, self.resolved(term.parts[1], {*bound, *names_of(word)})), term.place)
        if term.mark == "name":
            return self.resolved_name(term, word, bound)
        if term.mark != "call":
            return rebuilt(term, lambda part: self.resolved(part, bound))
        arguments = [self.resolved(part, bound) for part in term.parts[1:]]
        if word in self.definitions:
            return self.defined(word, arguments, term.place)
        if word in self.places or word == "if" or word in FUNCTIONS:
            return Term("call", (word, *arguments), term.place)
        if word not in self.recognisers:
            raise Fault(f"nothing is called {word}", term.place)
        return Term("==", (arguments[0], value_of(self.recognisers[word])), term.place)

    def resolved_name(self, term, word, bound):
        if word in bound or word in self.places:
            return term
        if word in self.definitions:
            return self.defined(word, [], term.place)
        if word not in self.values:
            raise Fault(f"nothing is called {word}", term.place)
        return Term("value", (self.values[word],), term.place)

    def defined(self, word, arguments, place):
        """What a definition gives of these arguments."""
        parameters, body = self.definitions[word]
        if len(arguments) != len(parameters):
            raise Fault(f"{word} has {len(parameters)} parameters, not {len(arguments)}", place)
        if word not in self.written_definitions:
            self.written_definitions[word] = self.resolved(body, parameters)
        return substituted(self.written_definitions[word], dict(zip(parameters, arguments)))

    def resolved_assignments(self, assignments, bound):
        """Assignments with their terms resolved, each with the sort of what is assigned."""
        sorts = {name: (indices, sort) for name, indices, sort in self.declared}
        for name, _, _, place in assignments:
            if name not in sorts:
                raise Fault(f"there is no state variable {name}", place)
        return [Assignment(name, sorts[name][1], [self.resolved(i, bound) for i in index], self.resolved(value, bound))
                for name, index, value, _ in assignments]

    def indices_of(self, name):
        """The indices of an array with their sorts."""
        return next(indices for array, indices, _ in self.declared if array == name)

    def spans(self, variables=()):
        """The intervals of state variables, and of variables with these sorts, for `interval`."""
        sorts = {name: sort for name, _, sort in self.declared} | dict(variables)

        def span(term):
            sort = sorts.get(term.parts[0]) if term.mark in ("name", "call") else None
            values = self.carrier(sort) if sort else None
            return (values[0], values[-1]) if isinstance(values, range) else None
        return span

    def is_known_within(self, value, sort, known):
        """Whether intervals show that a term's value is one of a sort."""
        values, span = self.carrier(sort), None
        if isinstance(values, range):
            span = interval(value, known)
        return not isinstance(values, range) or span is not None and values[0] <= span[0] and span[1] <= values[-1]


@dataclass(frozen=True)
class Assignment:
    """What a step assigns: a state variable or an array's element, its sort, and its new value in terms of the old state."""
    name: str
    sort: str
    index: list
    value: Term

    def target(self):
        return Term("call", (self.name, *self.index)) if self.index else Term("name", (self.name,))


def names_of(variables):
    return [name for name, _ in variables]


def model_of(path):
    """The model in a file."""
    with open(path, encoding="utf-8") as file:
        return WrittenModel(file.read())
