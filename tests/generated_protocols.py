"""Models with arrays, definitions, steps by their values and quantified formulas, from a generator: with all states and where each step leads.
Some have constants and sorts by bounds, assignments for all values, terms that count, and definitions where there is no state.

Of tests/fuzzing_models.py. What they mean was written anew from docs/MANUAL.md, "Models", by values alone: an array is a table, a definition
a function, and nothing is put in for a name."""
import itertools

from generated_models import IN_VAL, OUTSIDE, TRUE, Model
from generated_terms import DECLARATIONS, KIND, VALUES, Terms

# State variables, each with the sorts of its indices and of its values. Those of a single value make more than eight elements of few states.
ARRAYS = (
    ("f", ("D",), "Bool"), ("g", ("Small",), "Bool"), ("h", ("D",), "Nat"), ("w", ("D", "Bool"), "Bool"),
    ("v", ("Bool",), "Small"), ("u", ("Nat",), "D"), ("o", ("Nat",), "One"), ("r", ("Small", "D"), "One"),
)
SCALARS = (("n", (), "Nat"), ("m", (), "Small"), ("d", (), "D"), ("b", (), "Bool"))
LARGEST = 400
# The declarations of `generated_terms.py` by constants and bounds.
BY_CONSTANTS = "%range Nat 0 2\nconst one = 1, two = one + 1;\nsort D = struct a?is_a | c; Small = -one .. one; One = one .. two - 1;\n"


def word(value):
    return str(value).lower()


class ProtocolTerms(Terms):
    """Terms in which arrays are read and definitions are used. A scope has what a name is: a sort, or the sorts of its arguments and its own."""

    def __init__(self, generator, quantifiers):
        super().__init__(generator, quantifiers)
        self.functions, self.count = [], 0

    def term(self, scope, kind, depth, may_quantify=False):
        used = [it for it in self.functions if KIND[it[2]] == kind] if depth else []
        if used and self.generator.below(3) == 0:
            name, sorts, _, value = self.generator.one_of(used)
            if not sorts:
                return name, lambda known: value(known)
            parts = [self.inside(scope, sort, depth - 1) for sort in sorts]
            text = f"{name}({', '.join(text for text, _ in parts)})"
            return text, lambda known: value(known, *(part(known) for _, part in parts))
        if kind == "int" and depth and self.generator.below(8) == 0:
            return self.counted(scope, depth)
        return super().term(scope, kind, depth, may_quantify)

    def counted(self, scope, depth):
        """For how many values of a variable of a new name a term is true."""
        self.count += 1
        name, sort = f"k{self.count}", self.generator.one_of(tuple(VALUES))
        text, part = self.term({**scope, name: sort}, "bool", depth - 1, True)
        return f"count {name}: {sort} . {text}", lambda values: sum(part({**values, name: it}) for it in VALUES[sort])

    def inside(self, scope, sort, depth):
        """A term that is seen to have a value of the sort."""
        known = [name for name, its in scope.items() if its == sort]
        if known and self.generator.below(2):
            name = self.generator.one_of(known)
            return name, lambda values: values[name]
        if KIND[sort] != "int" and self.generator.below(2):
            return self.term(scope, KIND[sort], depth)
        if KIND[sort] == "int" and self.generator.below(3) == 0:
            text, value = self.term(scope, "int", depth)
            low, high = VALUES[sort][0], VALUES[sort][-1]
            return f"max({low}, min({high}, {text}))", lambda values: max(low, min(high, value(values)))
        value = self.generator.one_of(VALUES[sort])
        return word(value), lambda values: value

    def quantified(self, scope, depth):
        """A quantifier with a variable of a new name."""
        self.count += 1
        text, value = self.bound(f"k{self.count}", scope, depth)
        return text, value

    def bound(self, name, scope, depth):
        quantifier, every = self.generator.one_of((("forall", all), ("exists", any)))
        sort = self.generator.one_of(tuple(VALUES))
        text, part = self.term({**scope, name: sort}, "bool", depth - 1, True)
        return f"{quantifier} {name}: {sort} . {text}", lambda values: every(part({**values, name: it}) for it in VALUES[sort])


class Protocol(Model):
    """A model as it is written. A state has a value for each element, in the order of declaration, the last index fastest."""

    def __init__(self, generator):
        self.generator = generator
        self.terms = ProtocolTerms(generator, generator.below(2) == 0)
        self.declared = self.state_variables()
        self.elements = [(name, index) for name, sorts, _ in self.declared for index in itertools.product(*(VALUES[sort] for sort in sorts))]
        self.sorts = {name: sort for name, sorts, sort in self.declared if not sorts}
        carriers = [VALUES[sort] for name, sorts, sort in self.declared for _ in itertools.product(*(VALUES[it] for it in sorts))]
        self.states = list(itertools.product(*carriers))
        self.inside = set(self.states)
        self.known = {state: self.named(state) for state in self.states}
        for name, sorts, sort in self.declared:
            if sorts:
                self.terms.functions.append((name, sorts, sort, lambda known, *index, name=name: known[name, index]))
        self.values = [(f"c{number}", self.generator.one_of(tuple(VALUES))) for number in range(generator.below(3))]
        self.values = [(name, sort, generator.one_of(VALUES[sort])) for name, sort in self.values]
        for name, sort, value in self.values:
            self.terms.functions.append((name, (), sort, lambda known, value=value: value))
        definitions = "".join(f"{name} = {word(value)};\n" for name, _, value in self.values)
        definitions += "".join([self.definition(f"e{number}") for number in range(generator.below(3))])
        steps = [self.step(f"s{number}") for number in range(1 + generator.below(3))]
        self.owned = {name: own for name, own, _, _ in steps}
        self.next = {(name, own): leads for name, _, _, each in steps for own, leads in each.items()}
        self.initial, initial = self.initial_state()
        self.properties = [self.fixpoint((), 3 + generator.below(3)) if generator.below(4) else self.formula((), 1, 4) for _ in range(3)]
        self.text = (
            f"{generator.one_of((DECLARATIONS, BY_CONSTANTS))}model\nstate {', '.join(self.declaration(it) for it in self.declared)};\n{'define ' if definitions else ''}{definitions}"
            f"step\n{''.join(text for _, _, text, _ in steps)}init {', '.join(initial)};\n"
            + "".join(f"property p{number} = {self.printed(it)};\n" for number, it in enumerate(self.properties))
        )

    def state_variables(self):
        """At least one array, and few enough states."""
        found, states = [], 1
        for name, sorts, sort in [self.generator.one_of(ARRAYS), *(it for it in ARRAYS + SCALARS if self.generator.below(3) == 0)]:
            count = len(VALUES[sort]) ** len(list(itertools.product(*(VALUES[it] for it in sorts))))
            if states * count <= LARGEST and name not in [it for it, _, _ in found]:
                found, states = [*found, (name, sorts, sort)], states * count
        return found

    def declaration(self, variable):
        name, sorts, sort = variable
        indices = ", ".join(f"i{number}: {it}" for number, it in enumerate(sorts))
        return f"{name}({indices}): {sort}" if sorts else f"{name}: {sort}"

    def named(self, state):
        """What names and elements stand for."""
        return {(name, index) if index else name: value for (name, index), value in zip(self.elements, state)}

    def definition(self, name):
        """The text of a definition, which the terms behind it may use."""
        sorts = tuple(self.generator.one_of(tuple(VALUES)) for _ in range(self.generator.below(3)))
        parameters, sort = [f"{name}{letter}" for letter, _ in zip("xy", sorts)], self.generator.one_of(("Bool", "Bool", "Nat", "D"))
        text, value = self.terms.term({**self.sorts, **dict(zip(parameters, sorts))}, KIND[sort], self.generator.below(4), True)
        self.terms.functions.append((name, sorts, sort, lambda known, *arguments: value({**known, **dict(zip(parameters, arguments))})))
        return f"{name}{self.variables(dict(zip(parameters, sorts)))} = {text};\n"

    def variables(self, sorts):
        return f"({', '.join(f'{name}: {sort}' for name, sort in sorts.items())})" if sorts else ""

    def step(self, name):
        own = {f"{name}{letter}": self.generator.one_of(tuple(VALUES)) for letter in "kl"[: self.generator.below(3)]}
        scope = {**self.sorts, **own}
        guard, is_open = self.terms.term(scope, "bool", self.generator.below(4), True)
        assignments = self.assignments(scope)

        def leads(values, state):
            known = {**self.known[state], **values}
            if not is_open(known):
                return set()
            after = dict(zip(self.elements, state))
            for variable, index, _, value, bound in assignments:
                for copy in itertools.product(*(VALUES[sort] for sort in bound.values())):
                    here = {**known, **dict(zip(bound, copy))}
                    after[variable, tuple(it(here) for _, it in index)] = value(here)
            after = tuple(after.values())
            return {after if after in self.inside else OUTSIDE}

        each = {
            values: {state: leads(dict(zip(own, values)), state) for state in self.states}
            for values in itertools.product(*(VALUES[sort] for sort in own.values()))
        }
        for_all = lambda bound: f"forall {self.variables(bound)[1:-1]} . " if bound else ""
        assigned = ", ".join(f"{for_all(bound)}{self.element(variable, index)} := {text}" for variable, index, text, _, bound in assignments) or "skip"
        return name, tuple(own.values()), f"  {name}{self.variables(own)}: {guard} -> {assigned};\n", each

    def element(self, variable, index):
        return f"{variable}({', '.join(text for text, _ in index)})" if index else variable

    def assignments(self, scope):
        """What is assigned: no two to what is plainly one element."""
        found = []
        for _ in range(self.generator.below(4)):
            name, sorts, sort = self.generator.one_of(self.declared)
            bound = {f"f{len(found)}{number}": it for number, it in enumerate(sorts) if self.generator.below(3) == 0}
            inner = {**scope, **bound}
            index = [self.index(f"f{len(found)}{number}", it, inner) for number, it in enumerate(sorts)]
            if self.element(name, index) not in [self.element(variable, other) for variable, other, _, _, _ in found]:
                found.append((name, index, *self.assigned(inner, name, sort, index), bound))
        return found

    def index(self, name, sort, scope):
        """The variable itself, where the assignment has one for this index; else a term."""
        if name in scope:
            return name, lambda known: known[name]
        return self.terms.inside(scope, sort, self.generator.below(2))

    def assigned(self, scope, name, sort, index):
        if KIND[sort] != "int" or self.generator.below(2):
            return self.terms.term(scope, KIND[sort], self.generator.below(3), KIND[sort] == "bool")
        number = self.generator.one_of((1, -1))
        here = self.element(name, index)
        return f"{here} {'+' if number > 0 else '-'} 1", lambda known: self.read(known, name, index) + number

    def read(self, known, name, index):
        return known[name, tuple(it(known) for _, it in index)] if index else known[name]

    def initial_state(self):
        """The state and its terms: one for each variable, in which an index's name stands for the element's."""
        values, texts = [], []
        for _, sorts, sort in self.declared:
            scope = {f"i{number}": it for number, it in enumerate(sorts)}
            fitting = [(name, lambda known, name=name: known[name]) for name, it in scope.items() if it == sort]
            fitting += [(name, lambda known, value=value: value) for name, it, value in self.values if it == sort]
            value = self.generator.one_of(VALUES[sort])
            text, value = self.generator.one_of([*fitting, (word(value), lambda known, value=value: value)])
            texts.append(text)
            values += [value(dict(zip(scope, index))) for index in itertools.product(*(VALUES[it] for it in sorts))]
        return tuple(values), texts

    # ---- formulas, with the sorts of the variables of quantifiers around

    bound = {}

    def steps(self, depth):
        """A set of steps: its text, and, by the values of quantifiers' variables, the steps with their values."""
        kind = self.generator.below(5) if depth else self.generator.below(3)
        if kind == 0:
            return "true", lambda values: set(self.next)
        if kind in (1, 2):
            name = self.generator.one_of(tuple(self.owned))
            wanted = [self.value_or_any(sort) for sort in self.owned[name]] if kind == 2 else []
            fits = lambda values, own: all(it is None or it(values) == value for (_, it), value in zip(wanted, own))
            text = f"{name}({', '.join(text for text, _ in wanted)})" if wanted else name
            return text, lambda values: {(step, own) for step, own in self.next if step == name and fits(values, own)}
        text, chosen = self.steps(depth - 1)
        if kind == 3:
            return f"!({text})", lambda values: set(self.next) - chosen(values)
        other, more = self.steps(depth - 1)
        return f"{text} || {other}", lambda values: chosen(values) | more(values)

    def value_or_any(self, sort):
        known = [name for name, it in self.bound.items() if it == sort]
        if known and self.generator.below(2):
            name = self.generator.one_of(known)
            return name, lambda values: values[name]
        value = self.generator.one_of(VALUES[sort])
        defined = [(name, lambda values, value=value: value) for name, it, value in self.values if it == sort]
        return self.generator.one_of((("_", None), (word(value), lambda values: value), *defined))

    def formula(self, around, sign, depth):
        if depth and self.generator.below(6) == 0 and len(self.bound) < 2:
            quantifier, name, sort = self.generator.one_of(("forall", "exists")), f"q{len(self.bound)}", self.generator.one_of(tuple(VALUES))
            outer, self.bound = self.bound, {**self.bound, name: sort}
            body = self.formula(around, sign, depth - 1)
            self.bound = outer
            return quantifier, name, sort, body
        return super().formula(around, sign, depth)

    def test(self):
        text, value = self.terms.term({**self.sorts, **self.bound}, "bool", self.generator.below(3), True)
        return "test", text, lambda values: frozenset(state for state in self.states if value({**self.known[state], **values}))

    def printed(self, formula, is_operand=False):
        if formula[0] in ("forall", "exists"):
            text = f"{formula[0]} {formula[1]}: {formula[2]} . {self.printed(formula[3])}"
            return f"({text})" if is_operand else text
        return super().printed(formula, is_operand)
