"""Models from a generator: state variables, steps, an initial state and properties, with all states and where each step leads from them.

Of tests/fuzzing_models.py. What a step means was written anew from docs/MANUAL.md, "Models"."""
import itertools
import re

from generated_terms import DECLARATIONS, KIND, VALUES, Terms

# What stands in `val(..)` as a test: it begins as a formula might, or has a connective or a quantifier, or counts.
IN_VAL = re.compile(r"^[(!-]|^(true|false)|&&|\|\||=>|forall|exists|count")
# Lines of a model's text that declare its state, are a step and give its initial state.
STATE, STEP, INIT = re.compile(r"^state (.*);$", re.M), re.compile(r"^  (s\d+(?:\(.*?\))?): (.*) -> (.*);$", re.M), re.compile(r"^init (.*);$", re.M)
# A state that a step led to outside the ranges, the formula that holds there whatever the ranges are, and the one that doesn't.
OUTSIDE, TRUE, FALSE = None, ("true",), ("false",)


def widened(text, generator, bits):
    """A model with variables of so many bits together beside its own: each step moves some of them round in three values, which lie far apart, so
    that far more states are declared and few more are reached. No property names them, so that its verdict is what it was."""
    wide = []
    while bits > 0:
        taken = min(bits, 9 + generator.below(21))
        stride = max(1, (1 << taken) // 3)
        wide.append((f"w{len(wide)}", f"Wide{len(wide)}", stride, generator.below(stride)))
        bits -= taken
    declared = "".join(f"sort {sort} = Nat;\n%range {sort} 0 {3 * stride - 1}\n" for _, sort, stride, _ in wide)

    def step(found):
        name, guard, assigned = found.groups()
        name_of, _, stride, value = generator.one_of(wide)
        moved = [it for it in wide if generator.below(2)]
        more = [f"{it} := ({it} + {by}) mod {3 * by}" for it, _, by, _ in moved]
        all_assigned = ", ".join(([] if assigned == "skip" else [assigned]) + more) or "skip"
        return f"  {name}: {name_of} mod {stride} == {value} && ({guard}) -> {all_assigned};"

    text = STATE.sub(lambda found: f"state {found[1]}, {', '.join(f'{name}: {sort}' for name, sort, _, _ in wide)};", text, count=1)
    text = INIT.sub(lambda found: f"init {found[1]}, {', '.join(str(value) for *_, value in wide)};", text, count=1)
    return STEP.sub(step, text).replace("model\n", declared + "model\n", 1)


class Model:
    """State variables, steps, an initial state and properties, with all states and where each step leads from them."""

    def __init__(self, generator):
        self.generator = generator
        self.terms = Terms(generator, generator.below(3) == 0)
        kept = [pair for pair in (("n", "Nat"), ("m", "Small"), ("d", "D"), ("b", "Bool")) if self.generator.below(3)]
        self.sorts = dict(kept or [("n", "Nat")])
        self.states = list(itertools.product(*(VALUES[sort] for sort in self.sorts.values())))
        self.inside = set(self.states)
        steps = [self.step(f"s{number}") for number in range(1 + self.generator.below(4))]
        self.next = {name: leads for name, _, leads in steps}
        self.initial = self.generator.one_of(self.states)
        self.properties = [self.fixpoint((), 3 + self.generator.below(3)) if self.generator.below(4) else self.formula((), 1, 4) for _ in range(3)]
        variables = ", ".join(f"{name}: {sort}" for name, sort in self.sorts.items())
        self.text = (
            f"{DECLARATIONS}model\nstate {variables};\nstep\n{''.join(text for _, text, _ in steps)}"
            f"init {', '.join(str(value).lower() for value in self.initial)};\n"
            + "".join(f"property p{number} = {self.printed(it)};\n" for number, it in enumerate(self.properties))
        )

    def step(self, name):
        """A step: its name, its text, and the states that it leads to from each."""
        own = {"k": self.generator.one_of(tuple(VALUES))} if self.generator.below(3) == 0 else {}
        scope = {**self.sorts, **own}
        guard, is_open = self.terms.term(scope, "bool", self.generator.below(4), True)
        assigned = [it for it in self.sorts if self.generator.below(2)] or [next(iter(self.sorts))]
        values = {it: self.value(scope, it) for it in assigned}

        def leads(state):
            for choice in itertools.product(*(VALUES[sort] for sort in own.values())):
                known = {**dict(zip(self.sorts, state)), **dict(zip(own, choice))}
                if is_open(known):
                    after = tuple(values[it][1](known) if it in values else known[it] for it in self.sorts)
                    yield after if after in self.inside else OUTSIDE

        variables = f"({', '.join(f'{it}: {sort}' for it, sort in own.items())})" if own else ""
        assignments = ", ".join(f"{it} := {text}" for it, (text, _) in values.items())
        return name, f"  {name}{variables}: {guard} -> {assignments};\n", {state: set(leads(state)) for state in self.states}

    def value(self, scope, variable):
        """What is assigned: any term, or a number that goes round, up or down."""
        kind = KIND[self.sorts[variable]]
        if kind != "int" or self.generator.below(2):
            return self.terms.term(scope, kind, self.generator.below(3))
        low, *_ = values = VALUES[self.sorts[variable]]
        form, moved = self.generator.one_of(
            (
                (f"if({{0}} == {values[-1]}, {low}, {{0}} + 1)", lambda n: low if n == values[-1] else n + 1),
                ("{} + 1", lambda n: n + 1),
                ("{} - 1", lambda n: n - 1),
            )
        )
        return form.format(variable), lambda known: moved(known[variable])

    def steps(self, depth):
        """A set of steps: its text, and their names."""
        kind = self.generator.below(4) if depth else self.generator.below(2)
        if kind == 0:
            return "true", frozenset(self.next)
        if kind == 1:
            name = self.generator.one_of(tuple(self.next))
            return name, frozenset([name])
        text, names = self.steps(depth - 1)
        if kind == 2:
            return f"!{text if text.isalnum() else f'({text})'}", frozenset(self.next) - names
        other, more = self.steps(depth - 1)
        return f"{text} || {other}", names | more

    def fixpoint(self, around, depth):
        """A fixpoint of a name of its own, or of one of those around it, which it hides."""
        name = self.generator.one_of((*around, f"X{len(around)}"))
        first, *others = [self.formula((*around, name), 1, max(depth - 2, 0)) for _ in range(1 + self.generator.below(2))]
        after = (self.generator.one_of(("box", "diamond")), *self.steps(2), (others or [("name", name)])[0])
        return self.generator.one_of(("mu", "nu")), name, (self.generator.one_of(("and", "or")), first, after)

    def formula(self, around, sign, depth):
        """A formula below these fixpoints, of which an even number of negations stand around it where the sign is 1."""
        choose = self.generator.below(10)
        if depth == 0 or choose == 0:
            if around and sign == 1 and self.generator.below(4):
                return "name", self.generator.one_of(around)
            if self.generator.below(4) == 0:
                return self.generator.one_of((TRUE, FALSE))
            return self.test()
        if choose <= 2 and sign == 1 and len(around) < 3:
            return self.fixpoint(around, depth)
        if choose <= 5:
            operand = self.formula(around, sign, depth - 1) if sign == 1 else self.generator.one_of((TRUE, FALSE))
            return (self.generator.one_of(("box", "diamond")), *self.steps(2), operand)
        if choose == 9 and sign == 1:
            return self.word(around, depth)
        if choose == 6:
            return "not", self.formula(around, -sign, depth - 1)
        kind = self.generator.one_of(("and", "or", "implies"))
        return kind, self.formula(around, -sign if kind == "implies" else sign, depth - 1), self.formula(around, sign, depth - 1)

    def word(self, around, depth):
        """A word over operands: its name, they, and the formula that it stands for."""
        name = self.generator.one_of(("always", "possibly", "inevitably", "no_deadlock", "until", "leads_to", *(() if self.is_fair else ("fair",))))
        if name == "fair":
            return self.fair(around, depth)
        signs = {"no_deadlock": (), "until": (1, 1), "leads_to": (-1, 1)}.get(name, (1,))
        operands = [self.formula(around, sign, depth - 1) for sign in signs]

        def behind(kind, operand):
            return kind, "true", frozenset(self.next), operand

        def inevitably(name, goal, waiting=TRUE):
            goes_on = "and", behind("diamond", TRUE), behind("box", ("name", name))
            return "mu", name, ("or", goal, ("and", waiting, goes_on))

        again = behind("box", ("name", name))
        meaning = {
            "always": lambda p: ("nu", name, ("and", p, again)),
            "possibly": lambda p: ("mu", name, ("or", p, behind("diamond", ("name", name)))),
            "inevitably": lambda p: inevitably(name, p),
            "no_deadlock": lambda: ("nu", name, ("and", behind("diamond", TRUE), again)),
            "until": lambda p, q: inevitably(name, q, p),
            "leads_to": lambda p, q: ("nu", name, ("and", again, ("implies", p, inevitably("inevitably", q)))),
        }
        return "word", name, operands, meaning[name](*operands)

    is_fair = False

    def fair(self, around, depth):
        """`fair` over sets of steps and an operand, in which it doesn't stand again: its text is that of the word `inevitably` behind the sets."""
        sets = [self.steps(2) for _ in range(1 + self.generator.below(3))]
        self.is_fair = True
        operand = self.formula(around, 1, depth - 1)
        self.is_fair = False

        def everywhere(name):
            return "box", "true", frozenset(self.next), ("name", name)

        def unfair(steps):
            tries = "or", ("diamond", *steps, TRUE), everywhere("fair")
            waits = "and", ("box", *steps, ("name", "fair")), ("and", tries, everywhere("inevitably"))
            return "nu", "inevitably", ("or", operand, ("and", ("diamond", "true", frozenset(self.next), TRUE), waits))

        *others, last = [unfair(steps) for steps in sets]
        for part in others[::-1]:
            last = "or", part, last
        return "word", f"fair ({', '.join(text for text, _ in sets)}) inevitably", [operand], ("mu", "fair", last)

    def test(self):
        text, value = self.terms.term(self.sorts, "bool", self.generator.below(3), True)
        return "test", text, frozenset(state for state in self.states if value(dict(zip(self.sorts, state))))

    def printed(self, formula, is_operand=False):
        """The text of a formula, of an operand in brackets where it reaches further than it should."""
        kind, *parts = formula
        if kind in ("true", "false"):
            return kind
        if kind == "name":
            return parts[0]
        if kind == "test":
            return f"val({parts[0]})" if IN_VAL.search(parts[0]) else parts[0]
        if kind in ("box", "diamond"):
            begin, end = ("[", "]") if kind == "box" else ("<", ">")
            return f"{begin}{parts[0]}{end} {self.printed(parts[2], True)}"
        if kind == "not":
            return f"!{self.printed(parts[0], True)}"
        if kind == "word":
            name, operands = parts[0], [self.printed(operand, True) for operand in parts[1]]
            text = f" {name} ".join(operands) if len(operands) == 2 else " ".join((name, *operands))
        elif kind in ("mu", "nu"):
            text = f"{kind} {parts[0]} . {self.printed(parts[1])}"
        else:
            text = f" {dict(zip(('and', 'or', 'implies'), ('&&', '||', '=>')))[kind]} ".join(self.printed(part, True) for part in parts)
        return f"({text})" if is_operand else text
