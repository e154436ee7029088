"""Models of Murphi's programs: state variables for leaves, steps for rules, properties for invariants and assertions."""
import itertools
from dataclasses import dataclass, replace

from murphi.bodies import DEFINED, Leaf, Reference, Run, all_choices, chosen, equal, put_values, same_index
from murphi.trees import BOOLEAN
from opinions.terms import FALSE, FUNCTIONS, LEVEL_OF, QUANTIFIERS, TIGHTEST, TRUE, Fault, Term, folded, joined, names_in, value_of
from opinions.writing import Names, is_bracketed

RESERVED = """sort struct pbes mu nu init val true false forall exists div mod cons map var eqn glob lambda whr end in act proc model state define step property
    skip always possibly inevitably no_deadlock fair until leads_to Bool Nat Int Pos if""".split() + list(FUNCTIONS)
# Columns of a line of assignments.
WIDTH = 118


@dataclass(frozen=True)
class Step:
    name: str
    own: list
    guard: Term
    writes: dict


@dataclass(frozen=True)
class Property:
    """A property: the words before its test, and the test."""
    name: str
    words: str
    test: Term


class Translation:
    """A program as a model."""

    def __init__(self, program):
        self.program, self.names = program, Names(RESERVED)
        self.sort_names, self.step_names, self.property_names = Names(RESERVED), Names(RESERVED), Names(RESERVED)
        self.sorts = {}
        for name in program.types:
            self.sort_names.of("type", name)
        for value in program.enumerators:
            self.names.of("value", value)
        parts = (part for name, kind in program.variables.items() for part in Reference((name,), (), (), kind).parts())
        self.leaves = list(dict.fromkeys(leaf for leaf, _ in parts))
        for leaf in self.leaves:
            self.name_of(leaf)
        self.starts = [start for rule in program.rules if rule.kind == "startstate" for start in self.start_states(rule)]
        if not self.starts:
            raise Fault("there is no start state")
        self.properties = [self.property(rule) for rule in program.rules if rule.kind not in ("rule", "startstate")]
        self.steps = [self.step(rule) for rule in program.rules if rule.kind == "rule"]
        if not self.steps:
            raise Fault("there is no rule")
        self.undefined = self.may_be_undefined()
        self.settle()
        self.started = Leaf(("started", ""), (), BOOLEAN) if len(self.starts) > 1 else None

    def run(self, rule):
        return Run(self.program, rule.place, {*self.names.taken, *RESERVED})

    # ---- rules

    def start_states(self, rule):
        """What each element holds in each start state of a rule: one for each choice of its parameters."""
        run = self.run(rule)
        parameters = run.surround(rule.around)
        for leaf in self.leaves:
            for index in self.indices(leaf):
                run.write(leaf, index, value_of(leaf.kind.lowest()), FALSE)
        run.declare(rule.variables)
        run.statements(rule.body)
        if run.assertions:
            raise Fault("an assertion of a start state isn't read", rule.place)
        for choice in all_choices(parameters):
            terms = {name: value_of(value) for (name, _), value in zip(parameters, choice)}
            yield {leaf: {index: self.constant(run, leaf, index, terms, rule) for index in self.indices(leaf)}
                   for own in self.leaves for leaf in (own, own.companion())}

    def constant(self, run, leaf, index, terms, rule):
        result = put_values(run.values.read(leaf, index), terms)
        if not result.is_value():
            raise Fault(f"the start state leaves open what {'.'.join(leaf.words)} holds", rule.place)
        if leaf.kind is not BOOLEAN and result.parts[0] not in leaf.kind.values:
            raise Fault(f"the start state gives {'.'.join(leaf.words)} the value {result.parts[0]}, which isn't in its range", rule.place)
        return result

    @staticmethod
    def indices(leaf):
        """The indices of all elements."""
        return [tuple(map(value_of, choice)) for choice in itertools.product(*[kind.values for kind in leaf.indices])]

    def step(self, rule):
        run = self.run(rule)
        own = run.surround(rule.around)
        guard = run.term(rule.test)
        run.declare(rule.variables)
        run.path = guard
        run.statements(rule.body)
        name = self.step_names.new("_".join(rule.name.split()) or "rule")
        for number, (words, test) in enumerate(run.assertions, 1):
            self.properties.append(self.claim(words or f"{name}_assertion_{number}", "always ", quantified("forall", own, test)))
        writes = {leaf: values for leaf, values in run.values.writes.items() if leaf.before(()) == leaf.element(())}
        return Step(name, own, guard, writes)

    def claim(self, name, words, test):
        return Property(self.property_names.new("_".join(name.split())), words, test)

    def property(self, rule):
        run = self.run(rule)
        own = run.surround(rule.around)
        test = run.term(rule.test)
        words = {"invariant": "always ", "cover": "possibly ", "liveness": "always (possibly "}[rule.kind]
        if rule.kind == "liveness":
            words = "".join(f"forall {name}: {self.sort(kind)} . " for name, kind in own) + words
        else:
            test = quantified("forall" if rule.kind == "invariant" else "exists", own, test)
        return self.claim(rule.name or rule.kind, words, test)

    # ---- what may be undefined

    def may_be_undefined(self):
        """The leaves with elements that may be undefined: at a start, by a rule, or where they get what another holds that may be."""
        result = {leaf for leaf in self.leaves for start in self.starts if any(it.is_value(False) for it in start[leaf.companion()].values())}
        while True:
            more = {leaf for leaf in self.leaves for step in self.steps for _, value in step.writes.get(leaf.companion(), [])
                    if not self.settled(value, result).is_value(True)} - result
            if not more:
                return result
            result |= more

    def settled(self, term, undefined):
        """A term where leaves that are always defined are so."""
        if term.mark in ("name", "call") and isinstance(term.parts[0], Leaf):
            leaf = term.parts[0]
            if leaf.words[-1] == DEFINED and not any(leaf == it.companion() for it in undefined):
                return TRUE
        parts = tuple(self.settled(part, undefined) if isinstance(part, Term) else part for part in term.parts)
        return chosen(*parts[1:]) if term.mark == "call" and parts[0] == "if" else folded(Term(term.mark, parts, term.place))

    def settle(self):
        """Leaves out what is always defined, and variables that never are and that nothing reads."""
        self.steps = [replace(step, guard=self.settled(step.guard, self.undefined), writes=self.settled_writes(step.writes)) for step in self.steps]
        self.properties = [replace(it, test=self.settled(it.test, self.undefined)) for it in self.properties]
        never = {leaf for leaf in self.undefined if self.is_never_defined(leaf)}
        terms = [term for step in self.steps for term in (step.guard, *self.written_terms(step, never))] + [it.test for it in self.properties]
        read = {name for term in terms for name in names_in(term) if isinstance(name, Leaf)}
        self.dropped = [leaf for leaf in self.leaves if leaf in never and not read & {leaf, leaf.companion()}]
        self.kept = [it for leaf in self.leaves if leaf not in self.dropped for it in (leaf, leaf.companion())[: 1 + (leaf in self.undefined)]]

    def settled_writes(self, writes):
        return {leaf: [(tuple(self.settled(i, self.undefined) for i in index), self.settled(value, self.undefined)) for index, value in own]
                for leaf, own in writes.items()}

    def is_never_defined(self, leaf):
        starts = all(it.is_value(False) for start in self.starts for it in start[leaf.companion()].values())
        return starts and all(value.is_value(False) for step in self.steps for _, value in step.writes.get(leaf.companion(), []))

    @staticmethod
    def written_terms(step, never):
        skipped = never | {leaf.companion() for leaf in never}
        return [term for leaf, own in step.writes.items() if leaf not in skipped for index, value in own for term in (*index, value)]

    # ---- the text

    def sort(self, kind):
        """The name of a type's sort; types of one name with other values get names of their own."""
        if kind is BOOLEAN:
            return "Bool"
        if kind not in self.sorts:
            named = self.program.types.get(kind.sort) == kind
            self.sorts[kind] = self.sort_names.of("type", kind.sort) if named else self.sort_names.new(kind.sort)
        return self.sorts[kind]

    def text(self, source):
        """The model."""
        body = ["model", self.state(), "  step " + "\n       ".join(self.steps_text()), self.init()]
        body += self.properties_text()
        return "\n".join([*self.comments(source), *self.sorts_text(), *body]) + "\n"

    def comments(self, source):
        yield f"% Written by tools/from_murphi.py from {source}."
        if self.started:
            yield "% It has several start states. So there is one state more, from which each of them is reached by a step."
        if self.dropped:
            yield f"% Never defined and never read, so left out: {', '.join('.'.join(leaf.words) for leaf in self.dropped)}."
        if any(leaf.words[-1] == DEFINED for leaf in self.kept):
            yield f"% Where x_{DEFINED} is false, x is undefined, and has its lowest value."

    def sorts_text(self):
        for kind, name in self.sorts.items():
            if isinstance(kind.values, range):
                yield f"sort {name} = {'Nat' if kind.values[0] >= 0 else 'Int'};\n%range {name} {kind.values[0]} {kind.values[-1]}"
            else:
                yield f"sort {name} = struct {' | '.join(self.names.of('value', value) for value in kind.values)};"

    def name_of(self, leaf):
        return self.names.of("leaf", leaf.words, "_".join(filter(None, leaf.words)))

    def state(self):
        leaves = self.kept + [self.started] * bool(self.started)
        return "  state " + ",\n        ".join(f"{self.name_of(leaf)}{self.indices_text(leaf)}: {self.sort(leaf.kind)}" for leaf in leaves) + ";"

    def index_names(self, leaf):
        return [self.names.of("index", ("i", "j", "k", "l", "m", "n")[number]) for number in range(len(leaf.indices))]

    def indices_text(self, leaf):
        pairs = [f"{name}: {self.sort(kind)}" for name, kind in zip(self.index_names(leaf), leaf.indices)]
        return f"({', '.join(pairs)})" if pairs else ""

    def steps_text(self):
        names_of_start = self.step_names.new("start")
        for number, start in enumerate(self.starts if self.started else [], 1):
            moves = [f"{self.name_of(self.started)} := true"]
            moves += [f"{self.written(leaf.element(index))} := {self.written(value)}" for leaf in self.kept for index, value in start[leaf].items()
                      if any(other[leaf][index] != value for other in self.starts)]
            yield f"{names_of_start}_{number}: !{self.name_of(self.started)} -> {', '.join(moves)};"
        for step in self.steps:
            own = f"({', '.join(f'{name}: {self.sort(kind)}' for name, kind in step.own)})" if step.own else ""
            guard = folded(Term("&&", (Term("name", (self.started,)), step.guard))) if self.started else step.guard
            yield laid_out(f"{step.name}{own}: {self.written(guard)} ->", self.moves(step))

    def moves(self, step):
        """A step's assignments. What an element held already is left out, unless one before may have written it."""
        result = []
        for leaf in self.kept:
            earlier = []
            for index, value in step.writes.get(leaf, []):
                if value != leaf.element(index) or not all(same_index(index, it).is_value(False) for it in earlier):
                    earlier.append(index)
                    result.append(f"{self.written(leaf.element(index))} := {self.written(value)}")
        return result or ["skip"]

    def init(self):
        result = [self.initial(leaf, list(self.starts[0][leaf].items()), self.index_names(leaf)) for leaf in self.kept]
        return f"init {', '.join(result + ['false'] * bool(self.started))};"

    def initial(self, leaf, elements, names):
        """The term of an array's initial values: one value, or one for each index."""
        (index, value), *others = elements
        if all(other == value for _, other in others):
            return self.written(value)
        test = joined("&&", (equal(Term("name", (name,)), i) for name, i in zip(names, index)), TRUE)
        return f"if({self.written(test)}, {self.written(value)}, {self.initial(leaf, others, names)})"

    def properties_text(self):
        for it in self.properties:
            test = it.test
            if self.started and it.words != "always (possibly ":
                test = Term("=>" if it.words == "always " else "&&", (Term("name", (self.started,)), test))
            yield f"property {it.name} = {it.words}val({self.written(test)}){')' * it.words.count('(')};"
        yield f"property {self.property_names.new('deadlock_free')} = no_deadlock;"

    # ---- terms

    def written(self, term):
        """A term in the models' language."""
        word = term.parts[0]
        if term.mark == "value":
            return self.names.of("value", word) if isinstance(word, str) else str(word).lower()
        if term.mark == "name":
            return self.name_of(word) if isinstance(word, Leaf) else word
        if term.mark == "call":
            return f"{self.name_of(word) if isinstance(word, Leaf) else word}({', '.join(map(self.written, term.parts[1:]))})"
        if term.mark in QUANTIFIERS:
            variables = ", ".join(f"{name}: {self.sort(kind)}" for name, kind in word)
            return f"{term.mark} {variables} . {self.written(term.parts[1])}"
        if len(term.parts) == 1:
            return f"{term.mark}{self.operand(word, TIGHTEST, '')}"
        level = LEVEL_OF[term.mark]
        return f" {term.mark} ".join(self.operand(part, level, term.mark) for part in term.parts)

    def operand(self, term, level, mark):
        result = self.written(term)
        is_chain = term.mark == mark and mark in ("&&", "||", "+")
        binds = term.mark not in QUANTIFIERS and (is_chain or LEVEL_OF.get(term.mark, TIGHTEST) > level or level == TIGHTEST and term.mark in ("name", "call"))
        return result if binds or is_bracketed(result) else f"({result})"


def quantified(mark, variables, test):
    """A test for all parameters, of one quantifier."""
    return Term(mark, (tuple(variables), test)) if variables and not test.is_value() else test


def laid_out(head, parts):
    """A step on one line, or on one for each of its assignments."""
    line = f"{head} {', '.join(parts)};"
    return line if len(line) <= WIDTH else f"{head}\n              " + ",\n              ".join(parts) + ";"
