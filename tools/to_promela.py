#!/usr/bin/env python3
"""Writes a model in Promela, for a second opinion by SPIN.

    python3 tools/to_promela.py MODEL > FILE.pml
    spin -o2 -a FILE.pml
    cc -O2 -DNOREDUCE -DSAFETY -DNOCLAIM -o pan pan.c && ./pan -m1000000       deadlocks, and how many states are reached
    cc -O2 -DNOREDUCE -o pan pan.c && ./pan -m1000000 -a -N NAME               a property

One process takes all steps, for each tuple of values of their own variables one `d_step`, so that SPIN stores the model's reached states and no others
(-o2: those too that differ only in variables that nothing reads). A deadlock is an "invalid end state". A step that leaves the ranges fails an assertion and
stays. Of properties there remain those that are claims about all runs, as LTL: `always p`, `inevitably p`, `p until q`, `p leads_to q` and such, where p
and q are tests of the state, which `<a> true` and `[a] false` are too; `possibly p` as `[] !p` of the name never_NAME, which fails where the property holds;
`no_deadlock` as above. A comment names the others. A run that ends stays in its last state for ever, for SPIN as for the models' words. Fairness
isn't carried over: SPIN's is of processes, and here is one.

A model that can't be translated is refused with file, line and column, and status 1."""
import itertools
import sys

sys.dont_write_bytecode = True
from opinions.claims import DEADLOCK, POSSIBLE, RECURRENT, TEMPORAL
from opinions.reading import names_of
from opinions.terms import CONNECTIVES, TRUE, Fault, Term, folded, joined, narrowed, negated, substituted, value_of, written_out
from opinions.writing import Names, Printer, in_turn, run

RESERVED = """active always assert atomic bit bool break byte c_code c_decl c_expr c_state c_track chan d_proctype d_step define do else empty enabled end eval
    eventually false fi for full get_priority goto hidden if implies in include init inline int len local ltl mtype nempty never nfull next np_ notrace od of
    pc_value pid printf printm priority proctype product progress provided release return run select set_priority short show skip state strong stronguntil
    timeout trace true typedef undef unless unsigned until weak weakuntil xr xs accept equivalent auto case char const continue default double enum extern
    float long register signed sizeof static struct switch union void volatile while now main""".split()
# SPIN cuts the tests of LTL off where they are longer than some 2,000 letters, as it writes them, with more brackets.
LONGEST = 1200
# Promela's types with their values, the smaller ones first.
TYPES = {"byte": range(256), "short": range(-(1 << 15), 1 << 15), "int": range(-(1 << 31), 1 << 31)}


class PromelaPrinter(Printer):
    """Folded terms without quantifiers in Promela."""
    MARKS = {"||": "||", "&&": "&&", "==": "==", "!=": "!=", "<": "<", "<=": "<=", ">": ">", ">=": ">=", "+": "+", "-": "-", "*": "*"}

    def value(self, value):
        return self.names.of("value", value) if isinstance(value, str) else str(value).lower()

    def name(self, word):
        return self.names.of("state" if word in self.model.places else "variable", word)

    def choice(self, test, x, y):
        return f"({self.text(test)} -> {self.text(x)} : {self.text(y)})"

    def text(self, term):
        return super().text(Term("||", (negated(term.parts[0]), term.parts[1])) if term.mark == "=>" else term)

    def operand(self, term, level, mark):
        return self.bracketed(term) if term.mark == "=>" else super().operand(term, level, mark)

    def element(self, word, *index):
        """An array's element: its places are counted from 0 on, the last index fastest."""
        place = value_of(0)
        for i, (_, sort) in zip(index, self.model.indices_of(word)):
            values = self.model.carrier(sort)
            own = Term("-", (i, value_of(values[0]))) if isinstance(values, range) and values[0] else i
            if i.is_value():
                own = value_of(list(values).index(i.parts[0]))
            place = simple_sum(folded(Term("*", (place, value_of(len(values))))), own)
        return f"{self.names.of('state', word)}[{self.text(folded(place))}]"


def simple_sum(x, y):
    """A sum without a 0 in it."""
    return y if x.is_value() and x.parts[0] == 0 else x if y.is_value() and y.parts[0] == 0 else Term("+", (x, y))


def type_of(model, sort):
    values = model.carrier(sort)
    if sort == "Bool":
        return "bool"
    fitting = [it for it, held in TYPES.items() if not isinstance(values, range) or values[0] in held and values[-1] in held]
    if not fitting:
        raise Fault(f"the range of {sort} isn't within SPIN's 32 bits", model.range_places.get(sort))
    return fitting[0]


def declared_variables(model, names):
    """The variables with their initial values; an array's elements get theirs one by one."""
    printer = PromelaPrinter(model, names)
    for name, indices, sort in model.declared:
        values = [model.initial[place] for place in model.places[name].values()]
        size = f"[{len(values)}]" if indices else ""
        first = printer.value(values[0]) if len(set(values)) == 1 else "{ " + ", ".join(map(printer.value, values)) + " }"
        yield f"{type_of(model, sort)} {names.of('state', name)}{size} = {first};"


class Steps:
    """The steps as options of a loop."""

    def __init__(self, model, names):
        self.model, self.names, self.kept = model, names, 0
        self.printer = PromelaPrinter(model, names)

    def options(self):
        for step, (own, guard, assignments) in self.model.steps.items():
            for choice in itertools.product(*[self.model.carrier(sort) for _, sort in own]):
                terms = {x: value_of(value) for x, value in zip(names_of(own), choice)}
                test = self.put_in(guard, terms)
                if not test.is_value(False):
                    values = f"({', '.join(self.model.word(value) for value in choice)})" if choice else ""
                    yield f"  /* {step}{values} */"
                    yield from self.option(test, [self.assigned(it, terms) for it in assignments])

    def put_in(self, term, terms):
        return written_out(substituted(term, terms), self.model.carrier)

    def assigned(self, it, terms):
        return type(it)(it.name, it.sort, [self.put_in(i, terms) for i in it.index], self.put_in(it.value, terms))

    def option(self, guard, assignments):
        """A step whose guard is so; and where it may leave the ranges an assertion that it doesn't."""
        known, outside = narrowed(guard, self.model.spans()), []
        for it in assignments:
            if not self.model.is_known_within(it.value, it.sort, known):
                values = self.model.carrier(it.sort)
                outside += [Term("<", (it.value, value_of(values[0]))), Term(">", (it.value, value_of(values[-1])))]
        leaves = folded(joined("||", outside, negated(TRUE)))
        turn = in_turn(self.model, assignments)
        self.kept = max(self.kept, len(turn.kept))
        text, body = self.printer.text, []
        body += [f"{self.names.of('variable', name)} = {text(term)}" for name, (_, term) in turn.kept.items()]
        body += [f"{text(it.target())} = {text(it.value)}" for it in turn.assignments]
        if not leaves.is_value(False):
            yield f"  :: d_step {{ {text(folded(Term('&&', (guard, leaves))))} -> assert(false) }}"
        yield f"  :: d_step {{ {text(folded(Term('&&', (guard, negated(leaves)))))} -> {'; '.join(body) or 'skip'} }}"


# ---- properties

def without_choices(term):
    """A test without `if` and functions that choose, which SPIN doesn't read in LTL: each of what they choose from is under a test in their place."""
    if term.mark in CONNECTIVES or term.mark == "!":
        return Term(term.mark, tuple(map(without_choices, term.parts)))
    chosen = first_choice(term)
    if not chosen:
        return term
    test, x, y = chosen.parts[1:]
    test, *cases = [without_choices(it) for it in (test, replaced(term, chosen, x), replaced(term, chosen, y))]
    return folded(Term("||", (Term("&&", (test, cases[0])), Term("&&", (negated(test), cases[1])))))


def first_choice(term):
    """A choice between terms that has none in its test, if there is one."""
    if term.mark == "call" and term.parts[0] == "if":
        return term
    return next(filter(None, map(first_choice, term.operands())), None)


def replaced(term, old, new):
    if term is old:
        return new
    return Term(term.mark, tuple(replaced(part, old, new) if isinstance(part, Term) else part for part in term.parts), term.place)


def as_choices(term):
    """A term with `if` in place of the functions that choose."""
    term = Term(term.mark, tuple(as_choices(part) if isinstance(part, Term) else part for part in term.parts), term.place)
    word, *parts = term.parts
    if term.mark != "call" or word not in ("min", "max", "abs"):
        return term
    x, y = parts if len(parts) == 2 else (parts[0], Term("-", (parts[0],)))
    return Term("call", ("if", Term("<" if word == "min" else ">", (x, y)), x, y))


def ltl(printer, formula):
    """A linear formula in SPIN's notation."""
    if not is_temporal(formula):
        return f"({printer.text(without_choices(as_choices(formula)))})"
    parts = [ltl(printer, part) for part in formula.parts]
    if formula.mark in ("[]", "<>"):
        return f"{formula.mark} {parts[0]}"
    mark = {"=>": "->"}.get(formula.mark, formula.mark)
    return f"({parts[0]} {mark} {parts[1]})"


def is_temporal(term):
    return term.mark in TEMPORAL or any(map(is_temporal, term.operands()))


def formulas(model, names, claims, left_out):
    """The claims as `ltl` blocks; those that SPIN couldn't read are left out."""
    printer = PromelaPrinter(model, names)
    for it in claims:
        if it.kind in (DEADLOCK, RECURRENT):
            continue
        formula, name = written_out(it.formula, model.carrier), it.name
        if it.kind == POSSIBLE:
            formula, name = Term("[]", (negated(formula),)), f"never_{it.name}"
        text = ltl(printer, formula if is_temporal(formula) else Term("[]", (formula,)))
        if len(text) > LONGEST:
            left_out[it.name] = "its tests are longer than SPIN reads them"
        else:
            yield f"ltl {names.new(name)} {{ {text} }}"


def written(model, source, claims, left_out):
    """The model's text in Promela."""
    names = Names(RESERVED)
    enumerators = [value for sort, values in model.sorts.items() if sort != "Bool" and isinstance(values, list) for value in enumerate(values)]
    body = [f"#define {names.of('value', value)} {number}" for number, value in enumerators]
    body += declared_variables(model, names)
    steps = Steps(model, names)
    options = list(steps.options())
    body += [f"hidden int {names.of('variable', f'kept {number}')};" for number in range(1, steps.kept + 1)]
    body += ["", f"active proctype {names.new('steps')}() {{", "  do", *options, "  od", "}", *formulas(model, names, claims, left_out)]
    lines = [f"/* Written by tools/to_promela.py from {source}. */"]
    lines += [f"/* {it.name}: the checker looks for deadlocks without claims */" for it in claims if it.kind == DEADLOCK]
    lines += [f"/* {it.name}: left out, since it isn't about all runs */" for it in claims if it.kind == RECURRENT]
    lines += [f"/* {name}: left out, since {why} */" for name, why in left_out.items()]
    return "\n".join(lines + body) + "\n"


if __name__ == "__main__":
    run(__doc__, written)
