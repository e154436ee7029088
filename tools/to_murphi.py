#!/usr/bin/env python3
"""Writes a model in Murphi's language, for a second opinion by Rumur or CMurphi.

    python3 tools/to_murphi.py MODEL > FILE.m
    rumur --value-type int32_t --deadlock-detection stuck --output FILE.c FILE.m
    cc -O2 -mcx16 FILE.c -o checker -lpthread -latomic && ./checker

Every step is a rule of its name, with its own variables in a ruleset. Of properties there remain: `always p` as an invariant; `possibly p` as
`cover`, which fails where no reached state satisfies p; `always (possibly p)` as `liveness`, which in Rumur means just this; `no_deadlock`, which is
the option above. CMurphi has neither `cover` nor `liveness`. A comment names the others. A step that leaves the ranges is an error there: pbsolve's
verdict is then mostly `unknown`. The checker stops at the first error, so `--states` leaves the properties out where reached states are to be counted.

A model that can't be translated is refused with file, line and column, and status 1."""
import sys

sys.dont_write_bytecode = True
from opinions.claims import DEADLOCK, INVARIANT, LINEAR, POSSIBLE, RECURRENT
from opinions.terms import LEVEL_OF, conjuncts
from opinions.writing import Names, Printer, in_turn, run

RESERVED = """alias array assert assume begin boolean by case clear const cover do else elsif elseif end endalias endexists endfor endforall endfunction
    endif endprocedure endrecord endrule endruleset endstartstate endswitch endwhile enum error exists false for forall function if import in interleaved
    invariant isundefined liveness map multiset multisetadd multisetcount multisetremove multisetremovepred ismember normal of or procedure process program
    property put real record return rule ruleset scalarset startstate switch then to traceuntil true type undefine union unsafe var while""".split()
CLAIMED = {INVARIANT: "invariant", POSSIBLE: "cover", RECURRENT: "liveness"}


class MurphiPrinter(Printer):
    """Terms in Murphi's language."""
    MARKS = {"=>": "->", "||": "|", "&&": "&", "==": "=", "!=": "!=", "<": "<", "<=": "<=", ">": ">", ">=": ">=", "+": "+", "-": "-", "*": "*"}

    def value(self, value):
        return self.names.of("value", value) if isinstance(value, str) else str(value).lower()

    def name(self, word):
        return self.names.of("state" if word in self.model.places else "variable", word)

    def element(self, word, *index):
        return self.names.of("state", word) + "".join(f"[{self.text(i)}]" for i in index)

    def choice(self, test, x, y):
        return f"({self.text(test)} ? {self.text(x)} : {self.text(y)})"

    def text(self, term):
        if term.mark not in ("forall", "exists"):
            return super().text(term)
        variables, body = term.parts
        heads = "".join(f"{term.mark} {self.names.of('variable', x)}: {type_of(self.names, sort)} do " for x, sort in variables)
        return f"{heads}{self.within(variables).text(body)}{' end' * len(variables)}"

    def lines(self, term, indent):
        """A term with a line for each of its conjuncts."""
        parts = conjuncts(term)
        return f"\n{indent}& ".join(self.operand(part, LEVEL_OF["&&"], "&&") for part in parts) if len(parts) > 1 else self.text(term)


def type_of(names, sort):
    return "boolean" if sort == "Bool" else names.of("sort", sort)


def declared_types(model, names):
    """The types of all sorts that have values; those of sorts without a range of their own are theirs."""
    for sort in dict.fromkeys([*model.sorts, *model.ranges]):
        if sort == "Bool":
            continue
        values = model.ranges.get(sort) or model.sorts[sort]
        if isinstance(values, range):
            yield f"  {names.of('sort', sort)}: {values[0]} .. {values[-1]};"
        elif isinstance(values, list):
            yield f"  {names.of('sort', sort)}: enum {{ {', '.join(names.of('value', value) for value in values)} }};"
        elif values in model.sorts or values in model.ranges:
            yield f"  {names.of('sort', sort)}: {type_of(names, values)};"


def declared_variables(model, names):
    for name, indices, sort in model.declared:
        arrays = "".join(f"array [{type_of(names, index)}] of " for _, index in indices)
        yield f"  {names.of('state', name)}: {arrays}{type_of(names, sort)};"


def rule(model, names, step):
    """A step as a rule, in a ruleset where it has variables of its own."""
    own, guard, assignments = model.steps[step]
    printer = MurphiPrinter(model, names, own)
    turn = in_turn(model, assignments)
    inner = printer.within((name, sort) for name, (sort, _) in turn.kept.items())
    if own:
        yield "ruleset " + "; ".join(f"{names.of('variable', x)}: {type_of(names, sort)}" for x, sort in own) + " do"
    yield f"rule \"{step}\"\n    {printer.lines(guard, '    ')}\n  ==>"
    yield from (f"  var {names.of('variable', name)}: {type_of(names, sort)};" for name, (sort, _) in turn.kept.items())
    yield "  begin"
    yield from (f"    {names.of('variable', name)} := {printer.text(term)};" for name, (_, term) in turn.kept.items())
    yield from (f"    {inner.text(it.target())} := {inner.text(it.value)};" for it in turn.assignments)
    yield "  end;"
    if own:
        yield "end;"


def start_state(model, names):
    """The assignments of the initial state, of an array by a loop where all elements are equal."""
    printer = MurphiPrinter(model, names)
    for name, indices, _ in model.declared:
        values = {index: model.initial[place] for index, place in model.places[name].items()}
        if len(set(values.values())) == 1 and indices:
            heads = "".join(f"for {names.of('variable', x)}: {type_of(names, sort)} do " for x, sort in indices)
            element = names.of("state", name) + "".join(f"[{names.of('variable', x)}]" for x, _ in indices)
            yield f"  {heads}{element} := {printer.value(values.popitem()[1])};{' end;' * len(indices)}"
        else:
            for index, value in values.items():
                yield f"  {names.of('state', name)}" + "".join(f"[{printer.value(i)}]" for i in index) + f" := {printer.value(value)};"


def written(model, source, claims, left_out):
    """The model's text in Murphi's language."""
    names = Names(RESERVED, str.lower)
    printer = MurphiPrinter(model, names)
    types = list(declared_types(model, names))
    lines = [f"-- Written by tools/to_murphi.py from {source}."]
    lines += [f"-- {it.name}: by the option --deadlock-detection stuck" for it in claims if it.kind == DEADLOCK]
    lines += [f"-- {it.name}: left out, since it is about runs" for it in claims if it.kind == LINEAR]
    lines += [f"-- {name}: left out, since {why}" for name, why in left_out.items()]
    lines += ["", "type"] * bool(types) + types + ["", "var"] + list(declared_variables(model, names))
    for step in model.steps:
        lines += ["", *rule(model, names, step)]
    lines += ["", "startstate", "begin", *start_state(model, names), "end;"]
    for it in claims:
        if it.kind in CLAIMED:
            lines += ["", f"{CLAIMED[it.kind]} \"{it.name}\"", f"  {printer.lines(it.formula, '  ')};"]
    return "\n".join(lines) + "\n"


if __name__ == "__main__":
    run(__doc__, written)
