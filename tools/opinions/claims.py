"""What properties claim, where other model checkers can check it.

A formula of the language is about steps and states, and what checkers of Murphi's and Promela's texts check is about states. So a property is carried over
where it is built from tests of the state in one of the ways below; `<a> true` is such a test too, that a step of a can be taken, and `[a] false` its negation.

- `always p`: an invariant. `no_deadlock`, which is the invariant that some step can be taken, is a kind of its own, since checkers look for deadlocks
  by themselves.
- `possibly p`: some reached state satisfies p. `always (possibly p)`: from each reached state one is reached that does.
- Linear claims, of all runs: tests, `[]` and `<>`, `U` and `W` over tests, their conjunctions, and disjunctions of these with tests. Each is the LTL of
  its form, where a run that ends stays in its last state for ever. A least fixpoint without `<true> true` is satisfied by a run that ends as well: so
  where a run has to come to q, it comes to q or to where no step can be taken."""
from dataclasses import dataclass

from opinions.reading import ALL, Steps, names_of
from opinions.terms import FALSE, QUANTIFIERS, TRUE, Fault, Term, folded, free_name, joined, names_in, negated, substituted, value_of, written_out

INVARIANT, DEADLOCK, POSSIBLE, RECURRENT, LINEAR = "invariant", "deadlock", "possible", "recurrent", "linear"
TEMPORAL = ("[]", "<>", "U", "W")


@dataclass(frozen=True)
class Claim:
    """What a property claims: an invariant, that no deadlock is reached, that a test is possible or always possible, or a linear formula."""
    kind: str
    name: str
    formula: Term


class Claims:
    """The claims of a model's properties."""

    def __init__(self, model):
        self.model = model
        self.dead = negated(self.some_step(ALL, ()))

    def of(self, name):
        """What a property claims, one claim or several that all have to hold; a fault where other checkers have no form for it."""
        formula = self.model.properties[name]
        if self.is_no_deadlock(formula):
            return [Claim(DEADLOCK, name, negated(self.dead))]
        for kind, form in ((POSSIBLE, self.possible), (RECURRENT, self.recurrent)):
            result = self.for_each_copy(form, formula, ())
            if result:
                return [Claim(kind, name, written_out(test, self.model.carrier)) for test in result]
        result = self.linear(formula, ())
        return [Claim(INVARIANT, name, result.parts[0]) if result.mark == "[]" and is_test(result.parts[0]) else Claim(LINEAR, name, result)]

    def for_each_copy(self, form, f, bound):
        """The tests that a form has for the copies below the quantifiers at a formula's head, if it has one for each."""
        if f.kind != "forall":
            result = form(f, bound)
            return [result] if result else []
        below = self.for_each_copy(form, f.parts[1], {*bound, *names_of(f.parts[0])})
        choices = list(self.model.tuples(f.parts[0]))
        return [substituted(test, {x: value_of(v) for (x, _), v in zip(f.parts[0], own)}) for test in below for own in choices]

    # ---- steps

    def some_step(self, steps, bound):
        """The test that a step of a set can be taken, where these names are variables'."""
        return folded(joined("||", (self.can(step, steps, bound) for step in self.model.steps), FALSE))

    def can(self, step, steps, bound):
        """The test that one step of a set can be taken, with some values of its own variables, which get names that are free here."""
        own, guard, _ = self.model.steps[step]
        taken = set(self.model.places).union(bound, *map(names_in, self.values_in(steps, bound)))
        fresh = {x: free_name(x, taken) for x in names_of(own)}
        guard = substituted(guard, {x: Term("name", (y,)) for x, y in fresh.items()})
        test = folded(Term("&&", (self.member(steps, step, list(fresh.values()), bound), guard)))
        variables = tuple((fresh[x], sort) for x, sort in own)
        return Term("exists", (variables, test)) if variables and not test.is_value() else test

    def values_in(self, steps, bound):
        if isinstance(steps, Steps) and steps.mark == "name":
            return [self.model.resolved(value, bound) for value in steps.parts[1] or () if value]
        return [value for part in steps.parts for value in self.values_in(part, bound)] if isinstance(steps, Steps) else []

    def member(self, steps, step, own, bound):
        """The test that a step with its own variables is in a set."""
        if not isinstance(steps, Steps) or steps.mark == "true":
            return TRUE
        if steps.mark == "!":
            return negated(self.member(steps.parts[0], step, own, bound))
        if steps.mark == "||":
            return folded(joined("||", (self.member(part, step, own, bound) for part in steps.parts), FALSE))
        name, values = steps.parts
        if name != step:
            return FALSE
        tests = (Term("==", (Term("name", (x,)), self.model.resolved(value, bound))) for x, value in zip(own, values or ()) if value)
        return folded(joined("&&", tests, TRUE))

    # ---- tests of the state

    def test(self, f, bound):
        """The test of the state that a formula is, if it is one."""
        if f.kind == "constant":
            return TRUE if f.parts[0] else FALSE
        if f.kind == "data":
            return self.model.resolved(f.parts[0], bound)
        if f.kind in ("<", "["):
            return self.test_of_steps(f, bound)
        if f.kind in QUANTIFIERS:
            body = self.test(f.parts[1], {*bound, *names_of(f.parts[0])})
            return body and Term(f.kind, (tuple(f.parts[0]), body))
        if f.kind in ("mu", "nu", "variable"):
            return None
        parts = [self.test(g, bound) for g in f.operands]
        if None in parts:
            return None
        return negated(parts[0]) if f.kind == "!" else folded(Term(f.kind, tuple(parts)))

    def test_of_steps(self, f, bound):
        steps, g = f.parts
        if g.kind != "constant":
            return None
        if g.parts[0] != (f.kind == "<"):
            return TRUE if f.kind == "[" else FALSE
        result = self.some_step(steps, bound)
        return result if f.kind == "<" else negated(result)

    # ---- forms of fixpoints

    def goes_on(self, f, modality, name):
        """Whether a formula is `[true] X` or `<true> X` of this fixpoint."""
        calls = f.kind == modality and f.parts[1].kind == "variable" and f.parts[1].parts[0] == name
        return calls and not has_values(f.parts[0]) and all(self.member(f.parts[0], step, (), ()).is_value(True) for step in self.model.steps)

    def is_no_deadlock(self, f):
        parts = flat("&&", f.parts[1]) if f.kind == "nu" else []
        tests = [g for g in parts if g.kind == "<" and g.parts[1].kind == "constant" and g.parts[1].parts[0]]
        return len(parts) == 2 and len(tests) == 1 and any(self.goes_on(g, "[", f.parts[0]) for g in parts) \
            and self.goes_on_at_all(tests[0])

    def goes_on_at_all(self, f):
        return self.test(f, ()) == negated(self.dead)

    def possible(self, f, bound):
        """The test of `mu X . p || <true> X`."""
        if f.kind == "exists":
            body = self.possible(f.parts[1], {*bound, *names_of(f.parts[0])})
            return body and Term("exists", (tuple(f.parts[0]), body))
        parts = flat("||", f.parts[1]) if f.kind == "mu" else []
        others = [self.test(g, bound) for g in parts if not self.goes_on(g, "<", f.parts[0])]
        return joined("||", others, FALSE) if len(others) == len(parts) - 1 and None not in others else None

    def recurrent(self, f, bound):
        """The test of `nu X . [true] X && mu Y . p || <true> Y`."""
        parts = flat("&&", f.parts[1]) if f.kind == "nu" else []
        others = [self.possible(g, bound) for g in parts if not self.goes_on(g, "[", f.parts[0])]
        return others[0] if len(others) == 1 and len(parts) == 2 else None

    def linear(self, f, bound):
        """A formula as a claim about all runs."""
        test = self.test(f, bound)
        if test:
            return folded(test)
        if f.kind in ("mu", "nu"):
            return (self.linear_always(f, bound) if f.kind == "nu" else None) or self.linear_until(f, bound)
        if f.kind == "forall":
            return pulled("forall", (tuple(f.parts[0]), self.linear(f.parts[1], {*bound, *names_of(f.parts[0])})))
        if f.kind == "&&":
            return pulled("&&", tuple(self.linear(g, bound) for g in f.operands))
        if f.kind in ("||", "=>") and any(self.test(g, bound) for g in f.operands[: 2 if f.kind == "||" else 1]):
            return Term(f.kind, tuple(self.linear(g, bound) for g in f.operands))
        raise Fault("it depends on which step is taken" if f.kind in ("[", "<") else "no form of it is a claim about all runs")

    def linear_always(self, f, bound):
        parts = flat("&&", f.parts[1])
        others = [g for g in parts if not self.goes_on(g, "[", f.parts[0])]
        if len(others) == len(parts) or f.parts[0] in called(others):
            return None
        inner = [self.linear(g, bound) for g in others]
        result = inner[0] if inner else TRUE
        for it in inner[1:]:
            result = pulled("&&", (result, it))
        return result if result.mark == "[]" else Term("[]", (result,))

    def linear_until(self, f, bound):
        """`U` and `W`: q, or p and on by each step."""
        name, body = f.parts
        ways = flat("||", body)
        on = [g for g in ways if any(self.goes_on(h, "[", name) for h in flat("&&", g))]
        ends = [self.test(g, bound) for g in ways if g not in on]
        stays = [h for g in on for h in flat("&&", g) if not self.goes_on(h, "[", name)]
        holds = [self.test(h, bound) for h in stays]
        if len(on) != 1 or None in ends or None in holds:
            raise Fault("it depends on which step is taken, or on more than tests inside a fixpoint")
        if f.kind == "mu" and not any(self.goes_on_at_all(h) for h in stays):
            ends.append(self.dead)
        p = folded(joined("&&", (test for h, test in zip(stays, holds) if f.kind == "nu" or not self.goes_on_at_all(h)), TRUE))
        q = folded(joined("||", ends, FALSE))
        if f.kind == "nu":
            return Term("W", (p, q))
        return Term("<>", (q,)) if p.is_value(True) else Term("U", (p, q))


def has_values(steps):
    """Whether a set of steps names some by their values."""
    return isinstance(steps, Steps) and (steps.parts[1] is not None if steps.mark == "name" else any(map(has_values, steps.parts)))


def flat(mark, f):
    """The operands of a connective, of those below it too."""
    return [h for g in f.operands for h in flat(mark, g)] if f.kind == mark else [f]


def called(formulas):
    """The fixpoints that formulas name."""
    return {name for f in formulas for name in ([f.parts[0]] if f.kind == "variable" else called(f.operands))}


def is_test(term):
    return term.mark not in TEMPORAL and all(map(is_test, term.operands()))


def pulled(mark, parts):
    """`&&` or `forall` of linear formulas, as one `[]` where each is one."""
    inner = [part for part in parts if isinstance(part, Term)]
    if not any(part.mark == "[]" for part in inner) or not all(part.mark == "[]" for part in inner):
        return Term(mark, parts)
    return Term("[]", (Term(mark, tuple(part.parts[0] if isinstance(part, Term) else part for part in parts)),))
