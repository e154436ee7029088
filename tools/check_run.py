#!/usr/bin/env python3
"""check_run.py MODEL < TEXT: checks what `pbsolve why < MODEL` wrote. It prints `N lines checked`, or what is wrong where.

It reads the model by itself. Lines that only pass on to another formula in the same state are left out: it finds them by the numbers
that are missing. The first state is the initial one; each move is a step with a true guard, its own values and all
its changes; each line has the verdict's value by its formula where exactly the lines and cuts that it rests on have it; the
outermost fixpoint on each cycle of lines is a mu for false, a nu for true; what is cut leaves the ranges; the words of `here`
and `back` are right. A verdict without lines, as that of a true property, isn't checked."""
import collections
import itertools
import re
import sys

from check_certificate import components
from models import Defined, Model, Unknown, holds

VERDICT = re.compile(r"([A-Za-z_][\w']*) (true|false|unknown)$")
LINE = re.compile(r"(\d+) ([A-Za-z_][\w']*)(?:: (.*)| (?:from (\d+) )?(.*))$")
MOVE = re.compile(r"(by no step|[A-Za-z_][\w']*)(?:\(([^()]*)\))?(?:: (.*))?$")
EDGE = re.compile(r"  (.*), (?:(back to line (\d+), for ever)|to line (\d+)|outside the ranges)$")
HERE = re.compile(r"  here( no step can be taken| the test (?:fails|holds)(?:, and no step can be taken)?|): (.*)$")


class Equations:
    """The equations of a formula, by their names and in their order: each with its sign and its right side."""

    def __init__(self, whole):
        self.found, self.variables = {}, []
        self.list_variables(whole)
        if whole.kind not in ("mu", "nu"):
            self.add("nu", "X", whole, whole, {})
        self.walk(whole, "nu", "X", {})

    def list_variables(self, f):
        self.variables += f.parts[:1] if f.kind in ("mu", "nu") else []
        for g in f.operands: self.list_variables(g)

    def add(self, sign, wanted, f, right, scope):
        taken = [*self.found, *(self.variables if f is right else [])]
        short = wanted if len(wanted) <= 60 else "X"
        f.equation = wanted if wanted not in taken else next(n for k in itertools.count(1) if (n := f"{short}'{k}") not in taken)
        f.scope, self.found[f.equation] = scope, (sign, right)

    def walk(self, f, sign, around, scope):
        """Numbers what is below a formula, where the variables of fixpoints stand for these equations."""
        f.scope = scope
        if f.kind in ("mu", "nu"):
            self.add(f.kind, f.parts[0], f, f.parts[1], scope)
            self.walk(f.parts[1], f.kind, f.parts[0], {**scope, f.parts[0]: f.equation})
        elif f.kind in ("[", "<"):
            if f.parts[1].kind not in ("constant", "variable", "mu", "nu"):
                self.add(sign, around, f.parts[1], f.parts[1], scope)
            self.walk(f.parts[1], sign, around, scope)
        else:
            for g in f.operands: self.walk(g, sign, around, scope)

    def passes_to(self, formula):
        """The equations that an equation's right side calls in the same state."""
        def called(f):
            if f.kind in ("variable", "mu", "nu"):
                return [f.scope[f.parts[0]] if f.kind == "variable" else f.equation]
            return [] if f.kind in ("[", "<") else [name for g in f.operands for name in called(g)]
        return called(self.found[formula][1]) if formula in self.found else []


def is_left(model, step, own):
    """Whether a step with its own values is one of the text: of models that are written out none is that no state allows."""
    constants = {name: Defined(parameters, value, {}) for name, (parameters, value) in model.definitions.items()}
    for defined in constants.values():
        defined.names = {**model.values, **constants}
    variables, guard, _ = model.steps[step]
    try:
        return model.is_plain or guard({**model.values, **constants, **dict(zip([x for x, _ in variables], own))})
    except Unknown:
        return True


def asks_test(model, f):
    """Whether a right side asks a test, beside the guards of steps: data or a truth value, as a modality over no step is one."""
    if f.kind in ("[", "<"):
        return not any(f.parts[0](step, own) and is_left(model, step, own) for step in model.steps for own in model.owned(step))
    return f.kind in ("constant", "data") or f.kind not in ("mu", "nu") and any(asks_test(model, g) for g in f.operands)


def array_of(variable):
    """The array of an element `said(1)`; any other variable is by itself."""
    return variable.partition("(")[0]


def groups(variables):
    """The variables in at most eight groups of one after another, as even as can be, the larger ones first."""
    least, more = divmod(len(variables), 8)
    ends = [0, *itertools.accumulate(least + (k < more) for k in range(8))]
    return [variables[first:last] for first, last in itertools.pairwise(ends)]


def has_call(f):
    """Whether a right side names an equation; an operand of a modality has one of its own, but for a truth value."""
    if f.kind in ("[", "<"):
        return f.parts[1].kind != "constant"
    return f.kind in ("variable", "mu", "nu") or any(has_call(g) for g in f.operands)


def is_test(f):
    """Data alone, or a truth value, maybe negated."""
    return f.kind in ("constant", "data") or f.kind == "!" and is_test(f.parts[0])


class Calls:
    """The calls of right sides at a state, in their order: where each stands, the equation that it names, the step and its own values, and
    where that leads. Where the state stays a call stands at its variable or fixpoint, else at the step's name, in models with arrays,
    definitions or values of steps at the step with its values."""

    def __init__(self, model, state):
        self.model, self.state = model, state

    def decides(self, mark, is_first, f):
        """Whether an operand without calls decides what it is connected to."""
        truth = holds(self.model, f, self.state, None)
        return not truth if mark == "&&" or mark == "=>" and is_first else truth

    def named(self, f):
        """The equation that a variable or a fixpoint names."""
        return f.scope[f.parts[0]] if f.kind == "variable" else f.equation

    def of_modality(self, f):
        if has_call(f):
            for step in self.model.steps:
                for own in self.model.owned(step):
                    if f.parts[0](step, own):
                        place = step if self.model.is_plain else (step, own)
                        yield place, f.parts[1].equation or self.named(f.parts[1]), step, own, self.model.after(self.state, step, own)

    def written(self, f):
        """The places of all calls."""
        if f.kind in ("[", "<"):
            return [place for place, *_ in self.of_modality(f)]
        if f.kind in ("variable", "mu", "nu"):
            return [id(f)]
        return [place for g in f.operands for place in self.written(g)]

    def made(self, f, beside_tests):
        """The calls that are made: none behind a first operand without calls that decides, or none beside a test that decides."""
        if f.kind in ("[", "<"):
            return [call for call in self.of_modality(f) if call[-1] is not None]
        if f.kind in ("variable", "mu", "nu"):
            return [(id(f), self.named(f), "stays", (), self.state)]
        if len(f.operands) < 2:
            return [call for g in f.operands for call in self.made(g, beside_tests)]
        found, (first, second) = [], f.operands
        if not beside_tests or not is_test(second) or not self.decides(f.kind, False, second):
            found += self.made(first, beside_tests)
        if (not is_test(first) if beside_tests else has_call(first)) or not self.decides(f.kind, True, first):
            found += self.made(second, beside_tests)
        return found

    def told(self, f, target):
        """The step and its own values by which a target is named, if it is."""
        naming = lambda calls: [call for call in calls if (call[1], call[-1]) == target]
        places, calls = {call[0] for call in naming(self.made(f, True))}, naming(self.made(f, False))
        place = next((place for place in self.written(f) if place in places), None)
        chosen = [call for call in calls if call[0] == place] or calls
        return chosen[0][2:4] if chosen else ("by no step", ())


class Line:
    """A formula at a state, the line that it comes from, what it rests on, and what is told of it. Some are left out."""

    def __init__(self, formula, state, parent, move="", is_written=False):
        self.formula, self.state, self.parent, self.move, self.is_written = formula, state, parent, move, is_written
        self.rests, self.edges, self.cuts, self.here = [], [], [], None

    def rests_on_one(self):
        return len(self.rests) == 1 and not self.cuts


class Run:
    """The lines that show one verdict."""

    def __init__(self, model, name, truth):
        if name not in model.properties:
            sys.exit(f"the model has no property {name}")
        self.model, self.name, self.truth, self.lines = model, name, truth, []
        self.equations = Equations(model.properties[name])

    def require(self, fact, words, number=None):
        if not fact:
            sys.exit(f"{self.name}, line {number or len(self.lines)}: {words}")

    def value(self, word, sort):
        found = self.model.value(word, sort)
        self.require(found is not None, f"{word!r} is no value of {sort}")
        return found

    def state(self, text):
        """The state of `p = idle, said = none`, where `said` is an array whose elements are all equal, or a variable."""
        found = [(x, self.value(word, sort)) for name, word in (part.partition(" = ")[::2] for part in text.split(", "))
                 for x, sort in self.model.state if name in (x, array_of(x))]
        self.require([x for x, _ in found] == [x for x, _ in self.model.state], "it tells other variables")
        state = tuple(value for _, value in found)
        self.require(text == self.state_text(state), "it tells the state in other words")
        return state

    def state_text(self, state):
        """A state as lines have it: an array whose elements are all equal has one value."""
        parts = []
        for array, elements in itertools.groupby(zip(self.model.state, state), lambda element: array_of(element[0][0])):
            words = [(x, self.model.word(value)) for (x, _), value in elements]
            parts += [(array, words[0][1])] if len({word for _, word in words}) == 1 else words
        return ", ".join(f"{x} = {word}" for x, word in parts)

    def moved(self, text, state):
        """Where a move leads, which is told by a step with its own values and by what changes."""
        step, own, told = self.read_move(text)
        after = tuple(self.value(told[x], sort) if x in told else v for v, (x, sort) in zip(state, self.model.state))
        self.require(sum(v != w for v, w in zip(state, after)) == len(told), f"{text!r} tells what is no change")
        if step in self.model.steps:
            self.require(self.model.after(state, step, own) == after, f"{text!r} isn't what the step does")
        else:
            self.require(step == "by no step" or step == "stays" and after == state and not own, f"{text!r} is no step")
        return after

    def read_move(self, text):
        """The step of a move, its own values, and what is told of changes."""
        found = MOVE.match(text)
        self.require(found, f"{text!r} is no move")
        step, own, changes = found.groups()
        told = dict(change.partition(" := ")[::2] for change in changes.split(", ")) if changes else {}
        in_order = ", ".join(f"{x} := {told[x]}" for x, _ in self.model.state if x in told)
        self.require(in_order == (changes or ""), f"{text!r} tells no changes in order")
        words = own.split(",") if own else []
        if step not in self.model.steps:
            return step, words, told
        variables = self.model.steps[step][0]
        values = tuple(self.value(v, sort) for v, (_, sort) in zip(words, variables))
        self.require(len(words) == len(variables) and values in self.model.owned(step), f"{text!r} has other own values")
        return step, values, told

    def left(self, text, state):
        """Where a move outside the ranges leads. Of more than eight variables several have one number, of which nothing is told there."""
        step, own, told = self.read_move(text)
        self.require(step in self.model.steps, f"{text!r} is no step")
        after = self.model.after(state, step, own)
        self.require(after and not self.model.is_within(after), f"{text!r} is within the ranges")
        changed = {}
        for group in groups(list(zip(self.model.state, state, after))):
            if len(group) == 1 or all(w in self.model.carrier(sort) for (_, sort), _, w in group):
                changed.update({x: self.model.word(w) for (x, _), v, w in group if v != w})
        self.require(changed == told, f"{text!r} isn't what the step does")
        return after

    def read_line(self, text):
        found = LINE.match(text)
        self.require(found, f"{text!r} is no line")
        number, formula, first, parent, move = found.groups()
        left_out = int(number) - len(self.lines) - 1
        self.require(left_out >= 0 and (first is None) == bool(self.lines) and not (first and left_out), f"it is followed by {text!r}")
        parent = int(parent) - 1 if parent else len(self.lines) - 1
        self.require(-1 <= parent < len(self.lines), f"{text!r} comes from no line")
        state = self.state(first) if first else self.moved(move, self.lines[parent].state)
        self.require(state == self.model.initial or not first, "it isn't the initial state")
        self.require(self.model.is_within(state), f"{text!r} leaves the ranges")
        if left_out:
            before = self.lines[parent]
            names = self.passing(before.formula, before.state, left_out, (formula, state))
            self.require(names, f"no {left_out} lines that only pass on lead to {text!r}")
            for name in names:
                parent = self.add_line(Line(name, before.state, parent, "stays"))
        self.add_line(Line(formula, state, parent, move, is_written=True))

    def add_line(self, line):
        """Where the line is then; the one that it comes from rests on it."""
        self.lines.append(line)
        if len(self.lines) > 1:
            self.lines[line.parent].rests.append(len(self.lines) - 1)
        return len(self.lines) - 1

    def passing(self, formula, state, count, target):
        """So many formulas by which one passes on to a target in the same state, each resting on the next alone, if there are any."""
        if not count:
            return []
        for name in self.equations.passes_to(formula):
            others = self.passing(name, state, count - 1, target)
            if others is not None and self.follows(name, state, {(others[0], state) if others else target}):
                return [name, *others]
        return None

    def follows(self, formula, state, rests_on, cuts=()):
        """Whether an instance has the verdict's value where these have it, and where these calls leave the ranges."""
        def truth(called, reached):
            if not self.model.is_within(reached):
                return not self.truth and reached not in cuts
            return ((called, reached) in rests_on) == self.truth
        return holds(self.model, self.equations.found[formula][1], state, truth) == self.truth

    def read_below(self, text):
        """What is told below a line."""
        self.require(self.lines and self.lines[-1].here is None, f"{text!r} stands below no line")
        line, edge, here = self.lines[-1], EDGE.match(text), HERE.match(text)
        self.require(edge or here, f"{text!r} is no line")
        if here:
            line.here = here[1]
            self.require(self.state(here[2]) == line.state, "`here` tells another state")
        elif edge[2] or edge[4]:
            line.rests.append(int(edge[3] or edge[4]) - 1)
            line.edges.append((edge[1], line.rests[-1], bool(edge[2])))
        else:
            line.cuts.append(self.left(edge[1], line.state))

    def check_edges(self):
        """Each leads to the line that it names, which comes from no later one, and goes back to it for ever where each line from there
        to here, this one too, rests on the next one alone."""
        first = 0
        for k, line in enumerate(self.lines):
            first = first if line.parent == k - 1 and self.lines[k - 1].rests_on_one() else k
            for move, j, is_back in line.edges:
                self.require(0 <= j < len(self.lines) and line.rests.count(j) == 1, f"it doesn't lead to line {j + 1} once", k + 1)
                self.require(self.moved(move, line.state) == self.lines[j].state, f"it doesn't lead to line {j + 1}", k + 1)
                self.require(j == 0 or self.lines[j].parent < k, f"line {j + 1} comes from here", k + 1)
                goes_round = line.rests_on_one() and first <= j <= k
                self.require(is_back == goes_round, f"it goes back to line {j + 1} for ever, or doesn't", k + 1)

    def check_line(self, k, line):
        self.require(line.formula in self.equations.found, f"there is no formula {line.formula}", k + 1)
        rests_on = {(self.lines[j].formula, self.lines[j].state) for j in line.rests}
        follows = self.follows(line.formula, line.state, rests_on, line.cuts)
        self.require(follows, "it doesn't follow from the lines that it rests on", k + 1)
        self.check_moves(k, line)
        passes = line.move == "stays" and not line.cuts and line.rests == [k + 1] and self.lines[k + 1].parent == k and self.callers[k] == 1
        self.require(line.is_written != passes, "it only passes on, or is left out", k + 1)
        stuck = not self.model.successors(line.state, lambda step, own: True)
        why = "" if line.cuts else self.reason(line.formula, stuck)
        self.require(line.here == (None if line.rests else why), "it ends in other words", k + 1)

    def check_moves(self, k, line):
        """Each move from the line is by the call on which it rests."""
        moves = [(move, self.lines[j]) for move, j, _ in line.edges]
        moves += [(self.lines[j].move, self.lines[j]) for j in line.rests if j and self.lines[j].parent == k]
        calls = Calls(self.model, line.state)
        for move, reached in moves:
            step, own, _ = self.read_move(move)
            told = calls.told(self.equations.found[line.formula][1], (reached.formula, reached.state))
            self.require((step, tuple(own)) == told, f"{move!r} isn't the call on which it rests", k + 1)

    def reason(self, formula, stuck):
        """Why a line rests on no other: a test decides, unless no step can be taken and no test is asked."""
        test = f" the test {'holds' if self.truth else 'fails'}"
        if not stuck:
            return test
        return f"{test}, and no step can be taken" if asks_test(self.model, self.equations.found[formula][1]) else " no step can be taken"

    def check_cycles(self):
        order = {name: n for n, name in enumerate(self.equations.found)}
        for name, (sign, _) in self.equations.found.items():
            inner = {k for k, line in enumerate(self.lines) if order[line.formula] >= order[name]}
            for component in components(inner, lambda k: [j for j in self.lines[k].rests if j in inner]):
                for k in component if sign == ("mu" if self.truth else "nu") else ():
                    cycle = len(component) > 1 or k in self.lines[k].rests
                    self.require(self.lines[k].formula != name or not cycle, "it rests on itself", k + 1)

    def check(self):
        self.require(self.lines[0].formula == next(iter(self.equations.found)), "it has another formula", 1)
        self.check_edges()
        self.callers = collections.Counter(j for line in self.lines for j in line.rests)
        for k, line in enumerate(self.lines): self.check_line(k, line)
        self.check_cycles()
        return len(self.lines)


def lines_checked(text, shown):
    """How many lines what is shown of a model has, where nothing is wrong with them."""
    model, runs = Model(text), []
    for line in shown.splitlines():
        if verdict := VERDICT.match(line):
            runs.append(Run(model, verdict[1], verdict[2] == "true"))
        elif not runs:
            sys.exit(f"{line!r} stands below no verdict")
        else:
            (runs[-1].read_below if line.startswith(" ") else runs[-1].read_line)(line)
    if [run.name for run in runs] != list(model.properties) and len(runs) != 1:
        sys.exit("the verdicts are those of other properties")
    for run in runs:
        run.require(run.lines or run.truth, "no lines show the verdict")
    return sum(run.check() for run in runs if run.lines)


if __name__ == "__main__":
    with open(sys.argv[1], encoding="utf-8") as model_file:
        print(f"{lines_checked(model_file.read(), sys.stdin.read())} lines checked")
