"""Runs the bodies of Murphi's rules on terms: what each variable holds afterwards, in terms of what all held before.

A variable of Murphi is one or several state variables of a model, its *leaves*: one for each simple part of its type, an array where the part lies in
arrays. A leaf that may be undefined has another beside it, a Boolean, true where it is defined; where it isn't, it has the lowest value. A body
writes elements of leaves; a read after a write gives the written value where the indices are the same, by `if` where that depends on the state."""
import itertools
from dataclasses import dataclass, replace

from murphi.trees import BOOLEAN, Alias, Array, Assert, Assign, Call, Clear, For, If, Record, Return, Simple
from opinions.terms import CONNECTIVES, FALSE, QUANTIFIERS, TRUE, Fault, Term, folded, free_name, interval, negated, rebuilt, substituted, value_of

DEFINED = "defined"
# What the words of a rule's own variables end with, which no name does.
OWN = " of the rule"
# How deep calls may be nested, so that those without end are refused.
DEPTH = 50
# Operators of a term that is too large for models, which take 8,192 and may have simpler terms than those here.
LARGEST = 50_000


@dataclass(frozen=True)
class Leaf:
    """A state variable or an array: its words, the sorts of its indices and of its values."""
    words: tuple
    indices: tuple
    kind: Simple

    def companion(self):
        """The leaf that is true where this one is defined."""
        return Leaf((*self.words, DEFINED), self.indices, BOOLEAN)

    def element(self, index):
        return Term("call", (self, *index)) if index else Term("name", (self,))

    def before(self, index):
        """What an element holds before a body runs; a rule's own variable holds nothing."""
        return value_of(self.kind.lowest()) if self.words[0].endswith(OWN) else self.element(index)


@dataclass(frozen=True)
class Reference:
    """A part of a variable: the words and indices that lead to it, with the indices' types, and its type."""
    words: tuple
    index: tuple
    indices: tuple
    kind: object

    def parts(self):
        """The leaves below, each with an index whose further places are variables' that run over all values."""
        if isinstance(self.kind, Record):
            return [part for name, kind in self.kind.fields for part in replace(self, words=(*self.words, name), kind=kind).parts()]
        if isinstance(self.kind, Array):
            below = [replace(self, index=(*self.index, value_of(value)), indices=(*self.indices, self.kind.index), kind=self.kind.element)
                     for value in self.kind.index.values]
            return [part for it in below for part in it.parts()]
        return [(Leaf(self.words, self.indices, self.kind), self.index)]


class Values:
    """What elements hold: the writes to each leaf in turn."""

    def __init__(self, writes=()):
        self.writes = {leaf: list(own) for leaf, own in dict(writes).items()}

    def copy(self):
        return Values(self.writes)

    def write(self, leaf, index, value):
        own = self.writes.setdefault(leaf, [])
        self.writes[leaf] = [it for it in own if it[0] != index] + [(index, value)]

    def read(self, leaf, index):
        outcome = leaf.before(index)
        for where, value in self.writes.get(leaf, []):
            outcome = chosen(same_index(where, index), value, outcome)
        return outcome

    def joined(self, test, other):
        """What elements hold where a test decides between these values and others."""
        outcome = Values()
        for leaf in dict.fromkeys([*self.writes, *other.writes]):
            places = dict.fromkeys(index for values in (self, other) for index, _ in values.writes.get(leaf, []))
            outcome.writes[leaf] = [(index, chosen(test, self.read(leaf, index), other.read(leaf, index))) for index in places]
        return outcome


def same_index(first, second):
    outcome = TRUE
    for x, y in zip(first, second):
        test = equal(x, y)
        outcome = test if outcome.is_value(True) else FALSE if test.is_value(False) else outcome if test.is_value(True) else Term("&&", (outcome, test))
        if outcome.is_value(False):
            return FALSE
    return outcome


def equal(x, y):
    """The test that two terms are equal, without what is plain."""
    if x == y and type(x.parts[0]) is type(y.parts[0]):
        return TRUE
    if x.is_value() and y.is_value():
        return FALSE
    for one, other in ((x, y), (y, x)):
        if one.is_value(True, False):
            return other if one.parts[0] else negated(other)
    return Term("==", (x, y))


def chosen(test, x, y):
    """`if`, without what is plain."""
    if test.is_value():
        return x if test.parts[0] else y
    x, y = folded(replaced(x, test, TRUE)), folded(replaced(y, test, FALSE))
    if x == y:
        return x
    if x.is_value(True, False):
        return folded(Term("||", (test, y)) if x.parts[0] else Term("&&", (negated(test), y)))
    if y.is_value(True, False):
        return folded(Term("||", (negated(test), x)) if y.parts[0] else Term("&&", (test, x)))
    return Term("call", ("if", test, x, y))


def chosen_result(test, x, y):
    """A function's value by a test; where only one way returns, it is that one's."""
    return y if x is None else x if y is None else chosen(test, x, y)


def replaced(term, old, new):
    """A term with another in place of one that occurs in it."""
    return new if term == old else rebuilt(term, lambda part: replaced(part, old, new))


class Run:
    """One body's run: the values so far, what names mean, the test under which this is reached, and the assertions. Of a function or a procedure
    the test that it has returned, and its value."""

    def __init__(self, program, place, taken=()):
        self.place = place
        self.program, self.values, self.scope, self.path, self.assertions = program, Values(), {}, TRUE, []
        self.kinds, self.taken, self.depth = {}, set(taken), 0
        self.returned, self.result = FALSE, None

    def bind(self, name, kind):
        """A variable of a quantifier or a ruleset, under a name that nothing else has here."""
        fresh = free_name(name, self.taken)
        self.taken.add(fresh)
        self.kinds[fresh] = kind
        self.scope[name] = Term("name", (fresh,)), kind
        return fresh

    def surround(self, around):
        """Enters rulesets and aliases; the parameters with their types."""
        parameters = []
        for name, it in around:
            if isinstance(it, Simple):
                parameters.append((self.bind(name, it), it))
            else:
                self.scope[name] = self.whole(it)
        return parameters

    def declare(self, variables):
        """A rule's own variables, which are undefined at first."""
        for name, kind in variables.items():
            self.scope[name] = Reference((name + " " * self.depth + OWN,), (), (), kind)
            for leaf, index in self.scope[name].parts():
                self.values.write(leaf, index, value_of(leaf.kind.lowest()))
                self.values.write(leaf.companion(), index, FALSE)

    # ---- statements

    def statements(self, body):
        does = {Assign: self.assign, Clear: self.clear, If: self.branches, For: self.loop, Alias: self.alias, Assert: self.assertion, Call: self.call,
                Return: self.leave}
        self.sequence([lambda it=it: does[type(it)](it) for it in body])

    def sequence(self, actions):
        """Actions one after another; after one that may return the others are reached where it doesn't."""
        for number, action in enumerate(actions, 1):
            action()
            if not self.returned.is_value(False):
                before, result = self.returned, self.result
                self.either(negated(before), lambda rest=actions[number:]: self.sequence(rest), lambda: None)
                self.returned, self.result = chosen(before, TRUE, self.returned), chosen_result(before, result, self.result)
                return

    def assign(self, it):
        target, value = self.reference(it.target), self.whole(it.value)
        if isinstance(target.kind, Simple):
            ((leaf, index),) = target.parts()
            self.write(leaf, index, self.simple(value, it.value.place), TRUE)
            return
        if not isinstance(value, Reference) or [leaf.kind for leaf, _ in value.parts()] != [leaf.kind for leaf, _ in target.parts()]:
            raise Fault("a variable of the same type is expected here", it.value.place)
        copied = [(self.values.read(leaf, index), self.values.read(leaf.companion(), index)) for leaf, index in value.parts()]
        for (leaf, index), (term, is_defined) in zip(target.parts(), copied):
            self.write(leaf, index, term, is_defined)

    def write(self, leaf, index, value, is_defined):
        self.check_size([(index, value)])
        self.values.write(leaf, index, value)
        self.values.write(leaf.companion(), index, is_defined)

    def check_size(self, writes):
        if any(value.size > LARGEST for _, value in writes):
            raise Fault("what variables hold after this depends on too many cases for a model", self.place)

    def clear(self, it):
        for leaf, index in self.reference(it.target).parts():
            self.write(leaf, index, value_of(leaf.kind.lowest()), FALSE if it.undefines else TRUE)

    def branches(self, it):
        (test, body), others = it.branches[0], it.branches[1:]
        self.either(self.term(test), lambda: self.statements(body), lambda: self.branches(If(others)) if others else None)

    def either(self, test, first, second):
        """Each of two ways is run from the same values, unless the test is decided."""
        before, path, ways = self.values, self.path, []
        for reached, way in ((test, first), (negated(test), second)):
            self.values, self.path, self.returned, self.result = before.copy(), folded(Term("&&", (path, reached))), FALSE, None
            if not reached.is_value(False):
                way()
            ways.append((self.values, self.returned, self.result))
        (one, returned, result), (other, other_returned, other_result) = ways
        self.values, self.path = one.joined(test, other), path
        for own in self.values.writes.values():
            self.check_size(own)
        self.returned, self.result = chosen(test, returned, other_returned), chosen_result(test, result, other_result)

    def loop(self, it):
        def round_of(value):
            outer, self.scope = self.scope, {**self.scope, it.variable: (value_of(value), it.values)}
            self.statements(it.body)
            self.scope = outer
        self.sequence([lambda value=value: round_of(value) for value in it.values.values])

    def alias(self, it):
        outer = self.scope
        for name, term in it.names:
            self.scope = {**self.scope, name: self.whole(term)}
        self.statements(it.body)
        self.scope = outer

    def assertion(self, it):
        self.assertions.append((it.words, folded(Term("=>", (self.path, self.term(it.test))))))

    # ---- functions and procedures

    def call(self, it):
        self.invoke(it.call)

    def leave(self, it):
        self.returned, self.result = TRUE, it.value and self.term(it.value)

    def invoke(self, term):
        """Runs a function or a procedure, with these arguments for its parameters; its value, if it has one."""
        word, *arguments = term.parts
        routine = self.program.routines.get(word)
        if not routine or len(arguments) != len(routine.parameters) or self.depth == DEPTH:
            words = f"{word} has {len(routine.parameters)} parameters" if routine else f"nothing is called {word}"
            raise Fault("the calls have no end" if self.depth == DEPTH else words, term.place)
        scope = {name: self.argument(it, kind, is_variable) for it, (name, kind, is_variable) in zip(arguments, routine.parameters)}
        outer, self.scope = (self.scope, self.returned, self.result), scope
        self.depth += 1
        self.declare(routine.variables)
        self.returned, self.result = FALSE, None
        self.statements(routine.body)
        self.depth -= 1
        outcome = self.result
        self.scope, self.returned, self.result = outer
        return outcome

    def argument(self, term, kind, is_variable):
        """What a parameter means: a variable, or a value as it is now."""
        if is_variable or not isinstance(kind, Simple):
            return self.reference(term)
        return self.term(term), kind

    def value_of_call(self, term):
        """A function's value. Where it changes what isn't its own, the order of calls would matter."""
        before = self.values.copy()
        outcome = self.invoke(term)
        changed = [leaf for leaf, own in self.values.writes.items() if not leaf.words[0].endswith(OWN) and own != before.writes.get(leaf, [])]
        if changed or outcome is None:
            raise Fault(f"{term.parts[0]} {'changes a variable' if changed else 'has no value'}, so that it isn't read in an expression", term.place)
        self.values = before
        return outcome

    # ---- expressions

    def reference(self, term):
        outcome = self.whole(term)
        if not isinstance(outcome, Reference):
            raise Fault("a variable is expected here", term.place)
        return outcome

    def whole(self, term):
        """What an expression is: a part of a variable, or the term of a value with its type, where this is known."""
        if term.mark == "name":
            return self.named(*term.parts, term.place)
        if term.mark == "field":
            outer = self.reference(term.parts[0])
            kinds = dict(outer.kind.fields) if isinstance(outer.kind, Record) else {}
            if term.parts[1] not in kinds:
                raise Fault(f"there is no field {term.parts[1]}", term.place)
            return replace(outer, words=(*outer.words, term.parts[1]), kind=kinds[term.parts[1]])
        if term.mark == "index":
            outer = self.reference(term.parts[0])
            if not isinstance(outer.kind, Array):
                raise Fault("an array is expected here", term.place)
            index = self.term(term.parts[1])
            if index.is_value() and index.parts[0] not in outer.kind.index.values:
                raise Fault("this index is none of the array's", term.parts[1].place or term.place)
            return replace(outer, index=(*outer.index, index), indices=(*outer.indices, outer.kind.index), kind=outer.kind.element)
        return self.operation(term), None

    def named(self, word, place):
        if word in self.scope:
            return self.scope[word]
        if word in self.program.variables:
            return Reference((word,), (), (), self.program.variables[word])
        if word in self.program.enumerators:
            return value_of(word), self.program.enumerators[word]
        raise Fault(f"nothing is called {word}", place)

    def simple(self, outcome, place):
        """The term of a value."""
        if not isinstance(outcome, Reference):
            return outcome[0]
        if not isinstance(outcome.kind, Simple):
            raise Fault("a record or an array isn't read here, but simple parts of it", place)
        ((leaf, index),) = outcome.parts()
        return self.values.read(leaf, index)

    def term(self, term):
        return folded(self.simple(self.whole(term), term.place))

    def operation(self, term):
        if term.mark == "value":
            return term
        if term.mark == "invoke":
            return self.value_of_call(term)
        if term.mark == "isundefined":
            ((leaf, index),) = self.reference(term.parts[0]).parts()
            return negated(self.values.read(leaf.companion(), index))
        if term.mark in QUANTIFIERS:
            return self.quantified(term)
        if term.mark in CONNECTIVES:
            return self.connective(term)
        if term.mark == "call":
            test, *ways = term.parts[1:]
            test = self.term(test)
            return self.term(ways[0 if test.parts[0] else 1]) if test.is_value() else chosen(test, *map(self.term, ways))
        parts = [self.term(part) for part in term.parts]
        if term.mark == "!":
            return negated(parts[0])
        if term.mark in ("==", "!="):
            outcome = equal(*parts)
            return outcome if term.mark == "==" else negated(outcome)
        if term.mark in ("div", "mod"):
            self.check_division(term, parts)
        return folded(Term(term.mark, tuple(parts), term.place))

    def connective(self, term):
        """A connective; its second operand isn't looked at where the first decides, as an index there may be none of its array's."""
        first = self.term(term.parts[0])
        if first.is_value(term.mark == "||") or term.mark == "=>" and first.is_value(False):
            return value_of(term.mark != "&&")
        return folded(Term(term.mark, (first, self.term(term.parts[1]))))

    def quantified(self, term):
        ((variable, kind),), body = term.parts
        outer = dict(self.scope)
        if isinstance(kind.values, range) and kind.values.step != 1:
            raise Fault("a quantifier with steps isn't read", term.place)
        fresh = self.bind(variable, kind)
        outcome = Term(term.mark, (((fresh, kind),), self.term(body)), term.place)
        self.scope = outer
        self.taken.discard(fresh)
        return outcome if not outcome.parts[1].is_value() else outcome.parts[1]

    def check_division(self, term, parts):
        """Murphi rounds towards 0, and models round down."""
        def span(part):
            word = part.parts[0] if part.mark in ("name", "call") else None
            kind = word.kind if isinstance(word, Leaf) else self.kinds.get(word)
            return (kind.values[0], kind.values[-1]) if kind and isinstance(kind.values, range) else None
        spans = [interval(part, span) for part in parts]
        if not all(spans) or spans[0][0] < 0 or spans[1][0] < 1:
            raise Fault("a quotient or a remainder is read of a number from 0 on by one from 1 on", term.place)


def put_values(term, terms):
    return folded(substituted(term, terms))


def all_choices(parameters):
    """All values of parameters with their types."""
    return itertools.product(*[kind.values for _, kind in parameters])
