"""Data as they are written: operators and operands, which the scripts for second opinions take apart, fold and write anew.

`tools/models.py` evaluates data; a translation needs what was written. The marks of operators are those of the models' language, and so is their
meaning here: whole numbers without bounds, `div` and `mod` that round down, connectives of which one operand may decide."""
from dataclasses import dataclass, field
import itertools
import sys

from models import BINARY, LEVELS

CONNECTIVES = ("&&", "||", "=>")
COMPARISONS = tuple(LEVELS[3] + LEVELS[4])
QUANTIFIERS = ("forall", "exists")
# The operators that bind tighter have higher numbers; a term that is no binary operation has the last.
LEVEL_OF = {mark: level for level, marks in enumerate(LEVELS) for mark in marks}
TIGHTEST = len(LEVELS)
# Functions of numbers, with their values.
FUNCTIONS = {"min": min, "max": max, "abs": abs, "succ": lambda x: x + 1, "pred": lambda x: x - 1,
             "Pos2Nat": lambda x: x, "Pos2Int": lambda x: x, "Nat2Int": lambda x: x}


@dataclass(frozen=True)
class Place:
    """A place in a file, both from 1 on."""
    line: int
    column: int


def place_in(text, at):
    """The place of a letter of a text."""
    return Place(text.count("\n", 0, at) + 1, at - text.rfind("\n", 0, at))


class Fault(Exception):
    """Something that isn't read or can't be translated, and its place, if it has one."""

    def __init__(self, words, place=None):
        super().__init__(words)
        self.words, self.place = words, place

    def end(self, path):
        """Ends the script as compilers do: FILE:LINE:COLUMN, what is wrong, status 1."""
        place = f"{path}:{self.place.line}:{self.place.column}" if self.place else path
        sys.exit(f"{place}: {self.words}")


@dataclass(frozen=True)
class Term:
    """A term. Its mark is an operator, `!`, `-`, a quantifier, `call`, `name` or `value`; its parts are the operands, after the word of a call or a
    name and after a quantifier's variables with their sorts; of a value the value, a number, a Boolean or an enumerator."""
    mark: str
    parts: tuple
    place: Place = field(default=None, compare=False)
    size: int = field(init=False, compare=False, repr=False)

    def __post_init__(self):
        object.__setattr__(self, "size", 1 + sum(part.size for part in self.operands()))

    def __call__(self, names):
        """The value where names have these values, as the reader of models evaluates initial states."""
        result = folded(substituted(self, {name: value_of(value) for name, value in names.items()}))
        if not result.is_value():
            raise Fault("this has no value by itself", self.place)
        return result.parts[0]

    def operands(self):
        return [part for part in self.parts if isinstance(part, Term)]

    def is_value(self, *values):
        """Whether it is written as a value, or as one of these, where any are given."""
        return self.mark == "value" and (not values or any(self.parts[0] is value for value in values))


def value_of(value):
    return Term("value", (value,))


TRUE, FALSE = value_of(True), value_of(False)


def rebuilt(term, change):
    """The term with each operand changed."""
    return Term(term.mark, tuple(change(part) if isinstance(part, Term) else part for part in term.parts), term.place)


def names_in(term):
    """The names that are free in a term, of variables, arrays and definitions."""
    if term.mark in ("name", "call"):
        return {term.parts[0]}.union(*map(names_in, term.operands()))
    result = set().union(*map(names_in, term.operands())) if term.operands() else set()
    return result - {name for name, _ in term.parts[0]} if term.mark in QUANTIFIERS else result


def substituted(term, terms):
    """A term with terms in place of names. A quantifier's variable that occurs in one of these is renamed, so that it catches none."""
    if term.mark == "name":
        return terms.get(term.parts[0], term)
    if term.mark not in QUANTIFIERS:
        return rebuilt(term, lambda part: substituted(part, terms))
    bound, body = term.parts
    terms = {name: it for name, it in terms.items() if name not in [x for x, _ in bound]}
    taken = set().union(*map(names_in, terms.values())) if terms else set()
    fresh = {x: free_name(x, taken | names_in(body)) for x, _ in bound if x in taken}
    terms |= {x: Term("name", (y,)) for x, y in fresh.items()}
    return Term(term.mark, (tuple((fresh.get(x, x), sort) for x, sort in bound), substituted(body, terms)), term.place)


def free_name(name, taken):
    """The name, or else the name with the first number that makes it new."""
    return next(it for it in itertools.chain([name], (f"{name}_{number}" for number in itertools.count(1))) if it not in taken)


def conjuncts(term):
    return [it for part in term.parts for it in conjuncts(part)] if term.mark == "&&" else [term]


def joined(mark, terms, empty):
    """The terms with a connective between them; what it gives of none where there are none."""
    terms = list(terms)
    if not terms:
        return empty
    result = terms[0]
    for term in terms[1:]:
        result = Term(mark, (result, term))
    return result


# ---- folding

def folded(term):
    """The term with what its written values decide: so it has a value, or it depends on the state. An operand that a value decides against is left
    out with all its parts, as an index outside its array."""
    if term.mark == "call" and term.parts[0] == "if":
        test = folded(term.parts[1])
        if test.is_value():
            return folded(term.parts[2] if test.parts[0] else term.parts[3])
        return Term("call", ("if", test, folded(term.parts[2]), folded(term.parts[3])), term.place)
    if term.mark in CONNECTIVES:
        return folded_connective(term.mark, folded(term.parts[0]), lambda: folded(term.parts[1]))
    term = rebuilt(term, folded)
    values = [part.parts[0] for part in term.operands() if part.is_value()]
    is_undefined = term.mark in ("div", "mod") and values[-1:] == [0]
    if not values or len(values) < len(term.operands()) or is_undefined or term.mark not in (*BINARY, "!", "call"):
        return term.parts[0].parts[0] if term.mark == "!" and term.parts[0].mark == "!" else term
    if term.mark == "!":
        return value_of(not values[0])
    if term.mark == "call":
        return value_of(FUNCTIONS[term.parts[0]](*values)) if term.parts[0] in FUNCTIONS else term
    return value_of(-values[0] if len(values) == 1 else BINARY[term.mark](*values))


def folded_connective(mark, first, second):
    """A connective of an operand and of another that is folded only where the first doesn't decide."""
    decides = mark == "||"
    if mark == "=>":
        first, decides = negated(first), True
    if first.is_value():
        return first if first.parts[0] == decides else second()
    then = second()
    if then.is_value():
        return then if then.parts[0] == decides else first
    return Term("=>", (negated(first), then)) if mark == "=>" else Term(mark, (first, then))


def negated(term):
    if term.mark == "!":
        return term.parts[0]
    if term.mark in ("==", "!="):
        return Term("!=" if term.mark == "==" else "==", term.parts, term.place)
    return value_of(not term.parts[0]) if term.is_value() else Term("!", (term,))


def written_out(term, carrier):
    """The term folded, with each quantifier's copies in its place, by the values of sorts."""
    if term.mark not in QUANTIFIERS:
        return folded(term) if not has_quantifier(term) else folded(rebuilt(term, lambda part: written_out(part, carrier)))
    bound, body = term.parts
    mark, empty = ("&&", TRUE) if term.mark == "forall" else ("||", FALSE)
    choices = itertools.product(*[carrier(sort) for _, sort in bound])
    copies = (written_out(substituted(body, {x: value_of(v) for (x, _), v in zip(bound, own)}), carrier) for own in choices)
    return folded(joined(mark, copies, empty))


def has_quantifier(term):
    return term.mark in QUANTIFIERS or any(map(has_quantifier, term.operands()))


# ---- intervals

def interval(term, known):
    """The least and the greatest number that a term may be, none if it isn't bounded so. `known` gives the interval of what the state decides."""
    result = known(term)
    if result:
        return result
    if term.mark == "value":
        return (term.parts[0],) * 2 if type(term.parts[0]) is int else None
    numbers = [it for it in term.operands() if not (term.mark == "call" and term.parts[0] == "if" and it is term.parts[1])]
    spans = [interval(it, known) for it in numbers]
    if not spans or None in spans:
        return None
    return span_of(term, spans)


def span_of(term, spans):
    """The interval of an operation on numbers within these."""
    word = term.parts[0] if term.mark == "call" else term.mark
    (low, high), (least, most) = spans[0], spans[-1]
    if word == "if":
        return min(low, least), max(high, most)
    if word in ("+", "-") and len(spans) == 2:
        return (low + least, high + most) if word == "+" else (low - most, high - least)
    if word == "-":
        return -high, -low
    if word == "*":
        corners = [x * y for x in (low, high) for y in (least, most)]
        return min(corners), max(corners)
    if word == "div" and least >= 1:
        return min(low // least, low // most), max(high // least, high // most)
    if word == "mod" and least >= 1:
        return (low, high) if 0 <= low and high < least else (0, most - 1)
    if word == "abs":
        return (0 if low <= 0 <= high else min(abs(low), abs(high))), max(abs(low), abs(high))
    if word in FUNCTIONS:
        return FUNCTIONS[word](*[span[0] for span in spans]), FUNCTIONS[word](*[span[1] for span in spans])
    return None


def narrowed(guard, known):
    """What `known` gives where a guard is true too: comparisons of a term with one that is known narrow it."""
    spans = {}
    for test in conjuncts(guard):
        for mark, x, y in ((test.mark, *test.parts), (MIRRORED.get(test.mark), *test.parts[::-1])) if test.mark in MIRRORED else ():
            bound = interval(y, known)
            if bound and not x.is_value():
                now = spans.get(x) or interval(x, known)
                spans[x] = now and narrowed_span(now, mark, bound)
    return lambda term: spans.get(term) or known(term)


MIRRORED = {"==": "==", "<": ">", "<=": ">=", ">": "<", ">=": "<=", "!=": "!="}


def narrowed_span(span, mark, bound):
    """A span where it compares so with one number within a bound."""
    (low, high), (least, most) = span, bound
    if mark in ("<", "<=", "=="):
        high = min(high, most - (mark == "<"))
    if mark in (">", ">=", "=="):
        low = max(low, least + (mark == ">"))
    if mark == "!=" and least == most:
        low, high = low + (low == least), high - (high == least)
    return low, high
