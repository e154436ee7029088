"""What translations of models into other languages have in common: names that are free there, assignments one after another, and options."""
import argparse
import os
import re
from dataclasses import dataclass

from opinions.claims import Claims
from opinions.reading import Assignment, model_of
from opinions.terms import COMPARISONS, LEVEL_OF, TIGHTEST, Fault, Term, free_name, interval, names_in, value_of


class Names:
    """Names as the other language can have them: what isn't a letter or a digit becomes an underscore, and what is taken gets a number. Words may be
    reserved whatever the cases of their letters are, which `plain` then forgets."""

    def __init__(self, reserved, plain=str):
        self.taken, self.reserved, self.given, self.plain = set(), set(reserved), {}, plain

    def of(self, kind, it, name=None):
        """The name of something of a kind, always the same; `name` is what it is called, where it isn't a word itself."""
        if (kind, it) not in self.given:
            self.given[kind, it] = self.new(name or it)
        return self.given[kind, it]

    def new(self, name):
        """A name of its own."""
        result = re.sub(r"\W", "_", name).lstrip("_") or "x"
        if result in self.taken or self.plain(result) in self.reserved:
            result = free_name(f"{result}_1", self.taken)
        self.taken.add(result)
        return result


@dataclass(frozen=True)
class InTurn:
    """Assignments that mean one after another what the step's mean at once: values kept before, their sorts and terms by their names, and then what
    is assigned."""
    kept: dict
    assignments: list


def in_turn(model, assignments):
    """Assignments in turn. Where one reads what is assigned before it, in its value or its index, that is kept first. Of several to one element
    the last is left."""
    last = {it.target(): it for it in assignments}
    kept, before, result = {}, set(), []

    def read(term, sort):
        if not names_in(term) & before:
            return term
        name = f"kept {len(kept) + 1}"
        kept[name] = sort, term
        return Term("name", (name,))

    for it in assignments:
        if last[it.target()] is it:
            index = [read(term, sort) for term, (_, sort) in zip(it.index, model.indices_of(it.name))]
            result.append(Assignment(it.name, it.sort, index, read(it.value, it.sort)))
            before.add(it.name)
    return InTurn(kept, result)


class Printer:
    """Terms in another language: `MARKS` has its operators, and a subclass what is written in another way."""
    MARKS = {}

    def __init__(self, model, names, variables=()):
        self.model, self.names, self.variables = model, names, dict(variables)
        self.known = model.spans(self.variables)

    def within(self, variables):
        """The printer where there are these variables too."""
        return type(self)(self.model, self.names, {**self.variables, **dict(variables)})

    def text(self, term):
        if term.mark in ("div", "mod"):
            return self.text_of_division(term)
        if term.mark in self.MARKS and len(term.parts) == 2:
            level = LEVEL_OF[term.mark]
            return f" {self.MARKS[term.mark]} ".join(self.operand(part, level, term.mark) for part in term.parts)
        if term.mark in ("!", "-"):
            return f"{term.mark}{self.bracketed(term.parts[0])}"
        if term.mark == "call" and term.parts[0] not in self.model.places:
            return self.function(term.parts[0], term.parts[1:])
        return {"value": self.value, "name": self.name, "call": self.element}[term.mark](*term.parts)

    def operand(self, term, level, mark):
        """An operand, in brackets unless it binds tighter than connectives and comparisons do, or is a chain of the same connective."""
        chained = term.mark == mark and mark in ("&&", "||", "+")
        binds = LEVEL_OF.get(term.mark, TIGHTEST) > (LEVEL_OF["<"] if mark in COMPARISONS else level) and level < LEVEL_OF["+"]
        return self.text(term) if chained or binds else self.bracketed(term)

    def bracketed(self, term):
        result = self.text(term)
        return result if re.fullmatch(r"\w+(\[[^\[\]]*\])*", result) or is_bracketed(result) else f"({result})"

    def text_of_division(self, term):
        """A quotient or a remainder, rounded down also where the other language rounds towards 0."""
        x, y = map(self.bracketed, term.parts)
        span = interval(term.parts[0], self.known)
        rest = f"{x} % {y}" if span and span[0] >= 0 else f"({x} % {y} + {y}) % {y}"
        if term.mark == "mod":
            return rest
        return f"{x} / {y}" if span and span[0] >= 0 else f"({x} - {rest}) / {y}"

    def function(self, word, arguments):
        """A function of data, by choices between terms."""
        x, *others = arguments
        zero, one = value_of(0), value_of(1)
        if word in ("succ", "pred"):
            return self.text(Term("+" if word == "succ" else "-", (x, one)))
        if word in ("min", "max"):
            return self.choice(Term("<" if word == "min" else ">", (x, others[0])), x, others[0])
        if word == "abs":
            return self.choice(Term("<", (x, zero)), Term("-", (x,)), x)
        return self.choice(x, *others) if word == "if" else self.text(x)


def is_bracketed(text):
    """Whether a text's first bracket is closed by its last letter."""
    depth = 0
    for letter in text[:-1]:
        depth += {"(": 1, ")": -1}.get(letter, 0)
        if not depth:
            return False
    return text[-1] == ")"


def claims_of(model, wanted):
    """The claims of the properties that are wanted, of all where none is named, and why the others have none."""
    for name in wanted:
        if name not in model.properties:
            raise Fault(f"the model has no property {name}")
    claims, left_out, reader = [], {}, Claims(model)
    for name in model.properties:
        if not wanted or name in wanted:
            try:
                claims += reader.of(name)
            except Fault as fault:
                if fault.place:
                    raise
                left_out[name] = fault.words
    return claims, left_out


def run(description, write):
    """Runs a translation: reads a model, writes its text to the standard output at once, or ends with what is wrong and where."""
    parser = argparse.ArgumentParser(description=description, formatter_class=argparse.RawDescriptionHelpFormatter)
    parser.add_argument("model", help="the model's file")
    parser.add_argument("--property", action="append", default=[], metavar="NAME", help="carry over this property; more may be named")
    parser.add_argument("--states", action="store_true", help="carry over no property: for comparing numbers of reached states")
    options = parser.parse_args()
    try:
        model = model_of(options.model)
        claims, left_out = ([], {}) if options.states else claims_of(model, options.property)
        text = write(model, os.path.basename(options.model), claims, left_out)
    except Fault as fault:
        fault.end(options.model)
    except OSError as error:
        raise SystemExit(f"{options.model}: {error.strerror}") from error
    print(text, end="")
