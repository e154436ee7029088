"""What Murphi's texts consist of. Expressions are terms with the marks of the models' language; beside these a `field` of a record, an `index` of an
array and `isundefined`, and a quantifier has one variable with its type."""
from dataclasses import dataclass, field

from opinions.terms import Place, Term


@dataclass(frozen=True)
class Simple:
    """A type of values that compare: a range, or an enumeration with its values, or Booleans; with the sort's name that it has in the model."""
    sort: str
    values: object

    def lowest(self):
        return self.values[0]


BOOLEAN = Simple("Bool", (False, True))


@dataclass(frozen=True)
class Array:
    index: Simple
    element: object


@dataclass(frozen=True)
class Record:
    fields: tuple


@dataclass(frozen=True)
class Assign:
    target: Term
    value: Term


@dataclass(frozen=True)
class Clear:
    """Gives all simple parts their lowest value, or makes them undefined."""
    target: Term
    undefines: bool


@dataclass(frozen=True)
class If:
    """The bodies under their conditions; the last one's condition may be true."""
    branches: list


@dataclass(frozen=True)
class For:
    """A body for each value of a variable: of a type, or of bounds with a step."""
    variable: str
    values: object
    body: list


@dataclass(frozen=True)
class Alias:
    names: list
    body: list


@dataclass(frozen=True)
class Assert:
    test: Term
    words: str


@dataclass(frozen=True)
class Call:
    """A procedure's call: a term with the mark `invoke`, of its name and the arguments."""
    call: Term


@dataclass(frozen=True)
class Return:
    """The end of a function with its value, or of a procedure."""
    value: object


@dataclass(frozen=True)
class Routine:
    """A function or a procedure: parameters with their types, each either a variable or a value, its own variables and its body."""
    parameters: tuple
    variables: dict
    body: list


@dataclass(frozen=True)
class Rule:
    """A rule, a start state or a property: what is around it (parameters with types, aliases), its guard or test, its variables and its body."""
    kind: str
    name: str
    around: tuple
    test: Term
    variables: dict
    body: list
    place: Place


@dataclass
class Program:
    """A Murphi text: types by their names, variables with their types, functions and procedures, and its rules."""
    types: dict = field(default_factory=dict)
    routines: dict = field(default_factory=dict)
    variables: dict = field(default_factory=dict)
    enumerators: dict = field(default_factory=dict)
    rules: list = field(default_factory=list)
