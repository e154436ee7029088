"""Families of models that are made to be hard where they are expanded, packed or translated: each takes a size and gives a model. Of growth.py."""


def doubled_indices(size, values):
    """So many definitions, each of which has the one before it in two indices that folding decides. Too large from the eleventh on."""
    first, last = values[0], values[-1]
    definitions = "; ".join(f"d{k + 1} = if((x(d{k}) || true) && (x(d{k}) || true), {first}, {last})" for k in range(size))
    return (
        f"sort S = struct {' | '.join(values)};\nmodel state x(i: S): Bool;\ndefine d0 = {first}; {definitions};\n"
        f"step s: x(d{size}) -> x({first}) := true;\ninit true;\nproperty p = [s] false;\n"
    )


def names_of_nine_variables(size):
    """Nine variables, which are packed, beside as many enumerators and variables of steps: all their names are to be apart."""
    sorts = [range(first, min(first + 200, size)) for first in range(0, size, 200)]
    declared = " ".join(f"S{number} = struct {' | '.join(f'e{k}' for k in names)};" for number, names in enumerate(sorts))
    own = [", ".join(f"k{k}" for k in range(first, min(first + 20, size))) for first in range(0, size, 20)]
    steps = " ".join(f"s{number}({names}: Bool): true -> skip;" for number, names in enumerate(own))
    state = ", ".join(f"b{k}" for k in range(9))
    return f"sort {declared}\nmodel state {state}: Bool;\n  step {steps}\ninit {', '.join(['true'] * 9)};\nproperty p = true;\n"


def names_of_definitions(size):
    """So many definitions, each of which is used once: its name is looked for among all."""
    names = [f"d{k}" for k in range(size)]
    defined = "; ".join(f"{name} = true" for name in names)
    return f"model state b: Bool;\ndefine {defined};\nstep s: {' && '.join(names)} -> skip;\ninit true;\nproperty p = true;\n"


def copies(size):
    """A property with so many copies, each of two equations: all their names are to be apart."""
    return (
        f"sort Copy = Nat; Digit = Nat;\n%range Copy 1 {size}\n%range Digit 0 3\nmodel state n: Digit;\n"
        f"step up: n < 3 -> n := n + 1; down: n > 0 -> n := n - 1;\ninit 0;\n"
        f"property p = forall k: Copy . always (n == k => [up] n != k);\n"
    )


def counted(count, last, stride):
    """A counter beside a number up to `last` that goes round by a stride: `count` states are reached, and `last` times as many declared."""
    return (
        f"sort Count = Nat; Wide = Nat;\n%range Count 0 {count}\n%range Wide 0 {last}\nmodel state n: Count, w: Wide;\n"
        f"step s: n < {count} -> n := n + 1, w := (w + {stride}) mod {last + 1};\ninit 0, 0;\nproperty p = always w != {last};\n"
    )


def far_apart(size):
    """So many reached states, whose numbers differ by one stride: that which keeps multiples together when they are multiplied, as Fibonacci's do."""
    return counted(size, (1 << 31) - 2, 701_408_733)


def declared(size):
    """The same reached states, of more and more that are declared: two to this power for each."""
    return counted(400, (1 << size) - 1, 1)


# The name of each, the family, the size at which turns of loops are counted first, the status, 1 where the model is refused, and how many times as
# many turns twice the size may take: as growth.py says where that is None.
MODELS = (
    ("indices that double", lambda size: doubled_indices(size, ("a", "b")), 14, 1, None),
    ("indices of one value that double", lambda size: doubled_indices(size, ("a",)), 14, 1, None),
    ("names of nine variables", names_of_nine_variables, 400, 0, None),
    ("names of definitions", names_of_definitions, 400, 0, None),
    ("copies of a property", copies, 20, 0, None),
    ("more copies than a text may have", copies, 66, 1, None),
    ("reached states far apart", far_apart, 400, 0, None),
    ("declared states", declared, 15, 0, 1.15),
)
