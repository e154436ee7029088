"""Families of texts that are made to be hard for a part of the program: each takes a size and gives a text. Of growth.py and of bench/hard;
game_families.py has those whose games are hard."""


def wide(sign, quantifier, size):
    """One instance of many successors below an attractor of each of them."""
    test = "val(n >= 0) ||" if sign == "mu" else "val(n < 0) &&"
    return (
        f"%range Int 0 {size - 1}\npbes {sign} Y = {quantifier} n: Int . X(n);\n"
        f"{sign} X(n: Int) = {test} X(n); init Y;\n"
    )


def wide_control(sign, quantifier, size):
    """The same with data that attracts nothing."""
    test = "val(n < 0) ||" if sign == "mu" else "val(n >= 0) &&"
    return (
        f"%range Int 0 {size - 1}\npbes {sign} Y = {quantifier} n: Int . X(n);\n"
        f"{sign} X(n: Int) = {test} X(n); init Y;\n"
    )


def wide_instances(sign, quantifier, size):
    """Sixteen instances of many successors, all of which but the last are attracted."""
    test = f"val(n < {size - 1}) ||" if sign == "mu" else f"val(n == {size - 1}) &&"
    return (
        f"sort Row = Int;\n%range Row 0 15\n%range Int 0 {size - 1}\npbes {sign} Z = {quantifier} k: Row . Y(k);\n"
        f"{sign} Y(k: Row) = {quantifier} n: Int . X(n);\n{sign} X(n: Int) = {test} X(n); init Z;\n"
    )


def equations_over_a_wide_one(size):
    """Thirty-two equations, each over all instances of one."""
    calls = " && ".join(f"Y{k}" for k in range(32))
    equations = "".join(f"mu Y{k} = forall n: Int . X(n);\n" for k in range(32))
    return (
        f"%range Int 0 {size - 1}\npbes mu Z = {calls};\n{equations}"
        f"mu X(n: Int) = val(n < {size - 1}) || X(n); init Z;\n"
    )


def chain(first, step, last, size):
    return (
        f"%range Int 0 {size - 1}\npbes mu X(n: Int) = val(n == {last(size)}) || X(n {step} 1); init X({first(size)});\n"
    )


def chain_under(first, step, last, size):
    """A chain of two equations, of which the outer one is the greatest fixpoint."""
    return (
        f"%range Int 0 {size - 1}\npbes nu Z(n: Int) = X(n);\n"
        f"mu X(n: Int) = (val(n == {last(size)}) && Z(n)) || X(n {step} 1); init Z({first(size)});\n"
    )


def alternations(size):
    """Sixty-four equations of alternating signs in a ring."""
    argument = ["n"] * 63 + [f"(n + 1) mod {size}"]
    equations = " ".join(f"{'mu' if k % 2 else 'nu'} X{k}(n: Nat) = X{(k + 1) % 64}({argument[k]});" for k in range(64))
    return f"%range Nat 0 {size - 1}\npbes {equations} init X0(0);\n"


def operators(size):
    """One equation of so many operators, below the limit of 8,192."""
    return "pbes nu X(b, c: Bool) = " + "val(b || !c) && " * (size // 2 - 1) + "X(c, b); init X(true, false);\n"


def deep_brackets(size):
    """So many conjuncts, each below sixty brackets."""
    one = "(" * 60 + "val(b)" + ")" * 60
    return f"pbes nu X(b: Bool) = {' && '.join([one] * size)} && X(b); init X(true);\n"


def long_names(size):
    """So many enumerations of two hundred names of 64 bytes."""
    sorts = "".join(
        f"S{s} = struct " + " | ".join(f"e{s:03}_{k:03}_".ljust(64, "x") for k in range(200)) + ";\n" for s in range(size)
    )
    return f"sort {sorts}pbes nu X(d: S0) = X(d); init X({'e000_000_'.ljust(64, 'x')});\n"


def range_lines(size):
    """So many sorts, each with a range line of its own."""
    sorts = "".join(f"R{k} = Nat;\n" for k in range(size))
    lines = "".join(f"%range R{k} 0 3\n" for k in range(size))
    return f"sort {sorts}{lines}pbes nu X(n: R0) = X(n); init X(0);\n"


def long_jumps(size):
    """Sixteen equations, each of sixteen tests of which every one jumps over all that stands behind it, so many conjuncts at the end."""
    calls = " && ".join(["X0(c, b)"] * size)
    right = "".join(f"val({'b' if k % 2 else 'c'}) => (" for k in range(16)) + calls + ")" * 16
    equations = "".join(f"nu X{k}(b, c: Bool) = {right};\n" for k in range(16))
    return f"pbes {equations}init X0(true, true);\n"


def low(size):
    return 0


def high(size):
    return size - 1


WIDE = (12500, 25000, 50000, 99000)
CHAIN = (131072, 262144, 524288, 1048576)
LIFT = ("--solver", "lift")
# The name of each, the family, the size at which turns of loops are counted first, the four at which it is timed, and options of the program.
FAMILIES = (
    *(
        (f"wide {quantifier} {sign}", lambda size, s=sign, q=quantifier: wide(s, q, size), 200, WIDE, ())
        for sign in ("mu", "nu")
        for quantifier in ("forall", "exists")
    ),
    *(
        (f"wide {quantifier} {sign}, nothing attracted", lambda size, s=sign, q=quantifier: wide_control(s, q, size), 200, WIDE, ())
        for sign, quantifier in (("mu", "forall"), ("nu", "exists"))
    ),
    *(
        (f"wide {quantifier} {sign}, instances", lambda size, s=sign, q=quantifier: wide_instances(s, q, size), 20, WIDE, ())
        for sign, quantifier in (("mu", "forall"), ("nu", "exists"))
    ),
    ("equations over a wide one", equations_over_a_wide_one, 20, (6250, 12500, 25000, 50000), ()),
    ("chain down", lambda size: chain(high, "-", low, size), 150, CHAIN, ()),
    ("chain up", lambda size: chain(low, "+", high, size), 150, CHAIN, ()),
    ("chain down, alternating", lambda size: chain_under(high, "-", low, size), 150, CHAIN, ()),
    ("chain up, alternating", lambda size: chain_under(low, "+", high, size), 150, CHAIN, ()),
    ("chain down, lifted", lambda size: chain(high, "-", low, size), 150, CHAIN, LIFT),
    ("chain up, lifted", lambda size: chain(low, "+", high, size), 150, CHAIN, LIFT),
    ("64 alternations", alternations, 4, (512, 1024, 2048, 4096), ()),
    ("operators", operators, 512, (1024, 2048, 4096, 8192), ()),
    ("deep brackets", deep_brackets, 40, (500, 1000, 2000, 4000), ()),
    ("long jumps", long_jumps, 20, (1000, 2000, 4000, 8000), ()),
    ("names of 64 bytes", long_names, 2, (32, 64, 128, 240), ()),
    ("range lines", range_lines, 150, (25000, 50000, 100000, 200000), ()),
)
