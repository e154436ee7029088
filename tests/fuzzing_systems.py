#!/usr/bin/env python3
"""Asks the program of generated systems of three equations over the numbers 0 to 2 and a sort of two, each made from its seed.

    tests/fuzzing_systems.py PROGRAM [FIRST [COUNT]]    the seeds from FIRST on, 1,000 from 0 on where nothing is said: the gate's part

The truth of each instance is worked out by the nested fixpoint as it is defined. `solve` and `solution` must tell it, and the lines of
`explain` must be a proof graph for it (Cranen, Luttik and Willemse 2013), by a checker that was written from what a proof graph is
alone: each instance's right side has its value where just those on which it rests have it, and on no cycle stands an equation first
whose sign doesn't support the value; the nearest instances come first. Prints each system that is not as it must be."""
import collections
import concurrent.futures
import os
import re
import subprocess
import sys

sys.dont_write_bytecode = True
from generator import Generator

# What a right side may begin with, each of which opens one bracket, and its truth, where `t` tells that of an instance and `rest` that of what follows.
OPENINGS = (
    ("(X(n, d) && ", lambda n, d, t, rest: t("X", n, d) and rest(n, d)),
    ("(Y(n + 1, d) && ", lambda n, d, t, rest: t("Y", n + 1, d) and rest(n, d)),
    ("(Z(n, b) || ", lambda n, d, t, rest: t("Z", n, "b") or rest(n, d)),
    ("(X(max(n - 1, 0), d) || ", lambda n, d, t, rest: t("X", max(n - 1, 0), d) or rest(n, d)),
    ("(val(n == 0) => ", lambda n, d, t, rest: n != 0 or rest(n, d)),
    ("(val(n + 1 < 3 && d == a) && ", lambda n, d, t, rest: n + 1 < 3 and d == "a" and rest(n, d)),
    ("(val(d != b) || ", lambda n, d, t, rest: d != "b" or rest(n, d)),
    ("(forall n: Nat . ", lambda n, d, t, rest: all(rest(m, d) for m in NUMBERS)),
    ("(exists d: D . ", lambda n, d, t, rest: any(rest(n, e) for e in LETTERS)),
)
# What it may end with.
ENDINGS = (
    ("X(n, d)", lambda n, d, t: t("X", n, d)),
    ("Y(n, if(d == a, b, a))", lambda n, d, t: t("Y", n, "b" if d == "a" else "a")),
    ("Z(n - 1, d)", lambda n, d, t: t("Z", n - 1, d)),
    ("X(n + 1, a)", lambda n, d, t: t("X", n + 1, "a")),
    ("Y(2, d)", lambda n, d, t: t("Y", 2, d)),
    ("Z(n, d)", lambda n, d, t: t("Z", n, d)),
    ("val(n == 2)", lambda n, d, t: n == 2),
    ("true", lambda n, d, t: True),
    ("false", lambda n, d, t: False),
)
NUMBERS, LETTERS = range(3), "ab"
DECLARATIONS = "%range Nat 0 2\nsort D = struct a | b; pbes "
LINE = re.compile(r"(\w\(\d,\w\)) (true|false):((?: \w\(\d,\w\))*)( cut)?")

# An equation with the parameters `n: Nat, d: D`, and the truth of its right side.
Equation = collections.namedtuple("Equation", "sign name text truth")


def truth_of(openings, ending):
    """The truth of a right side of these pieces."""
    if not openings:
        return ending
    first, rest = openings[0], truth_of(openings[1:], ending)
    return lambda n, d, t: first(n, d, t, lambda m, e: rest(m, e, t))


def system_of(seed):
    """Three equations in any signs, whose right sides have at most six pieces."""
    generator, equations = Generator(seed), []
    for name in "XYZ":
        sign = generator.one_of(("mu", "nu"))
        openings = [generator.one_of(OPENINGS) for _ in range(generator.below(6))]
        ending, truth = generator.one_of(ENDINGS)
        text = "".join(piece for piece, _ in openings) + ending + ")" * len(openings)
        equations.append(Equation(sign, name, text, truth_of([truth for _, truth in openings], truth)))
    return equations


def text_of(system):
    equations = "".join(f"{equation.sign} {equation.name}(n: Nat, d: D) = {equation.text}; " for equation in system)
    return f"{DECLARATIONS}{equations}init X(0, a);"


def solution(system):
    """The true instances: for each equation from the first on the extreme fixpoint of its sign, of what those behind it have then."""
    places = [(n, d) for n in NUMBERS for d in LETTERS]

    def solved(rest, outer):
        if not rest:
            return outer
        equation = rest[0]
        own = frozenset((equation.name, *place) for place in places if equation.sign == "nu")
        while True:
            whole = solved(rest[1:], outer | own)
            then = frozenset((equation.name, n, d) for n, d in places if equation.truth(n, d, lambda *call, whole=whole: call in whole))
            if then == own:
                return whole
            own = then

    return solved(system, frozenset())


def instance_of(name):
    """An instance by its name, as `X(0,a)`."""
    return name[0], int(name[2]), name[4]


class Graph:
    """A graph of instances: those on which each of them rests, in the order of their lines."""

    def __init__(self, text):
        first, *lines = text.split("\n")[:-1]
        self.truth = {"answer true": True, "answer false": False}[first]
        self.rests_on = {}
        for line in lines:
            # A cut call is false, and the instance rests on what it has without it.
            name, value, listed, _ = LINE.fullmatch(line).groups()
            if (value == "true") != self.truth or instance_of(name) in self.rests_on:
                raise ValueError(line)
            self.rests_on[instance_of(name)] = [instance_of(word) for word in listed.split()]
        for others in self.rests_on.values():
            for other in others:
                self.rests_on[other]

    def suffices(self, system, instance):
        """Whether the right side has the value where just those have it on which the instance rests."""
        name, n, d = instance
        members = self.rests_on[instance]

        def told(call):
            is_there = call[1] in NUMBERS
            return is_there and (call in members) == self.truth

        right = next(equation.truth for equation in system if equation.name == name)
        return right(n, d, lambda *call: told(call)) == self.truth

    def leads_back(self, system, instance):
        """Whether a cycle through the instance, whose sign doesn't support the value, leads over no equation that stands before its own."""
        ranks = {equation.name: rank for rank, equation in enumerate(system)}
        own = system[ranks[instance[0]]]
        reached, waiting = set(), [instance] if (own.sign == "nu") != self.truth else []
        while waiting:
            for other in self.rests_on[waiting.pop()]:
                if other not in reached and ranks[other[0]] >= ranks[own.name]:
                    reached.add(other)
                    waiting.append(other)
        return instance in reached

    def proves(self, system):
        """Whether it is a proof graph of the system, in which the initial instance stands first."""
        if next(iter(self.rests_on), None) != ("X", 0, "a"):
            return False
        return all(self.suffices(system, instance) and not self.leads_back(system, instance) for instance in self.rests_on)

    def is_nearest_first(self):
        """Whether each instance is one that the first leads to, and none stands before one that is nearer."""
        first = next(iter(self.rests_on))
        steps, order = {first: 0}, [first]
        for instance in order:
            for other in self.rests_on[instance]:
                if other not in steps:
                    steps[other] = steps[instance] + 1
                    order.append(other)
        listed = [steps.get(instance, len(self.rests_on)) for instance in self.rests_on]
        return len(steps) == len(listed) and listed == sorted(listed)


def is_proof_graph(system, text):
    try:
        return Graph(text).proves(system)
    except (AttributeError, KeyError, ValueError):
        return False


# Systems whose proof graphs were worked out by hand: one counts up till it is cut; cycles of the other support true through X, and false through Y alone.
COUNTING = [Equation("nu", "X", "X(n + 1, d)", lambda n, d, t: t("X", n + 1, d))]
CYCLIC = [
    Equation("nu", "X", "Y(n, d) && (Y(n + 1, d) || val(n == 1))", lambda n, d, t: t("Y", n, d) and (t("Y", n + 1, d) or n == 1)),
    Equation("mu", "Y", "X(n, d) || Y(n, b)", lambda n, d, t: t("X", n, d) or t("Y", n, "b")),
]
GRAPHS = (
    (COUNTING, "answer false\nX(0,a) false: X(1,a)\nX(1,a) false: X(2,a)\nX(2,a) false:\n", True),
    # One too many; one left out, of an instance and of the graph; not the initial instance first.
    (COUNTING, "answer false\nX(0,a) false: X(1,a) X(2,a)\nX(1,a) false: X(2,a)\nX(2,a) false:\n", True),
    (COUNTING, "answer false\nX(0,a) false:\nX(1,a) false: X(2,a)\nX(2,a) false:\n", False),
    (COUNTING, "answer false\nX(0,a) false: X(1,a)\nX(1,a) false: X(2,a)\n", False),
    (COUNTING, "answer false\nX(1,a) false: X(2,a)\nX(2,a) false:\n", False),
    # Another value, of all and of one; a cycle of the wrong sign.
    (COUNTING, "answer true\nX(0,a) true: X(1,a)\nX(1,a) true: X(2,a)\nX(2,a) true:\n", False),
    (COUNTING, "answer false\nX(0,a) false: X(1,a)\nX(1,a) true: X(2,a)\nX(2,a) false:\n", False),
    (COUNTING, "answer false\nX(0,a) false: X(1,a)\nX(1,a) false: X(0,a) X(2,a)\nX(2,a) false:\n", False),
    # Around a cycle the equation decides that stands first.
    (CYCLIC, "answer true\nX(0,a) true: Y(0,a) Y(1,a)\nY(0,a) true: X(0,a)\nY(1,a) true: X(1,a)\nX(1,a) true: Y(1,a)\n", True),
    (
        CYCLIC,
        "answer true\nX(0,a) true: Y(0,a) Y(1,a)\nY(0,a) true: Y(0,b)\nY(1,a) true: X(1,a)\nX(1,a) true: Y(1,a)\nY(0,b) true: Y(0,b)\n",
        False,
    ),
    (CYCLIC, "answer false\nX(0,a) false: Y(0,a)\nY(0,a) false: X(0,a) Y(0,b)\nY(0,b) false: X(0,b) Y(0,b)\nX(0,b) false: Y(0,b)\n", False),
)


def flaw_of(program, seed):
    """What is not as it must be with the system of a seed; none where all is."""
    system = system_of(seed)
    true_ones = solution(system)
    answer = f"answer {str(('X', 0, 'a') in true_ones).lower()}\n"
    written = {}
    for command in ("solve", "solution", "explain"):
        ran = subprocess.run([program, command], input=text_of(system).encode(), capture_output=True, timeout=300, check=False)
        if ran.returncode or ran.stderr:
            return f"{command}: status {ran.returncode}, {ran.stderr!r}"
        written[command] = ran.stdout.decode()
    values = [line.split(" ") for line in written["solution"].splitlines()]
    if any((instance_of(name) in true_ones) != (value == "true") for name, value in values) or not values:
        return f"solution: {written['solution']!r}"
    if not all(written[command].startswith(answer) for command in ("solve", "explain")):
        return f"not {answer!r}: {written!r}"
    if not is_proof_graph(system, written["explain"]) or not Graph(written["explain"]).is_nearest_first():
        return f"no proof graph: {written['explain']!r}"
    return None


def main():
    program = os.path.abspath(sys.argv[1])
    first, count = [int(word) for word in sys.argv[2:4] + ["0", "1000"][len(sys.argv[2:4]) :]]
    wrong = [f"the checker of {text!r}" for system, text, accepted in GRAPHS if is_proof_graph(system, text) != accepted]
    with concurrent.futures.ProcessPoolExecutor(min(4, os.cpu_count())) as pool:
        seeds = range(first, first + count)
        flaws = list(pool.map(flaw_of, [program] * count, seeds, chunksize=50))
    wrong += [f"seed {seed}: {text_of(system_of(seed))!r}\n  {flaw}" for seed, flaw in zip(seeds, flaws) if flaw]
    print("\n".join(wrong[:20]), end="\n" if wrong else "")
    true_ones = sum(("X", 0, "a") in solution(system_of(seed)) for seed in seeds)
    print(f"{count} systems: {true_ones} true, {len(wrong)} differences")
    sys.exit(0 if 0 < true_ones < count and not wrong else 1)


if __name__ == "__main__":
    main()
