#!/usr/bin/env python3
"""Compares generated models with their translations by Rumur and SPIN, as tests/second_opinion.py does those of examples/.

    tests/fuzzing_opinions.py [FIRST [COUNT]]    the seeds from FIRST on, 100 from 0 on where nothing is given; Rumur and SPIN have to be installed

Models are those of tests/fuzzing_models.py, without wide ranges, which reach two states or more and never leave their ranges, with six properties each
in the forms that are carried over: invariants, what is possible or always possible, deadlocks, `until` strong and weak, responses, and least fixpoints that
runs satisfy which end. Their tests are terms, of steps that can be taken too. Each model is translated for Murphi and read back as well, and has to reach as
many states. A model with a quotient of what may be negative isn't read back."""
import re
import sys
import tempfile

sys.dont_write_bytecode = True
from fuzzing_models import is_wide, verdict_of
from generated_models import FALSE, OUTSIDE, TRUE, Model
from generator import Generator
from second_opinion import Comparison, Rumur, Spin
from opinions.terms import Fault

PROPERTIES = 6


def number_of_states(model):
    """How many states are reached, if no step leaves the ranges."""
    reached, new = {model.initial}, [model.initial]
    while new:
        state = new.pop()
        after = set().union(*(leads[state] for leads in model.next.values())) - reached
        if OUTSIDE in after:
            return None
        reached |= after
        new += after
    return len(reached)


def test(model):
    """A test of the state: a term, or that some step can be taken or can't."""
    kind = model.generator.below(5)
    if kind < 2:
        return ("diamond", *model.steps(2), TRUE) if kind else ("box", *model.steps(2), FALSE)
    return ("and", model.test(), ("not", model.test())) if kind == 2 else model.test()


def forms(model):
    """The forms of properties, with new tests."""
    every = frozenset(model.next)
    p, q, r = test(model), test(model), test(model)
    goes_on = "diamond", "true", every, TRUE

    def after(kind, name):
        return kind, "true", every, ("name", name)

    def until(name, q, *stays):
        meaning = after("box", name)
        for it in stays:
            meaning = "and", it, meaning
        return "or", q, meaning

    def always(name, it):
        return "nu", name, ("and", it, after("box", name))

    return (
        always("X", p), always("X", goes_on), ("mu", "X", ("or", p, after("diamond", "X"))), always("X", ("mu", "Y", ("or", p, after("diamond", "Y")))),
        ("mu", "X", until("X", p, goes_on)), ("mu", "X", until("X", p)), ("mu", "X", until("X", p, q)), ("mu", "X", until("X", p, goes_on, q)),
        ("nu", "X", until("X", p, q)), always("X", ("implies", p, ("mu", "Y", until("Y", q, goes_on)))), ("mu", "X", after("box", "X")),
        always("X", ("implies", p, ("nu", "Y", until("Y", q, r)))), ("and", always("X", p), ("mu", "X", until("X", q, goes_on))),
        ("or", p, ("mu", "X", until("X", q))),
    )


def compared(seed, folder):
    """The comparison of the model of a seed, if it has one."""
    model = Model(Generator(seed))
    states = number_of_states(model)
    if states is None or states < 2:
        return None
    model.properties = [model.generator.one_of(forms(model)) for _ in range(PROPERTIES)]
    text = re.sub(r"(?m)^property .*\n", "", model.text)
    text += "".join(f"property p{number} = {model.printed(it)};\n" for number, it in enumerate(model.properties))
    it = Comparison(f"seed {seed}", text, {f"p{number}": verdict_of(model, formula) for number, formula in enumerate(model.properties)})
    it.with_rumur(Rumur(folder), states)
    it.with_spin(Spin(folder), states)
    try:
        it.round_trip(states)
    except Fault as fault:
        it.require("quotient" in fault.words, True, f"{fault.words}: it is read back:")
    return it


def main():
    first, count = [int(word) for word in sys.argv[1:3] + ["0", "100"][len(sys.argv[1:3]):]]
    comparisons = flaws = 0
    with tempfile.TemporaryDirectory() as folder:
        for seed in range(first, first + count):
            it = None if is_wide(seed) or seed % 2 else compared(seed, folder)
            if it:
                comparisons, flaws = comparisons + it.compared, flaws + len(it.flaws)
                print("".join(f"{flaw}\n" for flaw in it.flaws) + it.text * bool(it.flaws), end="", flush=True)
    print(f"{count} seeds, {comparisons} comparisons, {flaws} differences")
    sys.exit(0 if comparisons and not flaws else 1)


if __name__ == "__main__":
    main()
