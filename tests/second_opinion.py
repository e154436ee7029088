#!/usr/bin/env python3
"""Compares models with their translations by Rumur and SPIN, and Murphi's texts with their translations into models.

    tests/second_opinion.py [--program PROGRAM] [--update] [NAME ..]    of the models that are named, else of all

Of each model in examples/ (by tools/to_murphi.py, tools/to_promela.py) and each text in tests/murphi/ (by tools/from_murphi.py, back too) these have to be
equal: how many states are reached, by Rumur, by SPIN, by the number kept in tests/second_opinions.txt, and by the program, where one is given; and the
verdicts of the properties that are carried over, with those kept beside the model. An unknown verdict is one of a model that leaves its ranges, which is an
error there. Where Rumur or SPIN isn't installed, what would be compared with it isn't. In any case the texts that are kept in tests/second_opinions/ and
tests/murphi/ are what is written now; models with few states, written for Murphi and read back, have as many states as are counted here; and what isn't read
is refused at its place. With --update the texts are written anew."""
import argparse
import glob
import os
import re
import shutil
import subprocess
import sys
import tempfile

sys.dont_write_bytecode = True
ROOT = os.path.normpath(os.path.join(os.path.dirname(os.path.abspath(__file__)), ".."))
sys.path.append(os.path.join(ROOT, "tools"))
import to_murphi
import to_promela
from models import Model
from murphi.models import Translation
from murphi.parser import Parser
from opinions.claims import DEADLOCK, LINEAR, POSSIBLE, RECURRENT
from opinions.reading import WrittenModel
from opinions.terms import Fault
from opinions.writing import claims_of

KEPT_NUMBERS = os.path.join(ROOT, "tests", "second_opinions.txt")
KEPT_TEXTS = os.path.join(ROOT, "tests", "second_opinions")
# The examples whose translations are kept.
KEPT = ("german", "peterson", "sliding_window_lossy", "termination_on_a_ring")
RUMUR = ["rumur", "--value-type", "int32_t", "--symmetry-reduction", "off", "--threads", "1", "--counterexample-trace", "off", "--output-format",
         "machine-readable"]
# Errors up to which Rumur goes on, so that it counts all states.
ALL_ERRORS = 1_000_000_000
# Up to how many states are counted here, in Python.
COUNTED_HERE = 1000
CC = ["cc", "-O0", "-w"]
PAN = ["-m1000000", "-w22"]
# What isn't read: the script, its input, and its message.
REFUSALS = (
    ("from_murphi.py", "var n: 0 .. 3;\nstartstate n := 0; end;\nrule n < 3 ==> while n < 3 do n := n + 1; end; end;\n",
     "3:16: a loop whose number of rounds isn't fixed isn't read"),
    ("from_murphi.py", "var n: 0 .. 3;\nfunction f(): boolean;\nbegin\n  n := 1;\n  return true;\nend;\nstartstate n := 0; end;\nrule f() ==> n := 0; end;\n",
     "8:6: f changes a variable, so that it isn't read in an expression"),
    ("from_murphi.py", "var n: 0 .. 3;\nprocedure p();\nbegin p(); end;\nstartstate n := 0; end;\nrule p(); end;\n", "3:7: the calls have no end"),
    ("from_murphi.py", "var a, b: record n: 0 .. 1; end;\nstartstate clear a; clear b; end;\nrule a = b ==> clear a; end;\n",
     "3:6: a record or an array isn't read here, but simple parts of it"),
    ("from_murphi.py", "type t: multiset [3] of 0 .. 1;\n", "1:9: a multiset isn't read: a model has no such sort"),
    ("from_murphi.py", "var n: 0 .. 3;\nstartstate n := 0; end;\nrule m < 3 ==> n := 0; end;\n", "3:6: nothing is called m"),
    ("from_murphi.py", "var a: array [0 .. 1] of boolean;\nstartstate clear a; end;\nrule a[2] ==> clear a; end;\n",
     "3:8: this index is none of the array's"),
    ("from_murphi.py", "var n: -3 .. 3;\nstartstate n := 0; end;\nrule n / 2 = 1 ==> n := 0; end;\n",
     "3:6: a quotient or a remainder is read of a number from 0 on by one from 1 on"),
    ("from_murphi.py", "var n: 0 .. 3;\nrule n := 0; end;\n", "there is no start state"),
    ("from_murphi.py", "var n: 0 .. 3\nrule n := 0; end;\n", "2:1: ';' is expected here, not 'rule'"),
    ("to_murphi.py", "%range Nat 0 3\nmodel\n  state n: Nat;\n  step up: m < 3 -> n := n + 1;\ninit 0;\nproperty p = n == 0;\n",
     "4:12: nothing is called m"),
    ("to_promela.py", "%range Int -3000000000 3\nmodel\n  state n: Int;\n  step up: n < 3 -> n := n + 1;\ninit 0;\nproperty p = n == 0;\n",
     "1:1: the range of Int isn't within SPIN's 32 bits"),
    ("to_promela.py", "%range Nat 0 3\nmodel\n  state n: Nat;\n  step up: n < 3 -> n = n + 1;\ninit 0;\nproperty p = n == 0;\n",
     "4:23: ':=' is expected here, not '='"),
)


def output_of(words, folder, text=None):
    """What a command writes, where it ends as it should."""
    ran = subprocess.run(words, cwd=folder, input=text, capture_output=True, text=True, timeout=600, check=False)
    if ran.returncode:
        raise SystemExit(f"{' '.join(words)}: status {ran.returncode}\n{ran.stdout[-2000:]}{ran.stderr[-2000:]}")
    return ran.stdout


class Rumur:
    """Rumur's answers about a Murphi text."""

    def __init__(self, folder):
        self.folder = folder

    def run(self, text, *options):
        """How many errors there are, and how many states were reached."""
        output_of([*RUMUR, *options, "--output", "rumur.c"], self.folder, text)
        output_of([*CC, "-mcx16", "-o", "rumur", "rumur.c", "-lpthread", "-latomic"], self.folder)
        result = subprocess.run(["./rumur"], cwd=self.folder, capture_output=True, text=True, timeout=600, check=False).stdout
        states, errors = re.search(r'<summary states="(\d+)" .* errors="(\d+)"', result).groups()
        return int(errors), int(states)

    def errors(self, text, detects_deadlocks=False, goes_on=False):
        """How many errors there are and how many states were reached; all are reached where there is no error, or it goes on."""
        options = ["--deadlock-detection", "stuck" if detects_deadlocks else "off"]
        return self.run(text, *options, *(["--max-errors", str(ALL_ERRORS)] if goes_on else []))


class Spin:
    """SPIN's answers about a Promela text."""

    def __init__(self, folder):
        self.folder = folder

    def make(self, text, *options):
        with open(os.path.join(self.folder, "model.pml"), "w", encoding="utf-8") as file:
            file.write(text)
        output_of(["spin", "-o2", "-a", "model.pml"], self.folder)
        output_of([*CC, "-DNOREDUCE", *options, "-o", "pan", "pan.c"], self.folder)

    def run(self, *options):
        """What the checker writes; whether there is no error."""
        result = output_of(["./pan", *PAN, *options], self.folder)
        if "max search depth too small" in result:
            raise SystemExit("SPIN's search isn't deep enough")
        return result, "errors: 0" in result

    def states(self, text):
        """How many states are stored, and whether there is no deadlock."""
        self.make(text, "-DSAFETY", "-DNOCLAIM")
        return int(re.search(r"(\d+) states, stored", self.run("-A", "-E")[0])[1]), self.run()[1]

    def answers(self, text):
        """Of each formula of a text by its name whether there is no error."""
        names = re.findall(r"(?m)^ltl (\w+)", text)
        self.make(text)
        return {name: self.run("-a", "-N", name)[1] for name in names}


class Comparison:
    """What is result of one model, and what isn't as it must be."""

    def __init__(self, name, text, verdicts):
        self.name, self.text, self.verdicts = name, text, verdicts
        self.model, self.flaws, self.compared = WrittenModel(text), [], 0
        self.claims, _ = claims_of(self.model, [])

    def require(self, result, wanted, words):
        self.compared += 1
        if result != wanted:
            self.flaws.append(f"{self.name}: {words} {result}, not {wanted}")

    def claims_by_property(self):
        result = {}
        for it in self.claims:
            result.setdefault(it.name, []).append(it)
        return result

    def with_rumur(self, rumur, states):
        """Rumur's number of states and its verdicts: at once of what is true, one by one of what isn't."""
        carried = {name: claims for name, claims in self.claims_by_property().items() if claims[0].kind != LINEAR}
        true_ones = [claim for name, claims in carried.items() if self.verdicts[name] == "true" for claim in claims]
        errors, reached_there = self.murphi_errors(rumur, true_ones, goes_on=not true_ones)
        if true_ones:
            self.require(errors, 0, "errors that Rumur finds where all is true:")
        self.require(reached_there, states, "states that Rumur reaches:")
        for name, claims in carried.items():
            if self.verdicts[name] != "true":
                self.require(self.murphi_errors(rumur, claims)[0] > 0, True, f"{name} is false by Rumur:")

    def murphi_errors(self, rumur, claims, goes_on=False):
        return rumur.errors(to_murphi.written(self.model, self.name, claims, {}), any(it.kind == DEADLOCK for it in claims), goes_on)

    def with_own_text(self, rumur, text, states):
        """Rumur's number of states and errors of the Murphi text. The model of several start states has one more."""
        is_right = all(it == "true" for it in self.verdicts.values())
        errors, own = rumur.errors(text, detects_deadlocks=is_right, goes_on=not is_right)
        self.require(own + self.text.count("  step start_1:"), states, "states that Rumur reaches of the text itself, with one before its start states:")
        if is_right:
            self.require(errors, 0, "errors that Rumur finds in the text itself:")

    def with_spin(self, spin, states):
        """SPIN's number of states and its verdicts."""
        stored, is_alive = spin.states(to_promela.written(self.model, self.name, [], {}))
        self.require(stored, states, "states that SPIN stores:")
        claims, left_out = [it for it in self.claims if it.kind not in (DEADLOCK, RECURRENT)], {}
        answers = list(spin.answers(to_promela.written(self.model, self.name, claims, left_out)).values()) if claims else []
        for name, own in self.claims_by_property().items():
            is_true = is_alive
            if own[0].kind == RECURRENT or name in left_out:
                continue
            if own[0].kind != DEADLOCK:
                result, answers = answers[: len(own)], answers[len(own):]
                is_true = not any(result) if own[0].kind == POSSIBLE else all(result)
            self.require("true" if is_true else "false", self.verdicts[name].replace("unknown", "false"), f"{name}, by SPIN")

    def round_trip(self, states):
        """The model, translated into Murphi's language and back, has as many states, which are counted here."""
        text = Translation(Parser(to_murphi.written(self.model, self.name, self.claims, {})).parse()).text(self.name)
        self.require(reached(Model(text)), states, "states of the model there and back:")

    def with_program(self, program, states):
        """The program's number of states, by a property that reaches them all, and its verdicts."""
        text = re.sub(r"(?m)^property ", "property all'states = nu X . [true] X;\nproperty ", self.text, count=1)
        result = output_of([program, "check", "--counts", "--property", "all'states"], ROOT, text)
        self.require(int(re.search(r"instances (\d+)", result)[1]), states, "states that the program reaches:")
        self.require(dict(re.findall(r"(?m)^(\w+) (true|false|unknown)$", output_of([program, "check"], ROOT, self.text))), self.verdicts, "verdicts")


def reached(model):
    """How many states within the ranges are reached."""
    result, new = {model.initial}, [model.initial]
    while new:
        more = {state for state in model.successors(new.pop(), lambda step, own: True) if model.is_within(state)} - result
        result |= more
        new += more
    return len(result)


def read(path):
    with open(path, encoding="utf-8") as file:
        return file.read()


def numbers():
    """The numbers of states that are kept, by the names of models."""
    return {name: int(states) for name, states in (line.split() for line in read(KEPT_NUMBERS).splitlines() if not line.startswith("%"))}


def model_of(path):
    """The text of the model that is in a file, or of its translation."""
    text = read(path)
    return text if path.endswith(".model") else Translation(Parser(text).parse()).text(os.path.basename(path))


def verdicts_of(path):
    """The verdicts that are kept beside a model."""
    return dict(re.findall(r"(?m)^(\w+) (true|false|unknown)$", read(re.sub(r"\.m$", ".model", path) + ".stdout")))


def compared(path, options, kept):
    """The comparison of one model with all that there is."""
    name = os.path.basename(path)
    it, states = Comparison(name, model_of(path), verdicts_of(path)), kept[name]
    if states <= COUNTED_HERE:
        it.round_trip(states)
    with tempfile.TemporaryDirectory() as folder:
        if shutil.which("rumur"):
            it.with_rumur(Rumur(folder), states)
            if path.endswith(".m"):
                it.with_own_text(Rumur(folder), read(path), states)
        if shutil.which("spin"):
            it.with_spin(Spin(folder), states)
    if options.program:
        it.with_program(os.path.abspath(options.program), states)
    return it


def kept_texts():
    """The texts that are kept, by their paths, as they are written now."""
    for name in KEPT:
        model = WrittenModel(read(f"{ROOT}/examples/{name}.model"))
        claims, left_out = claims_of(model, [])
        yield f"{KEPT_TEXTS}/{name}.m", to_murphi.written(model, f"{name}.model", claims, dict(left_out))
        yield f"{KEPT_TEXTS}/{name}.pml", to_promela.written(model, f"{name}.model", claims, dict(left_out))
    for path in sorted(glob.glob(f"{ROOT}/tests/murphi/*.m")):
        yield f"{path}odel", model_of(path)


def wrong_texts(updates):
    """The kept texts that are written otherwise now."""
    for path, text in kept_texts():
        if updates:
            os.makedirs(os.path.dirname(path), exist_ok=True)
            with open(path, "w", encoding="utf-8") as file:
                file.write(text)
        elif not os.path.exists(path) or read(path) != text:
            yield f"{os.path.relpath(path, ROOT)} isn't what is written now"


def wrong_refusals():
    """What isn't refused as it must be: at its place, with status 1, and with nothing written."""
    with tempfile.TemporaryDirectory() as folder:
        for script, text, words in REFUSALS:
            with open(f"{folder}/text", "w", encoding="utf-8") as file:
                file.write(text)
            ran = subprocess.run([sys.executable, f"{ROOT}/tools/{script}", "text"], cwd=folder, capture_output=True, text=True, check=False)
            wanted = f"text:{words}\n" if words[:1].isdigit() else f"text: {words}\n"
            if (ran.returncode, ran.stdout, ran.stderr) != (1, "", wanted):
                yield f"{script}: {wanted!r} is to be refused, not {ran.stderr[-300:]!r}, status {ran.returncode}, of\n{text}"


def main():
    parser = argparse.ArgumentParser(description=__doc__, formatter_class=argparse.RawDescriptionHelpFormatter)
    parser.add_argument("--program", help="the program, whose numbers and verdicts are compared too")
    parser.add_argument("--update", action="store_true", help="write the kept texts anew")
    parser.add_argument("names", nargs="*", help="models, as german.model or german.m")
    options = parser.parse_args()
    flaws, count, kept = [*wrong_texts(options.update), *wrong_refusals()], 0, numbers()
    paths = sorted(glob.glob(f"{ROOT}/examples/*.model")) + sorted(glob.glob(f"{ROOT}/tests/murphi/*.m"))
    paths = [path for path in paths if not options.names or os.path.basename(path) in options.names]
    for path in paths:
        try:
            it = compared(path, options, kept)
        except Fault as fault:
            fault.end(path)
        flaws, count = flaws + it.flaws, count + it.compared
        print(f"{it.name}: {it.compared} comparisons, {len(it.flaws)} differences", flush=True)
    tools = [tool for tool in ("rumur", "spin") if shutil.which(tool)]
    print(f"{len(paths)} models, {count} comparisons with {', '.join(tools + [options.program] * bool(options.program)) or 'nothing'}")
    print("".join(f"{flaw}\n" for flaw in flaws), end="")
    sys.exit(1 if flaws else 0)


if __name__ == "__main__":
    main()
