#!/usr/bin/env python3
"""Refuses each request for memory of the program in turn, and each start of a thread, and prints a table of what came of it.

    tests/refusals.py PROGRAM          PROGRAM is crates/pbsolve_main/out/pbsolve_main, as LLVM builds it
    tests/refusals.py PROGRAM TESTS    the gate's part: with two workers one request in seven and one calm run alone; and the test of one
                                       worker without memory in TESTS, the built tests of test_modules, is refused each of its requests too

`refuse.c` beside this file is compiled, by the toolchain's own clang, and loaded into the program; it counts the calls of malloc, realloc
and calloc, and those of pthread_create.

For each case requests are counted up until a run meets no refusal (with two workers, whose requests vary with
their interleaving, until twenty runs in a row meet none). A run that met one must end with status 3, the line `M01` and
nothing on standard output. Only where the C library asked, as it does to start a thread, or a thread was refused, or the
program asked inside the call that starts the workers, may the whole answer come instead; the table counts these apart."""
import concurrent.futures
import os
import re
import subprocess
import sys
import tempfile
import threading

sys.dont_write_bytecode = True
from fuzzing_modules import COUNTS_DOWN, OTHERS as MODULE

CYCLE = b"pbes mu X = Y; nu Y = X; init X;"
OTHERS = b"sort D = struct a | b | c; pbes nu X(d: D) = forall e: D . val(e != d) => X(e); init X(a);"
INNER = b"pbes nu X = (X && Y) || Y; mu Y = Y; init X;"
DATA = (
    b"%range Nat 0 3\nsort D = struct a?is_a | b; M = Nat; pbes nu X(d: D, n: M) = (forall m: M . val(m < n || is_a(d)) => X(d, m)) && "
    b"val(exists e: D . e != d); mu Y(n: Nat) = val(max(n, 1) div 2 == 0 && -n mod 2 == if(n > 0, 1, 0)) || Y(pred(n)); init Y(3);"
)
MODEL = (
    b"sort D = struct a | b; model state p: D, q: Bool; step s(d: D): d != p -> p := d; t: p == b -> q := !q; init a, false; "
    b"property r = nu Z . [s] Z && (p == b => mu Y . [t] Y);"
)
LASSO = (
    b"r false\n1 Z: p = a, q = false\n2 Z s(b): p := b\n3 Y stays\n4 Y t: q := true\n"
    b"  t: q := false, back to line 3, for ever\n"
)
# Ten variables, so that it is packed, with a definition, a quantifier and steps for values that a guard forbids.
PROTOCOL = (
    b"%range Nat 0 8\nmodel state on(i: Nat): Bool, at: Nat; define is_next(i: Nat) = exists j: Nat . j == i && at == j; "
    b"step go(i: Nat): is_next(i) && i < 4 -> on(i) := true, at := i + 1; rest: on(3) -> skip; init false, 0; "
    b"property off = nu X . [!go(3)] X && forall i: Nat . !(i == 1 && on(i));"
)
OTHERS_OFF = b"".join(b"on(%d) = false, " % place for place in range(2, 9))
TURNED_ON = (
    b"off false\n1 X: on = false, at = 0\n2 X go(0): on(0) := true, at := 1\n"
    b"3 X go(1): on(1) := true, at := 2\n  here the test fails: on(0) = true, on(1) = true, " + OTHERS_OFF + b"at = 2\n"
)
# One file that is answered, and one that is refused: their lines are kept until both are known.
TWO_FILES = (1, b"/dev/stdin: r false\n", b"/dev/null: P02 line 1 column 1\n")
SINKS = b'0 1 0 0 "false";\n1 0 0 1 "true";\n'
# Elements of a sort that may be permuted.
LIKES = (
    b"sort Id = struct a | b | c; model state x(i: Id): Bool; step s(i: Id): (forall j: Id . !x(j)) -> x(i) := true; init false; "
    b"property one = always (forall i, j: Id . x(i) && x(j) => i == j);"
)
SIZES = (
    b"state on 2 ^ 9\nstate at 9\nelements 10\nstates 4608\nstep go 9\nstep rest 1\nsteps 10\nproperty off 1\n"
)

CASES = [
    ("solve", "cycle", CYCLE, b"answer false\ninstances 2\ncut 0\nvertices 4\n"),
    ("game", "cycle", CYCLE, b"parity 3;\n" + SINKS + b'2 1 0 3 "X";\n3 0 0 2 "Y";\n'),
    ("solution", "cycle", CYCLE, b"X false\nY false\n"),
    ("solve", "others", OTHERS, b"answer true\ninstances 3\ncut 0\nvertices 5\n"),
    ("game", "others", OTHERS, b"parity 4;\n" + SINKS + b'2 0 1 3,4 "X(a)";\n3 0 1 2,4 "X(b)";\n4 0 1 2,3 "X(c)";\n'),
    ("solution", "others", OTHERS, b"X(a) true\nX(b) true\nX(c) true\n"),
    ("solve", "inner", INNER, b"answer false\ninstances 2\ncut 0\nvertices 5\n"),
    ("game", "inner", INNER, b"parity 4;\n" + SINKS + b'2 2 0 3,4 "X";\n3 0 1 2,4;\n4 1 0 4 "Y";\n'),
    ("solution", "inner", INNER, b"X false\nY false\n"),
    ("solve", "data", DATA, b"answer true\ninstances 3\ncut 0\nvertices 5\n"),
    ("game", "data", DATA, b"parity 4;\n" + SINKS + b'2 1 0 1 "Y(1)";\n3 1 0 2 "Y(2)";\n4 1 0 3 "Y(3)";\n'),
    ("solution", "data", DATA, b"Y(1) true\nY(2) true\nY(3) true\n"),
    ("check /dev/stdin /dev/null", "model", MODEL, TWO_FILES),
    ("check --symmetry", "likes", LIKES, b"one true\nsymmetry Id a b c\n"),
    ("why", "model", MODEL, LASSO),
    ("why", "protocol", PROTOCOL, TURNED_ON),
    ("size", "protocol", PROTOCOL, SIZES),
    ("solve-code", "others", MODULE, b"answer true\ninstances 3\ncut 0\nvertices 5\n"),
    ("solve-code", "counts down", COUNTS_DOWN, b"answer true\ninstances 10\ncut 0\nvertices 12\n"),
]
NO_MEMORY = (3, b"", b"M01\n")
WORKER_ALONE = "worker_without_memory"
TEST_ERROR = 101
STEP = 7


class Refusals:
    """Runs of one program with something refused."""

    def __init__(self, program, folder):
        self.program, self.folder = program, folder
        self.library = os.path.join(folder, "refuse.so")
        kit = os.path.dirname(subprocess.run(["rt", "doc"], capture_output=True, text=True, check=True).stdout.strip())
        self.tools = os.path.join(kit, "toolchain", "bin")
        source = os.path.join(os.path.dirname(os.path.abspath(__file__)), "refuse.c")
        words = ["-O2", "-shared", "-fPIC", "-nostdlib", "-nostdinc", f"--ld-path={self.tools}/ld.lld", "-o", self.library, source]
        subprocess.run([f"{self.tools}/clang", *words], check=True)
        self.names = self.symbols()

    def symbols(self):
        """The program's functions by their addresses, where it tells them."""
        clang = f"{self.tools}/clang"
        lines = subprocess.run(["llvm-nm", "-n", self.program], executable=clang, capture_output=True, text=True).stdout.splitlines()
        words = [line.split() for line in lines]
        return [(int(word[0], 16), word[2]) for word in words if len(word) == 3]

    def run(self, words, text, **refused):
        """How the run ended, and what was refused: `program`, `library`, `thread` or `nothing`, with the callers."""
        report = os.path.join(self.folder, f"report-{threading.get_ident()}")
        if os.path.exists(report):
            os.remove(report)
        settings = {f"REFUSE_{kind.upper()}": str(number) for kind, number in refused.items()}
        done = subprocess.run(
            [self.program, *words], input=text, capture_output=True, timeout=60,
            env={"LD_PRELOAD": self.library, "REFUSE_REPORT": report, **settings},
        )
        _, _, what, *places = open(report).read().split()
        return (done.returncode, done.stdout, done.stderr), what, [int(place, 16) for place in places]

    def callers(self, places):
        """The names of the functions that these places lie in."""
        return [max((it for it in self.names if it[0] <= place), default=(0, hex(place)))[1] for place in places]


def sweep(refusals, case, workers, kind, is_part, wrong):
    """Refuses each request or thread in turn: how many were refused, and how many of these runs answered all the same."""
    command, name, text, answer = case
    words = [*command.split(), *([] if command == "size" else ["--workers", str(workers)])]
    whole = answer if isinstance(answer, tuple) else (0, answer, b"")
    number, refused, answered, calm = 1, 0, 0, 0
    while calm < (20 if workers > 1 and not is_part else 1):
        ended, what, places = refusals.run(words, text, **{kind: number})
        if what == "nothing":
            calm += 1
            is_wanted = ended == whole
        else:
            calm, refused = 0, refused + 1
            answered += ended == whole
            may_answer = what != "program" or workers > 1 and any("thread" in it for it in refusals.callers(places))
            is_wanted = ended == NO_MEMORY or may_answer and ended == whole
        if not is_wanted:
            wrong.append((command, name, workers, kind, number, what, ended, refusals.callers(places)))
        number += STEP if workers > 1 and is_part else 1
    return refused, answered


def sweep_worker(tests, wrong):
    """Refuses each request of the test of one worker alone, which looks at what the worker left, and prints at which of three
    instances it stopped: how many were refused. Each run of an instance has requests, so it stops at the first, then at the second."""
    listed = subprocess.run([tests.program, "--list"], capture_output=True, text=True, check=True).stdout
    (name,) = [line.partition(": ")[0] for line in listed.splitlines() if line.endswith(f"{WORKER_ALONE}: test")]
    number, what, left = 0, "", []
    while what != "nothing":
        number += 1
        ended, what, _ = tests.run([name], b"", request=number)
        left += [int(place) for place in re.findall(rb"left (\d)", ended[1])]
        # Before the worker begins, a refusal is the test's own error; an assertion that fails aborts.
        if ended[0] != 0 and (what == "nothing" or ended[0] != TEST_ERROR or not ended[2].startswith(b"error: ")):
            wrong.append((name, number, what, ended))
    if left != sorted(left) or not {0, 1} <= set(left):
        wrong.append((name, "left at instances", left))
    return number - 1


def main():
    wrong, tests = [], sys.argv[2:]
    # What explores nothing takes no workers.
    tasks = [
        (case, workers, kind)
        for case in CASES
        for workers in ((1,) if case[0] == "size" else (1, 2))
        for kind in ("request", "thread")
    ]
    with tempfile.TemporaryDirectory() as folder, concurrent.futures.ThreadPoolExecutor(os.cpu_count()) as pool:
        refusals, *alone = [Refusals(os.path.abspath(path), folder) for path in sys.argv[1:]]
        swept = pool.map(lambda task: sweep(refusals, *task, bool(tests), wrong), tasks)
        swept_alone = pool.map(lambda it: sweep_worker(it, wrong), alone)
        print("| Command | Input | Workers | Requests refused | answered all the same | Threads refused | answered all the same |")
        print("|---|---|---|---|---|---|---|")
        total = 0
        for case, workers, _ in tasks[::2]:
            requests, threads = next(swept), next(swept)
            total += requests[0] + threads[0]
            print(f"| `{case[0]}` | {case[1]} | {workers} | {requests[0]} | {requests[1]} | {threads[0]} | {threads[1]} |", flush=True)
        for count in swept_alone:
            print(f"{count} requests of one worker alone")
            total += count
    print(f"{total} refusals, {len(wrong)} not as wanted")
    for it in wrong:
        print(it)
    sys.exit(1 if wrong else 0)


main()
