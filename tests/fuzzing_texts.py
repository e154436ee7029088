#!/usr/bin/env python3
"""Asks the program of generated and changed texts, each made from its seed: random words, or a known text with up to three changes.

    tests/fuzzing_texts.py PROGRAM [FIRST [COUNT]]    the seeds from FIRST on, 4,000 from 0 on where nothing is said: the gate's part

Each is answered with status 0, something on standard output and nothing on standard error, or refused with status 1, one line on
standard error and nothing on standard output. Prints each that is not, and how many were answered and refused."""
import concurrent.futures
import os
import re
import subprocess
import sys

sys.dont_write_bytecode = True
from generator import Generator

COMMANDS = ("solve", "game", "solution", "compile")
# Words of which texts are made.
WORDS = (
    "sort", "struct", "pbes", "mu", "nu", "init", "val", "true", "false", "forall", "exists", "div", "mod", "cons", "end",
    "Bool", "Pos", "Nat", "Int", "D", "E", "X", "Y", "Z", "a", "b", "c", "is_a", "n", "m", "d", "if", "max", "min", "abs",
    "succ", "pred", "Nat2Int", "0", "1", "2", "3", "4611686018427387905", "==", "!=", "=>", "<=", ">=", "&&", "||", "(", ")",
    "(", ")", ",", ";", ":", ".", "=", "!", "|", "<", ">", "+", "-", "*", "?", "#", "%", "\n", "\n%range Nat 0 3\n",
    "\n%range Int -1 2\n",
)
# Texts that are changed.
TEXTS = (
    "pbes mu X = Y; nu Y = X; init X;",
    "pbes nu X = (X && Y) || Y; mu Y = Y; init X;",
    "sort D = struct a | b | c; pbes nu X(d: D) = forall e: D . val(e != d) => X(e); init X(a);",
    "%range Nat 0 3\nsort D = struct a?is_a | b; M = Nat; pbes nu X(d: D, n: M) = (forall m: M . val(m < n || is_a(d)) => X(d, m)) && val(exists e: D . e != d); mu Y(n: Nat) = val(max(n, 1) div 2 == 0 && -n mod 2 == if(n > 0, 1, 0)) || Y(pred(n)); init Y(3);",
    "%range Int 0 3\npbes nu X(n: Int) = X(n + 1); init X(0);",
    "%range Int 0 3\npbes mu X(n: Int) = val(n == 0) || X(n - 1); init X(3);",
    "%range Pos 1 3\npbes mu X(n: Pos) = val(3 div n == 2) || X(n); init X(2);",
    "sort S = struct s0 | s1; pbes nu X(s: S) = Y(s); mu Y(s: S) = (val(s == s0) && X(s1)) || (val(s == s1) && Y(s0)); init X(s0);",
    "%range Int 0 2\npbes nu X = exists m, n: Int . forall k: Int . val(n == 2 && m == 2 && k + n == m); init X;",
    "pbes nu X(b: Bool) = val(!b => b || b && true) || !(!X(!b)); init X(false);",
)


def random_words(generator):
    """Random words, mostly with blanks between them."""
    words = []
    for _ in range(generator.below(60)):
        words.append(generator.one_of(WORDS))
        if not generator.once_in(8):
            words.append(" ")
    return "".join(words).encode()


def changed(generator, text):
    """The text with some bytes from a place on left out, and a byte, a word or nothing in their place."""
    place, left_out, kind = generator.below(len(text) + 1), generator.below(4), generator.below(4)
    put = b""
    if kind == 0:
        put = bytes([generator.below(256)])
    elif kind > 1:
        put = generator.one_of(WORDS).encode()
    return text[:place] + put + text[place + left_out :]


def text_of(seed):
    generator = Generator(seed)
    if generator.once_in(3):
        return random_words(generator)
    text = generator.one_of(TEXTS).encode()
    for _ in range(generator.below(4)):
        text = changed(generator, text)
    return text


def status_of(program, seed):
    """The status, or none where something isn't as it must be."""
    command = Generator(seed).one_of(COMMANDS)
    ran = subprocess.run([program, command], input=text_of(seed), capture_output=True, timeout=300, check=False)
    is_answered = ran.returncode == 0 and ran.stdout and not ran.stderr
    is_refused = ran.returncode == 1 and not ran.stdout and re.fullmatch(rb"[^\n]+\n", ran.stderr)
    return ran.returncode if is_answered or is_refused else None


def main():
    program = os.path.abspath(sys.argv[1])
    first, count = [int(word) for word in sys.argv[2:4] + ["0", "4000"][len(sys.argv[2:4]) :]]
    with concurrent.futures.ThreadPoolExecutor(os.cpu_count()) as pool:
        statuses = list(pool.map(lambda seed: status_of(program, seed), range(first, first + count)))
    for seed, status in enumerate(statuses, first):
        if status is None:
            print(f"seed {seed}: {text_of(seed)!r}")
    print(f"{count} texts: {statuses.count(0)} answered, {statuses.count(1)} refused, {statuses.count(None)} differences")
    sys.exit(0 if statuses.count(0) and statuses.count(1) and None not in statuses else 1)


main()
