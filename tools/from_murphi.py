#!/usr/bin/env python3
"""Reads a model in Murphi's language, as CMurphi and Rumur do, and writes it as a model for pbsolve.

    python3 tools/from_murphi.py FILE.m > MODEL
    pbsolve check < MODEL

It reads constants; ranges, enumerations, Booleans, scalarsets, records and arrays; rules and start states with rulesets and aliases around them; in bodies
assignments, `if`, `switch`, `for` over values that are fixed, `alias`, `clear`, `undefine`, `assert`, `error`, calls of procedures and of functions, which may
return from anywhere; invariants, `cover` and `liveness`. Each rule becomes one step, since its body is run on terms: what a variable holds at the end in
terms of what all held before. Names stay; the part f of a record r is r_f. A variable that may be undefined has another one beside it, x_defined. Reading
what is undefined is an error for Murphi, and isn't looked for here; leaving a range, an error too, is a cut. Several start states are reached by steps from a
state before them.

Not read are `while`, unions, multisets, functions in expressions that change variables, and comparisons of records. What isn't read is named with file, line
and column, nothing is written, and the status is 1."""
import argparse
import os
import sys

sys.dont_write_bytecode = True
from murphi.models import Translation
from murphi.parser import Parser
from opinions.terms import Fault


def main():
    parser = argparse.ArgumentParser(description=__doc__, formatter_class=argparse.RawDescriptionHelpFormatter)
    parser.add_argument("text", help="the Murphi text's file")
    path = parser.parse_args().text
    try:
        with open(path, encoding="utf-8") as file:
            text = Translation(Parser(file.read()).parse()).text(os.path.basename(path))
    except Fault as fault:
        fault.end(path)
    except OSError as error:
        sys.exit(f"{path}: {error.strerror}")
    print(text, end="")


if __name__ == "__main__":
    main()
