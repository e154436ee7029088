#!/usr/bin/env python3
"""junit.py MODEL < VERDICTS > REPORT.xml: what `pbsolve check < MODEL` wrote, as a JUnit report, the form of tests that CI servers read.

Each property is a test. It passes where its verdict is the wanted one, by the file MODEL.stdout, which has the wanted lines of `check` as they are
beside each model of examples/; without that file each is to be true. A property that is refused, or has no verdict, is an error, as all are where
`check` refuses the model. With `check --counts` the counts aren't compared, and a step that is never taken is a test that fails where that isn't
wanted. The status is 0 where all pass, else 1, and 2 where the input isn't what `check` writes."""
import os
import re
import sys
from xml.etree import ElementTree

VERDICT = re.compile(r"([A-Za-z_][\w']*) (true|false|unknown|refused [A-Z]\d\d)$")
NEVER = re.compile(r"(never: [A-Za-z_][\w']*(?:\([^()]*\))?)$")
COUNT = re.compile(r"(instances|cut|vertices) \d+$")


def verdicts(text, where):
    """Of each property its verdict, and `never` of each step that is never taken."""
    found = {}
    for number, line in enumerate(text.splitlines(), 1):
        if match := VERDICT.match(line):
            found[match[1]] = match[2]
        elif match := NEVER.match(line):
            found[match[1]] = "never"
        elif not COUNT.match(line):
            print(f"tools/junit.py: {where}, line {number}, isn't a line of `pbsolve check`: {line[:40]!r}", file=sys.stderr)
            sys.exit(2)
    return found


def test_of(suite, model, name, got, wanted):
    """A test, with what is wrong, if something is."""
    test = ElementTree.SubElement(suite, "testcase", classname=model, name=name)
    if got == wanted:
        return
    kind = "error" if got is None or got.startswith("refused") else "failure"
    ElementTree.SubElement(test, kind, message=f"{got or 'no verdict'}, and wanted is {wanted or 'none'}")


def report(model, got, wanted):
    """The suite of a model: its properties in the order of the verdicts, and then those that lack one. Where nothing says what is wanted, it is `true`."""
    suite = ElementTree.Element("testsuite", name=model)
    for name in dict.fromkeys([*got, *(wanted or ())]):
        usual = None if name.startswith("never: ") else "true"
        test_of(suite, model, name, got.get(name), usual if wanted is None else wanted.get(name))
    if not len(suite):
        test_of(suite, model, "check", None, "a verdict")
    kinds = {"tests": "testcase", "failures": "testcase/failure", "errors": "testcase/error"}
    suite.attrib.update({kind: str(len(suite.findall(path))) for kind, path in kinds.items()})
    return suite


def main():
    if len(sys.argv) != 2 or sys.argv[1].startswith("-"):
        sys.exit(__doc__)
    model, wanted = sys.argv[1], None
    if os.path.exists(f"{model}.stdout"):
        with open(f"{model}.stdout", encoding="utf-8") as file:
            wanted = verdicts(file.read(), f"{model}.stdout")
    suite = report(model, verdicts(sys.stdin.read(), "the input"), wanted)
    ElementTree.indent(suite)
    print("<?xml version='1.0' encoding='utf-8'?>", ElementTree.tostring(suite, encoding="unicode"), sep="\n")
    sys.exit(0 if suite.get("failures") == suite.get("errors") == "0" else 1)


main()
