#!/usr/bin/env python3
"""Compares what the program reads with a recogniser of the grammar.

    tests/recognising_texts.py PROGRAM [FIRST [COUNT]]    the sentences of these seeds, 5,000 from 0 on where nothing is said: the gate's part

The recogniser keeps a set of states (Earley 1970) and is written from the grammar's table alone, so that the reader, which goes down
recursively, is compared with something that is made in another way. Tried are all sequences of three tokens as the right side of an
equation and as the beginning of a data term, and for each seed a sentence of the grammar, most of them with one token changed, and another
one with a defect before a token: a byte of no token, a number that is too large, a range line that is none. A text that is recognised is
not refused by a rule of the grammar. Any other is refused at the first token with which no text goes on (P02), or at the defect (P01, P03,
P05) where that stands before it. Prints each that is not, and how many were recognised and refused."""
import concurrent.futures
import os
import re
import subprocess
import sys

sys.dont_write_bytecode = True
from generator import Generator

# A level, and what may stand for it: first what leads to an end soonest. A word that begins with a capital letter is a level, or the end.
GRAMMAR = """
Text: Spec END
Spec: pbes Equations init Instance ;  /  SortParts pbes Equations init Instance ;
SortParts: SortPart  /  SortPart SortParts
SortPart: sort SortDeclarations
SortDeclarations: SortDeclaration  /  SortDeclaration SortDeclarations
SortDeclaration: name = name ;  /  name = struct Items ;
Items: Item  /  Item | Items
Item: name  /  name ? name
Equations: Equation  /  Equation Equations
Equation: Sign name = Formula ;  /  Sign name ( Variables ) = Formula ;
Sign: mu  /  nu
Variables: Group  /  Group , Variables
Group: Names : name
Names: name  /  name , Names
Quantifier: forall  /  exists
Formula: Implication  /  Quantified
Quantified: Quantifier Variables . Formula
Implication: Or  /  ClosedOr => Formula
Or: And  /  ClosedAnd || Or  /  ClosedAnd || Quantified
And: Node  /  Node && And  /  Node && Quantified
ClosedOr: ClosedAnd  /  ClosedAnd || ClosedOr
ClosedAnd: Node  /  Node && ClosedAnd
Node: Instance  /  ! Node  /  ( Formula )  /  true  /  false  /  val ( Data )
Instance: name  /  name ( Arguments )
Arguments: Data  /  Data , Arguments
Data: DataImplication  /  DataQuantified
DataQuantified: Quantifier Variables . Data
DataImplication: DataOr  /  ClosedDataOr => Data
DataOr: DataAnd  /  ClosedDataAnd || DataOr  /  ClosedDataAnd || DataQuantified
DataAnd: Equality  /  Equality && DataAnd  /  Equality && DataQuantified
ClosedDataOr: ClosedDataAnd  /  ClosedDataAnd || ClosedDataOr
ClosedDataAnd: Equality  /  Equality && ClosedDataAnd
Equality: Comparison  /  Comparison == Comparison  /  Comparison != Comparison
Comparison: Sum  /  Sum < Sum  /  Sum <= Sum  /  Sum > Sum  /  Sum >= Sum
Sum: Product  /  Sum + Product  /  Sum - Product
Product: Operand  /  Factors  /  Quotient
Factors: Operand * Operand  /  Factors * Operand
Quotient: Operand div Operand  /  Operand mod Operand  /  Quotient div Operand  /  Quotient mod Operand
Operand: name  /  ! Operand  /  - Operand  /  ( Data )  /  number  /  true  /  false  /  name ( Arguments )
"""
FORMS = {
    level: [tuple(form.split()) for form in forms.split("  /  ")]
    for level, forms in (line.split(": ", 1) for line in GRAMMAR.strip().split("\n"))
}
# All tokens, a reserved word that no form has, and the most frequent ones once more.
TOKENS = (
    "name number sort struct pbes mu nu init val true false forall exists div mod end == != => <= >= && || ( ) , ; : . = ! | < > + - * ? name ("
).split()
# A sentence stops growing about here.
LONGEST = 20
# The tokens of short sequences, behind these.
SHORT = "name ( ) ! && => == < - * div val forall : . ,".split()
BEGINNINGS = ("pbes nu name =".split(), "pbes nu name = val (".split())
ENDING = "; init name ;".split()
SPELLINGS = {"name": "X", "number": "10"}
DEFECTS = (("# ", "P01"), ("4611686018427387905 ", "P03"), ("\n%range X 1\n", "P05"))


def closed(states, earlier):
    """The states at a place, with all that follow from them: a state is a level, its form, how much of that was read, and where it began."""
    states, predicted = dict.fromkeys(states), set()
    found = list(states)
    for level, form, read, begin in found:
        if read == len(form):
            more = [(one, other, behind + 1, at) for one, other, behind, at in earlier[begin] if behind < len(other) and other[behind] == level]
        elif form[read] in FORMS and form[read] not in predicted:
            predicted.add(form[read])
            more = [(form[read], other, 0, len(earlier)) for other in FORMS[form[read]]]
        else:
            more = []
        for state in more:
            if state not in states:
                states[state] = None
                found.append(state)
    return found


def first_unexpected(tokens):
    """The index of the first token with which no text goes on, if there is one. The last token is the end."""
    earlier, states = [], [("Text", form, 0, 0) for form in FORMS["Text"]]
    for index, token in enumerate(tokens):
        states = closed(states, earlier)
        earlier.append(states)
        states = [(level, form, read + 1, begin) for level, form, read, begin in states if read < len(form) and form[read] == token]
        if not states:
            return index
    return None


def sentence(generator):
    """A sentence of the grammar, with its end."""
    tokens, open_words = [], ["Text"]
    while open_words:
        word = open_words.pop()
        if word not in FORMS:
            tokens.append(word)
        elif len(tokens) < LONGEST and len(open_words) < LONGEST:
            open_words.extend(reversed(generator.one_of(FORMS[word])))
        else:
            open_words.extend(reversed(FORMS[word][0]))
    return tokens


def changed(generator, tokens):
    """The tokens with one of them left out, doubled, replaced, put behind another, or none; the end stays last."""
    place, kind = generator.below(len(tokens)), generator.below(5)
    if kind == 0 or tokens[place] == "END":
        return tokens
    put = {1: [], 2: [tokens[place]] * 2, 3: [generator.one_of(TOKENS)], 4: [generator.one_of(TOKENS), tokens[place]]}[kind]
    return tokens[:place] + put + tokens[place + 1 :]


def written(tokens, defect=None):
    """The tokens as a text, a defect before one of them, and their columns in its first line."""
    text, columns = "", []
    for index, token in enumerate(tokens):
        columns.append(len(text) + 1)
        if defect and index == defect[0]:
            text += defect[1]
        if token != "END":
            text += SPELLINGS.get(token, token) + " "
    return text, columns


def wanted(tokens, columns, defect=None):
    """The line on standard error, or none where the text is recognised."""
    unexpected = first_unexpected(tokens)
    if defect and (unexpected is None or defect[0] <= unexpected):
        return f"{defect[2]} line 2 column 1" if defect[2] == "P05" else f"{defect[2]} line 1 column {columns[defect[0]]}"
    return None if unexpected is None else f"P02 line 1 column {columns[unexpected]}"


def texts_of(case):
    """The texts of a case with what is wanted of them: of a seed, or of a short sequence by its beginning and number."""
    beginning, number = case
    if beginning is not None:
        tokens = [*BEGINNINGS[beginning], *(SHORT[number // part % 16] for part in (256, 16, 1)), *ENDING, "END"]
        text, columns = written(tokens)
        return [(text, wanted(tokens, columns))]
    generator = Generator(number)
    tokens = changed(generator, sentence(generator))
    text, columns = written(tokens)
    found = [(text, wanted(tokens, columns))]
    tokens = changed(generator, sentence(generator))
    defect = (generator.below(len(tokens)), *generator.one_of(DEFECTS))
    text, columns = written(tokens, defect)
    return [*found, (text, wanted(tokens, columns, defect))]


def verdicts(program, case):
    """For each text of a case whether it is recognised, and the text where the program says something else of it."""
    found = []
    for text, line in texts_of(case):
        ran = subprocess.run([program, "compile"], input=text.encode(), capture_output=True, timeout=300, check=False)
        said = ran.stderr.decode().rstrip("\n")
        is_so = not re.match("P0", said) if line is None else said == line and ran.returncode == 1 and not ran.stdout
        found.append((line is None, None if is_so else f"{text!r}: {said or 'read'}, not {line or 'read'}"))
    return found


def main():
    program = os.path.abspath(sys.argv[1])
    first, count = [int(word) for word in sys.argv[2:4] + ["0", "5000"][len(sys.argv[2:4]) :]]
    cases = [(None, seed) for seed in range(first, first + count)]
    cases += [(beginning, number) for beginning in range(len(BEGINNINGS)) for number in range(len(SHORT) ** 3)]
    with concurrent.futures.ProcessPoolExecutor(os.cpu_count()) as pool:
        found = [it for some in pool.map(verdicts, [program] * len(cases), cases, chunksize=64) for it in some]
    wrong = [why for _, why in found if why]
    print("\n".join(wrong[:20]), end="\n" if wrong else "")
    recognised = sum(is_read for is_read, _ in found)
    print(f"{len(found)} texts: {recognised} recognised, {len(found) - recognised} refused, {len(wrong)} differences")
    sys.exit(0 if recognised > 500 and not wrong else 1)


if __name__ == "__main__":
    main()
