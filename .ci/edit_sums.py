#!/usr/bin/env python3
"""The sums of tests/wrong_bodies/SUMS: names the crates whose line isn't current, and fails where there are such.

Edits are dear to try, and what the prover says of one hangs on little: on the edit, on the files of its crate, and on what the crates below say of
themselves: definitions, types, constants and contracts, but no body, comment or proof. So an edit is tried once, and again only where some of this has
changed: SUMS has a line `CRATE SUM DATE` for each crate with edits, with a sum of all of it. `.ci/wrong_bodies` writes a line where each edit of the
crate was refused. Text of which it isn't sure that it is a body stays in the sum, which then changes more often than it need."""
import functools
import hashlib
import pathlib
import re
import sys

EDITS = "tests/wrong_bodies"
SUMS = f"{EDITS}/SUMS"
# Crates whose edits were not tried since what they hang on changed last: each run of the gate tries them, until `.ci/wrong_bodies` has.
UNTRIED = f"{EDITS}/UNTRIED"
# A comment, and what no bracket of code stands in: a text, a character.
TOKEN = re.compile(r"""(//[^\n]*)|\bb?r(#*)".*?"\2|b?"(?:\\.|[^"\\])*"|b?'(?:\\(?:x\w\w|u\{\w+\}|.)|[^\\'\n])'""", re.S)
BRACKET = re.compile(r"[][(){};]")
# A function at the start of its line, as `rt fmt` lays it out. A `const fn` keeps its body, of which a constant's value is made.
FUNCTION = re.compile(r"^( *)(?:pub(?:\([^)]*\))? )?fn \w+", re.M)
# What stands before the bracket of a clause; and what would follow the last bracket of a clause, and doesn't follow that of a body.
CLAUSE = re.compile(r"\b(?:requires|ensures)\b[\s*]*\w*\s*\Z|\bghost\s+\w+\s*:[\s\w]*\Z")
GOES_ON = re.compile(r" *\S|\s*(?:\{|requires\b|ensures\b|ghost\s+\w+\s*:)")
BLANK = re.compile(r"^\s*\n| +$", re.M)


def end_of(code, place, marks):
    """The first place from here on at which one of these marks stands outside the brackets that are opened here."""
    depth = 0
    for found in BRACKET.finditer(code, place):
        if not depth and found[0] in marks:
            return found.start()
        depth += {"(": 1, "[": 1, "{": 1, ";": 0}.get(found[0], -1)
        if depth < 0:
            break
    return None


def body_of(code, function):
    """From where to where the body of a function goes, or None where it has none or where this isn't sure."""
    start = place = function.end()
    while True:
        opened = end_of(code, place, "{;")
        closed = None if opened is None or code[opened] == ";" else end_of(code, opened + 1, "}")
        if closed is None:
            return None
        if not CLAUSE.search(code[place:opened]):
            break
        place = closed + 1
    in_layout = "\n" not in code[opened:closed] or code[code.rfind("\n", 0, closed) + 1 : closed] == function[1]
    known = in_layout and (place == start or not code[place:opened].strip()) and not GOES_ON.match(code, closed + 1)
    return (opened, closed + 1) if known else None


def without(text, parts):
    """A text without these parts of it, of which one may stand in another."""
    kept, end = [], 0
    for begin, stop in parts:
        if begin >= end:
            kept.append(text[end:begin])
            end = stop
    return "".join([*kept, text[end:]])


def said_by_code(text):
    """What crates above see of code: all but comments and bodies."""
    text = TOKEN.sub(lambda token: "" if token[1] else token[0], text)
    code = TOKEN.sub(lambda token: "_" * len(token[0]), text)
    parts = [] if "/*" in code else list(filter(None, (body_of(code, function) for function in FUNCTION.finditer(code))))
    return without(without(text, parts), [blank.span() for blank in BLANK.finditer(without(code, parts))])


def said_by_definitions(text):
    """What a file of specs/ says: all but lines that are comments."""
    return text if "{-" in text else BLANK.sub("", re.sub(r"(?m)^ *--.*", "", text))


def files_in(folder):
    return sorted(path for path in folder.rglob("*") if path.is_file())


class Repository:
    """The crates that stand in a folder, and the sums of their edits."""

    def __init__(self, root):
        self.root = pathlib.Path(root)
        lines = [line.split("#")[0].strip() for line in (self.root / "crates.txt").read_text("utf-8").splitlines()]
        self.crates = {line.split()[0].rstrip(":"): line for line in lines if ":" in line}

    def edits(self, crate):
        return sorted((self.root / EDITS / crate).glob("*.edit"))

    def with_edits(self):
        return sorted({path.parent.name for path in (self.root / EDITS).glob("*/*.edit")})

    @functools.cache
    def below(self, crate):
        """All crates of the repository that a crate stands on."""
        needs = [need for need in self.crates[crate].split(":")[1].split() if need in self.crates]
        return frozenset(needs).union(*map(self.below, needs))

    @functools.cache
    def said_by(self, crate):
        """The sum of what crates above see of a crate."""
        folder, total = self.root / "crates" / crate, hashlib.sha256()
        for part, ending, said in (("specs", ".antt", said_by_definitions), ("src", ".rt", said_by_code)):
            for path in files_in(folder / part):
                if path.suffix == ending:
                    total.update(f"\0{path.relative_to(folder)}\0{said(path.read_text('utf-8'))}".encode())
        return total.hexdigest()

    def sum_of(self, crate):
        folder, total = self.root / "crates" / crate, hashlib.sha256(self.crates[crate].encode())
        for path in [*self.edits(crate), *(path for part in ("src", "specs", "proofs") for path in files_in(folder / part))]:
            total.update(f"\0{path.relative_to(self.root)} {hashlib.sha256(path.read_bytes()).hexdigest()}".encode())
        for other in sorted(self.below(crate)):
            total.update(f"\0{other} {self.said_by(other)}".encode())
        return total.hexdigest()[:32]

    def written(self):
        """The lines of SUMS, by their crates."""
        text = (self.root / SUMS).read_text("utf-8") if (self.root / SUMS).is_file() else ""
        return {line.split()[0]: line for line in text.splitlines() if line.strip()}

    def current(self):
        """The crates with edits whose line is current."""
        lines = self.written()
        known = [crate for crate in self.with_edits() if crate in lines and crate in self.crates]
        return [crate for crate in known if re.fullmatch(rf"{crate} {self.sum_of(crate)} \d{{4}}-\d\d-\d\d", lines[crate])]

    def untried(self):
        """The crates that UNTRIED names."""
        path = self.root / UNTRIED
        return path.read_text("utf-8").split() if path.is_file() else []

    def write(self, sums, date):
        """Writes the lines of crates, each with its sum, and takes out those of crates without edits; and takes the crates out of UNTRIED."""
        left = [crate for crate in self.untried() if crate not in sums]
        if left != self.untried():
            (self.root / UNTRIED).write_text("".join(f"{crate}\n" for crate in left), "utf-8")
        lines = {**self.written(), **{crate: f"{crate} {total} {date}" for crate, total in sums.items()}}
        (self.root / SUMS).write_text("".join(f"{lines[crate]}\n" for crate in self.with_edits() if crate in lines), "utf-8")

    def flaws(self):
        """What is wrong with the lines, each with what to do."""
        lines, crates, current = self.written(), self.with_edits(), self.current()
        yield from (f"{EDITS}/{crate}: crates.txt has no such crate" for crate in crates if crate not in self.crates)
        untried = self.untried()
        yield from (f"{UNTRIED}: {crate} isn't to be tried" for crate in untried if crate in current or crate not in crates)
        for crate in sorted(set(crates).intersection(self.crates).difference(current, untried)):
            flaw = f"the line of {crate} isn't current" if crate in lines else f"no line of {crate}"
            yield f"{SUMS}: {flaw}: .ci/wrong_bodies {crate} tries its edits, and writes the line where each is refused"
        yield from (f"{SUMS}: {crate} has no edits: .ci/wrong_bodies takes the line out" for crate in sorted(set(lines).difference(crates)))


if __name__ == "__main__":
    found = list(Repository(pathlib.Path(__file__).resolve().parent.parent).flaws())
    print("\n".join(found), end="\n" if found else "")
    sys.exit(1 if found else 0)
