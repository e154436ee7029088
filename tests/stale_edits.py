#!/usr/bin/env python3
"""Tries .ci/edit_sums.py and .ci/wrong_bodies on two small crates, `low` and `high` above it, each with an edit: which lines of SUMS are current after a
change, and which are written where the prover doesn't refuse each edit. In the place of `rt` and `rattle` are scripts that say what a case wants. Takes seconds,
and prints what went wrong."""
import os
import pathlib
import re
import shutil
import subprocess
import sys
import tempfile

HERE = pathlib.Path(__file__).resolve().parent.parent
sys.path.insert(0, str(HERE / ".ci"))

from edit_sums import Repository

EDITS = "tests/wrong_bodies"
SUMS = f"{EDITS}/SUMS"
RT = """#!/bin/sh
[ "$1" = doc ] && echo "${0%/*}/page" && exit
[ "$1" = ci ] && [ $# -gt 1 ] && echo "rt ci with names is not the gate" && exit 2
[ "$1" = ci ] && set -- ci $(ls crates)
shift
for crate; do
    for edit in crates/$crate/must-fail/*.edit; do
        [ -e "$edit" ] || continue
        name=$crate/${edit##*/}
        case " $MISSED " in
        *" $name "*) echo "rt: must-fail $name: $VERDICT" ;;
        *) echo "rt: must-fail $name: refused, as it must be: src/lib.rt:1:1: error" ;;
        esac
    done
done
exit "${UNPROVED:-0}"
"""
RATTLE = """#!/bin/sh
if grep -q "${BROKEN:-nothing}" src/lib.rt; then
    printf 'note: src/lib.rt:2:5: it is not proved\\nonly=1 proved=0\\n'
    exit 1
fi
exit "${UNPROVED:-0}"
"""
LOW = """\
//! Low.
ghost use Rattle.low.specs.Words.{IsHalf};

/// The most there are.
pub const MOST: u8 = 9;
pub const TEXT: &str = "{ // 'a";

pub struct Pair<'a> {
    left: &'a u8,
}

const fn least() -> u8 {
    4
}

impl<'a> Pair<'a> {
    // Half of it.
    pub fn half(&self, by: [u8; 2]) -> u8
        requires some { 0 < by }
        ensures { IsHalf self.now.left result '}' }
    {
        if *self.left == 0 {
            return by[0];
        }
        by[1] / 2
    }
}
"""
FILES = {
    "crates.txt": "low: # below\nhigh: low\nother:\n",
    "HANDLES": "Handles allowed: none.\n",
    "crates/low/src/lib.rt": LOW,
    "crates/low/specs/Words.antt": "-- half\nabbrev pub IsHalf : N\nIsHalf n m = m + m\n",
    "crates/low/proofs/Lib.antt": "mod Halves\n",
    "crates/high/src/lib.rt": "pub fn twice() -> u8 {\n    2\n}\n",
    "crates/high/proofs/Lib.antt": "mod Twos\n",
    "crates/other/src/lib.rt": "pub fn none() {}\n",
    f"{EDITS}/low/third.edit": "file: src/lib.rt\nold:         by[1] / 2\nnew:         by[1] / 3\n",
    f"{EDITS}/high/once.edit": "file: src/lib.rt\nold:     2\nnew:     1\n",
    f"{EDITS}/high/never.edit": "file: src/lib.rt\nold:     2\nnew:     0\n",
}
# What is changed, where, from what to what, and the crates whose lines are stale then.
CHANGES = (
    ("code", "crates/high/src/lib.rt", "    2", "    1 + 1", "high"),
    ("a comment", "crates/high/src/lib.rt", "pub", "// two\npub", "high"),
    ("a proof", "crates/high/proofs/Lib.antt", "Twos", "Two", "high"),
    ("a line of crates.txt", "crates.txt", "high: low", "high: low smallvec", "high"),
    ("an edit", f"{EDITS}/high/once.edit", "    1", "    3", "high"),
    ("a body below", "crates/low/src/lib.rt", "by[1] / 2", "by[1] >> 1", "low"),
    ("a body below, inside", "crates/low/src/lib.rt", "return by[0];", "return 0;", "low"),
    ("a comment below", "crates/low/src/lib.rt", "// Half of it.", "// A half: { of it.", "low"),
    ("a comment of a definition below", "crates/low/specs/Words.antt", "-- half", "-- a half", "low"),
    ("a proof below", "crates/low/proofs/Lib.antt", "Halves", "Half", "low"),
    ("an edit below", f"{EDITS}/low/third.edit", "/ 3", "/ 5", "low"),
    ("a contract below", "crates/low/src/lib.rt", "self.now.left result", "self.now.left (result + 1)", "high low"),
    ("a requirement below", "crates/low/src/lib.rt", "0 < by", "1 < by", "high low"),
    ("a signature below", "crates/low/src/lib.rt", "[u8; 2]", "[u8; 3]", "high low"),
    ("a definition below", "crates/low/specs/Words.antt", "m + m", "m", "high low"),
    ("a constant below", "crates/low/src/lib.rt", "MOST: u8 = 9", "MOST: u8 = 8", "high low"),
    ("a constant text below", "crates/low/src/lib.rt", "{ // 'a", "{ // 'b", "high low"),
    ("a constant function below", "crates/low/src/lib.rt", "    4\n", "    5\n", "high low"),
    ("a type below", "crates/low/src/lib.rt", "left: &'a u8", "left: &'a u16", "high low"),
    ("an import of definitions below", "crates/low/src/lib.rt", "{IsHalf}", "{IsHalf as H}", "high low"),
    ("a crate beside them", "crates/other/src/lib.rt", "none()", "no()", ""),
    ("a sum by hand", SUMS, "high ", "high 0", "high"),
    ("a line without its date", SUMS, "-", "", "high"),
    ("a lacking line", SUMS, "low ", "other ", "low other"),
    ("a line without its sum", SUMS, "high ", "high due ", "high"),
)


def run(room, script, *words, missed="", verdict="", unproved="0", broken="nothing"):
    names = {"MISSED": missed, "VERDICT": verdict, "UNPROVED": unproved, "BROKEN": broken, "PATH": f"{room}/bin:{os.environ['PATH']}", "PYTHONDONTWRITEBYTECODE": "1"}
    return subprocess.run([f"{room}/.ci/{script}", *words], capture_output=True, text=True, check=False, env={**os.environ, **names})


def named(flaws):
    """The crates that flaws of SUMS name."""
    return {crate for crate in ("low", "high", "other") if any(crate in flaw.split(": .ci/")[0].split() for flaw in flaws)}


def changes_wrong(room):
    """What goes wrong after each change alone, where both lines are current before."""
    for what, path, old, new, stale in CHANGES:
        file = room / path
        text = file.read_text("utf-8")
        file.write_text(text.replace(old, new, 1), "utf-8")
        found = named(list(Repository(room).flaws()))
        if text.count(old) < 1 or found != set(stale.split()):
            yield f"{what}: not {stale or 'nothing'}, {' '.join(sorted(found)) or 'nothing'} is named"
        file.write_text(text, "utf-8")


def tries_wrong(room):
    """What goes wrong where an edit isn't refused: its crate gets no line, and the drawn one fails."""
    sums = room / SUMS
    whole = sums.read_text("utf-8")
    for verdict in ("NOT REFUSED: the crate is still proved", "BAD EDIT: not once in its file", "NOT TRIED: its check was killed"):
        sums.write_text("", "utf-8")
        ran = run(room, "wrong_bodies", missed="high/once.edit", verdict=verdict)
        if ran.returncode != 1 or [line.split()[0] for line in sums.read_text("utf-8").splitlines()] != ["low"]:
            yield f"a line is written, or none, with {verdict}: {ran.stdout}{ran.stderr}"
        if "2 wrong bodies refused, 1 not" not in ran.stdout.splitlines()[-1]:
            yield f"the last line isn't the sum: {ran.stdout}"
    whole = re.sub(r"(?m) \S+$", " 2000-01-01", whole)
    sums.write_text(whole, "utf-8")
    for missed, status in (("", 0), ("high/once.edit low/third.edit", 1)):
        ran = run(room, "wrong_bodies", "--drawn", missed=missed, verdict="NOT REFUSED")
        if ran.returncode != status or sums.read_text("utf-8") != whole:
            yield f"the drawn one: status {ran.returncode}, not {status}, or lines are written: {ran.stdout}{ran.stderr}"


def stale_wrong(room):
    """What goes wrong with a line that isn't current: its crate is tried where no crate is named, and gets a line only where it is proved."""
    sums = room / SUMS
    whole = sums.read_text("utf-8")
    stale = re.sub(r"(?m)^high .*$", "high due", whole)
    sums.write_text(stale, "utf-8")
    if named(list(Repository(room).flaws())) != {"high"}:
        yield "a line without a sum passes"
    if run(room, "wrong_bodies", "--kept", unproved="1").returncode != 1 or sums.read_text("utf-8") != stale:
        yield "a crate that isn't proved gets a line"
    ran = run(room, "wrong_bodies", "--kept")
    if ran.returncode or sums.read_text("utf-8") != whole:
        yield f"a crate whose line isn't current isn't tried: {ran.stdout}{ran.stderr}"


def functions_wrong(room):
    """What goes wrong by functions: an edit is refused where its function is proved as it is and isn't with it, and is tried whole elsewhere."""
    missed = {"missed": "high/once.edit high/never.edit low/third.edit", "verdict": "NOT REFUSED"}
    for broken, refused in (("^    1$", "high/once.edit"), ("by.1. / 3", "low/third.edit"), ("^    2$", ""), ("^pub", ""), ("nothing", "")):
        ran = run(room, "wrong_bodies", "--kept", "high", "low", broken=broken, **missed)
        found = re.findall(r"must-fail (\S+): refused, as it must be: note: src/lib.rt:2:5", ran.stdout)
        if found != refused.split() or f"{len(found)} wrong bodies refused, {3 - len(found)} not" not in ran.stdout.splitlines()[-1]:
            yield f"by functions, where {broken} isn't proved: {ran.stdout}{ran.stderr}"


def main():
    with tempfile.TemporaryDirectory() as folder:
        room = pathlib.Path(folder)
        for path, text in {**FILES, "bin/rt": RT, "bin/bin/rattle": RATTLE}.items():
            (room / path).parent.mkdir(parents=True, exist_ok=True)
            (room / path).write_text(text, "utf-8")
        for path in ("bin/rt", "bin/bin/rattle"):
            (room / path).chmod(0o755)
        (room / ".ci").mkdir()
        for name in ("edit_sums.py", "edits_by_function.py", "wrong_bodies"):
            shutil.copy(HERE / ".ci" / name, room / ".ci" / name)
        wrong = []
        for script, status, stale in (("edit_sums.py", 1, {"low", "high"}), ("wrong_bodies", 0, set()), ("edit_sums.py", 0, set())):
            ran = run(room, script)
            if ran.returncode != status or script == "edit_sums.py" and named(ran.stdout.splitlines()) != stale:
                wrong.append(f"{script}, where each edit is refused: {ran.stdout}{ran.stderr}")
        wrong += [*changes_wrong(room), *stale_wrong(room), *tries_wrong(room), *functions_wrong(room)]
    print("".join(f"tests/stale_edits.py: {flaw}\n" for flaw in wrong), end="")
    sys.exit(1 if wrong else 0)


main()
