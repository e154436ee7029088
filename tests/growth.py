#!/usr/bin/env python3
"""Counts how often the program's loops turn on families of texts that are made to be hard, so that no time of squares comes back unseen.

    tests/growth.py PROGRAM [FAMILY..]    by a built program: all of families.py, game_families.py and model_families.py, or those of these names

Each family is solved, or checked as a model, at a size and at twice that size. Counted are turns of loops (`turns.c`, compiled by the toolchain's own
clang), which are the same in each run on each machine: a jump to what stands before it, as `llvm-objdump` finds them, is a breakpoint. What the
program takes for a text of one equation, or a model of one step, is taken off. The second count is to be at most GROWTH times the first: twice the
size may take twice the turns, and a tenth more. Where only what is declared doubles, and not what is reached, it is 1.15 times."""
import collections
import concurrent.futures
import os
import re
import struct
import subprocess
import sys
import tempfile
import threading

sys.dont_write_bytecode = True
from families import FAMILIES
from game_families import GAMES
from model_families import MODELS

GROWTH = 2.3
# Of any family at its first size: a third more than the dearest takes, the blocks.
MOST = 600_000
OVER = 99
SOLVE, CHECK = ("solve", "--workers", "1"), ("check", "--workers", "1")
IDLE = {SOLVE: "pbes nu X = X; init X;", CHECK: "model state b: Bool; step s: b -> skip; init true; property p = b;"}
# A family with the size at which it is counted first, the command and its options, the status that it has, and its own bound in place of GROWTH.
Family = collections.namedtuple("Family", "name text size command options status growth")
JUMP = re.compile(r"^ *([0-9a-f]+): ((?:[0-9a-f]{2} )+) *\tj\w+\t0x([0-9a-f]+)", re.M)


class Turns:
    """Counts the turns of one program."""

    def __init__(self, program, folder):
        self.program, self.folder = program, folder
        kit = os.path.dirname(subprocess.run(["rt", "doc"], capture_output=True, text=True, check=True).stdout.strip())
        self.tools = os.path.join(kit, "toolchain", "bin")
        self.library, self.jumps = os.path.join(folder, "turns.so"), os.path.join(folder, "jumps")
        source = os.path.join(os.path.dirname(os.path.abspath(__file__)), "turns.c")
        words = ["-O2", "-shared", "-fPIC", "-nostdlib", "-nostdinc", f"--ld-path={self.tools}/ld.lld", "-o", self.library, source]
        subprocess.run([f"{self.tools}/clang", *words], check=True)
        places = self.jumps_back()
        with open(self.jumps, "wb") as file:
            file.write(struct.pack(f"<{len(places)}I", *places))

    def jumps_back(self):
        """The distances from the program's start of its jumps to what stands before them."""
        words = ["llvm-objdump", "-d", "--section=.text", self.program]
        listed = subprocess.run(words, executable=f"{self.tools}/clang", capture_output=True, text=True, check=True).stdout
        jumps = [(int(place, 16), bytes.fromhex(spelled), int(target, 16)) for place, spelled, target in JUMP.findall(listed)]
        known = [place for place, spelled, target in jumps if target <= place and self.is_known(spelled)]
        return [place - self.start() for place in known]

    def start(self):
        """The lowest address of what is loaded."""
        with open(self.program, "rb") as file:
            head = file.read(1 << 12)
        first, (size, count) = struct.unpack_from("<Q", head, 32)[0], struct.unpack_from("<HH", head, 54)
        segments = [struct.unpack_from("<IIQQ", head, first + size * number) for number in range(count)]
        return min(address for kind, _, _, address in segments if kind == 1)

    @staticmethod
    def is_known(spelled):
        """Whether it is a jump that `turns.c` does: `jmp` or one with a condition, by a byte or by four."""
        return spelled[0] >> 4 == 7 or spelled[0] in (0xEB, 0xE9) or spelled[0] == 0x0F

    def count(self, text, words, most):
        """How often loops turn for this text by a command, and the status."""
        report = os.path.join(self.folder, f"report-{threading.get_ident()}")
        settings = {"LD_PRELOAD": self.library, "TURNS_JUMPS": self.jumps, "TURNS_REPORT": report, "TURNS_LIMIT": str(most)}
        ran = subprocess.run([self.program, *words], input=text.encode(), capture_output=True, env=settings, timeout=300, check=False)
        with open(report, encoding="ascii") as file:
            return int(file.read()), ran.returncode


def grown(turns, idle, family):
    """The turns at a size and at twice that size, and what is wrong with them; none where nothing is."""
    words = (*family.command, *family.options)
    first, status = turns.count(family.text(family.size), words, MOST)
    if status != family.status:
        return (first, 0), f"over {MOST}" if status == OVER else f"status {status}"
    allowed = idle + int(family.growth * (first - idle))
    second, status = turns.count(family.text(2 * family.size), words, allowed)
    if status != family.status:
        return (first, second), f"more than {family.growth} times" if status == OVER else f"status {status}"
    return (first, second), None


def families():
    """All that have a size at which they are counted."""
    for name, text, size, _, options in FAMILIES + GAMES:
        if size is not None:
            yield Family(name, text, size, SOLVE, options, 0, GROWTH)
    for name, text, size, status, growth in MODELS:
        yield Family(name, text, size, CHECK, (), status, growth or GROWTH)


def main():
    chosen = [family for family in families() if family.name in sys.argv[2:] or not sys.argv[2:]]
    with tempfile.TemporaryDirectory() as folder, concurrent.futures.ThreadPoolExecutor(os.cpu_count()) as pool:
        turns = Turns(os.path.abspath(sys.argv[1]), folder)
        alone = {command: turns.count(text, command, MOST) for command, text in IDLE.items()}
        done = list(pool.map(lambda family: grown(turns, alone[family.command][0], family), chosen))
    for family, ((first, second), flaw) in zip(chosen, done):
        idle, sizes = alone[family.command][0], f"{family.size} and {2 * family.size}"
        print(f"{family.name}, {sizes}: {first} and {second} turns, {flaw or f'{(second - idle) / (first - idle):.2f} times'}")
    wrong = sum(flaw is not None for _, flaw in done)
    print(f"{len(chosen)} families, {wrong} grow too fast")
    sys.exit(1 if wrong or any(status for _, status in alone.values()) else 0)


if __name__ == "__main__":
    main()
