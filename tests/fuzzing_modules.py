#!/usr/bin/env python3
"""Asks the program of known modules with each byte changed, and of generated and changed modules, each made from its seed.

    tests/fuzzing_modules.py PROGRAM                  the gate's part: the known modules, and the seeds from 0 to 3,999
    tests/fuzzing_modules.py PROGRAM FIRST [COUNT]    the seeds from FIRST on alone, 4,000 where no number is said

What a module says and means is worked out by tests/modules.py and tests/module_runs.py, which were written for this from its definition.
A module is refused by the same rule at the same place; else it is accepted or refused so, and one in four is listed so. Accepted code is run by a machine
that tests the kinds and bounds of each step, at 256 instances of an equation at most, evenly spread: it never faults. Where at most 64
instances are reached, the program's report is that of the nested fixpoint over their trees; so it is with other initial instances in the module's
bytes, eight at most, of which none is reached from one before: the program runs all that they lead to. Prints each module that is not as it must be,
and how many were read and accepted, and how many reports were compared and true."""
import collections
import concurrent.futures
import itertools
import os
import resource
import struct
import sys

sys.dont_write_bytecode = True
import modules
from generator import Generator
from module_runs import Fault, Machine, instances_of, reached_from, report

# How many instances of an equation are run, and how many a module may reach whose report is compared.
RUN, SOLVED = 256, 64
# From how many initial instances a module is solved at most.
STARTS = 8
# One in so many modules is listed.
LISTED = 4
# No module takes the program longer.
SECONDS = 300
# A sort of three enumerators; X(d) calls X at each enumerator that differs from d.
OTHERS = bytes.fromhex(
    "50424553 01 01 03 0161 0162 0163 01 01 0158 01 0100 01 0100 1c000000 05000000 0c00"
    "1e 1c01 0401 0400 14 15 190900 0401 2400 1d 20 00 00 0000000000000000"
)
# Counts down from 9 by a test of the parameter's range (version 2).
COUNTS_DOWN = bytes.fromhex(
    "50424553 02 00 01 00 0158 01 02 00000000 09000000 00 0a000000 04000000 0a00"
    "1f 2500 01000000 09000000 0700 0400 010100000000000000 07 2400 180800 21 20 00 00 0900000000000000"
)
KNOWN = (OTHERS, COUNTS_DOWN)
COMMANDS = ("verify", "list", "solve-code")
# How many brackets, loops and jumps are open at most in generated code.
OPEN = 6


def carrier_of(generator, sorts):
    """A carrier of few values."""
    way = generator.below(4)
    if way == 0:
        return modules.BOOL
    if way == 1 and sorts:
        sort = generator.below(len(sorts))
        return modules.Values(sort, 0, sorts[sort] - 1)
    low = generator.below(5) - 2
    return modules.Values("Int", low, low + generator.below(4))


def spelled(carriers):
    """Carriers, behind how many they are."""
    tags = {"Bool": b"\0"}
    spellings = [tags.get(kind) or (struct.pack("<Bii", 2, low, high) if kind == "Int" else bytes([1, kind])) for kind, low, high in carriers]
    return bytes([len(carriers)]) + b"".join(spellings)


class Coder:
    """Code that is mostly accepted: operands are made for what takes them, and brackets, loops and jumps are closed in order."""

    def __init__(self, generator, version, equations, own):
        self.generator, self.version, self.equations = generator, version, equations
        self.parameters, self.loops = own
        self.code, self.opened, self.running, self.instructions = bytearray(), [], [], 0

    def write(self, name, *operands):
        self.instructions += 1
        self.code += modules.spelled(name, *operands)

    def one_of(self, *names):
        self.write(self.generator.one_of(names))

    def aim(self, end):
        """Gives the jump whose code ended there its target, the next place."""
        struct.pack_into("<H", self.code, end - 2, self.instructions)

    def slot(self):
        """Any slot that may be read, with its carrier; or none."""
        place = self.generator.below(len(self.parameters) + len(self.loops))
        carriers = self.parameters + self.loops
        is_there = place < len(self.parameters) or place in self.running
        return (place, carriers[place]) if is_there else (None, None)

    def number_slot(self):
        slot, carrier = self.slot()
        return slot if carrier and carrier.kind == "Int" else None

    def simple_term(self):
        """A slot, a small number, or now and then a large one."""
        slot = self.number_slot()
        if slot is not None:
            self.write("GET", slot)
        elif self.generator.once_in(100):
            self.write("INT", (1 << 63) - 1 - self.generator.below(3))
        else:
            self.write("INT", self.generator.below(9) - 3)

    def term(self):
        self.simple_term()
        for _ in range(self.generator.below(3)):
            way = self.generator.below(8)
            if way < 2:
                self.write(("NEG", "ABS")[way])
            elif way == 2:
                self.write("INT", self.generator.below(4) + 1)
                self.one_of("DIV", "MOD")
            else:
                self.simple_term()
                self.one_of("ADD", "SUB", "MUL", "MIN", "MAX")

    def enumerator(self, carrier):
        self.write("ENUM", carrier.kind, self.generator.below(carrier.high + 1))

    def test(self):
        """A truth value that is made of no other."""
        slot, carrier = self.slot()
        if slot is None:
            self.write("BOOL", self.generator.below(2))
            return
        self.write("GET", slot)
        if carrier.kind == "Int":
            self.term()
            self.one_of("LT", "LE", "GT", "GE", "EQ", "NE")
        elif carrier.kind != "Bool":
            self.enumerator(carrier)
            self.one_of("EQ", "NE")

    def condition(self):
        self.test()
        for _ in range(self.generator.below(3)):
            if self.generator.once_in(3):
                self.write("NOT")
            else:
                self.test()
                self.one_of("BAND", "BOR")

    def argument(self, carrier):
        """Mostly a value of the carrier."""
        if carrier.kind == "Bool":
            self.condition()
        elif carrier.kind != "Int":
            slot, own = self.slot()
            if own == carrier:
                self.write("GET", slot)
            else:
                self.enumerator(carrier)
        else:
            self.term()
            if not self.generator.once_in(12):
                self.write("INT", carrier.low)
                self.write("MAX")
                self.write("INT", carrier.high)
                self.write("MIN")

    def call(self):
        """A call, of which half of those with a number first test it: where it is outside a cut stands in place of the call."""
        equation = self.generator.below(len(self.equations))
        carriers = self.equations[equation][0]
        is_tested = bool(carriers) and carriers[0].kind == "Int" and self.generator.once_in(2)
        if is_tested:
            self.term()
            self.write("RNG", carriers[0].low, carriers[0].high, 0)
            test = len(self.code)
        for carrier in carriers[is_tested:]:
            self.argument(carrier)
        self.write("CALL", equation)
        if is_tested:
            self.write("JMP", 0)
            end = len(self.code)
            self.aim(test)
            self.write("POP")
            self.write("CUT")
            self.aim(end)

    def open_jump(self):
        """A jump over what follows, on a condition or on a slot's range."""
        slot = self.number_slot() if self.version == 2 else None
        if slot is not None:
            low = self.generator.below(5) - 2
            self.write("INL", slot, low, low + self.generator.below(3), 0)
        else:
            self.condition()
            self.write(self.generator.one_of(("JT", "JF")), 0)
        self.opened.append(len(self.code))

    def open_loop(self):
        place = self.generator.below(len(self.loops))
        slot = place + len(self.parameters)
        if place < len(self.loops) and slot not in self.running:
            self.write("LOOP", slot)
            self.running.append(slot)
            self.opened.append("NEXT")

    def open_bracket(self):
        self.one_of("AND", "OR")
        self.opened.append("CLOSE")

    def close(self):
        """Closes what was opened last."""
        if not self.opened:
            return
        last = self.opened.pop()
        if isinstance(last, int):
            self.aim(last)
            return
        if last == "NEXT":
            self.running.pop()
        self.write(last)

    def turn(self):
        """A leaf, a call, or something that opens or closes."""
        way, is_full = self.generator.below(10), len(self.opened) >= OPEN
        if way == 0:
            self.one_of("YES", "NO", "CUT")
        elif way < 4:
            self.call()
        elif way < 8 and not is_full:
            (self.open_bracket, self.open_loop, self.open_jump, self.open_jump)[way - 4]()
        elif len(self.opened) > 1:
            self.close()

    def equation(self):
        """A whole code, mostly one bracket with all else in it, behind how many instructions it has."""
        if not self.generator.once_in(20):
            self.open_bracket()
        for _ in range(self.generator.below(14)):
            self.turn()
        while self.opened:
            self.close()
        self.write("END")
        return struct.pack("<H", self.instructions) + self.code


def generated(generator):
    """A module with a valid header, at most two sorts and four equations, and random code."""
    sorts = [generator.below(4) + 1 for _ in range(generator.below(3))]
    equations = [
        tuple([carrier_of(generator, sorts) for _ in range(generator.below(bound))] for bound in (3, 4)) for _ in range(generator.below(4) + 1)
    ]
    version = generator.below(2) + 1
    parts = [b"PBES", bytes([version, len(sorts)]), *(bytes([count]) + b"\1e" * count for count in sorts), bytes([len(equations)])]
    for parameters, loops in equations:
        code = Coder(generator, version, equations, (parameters, loops)).equation()
        parts += [bytes([generator.below(2)]), b"\1X", spelled(parameters), spelled(loops)]
        stated = (generator.below(64), generator.below(16)) if generator.once_in(16) else (50_000, 5_000)
        parts += [struct.pack("<II", *stated), code]
    initial = generator.below(len(equations))
    values = [high if kind == "Int" else 0 for kind, _, high in equations[initial][0]]
    return b"".join(parts) + struct.pack(f"<B{len(values)}q", initial, *values)


def changed(generator, data):
    """The module with a byte changed to any other, to a small one, or to a neighbour of what it was."""
    place, anything, small, way = generator.below(len(data)), generator.below(256), generator.below(0x26), generator.below(4)
    byte = (anything, small, data[place] + 1, data[place] - 1)[way] % 256
    return data[:place] + bytes([byte]) + data[place + 1 :]


def module_of(seed):
    """The module of a seed: a generated or a known one, and every second time with up to three bytes changed."""
    generator = Generator(seed)
    way = generator.below(8)
    data = KNOWN[way] if way < len(KNOWN) else generated(generator)
    if generator.once_in(2):
        for _ in range(generator.below(3) + 1):
            data = changed(generator, data)
    return data


def with_each_byte(known):
    """A module with each of its bytes set to each value."""
    for place in range(len(known)):
        for byte in range(256):
            yield known[:place] + bytes([byte]) + known[place + 1 :]


def asked(program, command, data):
    """Standard output and standard error of a command with its status. Started without the layers of `subprocess`, since there are tens of thousands."""
    given = os.memfd_create("input")
    os.write(given, data)
    os.lseek(given, 0, os.SEEK_SET)
    written = [os.memfd_create("output"), os.memfd_create("error")]
    streams = [(os.POSIX_SPAWN_DUP2, stream, place) for place, stream in enumerate([given, *written])]
    process = os.posix_spawn(program, [program, command], os.environ, file_actions=streams)
    resource.prlimit(process, resource.RLIMIT_CPU, (SECONDS, SECONDS))
    status = os.waitstatus_to_exitcode(os.waitpid(process, 0)[1])
    texts = [os.pread(stream, os.fstat(stream).st_size, 0).decode(errors="replace") for stream in written]
    for stream in (given, *written):
        os.close(stream)
    return (*texts, status)


def reports(data, module):
    """The reports of an accepted module, each with the bytes: with its own initial instance, and with others that none before leads to."""
    end, reached, starts = len(data) - 1 - 8 * len(module.initial[1]), set(), 0
    for start in itertools.chain([module.initial], instances_of(module, RUN)):
        if start not in reached and starts < STARTS:
            starts += 1
            trees = reached_from(module, start, SOLVED)
            reached.update(trees or [start])
            if trees:
                number, values = start
                yield data[:end] + struct.pack(f"<B{len(values)}q", number, *values), report(module, start, trees)


def wanted_of(data, tally):
    """What must come of a module: the commands that are asked with what they read, and their standard output, standard error and status."""
    tally["modules"] += 1
    try:
        module = modules.read(data)
    except modules.Refused as refusal:
        return [(COMMANDS[sum(data) % len(COMMANDS)], data, ("", f"{refusal}\n", 1))]
    tally["read"] += 1
    listed = [] if sum(data) % LISTED else [("list", data, (modules.listing(module), "", 0))]
    try:
        modules.verify(module)
    except modules.Refused as refusal:
        return [*listed, ("verify", data, ("", f"{refusal}\n", 1))]
    tally["accepted"] += 1
    for instance in instances_of(module, RUN):
        tally["steps"] += Machine(module, instance).run()[1]
        tally["runs"] += 1
    solved = list(reports(data, module))
    tally["solved"] += len(solved)
    tally["true"] += sum(answer.startswith("answer true") for _, answer in solved)
    verified = [] if solved else [("verify", data, ("accepted\n", "", 0))]
    return [*listed, *verified, *(("solve-code", start, (answer, "", 0)) for start, answer in solved)]


def tried(program, cases):
    """What became of these modules, and what is wrong with some."""
    tally, wrong = collections.Counter(), []
    for data in cases:
        try:
            for command, given, wanted in wanted_of(data, tally):
                got = asked(program, command, given)
                if got != wanted:
                    wrong.append(f"{given.hex()}: {command}\n  wanted {wanted}\n  got    {got}")
        except Fault as fault:
            wrong.append(f"{data.hex()}: accepted, and has {fault}")
    return tally, wrong


def main():
    program = os.path.abspath(sys.argv[1])
    first, count = [int(word) for word in sys.argv[2:4] + ["0", "4000"][len(sys.argv[2:4]) :]]
    changed = KNOWN if len(sys.argv) == 2 else ()
    cases = [data for known in changed for data in with_each_byte(known)] + [module_of(seed) for seed in range(first, first + count)]
    parts = [cases[start : start + 200] for start in range(0, len(cases), 200)]
    with concurrent.futures.ProcessPoolExecutor(min(4, os.cpu_count())) as pool:
        results = list(pool.map(tried, [program] * len(parts), parts))
    tally = sum((result[0] for result in results), collections.Counter())
    wrong = [flaw for result in results for flaw in result[1]]
    print("\n".join(wrong[:20]), end="\n" if wrong else "")
    counts = ", ".join(f"{tally[word]} {word}" for word in ("modules", "read", "accepted", "runs", "steps", "solved", "true"))
    print(f"{counts}; {len(wrong)} differences")
    some_of_each = 0 < tally["true"] < tally["solved"] and 0 < tally["accepted"] < tally["read"] < tally["modules"]
    sys.exit(1 if wrong or not some_of_each else 0)


if __name__ == "__main__":
    main()
