"""What the bytes of a module say, and whether its code is accepted, written anew from docs/MODULES.md, and for the intervals of results
from pb_base_values/specs/Operation.antt: a reader, a listing and a verifier, which have nothing of the program's own code."""
import collections
import struct

MOST_INSTANCES = 1 << 22
MOST_OPERANDS, MOST_BRACKETS, MOST_LOOPS = 32, 32, 8
MOST_STEPS, MOST_TOKENS = 1_000_000, 100_000
LETTERS = b"abcdefghijklmnopqrstuvwxyzABCDEFGHIJKLMNOPQRSTUVWXYZ_"
WORD = range(-(1 << 63), 1 << 63)
# The instructions in the order of their bytes, and the operands of those that have some: k, b, s, i, low, high, t as in the document's table, n a slot or equation.
NAMES = """END INT BOOL ENUM GET POP ADD SUB MUL NEG DIV MOD MIN MAX ABS LT LE GT GE EQ NE NOT BAND BOR JMP JT JF RNG LOOP NEXT AND OR
CLOSE YES NO CUT CALL INL""".split()
OPERANDS = {
    "INT": "k", "BOOL": "b", "ENUM": "si", "GET": "n", "JMP": "t", "JT": "t", "JF": "t", "RNG": "lht", "LOOP": "n", "CALL": "n", "INL": "nlht",
}
FORMS = {"k": "q", "b": "B", "s": "B", "i": "B", "n": "B", "l": "i", "h": "i", "t": "H"}

# Values from low to high of a kind: "Bool", "Int", or a sort's number. A carrier is one, and what is known of an operand.
Values = collections.namedtuple("Values", "kind low high")
Instruction = collections.namedtuple("Instruction", "name operands")
Equation = collections.namedtuple("Equation", "sign name parameters loops steps tokens code")
Module = collections.namedtuple("Module", "sorts equations initial")
BOOL = Values("Bool", 0, 1)


class Refused(Exception):
    """A refusal, as the program says it."""


# ---- bytes


class Reader:
    """The fields of a module from left to right. Each is refused at the byte where it begins."""

    def __init__(self, data):
        self.data, self.place, self.sorts, self.version = data, 0, [], 0

    def refuse(self, rule, place):
        raise Refused(f"{rule} byte {place}")

    def take(self, count):
        if self.place + count > len(self.data):
            self.refuse("B03", len(self.data))
        self.place += count
        return self.data[self.place - count : self.place]

    def number(self, form):
        return struct.unpack("<" + form, self.take(struct.calcsize("<" + form)))[0]

    def within(self, form, values, rule="B05"):
        start = self.place
        value = self.number(form)
        if value not in values:
            self.refuse(rule, start)
        return value

    def many(self, counts, item):
        return [item() for _ in range(self.within("B", counts))]

    def name(self):
        start = self.place
        name = self.take(self.number("B"))
        if not 1 <= len(name) <= 64 or name[0] not in LETTERS or set(name) - set(LETTERS + b"0123456789'"):
            self.refuse("B05", start)
        return name.decode()

    def range(self):
        low = self.number("i")
        return low, self.within("i", range(low, 1 << 31))

    def carrier(self):
        tag = self.within("B", range(3))
        if tag == 1:
            sort = self.within("B", range(len(self.sorts)))
            return Values(sort, 0, len(self.sorts[sort]) - 1)
        return Values("Int", *self.range()) if tag else BOOL

    def instruction(self):
        name = NAMES[self.within("B", range(38 if self.version == 2 else 37), "B04")]
        operands = []
        for kind in OPERANDS.get(name, ""):
            if kind == "l":
                operands += self.range()
            elif kind == "s":
                operands.append(self.within("B", range(len(self.sorts))))
            elif kind == "i":
                operands.append(self.within("B", range(len(self.sorts[operands[0]]))))
            elif kind == "b":
                operands.append(self.within("B", range(2)))
            elif kind != "h":
                operands.append(self.number(FORMS[kind]))
        return Instruction(name, operands)

    def equation(self):
        sign, name = self.within("B", range(2)), self.name()
        parameters, loops = self.many(range(9), self.carrier), self.many(range(241), self.carrier)
        steps, tokens = self.number("I"), self.number("I")
        code = [self.instruction() for _ in range(self.within("H", range(1, 1 << 16)))]
        return Equation(("mu", "nu")[sign], name, parameters, loops, steps, tokens, code)

    def module(self):
        mark = self.take(4)
        if mark != b"PBES":
            self.refuse("B01", next(place for place in range(4) if mark[place] != b"PBES"[place]))
        self.version = self.within("B", (1, 2), "B02")
        self.sorts = self.many(range(256), lambda: self.many(range(1, 256), self.name))
        equations = self.many(range(1, 65), self.equation)
        if sum(size_of(equation) for equation in equations) > MOST_INSTANCES:
            self.refuse("B05", self.place)
        initial = self.within("B", range(len(equations)), "B07")
        values = [self.within("q", range(low, high + 1), "B07") for _, low, high in equations[initial].parameters]
        if self.place < len(self.data):
            self.refuse("B06", self.place)
        return Module(self.sorts, equations, (initial, tuple(values)))


def read(data):
    """The module that the bytes spell."""
    return Reader(data).module()


def spelled(name, *operands):
    """The bytes of an instruction."""
    form = "".join(FORMS[kind] for kind in OPERANDS.get(name, ""))
    return bytes([NAMES.index(name)]) + struct.pack("<" + form, *operands)


def size_of(equation):
    """How many instances an equation has."""
    size = 1
    for _, low, high in equation.parameters:
        size *= high - low + 1
    return size


def listing(module):
    """The listing of a module."""

    def slot(word, place, carrier):
        words = {"Bool": "Bool", "Int": f"Range {carrier.low} {carrier.high}"}.get(carrier.kind, f"Enum {carrier.kind}")
        return f"{word} {place} {words}"

    lines = [" ".join(["sort", str(place), *names]) for place, names in enumerate(module.sorts)]
    for place, equation in enumerate(module.equations):
        lines.append(f"equation {place} {equation.sign} {equation.name}")
        lines += [slot("param", place, carrier) for place, carrier in enumerate(equation.parameters)]
        lines += [slot("loop", place, carrier) for place, carrier in enumerate(equation.loops, len(equation.parameters))]
        lines += [f"steps {equation.steps}", f"tokens {equation.tokens}"]
        lines += [" ".join(map(str, [place, name, *operands])) for place, (name, operands) in enumerate(equation.code)]
    lines.append(" ".join(map(str, ["init", module.initial[0], *module.initial[1]])))
    return "".join(line + "\n" for line in lines)


# ---- the verifier


class Rule(Exception):
    """A rule that an instruction breaks."""


def bodies_of(code):
    """The places of the loops around each place, the innermost last, where loops pair (V12); else the rule with its place."""
    around, opened = [], []
    for place, (name, _) in enumerate(code):
        around.append(tuple(opened))
        if (name == "NEXT" and not opened) or (name == "END" and opened) or (name == "LOOP" and len(opened) == MOST_LOOPS):
            raise Rule("V12", place)
        if name == "LOOP":
            opened.append(place)
        elif name == "NEXT":
            opened.pop()
    if opened:
        raise Rule("V12", opened[0])
    return around


def check_position(module, equation, around, place):
    """The rules by position, of which names come before targets."""
    name, operands = equation.code[place]
    first = len(equation.parameters)
    running = [equation.code[loop].operands[0] for loop in around[place]]
    if name in ("GET", "INL") and operands[0] >= first and operands[0] not in running:
        raise Rule("V09", place)
    if name == "LOOP" and (not first <= operands[0] < first + len(equation.loops) or operands[0] in running):
        raise Rule("V09", place)
    if name == "CALL" and operands[0] >= len(module.equations):
        raise Rule("V09", place)
    if "t" in OPERANDS.get(name, ""):
        target = operands[-1]
        if target >= len(equation.code):
            raise Rule("V05", place)
        if target <= place:
            raise Rule("V06", place)
        if around[target] != around[place]:
            raise Rule("V07", place)


def counts_of(equation, around):
    """The static counts: how often each instruction runs at most, and how many of these write a token."""
    steps = tokens = 0
    for place, (name, _) in enumerate(equation.code):
        times = 1
        for loop in around[place]:
            slot = equation.loops[equation.code[loop].operands[0] - len(equation.parameters)]
            times *= slot.high - slot.low + 1
        steps += times
        tokens += times if name in ("AND", "OR", "CLOSE", "YES", "NO", "CUT", "CALL") else 0
    return steps, tokens


def quotient(a, b):
    """a = q*b + r with 0 <= r < b, for a divisor b of 1 or more."""
    return a // b


def interval_of(name, left, right):
    """The interval of an operation's results (interval arithmetic, Moore 1966)."""
    (_, a, b), (_, c, d) = left, right
    if name == "ADD":
        return a + c, b + d
    if name == "SUB":
        return a - d, b - c
    if name == "MIN":
        return min(a, c), min(b, d)
    if name == "MAX":
        return max(a, c), max(b, d)
    if name == "MOD":
        return 0, min(b, d - 1) if a >= 0 else d - 1
    ends = [x * y if name == "MUL" else quotient(x, y) for x in (a, b) for y in (c, d)]
    return min(ends), max(ends)


def interval_of_one(name, low, high):
    """The same of one operand."""
    if name == "NEG":
        return -high, -low
    if low >= 0:
        return low, high
    return (-high, -low) if high <= 0 else (0, max(-low, high))


# What is known at a place: operands with how many stand below the floor, slots, and brackets with those below the floor, roots.
State = collections.namedtuple("State", "operands floor slots brackets closed roots")
ARITHMETIC = ("ADD", "SUB", "MUL", "DIV", "MOD", "MIN", "MAX")
KINDS = {
    **dict.fromkeys(ARITHMETIC + ("LT", "LE", "GT", "GE"), ("Int", "Int")), **dict.fromkeys(("NEG", "ABS", "RNG"), ("Int",)),
    **dict.fromkeys(("NOT", "JT", "JF"), ("Bool",)), **dict.fromkeys(("BAND", "BOR"), ("Bool", "Bool")), "POP": (None,), "EQ": (None, None), "NE": (None, None),
}


class Pass:
    """One way forward through an equation's code, with what is known at each place (abstract interpretation, Cousot and Cousot 1977)."""

    def __init__(self, module, equation, around):
        self.module, self.equation, self.around = module, equation, around
        self.known = {0: State((), 0, dict(enumerate(equation.parameters)), 0, 0, 0)}
        self.homes = {}

    def check(self):
        for place, (name, operands) in enumerate(self.equation.code):
            state = self.known.get(place)
            if state is not None:
                self.homes[place] = state
                for target, reached in self.flow(place, name, operands, state):
                    self.lead(place, target, reached)

    def lead(self, place, target, state):
        """A way from a place to a target."""
        if target >= len(self.equation.code):
            raise Rule("V15", place)
        there = self.known.get(target)
        if there is None:
            self.known[target] = state
            return
        pairs = list(zip(there.operands, state.operands)) + [(there.slots[slot], state.slots[slot]) for slot in there.slots]
        same = (there.brackets, there.roots, len(there.operands)) == (state.brackets, state.roots, len(state.operands))
        if not same or any(one.kind != other.kind for one, other in pairs):
            raise Rule("V11", place)
        hulls = [Values(one.kind, min(one.low, other.low), max(one.high, other.high)) for one, other in pairs]
        count = len(there.operands)
        self.known[target] = there._replace(operands=tuple(hulls[:count]), slots=dict(zip(there.slots, hulls[count:])))

    def popped(self, place, state, kinds):
        """What stands on top, of these kinds, and the state without it."""
        count = len(kinds)
        if len(state.operands) - state.floor < count:
            raise Rule("V01", place)
        rest, top = state.operands[: len(state.operands) - count], state.operands[len(state.operands) - count :]
        if any(kind not in (None, operand.kind) for kind, operand in zip(kinds, top)):
            raise Rule("V02", place)
        return top, state._replace(operands=rest)

    def pushed(self, place, state, value):
        if value.kind == "Int" and not (value.low in WORD and value.high in WORD):
            raise Rule("V04", place)
        if len(state.operands) >= MOST_OPERANDS:
            raise Rule("V10", place)
        return [(place + 1, state._replace(operands=state.operands + (value,)))]

    def rooted(self, place, state):
        """A leaf or a bracket, which outside all brackets is the one root."""
        if state.brackets == 0 and state.roots:
            raise Rule("V14", place)
        return state if state.brackets else state._replace(roots=1)

    def flow(self, place, name, operands, state):
        """Where control flows from an instruction, and with what."""
        if name in ("INT", "BOOL", "ENUM", "GET"):
            value = {
                "INT": lambda k: Values("Int", k, k), "BOOL": lambda _: BOOL, "GET": lambda slot: state.slots[slot],
                "ENUM": lambda sort, _: Values(sort, 0, len(self.module.sorts[sort]) - 1),
            }[name](*operands)
            return self.pushed(place, state, value)
        if name in KINDS:
            return self.flow_of_operands(place, name, operands, *self.popped(place, state, KINDS[name]))
        if name == "JMP":
            return [(operands[0], state)]
        if name == "INL":
            value = state.slots[operands[0]]
            if value.kind != "Int":
                raise Rule("V02", place)
            return self.tested(place, operands[1:], value, lambda inside: state._replace(slots={**state.slots, operands[0]: inside}), state)
        return self.flow_of_tree(place, name, operands, state)

    def tested(self, place, test, value, inside, outside):
        """The ways behind a test of a range, of which one that the interval excludes isn't taken."""
        low, high, target = test
        if value.low <= high and low <= value.high:
            yield place + 1, inside(Values("Int", max(low, value.low), min(high, value.high)))
        if not low <= value.low <= value.high <= high:
            yield target, outside

    def flow_of_operands(self, place, name, operands, top, state):
        """The instructions that pop operands."""
        if name == "POP":
            return [(place + 1, state)]
        if name in ("JT", "JF"):
            return [(place + 1, state), (operands[0], state)]
        if name == "RNG":
            outside = state._replace(operands=state.operands + top)
            return self.tested(place, operands, top[0], lambda inside: state._replace(operands=state.operands + (inside,)), outside)
        if name in ("DIV", "MOD") and top[1].low < 1:
            raise Rule("V03", place)
        if name in ("EQ", "NE") and top[0].kind != top[1].kind:
            raise Rule("V02", place)
        if name in ARITHMETIC:
            return self.pushed(place, state, Values("Int", *interval_of(name, *top)))
        if name in ("NEG", "ABS"):
            return self.pushed(place, state, Values("Int", *interval_of_one(name, top[0].low, top[0].high)))
        return self.pushed(place, state, BOOL)

    def flow_of_tree(self, place, name, operands, state):
        """The instructions of loops, brackets, leaves and the end."""
        if name == "LOOP":
            carrier = self.equation.loops[operands[0] - len(self.equation.parameters)]
            slots = {**state.slots, operands[0]: carrier}
            return [(place + 1, state._replace(floor=len(state.operands), slots=slots, closed=state.brackets))]
        if name == "NEXT":
            home = self.homes[self.around[place][-1]]
            if (len(state.operands), state.brackets, state.roots) != (len(home.operands), home.brackets, home.roots):
                raise Rule("V12", place)
            return [(place + 1, home)]
        if (name in ("AND", "OR") and state.brackets >= MOST_BRACKETS) or (name == "CLOSE" and state.brackets <= state.closed):
            raise Rule("V13", place)
        if name == "CLOSE":
            return [(place + 1, state._replace(brackets=state.brackets - 1))]
        if name == "END":
            if state.brackets or state.roots != 1:
                raise Rule("V13" if state.brackets else "V14", place)
            return []
        if name == "CALL":
            parameters = self.module.equations[operands[0]].parameters
            top, state = self.popped(place, state, [carrier.kind for carrier in parameters])
            if any(not carrier.low <= value.low <= value.high <= carrier.high for carrier, value in zip(parameters, top)):
                raise Rule("V08", place)
        state = self.rooted(place, state)
        return [(place + 1, state._replace(brackets=state.brackets + (name in ("AND", "OR"))))]


def check_equation(module, equation):
    """Raises the rule that an equation's code breaks, with its place."""
    around = bodies_of(equation.code)
    for place in range(len(equation.code)):
        check_position(module, equation, around, place)
    steps, tokens = counts_of(equation, around)
    if not (steps <= equation.steps <= MOST_STEPS and tokens <= equation.tokens <= MOST_TOKENS):
        raise Rule("V16", 0)
    Pass(module, equation, around).check()


def verify(module):
    """Refuses a module whose code breaks a rule."""
    for number, equation in enumerate(module.equations):
        try:
            check_equation(module, equation)
        except Rule as rule:
            raise Refused(f"{rule.args[0]} equation {number} place {rule.args[1]}") from None
