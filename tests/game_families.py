"""Families of texts whose games are hard for solvers that look at the same vertices again and again: bench/hard times them at four sizes, and
growth.py counts at two small ones that none of them grows faster than it should.

Layers are countdowns that may idle: each layer is a cycle of its own, so that a turn of Zielonka's recursion (1998) takes one of them. With `back` the
winner may go back to the start at its own cost, so that all layers are one strongly connected component."""
from generator import Generator


def counting_down(n, back=False):
    """The shortest layers: three lines, two priorities."""
    more = f" && X({n})" if back else ""
    return f"%range Int 0 {n}\npbes nu X(n: Int) = Y(n){more}; mu Y(n: Int) = Y(n) || X(n - 1);\ninit X({n});\n"


def stays_at_last(n, back=False):
    """`<> [] p` of a countdown of two steps that may idle before the first of them."""
    more = f" || X({n}, false)" if back else ""
    return (
        f"%range Nat 0 {n}\npbes mu X(n: Nat, b: Bool) = Y(n, b){more};\n"
        "nu Y(n: Nat, b: Bool) = (val(!b) => Z(n, b)) && (val(!b && n > 0) => Z(n, true)) && (val(b) => Z(n - 1, false));\n"
        f"nu Z(n: Nat, b: Bool) = Y(n, b) && (!val(b) || X(n, b)); init X({n}, false);\n"
    )


def ticks_end(n, back=False):
    more = f" || X({n})" if back else ""
    return f"%range Nat 0 {n}\npbes mu X(n: Nat) = Y(n){more}; nu Y(n: Nat) = (val(n > 0) => X(n - 1)) && Y(n);\ninit X({n});\n"


def some_path_ticks(n, back=False):
    more = f" && X({n})" if back else ""
    return f"%range Nat 0 {n}\npbes nu X(n: Nat) = Y(n){more}; mu Y(n: Nat) = (val(n > 0) && X(n - 1)) || Y(n);\ninit X({n});\n"


def budget(n, back=False):
    """A budget of messages over a lossy channel of one place."""
    more = f" || X({n}, empty)" if back else ""
    return (
        f"%range Nat 0 {n}\nsort C = struct empty | full;\npbes mu X(b: Nat, c: C) = Y(b, c){more};\n"
        "nu Y(b: Nat, c: C) = (val(b > 0 && c == empty) => X(b - 1, full)) && (val(c == full) => Y(b, empty)) && Y(b, c);\n"
        f"init X({n}, empty);\n"
    )


def nested_countdowns(n, back=False):
    """Two countdowns, of which the inner one, of ten, begins again with each step of the outer one: four priorities."""
    outer = max(n // 10, 1)
    more = f" || A({outer})" if back else ""
    return (
        f"%range Int 0 {outer}\nsort S = Int;\n%range S 0 9\npbes nu A(m: Int) = B(m, 9){more};\nmu B(m: Int, s: S) = C(m, s);\n"
        "nu C(m: Int, s: S) = D(m, s);\nmu D(m: Int, s: S) = D(m, s) || C(m, s - 1) || (val(s == 0) && A(m - 1)) || B(m, s);\n"
        f"init A({outer});\n"
    )


def retries(n, back=False):
    """A response with a budget of retries, under an assumption of fairness."""
    more = f" || X({n})" if back else ""
    return (
        f"%range Nat 0 {n}\npbes nu X(n: Nat) = Z(n) && (val(n > 0) => X(n - 1));\nmu Z(n: Nat) = W(n){more};\n"
        f"nu W(n: Nat) = (val(n > 0) => Z(n - 1)) && W(n) && V(n);\nnu V(n: Nat) = (val(n > 0) => Z(n - 1)) && V(n); init X({n});\n"
    )


def two_countdowns(n, back=False):
    """Layers of both players side by side: each turn of the one solved the other anew, so that time was cubic."""
    first, second = (f" && X({n}) && P({n})", f" || P({n}) || X({n})") if back else ("", "")
    return (
        f"%range Int 0 {n}\npbes nu Z = X({n}) || P({n});\nnu X(n: Int) = Y(n){first}; mu Y(n: Int) = Y(n) || X(n - 1);\n"
        f"mu P(n: Int) = Q(n){second}; nu Q(n: Int) = Q(n) && (val(n == 0) || P(n - 1)); init Z;\n"
    )


def wide_candidate(n):
    """A vertex of many successors, each of which is conceded in another turn."""
    return f"%range Int 0 {n}\npbes nu Z = forall n: Int . X(n);\nnu X(n: Int) = Y(n); mu Y(n: Int) = Y(n) || X(n - 1);\ninit Z;\n"


def wide_candidates(n):
    """Several such vertices in a row."""
    return (
        f"%range Int 0 {n}\nsort M = Int;\n%range M 0 7\npbes nu Z = X({n}) || V(0);\nnu X(n: Int) = Y(n); mu Y(n: Int) = Y(n) || X(n - 1);\n"
        "mu V(j: M) = V(j) || (val(j < 7) && V(j + 1)) || (exists n: Int . X(n)); init Z;\n"
    )


def hub(n, back=False):
    """A front that hangs on one vertex, whose choice is conceded in each turn."""
    more = f" && V({n})" if back else ""
    return (
        f"%range Int 0 {n}\npbes nu Z = X({n}) || V({n});\nnu X(n: Int) = Y(n){more}; mu Y(n: Int) = Y(n) || X(n - 1);\n"
        "mu V(n: Int) = (val(n == 0) && H) || V(n - 1);\nmu H = exists n: Int . X(n); init Z;\n"
    )


def hub_of_a_path(n, back=False):
    """The same behind a path, along which it chooses."""
    more = f" && V({n})" if back else ""
    return (
        f"%range Int 0 {n}\npbes nu Z = X({n}) || V({n});\nnu X(n: Int) = Y(n){more}; mu Y(n: Int) = Y(n) || X(n - 1);\n"
        "mu V(n: Int) = (val(n == 0) && P(0)) || V(n - 1);\nmu P(n: Int) = X(n) || P(n + 1); init Z;\n"
    )


def ladders(rungs, beside=1, back=False):
    """Ladders side by side, on whose rungs Zielonka's recursion is exponential by itself: 1.6 times as many calls for each rung."""
    parts = []
    for k in range(rungs):
        above, below = max(k - 1, 0), min(k + 1, rungs - 1)
        first, second, either, both = ("mu", "nu", "||", "&&") if k % 2 == 0 else ("nu", "mu", "&&", "||")
        onward = f"A0(if(n < {beside - 1}, n + 1, 0))" if back else f"(val(n < {beside - 1}) && A0(n + 1))"
        more = f" || {onward}" if k == 0 else ""
        parts.append(f"{first} A{k}(n: Int) = A{below}(n) {either} B{k}(n){more};\n{second} B{k}(n: Int) = A{above}(n) {both} B{k}(n);\n")
    return f"%range Int 0 {beside - 1}\npbes {''.join(parts)}init A0(0);\n"


def blocks(count):
    """Small components side by side, each of 63 vertices with as many priorities and two successors drawn at random."""
    generator, equations = Generator(8), ""
    for k in range(63):
        left, right, joined = generator.below(63), generator.below(63), generator.one_of(("&&", "||"))
        equations += f"{'mu' if k % 2 == 0 else 'nu'} X{k}(n: Int) = X{left}(n) {joined} X{right}(n);\n"
    return f"%range Int 0 {count - 1}\npbes nu Z = forall n: Int . X0(n);\n{equations}init Z;\n"


def counters(size):
    """Two counters with a step each, on which a safety property holds everywhere: what lifts the loser's words by ones takes squares of it."""
    return (
        f"sort A = Nat;\n%range A 0 {size - 1}\n%range Nat 0 15\n"
        f"pbes nu X(a: A, b: Nat) = val(a != {size}) && X((a + 1) mod {size}, b) && X(a, (b + 1) mod 16); init X(0, 0);\n"
    )


def sinks(size):
    """Eight equations without a cycle, of which only the sinks of the game climb, through a product of all priorities."""
    equations = "".join(f"{'mu' if k % 2 else 'nu'} X{k}(n: Int) = {f'X{k + 1}(n)' if k < 7 else 'val(n >= 0)'};\n" for k in range(1, 8))
    return f"%range Int 0 {size - 1}\npbes nu X0(n: Int) = forall m: Int . X1(m);\n{equations}init X0(0);\n"


LIFT = ("--solver", "lift")
LAYERS = (
    (counting_down, 100, 25_000),
    (stays_at_last, 50, 25_000),
    (ticks_end, 100, 25_000),
    (some_path_ticks, 100, 25_000),
    (budget, 100, 25_000),
    (nested_countdowns, 100, 25_000),
    (retries, 60, 25_000),
    (two_countdowns, 50, 25_000),
    (hub, 80, 12_000),
)
# The name of each, the family, the size at which turns of loops are counted first (none where they aren't), the least of the four at which it is timed, and
# options of the program.
GAMES = (
    *(
        (f"{family.__name__.replace('_', ' ')}{', back' if back else ''}", lambda n, family=family, back=back: family(n, back), small, least, ())
        for family, small, least in LAYERS
        for back in (False, True)
    ),
    # Squares as long as they are within the first search's budget, which they leave above some thousand vertices alone.
    ("hub of a path", hub_of_a_path, None, 25_000, ()),
    ("wide candidate", wide_candidate, 100, 12_000, ()),
    ("wide candidates", wide_candidates, 60, 12_000, ()),
    ("ladder of so many rungs", ladders, 16, 4, ()),
    ("ladders of 32 rungs, so many", lambda n: ladders(32, n), 1, 512, ()),
    ("ladders of 32 rungs, so many, back", lambda n: ladders(32, n, True), 1, 512, ()),
    ("blocks", blocks, 16, 2_000, ()),
    ("counters, lifted", counters, 32, 512, LIFT),
    ("sinks, lifted", sinks, 20, 250, LIFT),
)
# What no solver here does in linear time: the path idles by no cycle of one vertex.
QUADRATIC = (("hub of a path, back", lambda n: hub_of_a_path(n, True), None, 1_000, ()),)
