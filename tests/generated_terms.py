"""Data terms of models and texts from a generator: each a text, and a function from the values of its variables to its own.

Of tests/fuzzing_models.py. What a term means was written anew from docs/MANUAL.md, "The text language"."""

# The sorts with their values: an enumeration, aliases with ranges of their own, one of them of a single number.
VALUES = {"Bool": (False, True), "Nat": (0, 1, 2), "Small": (-1, 0, 1), "One": (1,), "D": ("a", "c")}
KIND = {"Bool": "bool", "Nat": "int", "Small": "int", "One": "int", "D": "letter"}
DECLARATIONS = "%range Nat 0 2\nsort D = struct a?is_a | c; Small = Int; One = Int;\n%range Small -1 1\n%range One 1 1\n"
BINARY = (
    ("{} + {}", lambda x, y: x + y),
    ("{} - {}", lambda x, y: x - y),
    ("{} * {}", lambda x, y: x * y),
    ("max({}, {})", max),
    ("min({}, {})", min),
)
UNARY = (
    ("-{}", lambda x: -x),
    ("abs({})", abs),
    ("succ({})", lambda x: x + 1),
    ("pred({})", lambda x: x - 1),
    ("{} div 2", lambda x: x // 2),
    ("{} mod 3", lambda x: x % 3),
)
COMPARED = (("{} < {}", lambda x, y: x < y), ("{} <= {}", lambda x, y: x <= y), ("{} == {}", lambda x, y: x == y), ("{} != {}", lambda x, y: x != y))
JOINED = (("{} && {}", lambda x, y: x and y), ("{} || {}", lambda x, y: x or y), ("{} => {}", lambda x, y: not x or y))


class Terms:
    """Makes data terms: a text, and a function from the values of its variables. Below another operator a term stands in brackets."""

    def __init__(self, generator, quantifiers):
        self.generator, self.quantifiers = generator, quantifiers

    def variables(self, scope, kind):
        """The variables of a kind, and of letters the enumerators that no variable hides."""
        found = [(name, lambda values, name=name: values[name]) for name, sort in scope.items() if KIND[sort] == kind]
        letters = [letter for letter in VALUES["D"] if kind == "letter" and letter not in scope]
        return found + [(letter, lambda values, letter=letter: letter) for letter in letters]

    def term(self, scope, kind, depth, may_quantify=False):
        """A term over these variables. Quantifiers stand in tests alone, and there below connectives and quantifiers."""
        choose = self.generator.below
        known = self.variables(scope, kind)
        if depth == 0 or choose(4) == 0:
            if known and choose(5):
                return self.generator.one_of(known)
            value = self.generator.one_of({"bool": (True, False), "int": (0, 1, 2), "letter": VALUES["D"]}[kind])
            # A letter that a variable hides can't be named: any term of its kind stands for it.
            return (known or [None])[0] if kind == "letter" and value in scope else (str(value).lower(), lambda values: value)
        if kind == "letter" or choose(6) == 0:
            return self.applied("if({}, {}, {})", lambda c, x, y: x if c else y, scope, ("bool", kind, kind), depth)
        if kind == "int":
            form, value = self.generator.one_of(BINARY + UNARY)
            return self.applied(form, value, scope, ("int",) * form.count("{}"), depth)
        if self.quantifiers and may_quantify and choose(3) == 0:
            return self.quantified(scope, depth)
        if choose(2):
            return self.applied(*self.generator.one_of(COMPARED), scope, ("int", "int"), depth)
        if choose(2):
            return self.applied(*self.generator.one_of(JOINED), scope, ("bool", "bool"), depth, may_quantify)
        form, value, kinds = self.generator.one_of(
            (
                ("!{}", lambda x: not x, ("bool",)),
                ("is_a({})", lambda x: x == "a", ("letter",)),
                ("{} == {}", lambda x, y: x == y, ("letter", "letter")),
                ("{} != {}", lambda x, y: x != y, ("bool", "bool")),
            )
        )
        return self.applied(form, value, scope, kinds, depth)

    def applied(self, form, value, scope, kinds, depth, may_quantify=False):
        parts = [self.term(scope, kind, depth - 1, may_quantify) for kind in kinds]
        function = "({}" in form
        texts = [text if function or text.isalnum() else f"({text})" for text, _ in parts]
        return form.format(*texts), lambda values: value(*(part(values) for _, part in parts))

    def quantified(self, scope, depth):
        """A quantifier, whose variable may hide another, or an enumerator."""
        word, value = self.generator.one_of((("forall", all), ("exists", any)))
        name, sort = self.generator.one_of(("k", "n", "d", "a")), self.generator.one_of(tuple(VALUES))
        text, part = self.term({**scope, name: sort}, "bool", depth - 1, True)
        return f"{word} {name}: {sort} . {text}", lambda values: value(part({**values, name: it}) for it in VALUES[sort])
