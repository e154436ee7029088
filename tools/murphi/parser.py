"""Reads Murphi's texts. What a model can't have is refused at its place."""
import re

from murphi.trees import BOOLEAN, Alias, Array, Assert, Assign, Call, Clear, For, If, Program, Record, Return, Routine, Rule, Simple
from opinions.terms import FALSE, TRUE, Fault, Term, folded, place_in, value_of

TOKEN = re.compile(r'\s+|--[^\n]*|/\*.*?\*/|([A-Za-z_]\w*|\d+|"[^"\n]*"|:=|==>|->|\.\.|[!<>=]=|&&|\|\||.)', re.S)
KEYWORDS = set("""alias array assert assume begin boolean by case clear const cover do else elsif elseif end endalias endexists endfor endforall endfunction endif
    endprocedure endrecord endrule endruleset endstartstate endswitch endwhile enum error exists false for forall function if in invariant isundefined
    liveness multiset of procedure process put record return rule ruleset scalarset startstate switch then to true type undefine union var while""".split())
# Operators by how tight they bind, the loosest first; negation binds between connectives and comparisons.
LEVELS = [{"->": "=>"}, {"|": "||", "||": "||"}, {"&": "&&", "&&": "&&"},
          {"=": "==", "==": "==", "!=": "!=", "<": "<", "<=": "<=", ">": ">", ">=": ">="}, {"+": "+", "-": "-"}, {"*": "*", "/": "div", "%": "mod"}]
IMPLIES, COMPARES = 0, 3
UNREAD = {"while": "a loop whose number of rounds isn't fixed", "union": "a union", "multiset": "a multiset", "assume": "an assumption", "process": "a process"}


class Parser:
    """The tokens of a text from the current one on."""

    def __init__(self, text):
        tokens = [token for token in TOKEN.finditer(text) if token[1]]
        self.tokens = [token[1].lower() if token[1].lower() in KEYWORDS else token[1] for token in tokens] + [""]
        self.places, self.at = [place_in(text, token.start()) for token in tokens] + [place_in(text, len(text))], 0
        self.constants, self.program = {}, Program()

    # ---- tokens

    @property
    def token(self):
        return self.tokens[self.at]

    @property
    def place(self):
        return self.places[self.at]

    def refuse(self, words):
        raise Fault(words, self.place)

    def take(self, *expected):
        if expected and self.token not in expected:
            self.refuse(f"{' or '.join(map(repr, expected))} is expected here, not {self.token or 'the end'!r}")
        self.at += 1
        return self.tokens[self.at - 1]

    def taken(self, *words):
        return self.take() if self.token in words else None

    def name(self):
        if not re.fullmatch(r"[A-Za-z_]\w*", self.token) or self.token in KEYWORDS:
            self.refuse(f"a name is expected here, not {self.token or 'the end'!r}")
        return self.take()

    def text(self):
        return self.take().strip('"') if self.token.startswith('"') else ""

    # ---- declarations

    def parse(self):
        """The whole text."""
        while self.token:
            if self.token in ("function", "procedure"):
                self.routine(self.take())
            elif not self.declarations(self.program.variables):
                self.rule(())
            self.taken(";")
        return self.program

    def declarations(self, variables):
        """Constants, types and variables, these into the given ones; whether there were any."""
        result = False
        while word := self.taken("const", "type", "var"):
            result = True
            while re.fullmatch(r"[A-Za-z_]\w*", self.token) and self.token not in KEYWORDS:
                {"const": self.constant, "type": self.type_declaration, "var": lambda: self.variable_declaration(variables)}[word]()
                self.take(";")
        return result

    def constant(self):
        name = self.name()
        self.take(":")
        self.constants[name] = self.number()

    def type_declaration(self):
        name = self.name()
        self.take(":")
        self.program.types[name] = self.type(name)

    def variable_declaration(self, variables):
        names = [self.name()]
        while self.taken(","):
            names.append(self.name())
        self.take(":")
        kind = self.type(f"{names[0]}_values")
        for name in names:
            if name in variables:
                self.refuse(f"{name} is declared twice")
            variables[name] = kind

    def number(self):
        """The number that an expression of constants is."""
        place, result = self.place, folded(self.sum())
        if not result.is_value() or type(result.parts[0]) is not int:
            raise Fault("a number is expected here, or constants", place)
        return result.parts[0]

    def type(self, name):
        """A type; one without a name of its own has this one, after its variable."""
        word = self.token
        if word in UNREAD:
            self.refuse(f"{UNREAD[word]} isn't read: a model has no such sort")
        if self.taken("boolean"):
            return BOOLEAN
        if self.taken("enum"):
            return self.enumeration(name)
        if self.taken("record"):
            return self.record(name)
        if self.taken("array"):
            self.take("[")
            index = self.simple(f"{name}_index")
            self.take("]")
            self.take("of")
            return Array(index, self.type(name))
        if self.taken("scalarset"):
            self.take("(")
            size = self.number()
            self.take(")")
            return Simple(name, range(1, size + 1))
        if word in self.program.types:
            return self.program.types[self.take()]
        return self.range(name)

    def simple(self, name):
        place, result = self.place, self.type(name)
        if not isinstance(result, Simple):
            raise Fault("a range or an enumeration is expected here", place)
        return result

    def range(self, name):
        place, low = self.place, self.number()
        self.take("..")
        high = self.number()
        if high < low:
            raise Fault(f"the range {low} .. {high} is empty", place)
        return Simple(name, range(low, high + 1))

    def enumeration(self, name):
        self.take("{")
        values = [self.name()]
        while self.taken(","):
            values.append(self.name())
        self.take("}")
        result = Simple(name, tuple(values))
        self.program.enumerators.update({value: result for value in values})
        return result

    def record(self, name):
        fields = []
        while not self.taken("end", "endrecord"):
            names = [self.name()]
            while self.taken(","):
                names.append(self.name())
            self.take(":")
            kind = self.type(f"{name}_{names[0]}")
            fields += [(it, kind) for it in names]
            self.taken(";")
        return Record(tuple(fields))

    def routine(self, word):
        """A function or a procedure."""
        name, parameters, variables = self.name(), [], {}
        self.take("(")
        while not self.taken(")"):
            is_variable, names = bool(self.taken("var")), [self.name()]
            while self.taken(","):
                names.append(self.name())
            self.take(":")
            kind = self.type(names[0])
            parameters += [(it, kind, is_variable) for it in names]
            self.taken(";")
        if word == "function":
            self.take(":")
            self.type(name)
        self.take(";")
        self.declarations(variables)
        self.taken("begin")
        self.program.routines[name] = Routine(tuple(parameters), variables, self.statements("end", f"end{word}"))

    # ---- rules

    def rule(self, around):
        place, word = self.place, self.token
        if word in UNREAD:
            self.refuse(f"{UNREAD[word]} isn't read")
        self.take("rule", "startstate", "ruleset", "alias", "invariant", "assert", "cover", "liveness")
        if word in ("ruleset", "alias"):
            around += self.surroundings(word)
            while not self.taken("end", f"end{word}"):
                self.rule(around)
                self.taken(";")
            return
        name = self.text()
        if word in ("rule", "startstate"):
            test = self.guard() if word == "rule" else TRUE
            variables = {}
            self.declarations(variables)
            self.taken("begin")
            self.program.rules.append(Rule(word, name, around, test, variables, self.statements("end", f"end{word}"), place))
        else:
            self.program.rules.append(Rule("invariant" if word == "assert" else word, name, around, self.expression(), {}, [], place))

    def surroundings(self, word):
        """What a ruleset or an alias declares: its names with types or with expressions."""
        result = []
        while not result or self.taken(";") and self.token != "do":
            name = self.name()
            result.append((name, self.values(name)) if word == "ruleset" else (name, self.aliased()))
        self.take("do")
        return tuple(result)

    def arguments(self):
        result = []
        while not self.taken(")"):
            result.append(self.expression())
            if self.token != ")":
                self.take(",")
        return result

    def aliased(self):
        self.take(":")
        return self.expression()

    def values(self, name):
        """The values of a quantifier's variable: of a type, or between bounds."""
        if self.taken(":"):
            return self.simple(f"{name}_values")
        place = self.place
        self.take(":=")
        low = self.number()
        self.take("to")
        high = self.number()
        step = self.number() if self.taken("by") else 1
        if not step or not range(low, high + (1 if step > 0 else -1), step):
            raise Fault("there are no such values", place)
        return Simple(f"{name}_values", range(low, high + (1 if step > 0 else -1), step))

    def guard(self):
        """A rule's guard, if it has one: then `==>` is before anything that only bodies and other rules have."""
        for token in self.tokens[self.at:]:
            if token in ("==>", "begin", "var", "rule", "ruleset", "startstate", "alias", "invariant", "assert", "cover", "liveness", ""):
                break
        if token != "==>":
            return TRUE
        result = self.expression()
        self.take("==>")
        return result

    # ---- statements

    def statements(self, *ends):
        """The statements up to one of these words, which is taken."""
        result = []
        while not self.taken(*ends):
            if not self.taken(";"):
                result += self.statement()
                if self.token not in ends:
                    self.take(";")
        return result

    def statement(self):
        word = self.token
        if word in UNREAD:
            self.refuse(f"{UNREAD[word]} isn't read")
        reader = {"if": self.branches, "for": self.loop, "switch": self.switch, "alias": self.alias, "clear": self.clear, "undefine": self.clear,
                  "assert": self.assertion, "error": self.assertion, "put": self.put, "return": self.leave}.get(word)
        if reader:
            self.take()
            return reader(word)
        if word in KEYWORDS:
            self.refuse(f"a statement is expected here, not {word!r}")
        target = self.designator()
        if target.mark == "invoke":
            return [Call(target)]
        self.take(":=")
        return [Assign(target, self.expression())]

    def leave(self, _):
        return [Return(None if self.token in (";", "end", "endif", "endfunction", "endprocedure") else self.expression())]

    def branches(self, _):
        result = []
        while True:
            test = self.expression()
            self.take("then")
            result.append((test, self.statements("elsif", "elseif", "else", "end", "endif")))
            if self.tokens[self.at - 1] == "else":
                result.append((TRUE, self.statements("end", "endif")))
            if self.tokens[self.at - 1] in ("end", "endif"):
                return [If(result)]

    def loop(self, _):
        variable = self.name()
        values = self.values(variable)
        self.take("do")
        return [For(variable, values, self.statements("end", "endfor"))]

    def switch(self, _):
        """A switch, as conditions one after another."""
        chosen, branches = self.expression(), []
        while self.taken("case"):
            values = [self.expression()]
            while self.taken(","):
                values.append(self.expression())
            self.take(":")
            test = Term("==", (chosen, values[0]), values[0].place)
            for value in values[1:]:
                test = Term("||", (test, Term("==", (chosen, value), value.place)))
            branches.append((test, self.case_body()))
        if self.taken("else"):
            branches.append((TRUE, self.case_body()))
        self.take("end", "endswitch")
        return [If(branches)] if branches else []

    def case_body(self):
        result = []
        while self.token not in ("case", "else", "end", "endswitch"):
            result += self.statement()
            if self.token not in ("case", "else", "end", "endswitch"):
                self.take(";")
        return result

    def alias(self, _):
        names = []
        while not names or self.taken(";") and self.token != "do":
            names.append((self.name(), self.aliased()))
        self.take("do")
        return [Alias(names, self.statements("end", "endalias"))]

    def clear(self, word):
        return [Clear(self.designator(), word == "undefine")]

    def assertion(self, word):
        words = self.text()
        test = FALSE if word == "error" else self.expression()
        return [Assert(test, words or self.text())]

    def put(self, _):
        if not self.text():
            self.expression()
        return []

    # ---- expressions

    def expression(self):
        test = self.binary(0)
        if not self.taken("?"):
            return test
        x = self.expression()
        self.take(":")
        return Term("call", ("if", test, x, self.expression()), test.place)

    def sum(self):
        return self.binary(COMPARES + 1)

    def binary(self, level):
        if level == COMPARES and self.token == "!":
            place = self.place
            self.take()
            return Term("!", (self.binary(level),), place)
        if level == len(LEVELS):
            return self.operand()
        result = self.binary(level + 1)
        while mark := LEVELS[level].get(self.token):
            self.take()
            result = Term(mark, (result, self.binary(level if level == IMPLIES else level + 1)), result.place)
            if level == COMPARES and self.token in LEVELS[level]:
                self.refuse("comparisons aren't chained: brackets are expected")
        return result

    def operand(self):
        place, word = self.place, self.token
        if self.taken("("):
            result = self.expression()
            self.take(")")
            return result
        if self.taken("-"):
            return Term("-", (self.operand(),), place)
        if self.taken("!"):
            return Term("!", (self.operand(),), place)
        if self.taken("true", "false"):
            return Term("value", (word == "true",), place)
        if word.isdigit():
            return Term("value", (int(self.take()),), place)
        if self.taken("forall", "exists"):
            variable = self.name()
            values = self.values(variable)
            self.take("do")
            body = self.expression()
            self.take("end", f"end{word}")
            return Term(word, (((variable, values),), body), place)
        if self.taken("isundefined"):
            self.take("(")
            result = self.designator()
            self.take(")")
            return Term("isundefined", (result,), place)
        return self.designator()

    def designator(self):
        """A name, with fields and indices, or a call."""
        place, word = self.place, self.name()
        if word in self.constants:
            return value_of(self.constants[word])
        if self.taken("("):
            return Term("invoke", (word, *self.arguments()), place)
        result = Term("name", (word,), place)
        while mark := self.taken(".", "["):
            if mark == ".":
                result = Term("field", (result, self.name()), place)
            else:
                result = Term("index", (result, self.expression()), place)
                self.take("]")
        return result
