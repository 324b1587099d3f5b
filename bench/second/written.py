"""Reads the answers, lines and steps that may follow a goal, as they are written."""

from typing import NamedTuple

from second.statements import DECLARED_BY, StatementReader
from second.terms import TermReader
from second.tokens import NUM, STOP, Token

ANSWERED_BY = ("proved", "no", "zero", "none", "gave", "range", "degree", "atoms")
AT_START, AFTER_GOAL, LINES, STEPS = (), ANSWERED_BY, ("line", "step"), ("step",)


class WrittenFactor(NamedTuple):
    """The names of an atom, the outermost first, and its exponent."""

    names: list
    exponent: int


class WrittenMonomial(NamedTuple):
    at: int
    factors: list


class Written(NamedTuple):
    """An answer, a line or a step: its form, and what stands in it by kinds, each in order.

    Counts are the numbers of lines, powers and counts, which have a limit of their own.
    """

    form: str
    at: int
    terms: list = []
    monomials: list = []
    counts: list = []
    numbers: list = []
    version: Token = None


class WrittenReader(StatementReader):
    """Reads the statements of an annotated file."""

    def read_at(self, place, version):
        """The next statement, or None at the end; a place is the words that may begin more."""
        if self.peek().kind == STOP:
            return None
        word = self.take(*DECLARED_BY, *place)
        if word.kind in DECLARED_BY:
            return self.read_declaration(word)
        return self.read_written(word, version)

    def read_written(self, word, version):
        if word.kind == "proved":
            return self.read_proved(word.at)
        if word.kind == "no":
            return self.read_no(word.at)
        if word.kind == "zero":
            self.take("denominator")
            return Written("zero denominator", word.at, terms=[TermReader(self, ".").read()[0]])
        if word.kind == "none":
            return self.read_count(word, "up", "to", "power")
        if word.kind == "gave":
            return self.read_count(word, "up", "after")
        if word.kind == "line":
            return self.read_line(word.at, version)
        if word.kind == "step":
            return self.read_step(word.at, version)
        self.take(".")
        return Written(word.kind, word.at)

    def read_count(self, first, *words):
        for word in words:
            self.take(word)
        count = self.take(NUM)
        self.take(".")
        return Written(" ".join([first.kind, *words]), first.at, counts=[count])

    def read_proved(self, at):
        token = self.take("if", "version", "power", ".")
        if token.kind in ("if", "."):
            return Written("proved", at, terms=self.read_conditions() if token.kind == "if" else [])
        version = None
        if token.kind == "version":
            version = self.take(NUM)
            self.take("power")
        power = self.take(NUM)
        constants = self.read_constants() if self.take("if", ".").kind == "if" else []
        return Written("proved power", at, counts=[power], numbers=constants, version=version)

    def read_conditions(self):
        terms = []
        while True:
            terms.append(TermReader(self, "<>").read()[0])
            self.take_value(0)
            if self.take(",", ".").kind == ".":
                return terms

    def read_constants(self):
        constants = []
        while True:
            constants.append(self.take(NUM).value)
            self.take("<>")
            self.take_value(0)
            if self.take(",", ".").kind == ".":
                return constants

    def read_no(self, at):
        self.take("at")
        monomial = self.read_monomial()
        self.take(":")
        left = self.read_int()
        self.take("and")
        right = self.read_int()
        self.take(".")
        return Written("no", at, monomials=[monomial], numbers=[left, right])

    def read_int(self):
        sign = -1 if self.take_if("-") else 1
        return sign * self.take(NUM).value

    def read_monomial(self):
        """A monomial that may be the number 1."""
        token = self.peek()
        if token.kind == NUM:
            self.take_value(1)
            return WrittenMonomial(token.at, [])
        return self.read_factors()

    def read_factors(self):
        at = self.peek().at
        factors = [self.read_factor()]
        while self.take_if("*"):
            factors.append(self.read_factor())
        return WrittenMonomial(at, factors)

    def read_factor(self):
        names = self.read_nested_names()
        return WrittenFactor(names, self.take(NUM).value if self.take_if("^") else 1)

    def read_line(self, at, version):
        first = self.take(NUM).value
        self.take(",")
        m = self.read_monomial_before_line(at, version)
        i = self.take(NUM)
        self.take("minus")
        second = self.read_int()
        self.take(",")
        n, j, divisor = self.read_second_part(at, version)
        return Written("line", at, [], [m, n], [i, j], [first, second, divisor])

    def read_step(self, at, version):
        first = self.take(NUM).value
        self.take("minus")
        second = self.read_int()
        self.take(",")
        n, j, divisor = self.read_second_part(at, version)
        return Written("step", at, [], [n], [j], [first, second, divisor])

    def read_monomial_before_line(self, at, version):
        """A monomial and its comma; in version 2 the monomial 1 is left out with its comma."""
        if version == 2 and self.peek().kind == NUM:
            return WrittenMonomial(at, [])
        monomial = self.read_factors() if version == 2 else self.read_monomial()
        self.take(",")
        return monomial

    def read_second_part(self, at, version):
        """The monomial, the line and the divisor at the end; in version 2 a divisor 1 is left out."""
        n = self.read_monomial_before_line(at, version)
        j = self.take(NUM)
        if self.take("over", *(["."] if version == 2 else [])).kind == ".":
            return n, j, 1
        divisor = self.take(NUM).value
        self.take(".")
        return n, j, divisor
