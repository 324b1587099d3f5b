"""Reads statements one after the other, each to its end or to its first fault."""

from typing import NamedTuple

from second.faults import NESTING, Refused
from second.terms import MAX_OPEN, TermReader
from second.tokens import NAME, NUM, STOP, Token, TokenReader


class SortStatement(NamedTuple):
    kind: str
    name: Token
    char0: bool


class HomStatement(NamedTuple):
    name: Token
    source: Token
    target: Token


class VarStatement(NamedTuple):
    names: list
    sort: Token


class HypStatement(NamedTuple):
    name: Token
    left: list
    relation: int
    right: list
    nonzero: bool


class MethodStatement(NamedTuple):
    """A use is the list of its names, the outermost first. An option may be None."""

    kind: str
    at: int
    uses: list
    power: Token
    limit: Token


class GoalStatement(NamedTuple):
    left: list
    relation: int
    right: list
    method: MethodStatement


DECLARED_BY = ("ring", "domain", "field", "hom", "var", "hyp", "goal")


class StatementReader(TokenReader):
    """Reads declarations and goals."""

    def read(self):
        """The next statement, or None at the end of the input."""
        if self.peek().kind == STOP:
            return None
        return self.read_declaration(self.take(*DECLARED_BY))

    def read_declaration(self, word):
        if word.kind == "hom":
            return self.read_hom()
        if word.kind == "var":
            return self.read_var()
        if word.kind == "hyp":
            return self.read_hyp()
        if word.kind == "goal":
            return self.read_goal()
        return self.read_sort(word.kind)

    def read_sort(self, kind):
        name = self.take(NAME)
        char0 = self.take(".", *([] if kind == "ring" else ["char"])).kind == "char"
        if char0:
            self.take_value(0)
            self.take(".")
        return SortStatement(kind, name, char0)

    def read_hom(self):
        name = self.take(NAME)
        self.take(":")
        source = self.take(NAME)
        self.take("->")
        target = self.take(NAME)
        self.take(".")
        return HomStatement(name, source, target)

    def read_var(self):
        names = [self.take(NAME)]
        while (token := self.take(NAME, ":")).kind == NAME:
            names.append(token)
        sort = self.take(NAME)
        self.take(".")
        return VarStatement(names, sort)

    def read_hyp(self):
        name = self.take(NAME)
        self.take(":")
        left, relation = TermReader(self, "=", "<>").read()
        right, _ = TermReader(self, ".").read()
        return HypStatement(name, left, relation.at, right, relation.kind == "<>")

    def read_goal(self):
        left, relation = TermReader(self, "=").read()
        right, _ = TermReader(self, "by").read()
        word = self.take("ring", "field", "nsatz")
        return GoalStatement(left, relation.at, right, self.read_method(word))

    def read_method(self, word):
        if word.kind == "nsatz":
            return self.read_options(word)
        self.take(".")
        return MethodStatement(word.kind, word.at, [], None, None)

    def read_options(self, word):
        """What follows the word `nsatz`, to the end of the statement."""
        uses, power, limit = [], None, None
        token = self.take("using", "power", "limit", ".")
        if token.kind == "using":
            uses, token = self.read_uses()
        if token.kind == "power":
            power = self.take(NUM)
            token = self.take("limit", ".")
        if token.kind == "limit":
            limit = self.take(NUM)
            self.take(".")
        return MethodStatement(word.kind, word.at, uses, power, limit)

    def read_uses(self):
        """The uses, and the token that ends them."""
        uses = [self.read_nested_names()]
        while (token := self.take(",", "power", "limit", ".")).kind == ",":
            uses.append(self.read_nested_names())
        return uses, token

    def read_nested_names(self):
        """The names of a use or of an atom, the outermost first."""
        names = [self.take(NAME)]
        while self.peek().kind == "(":
            if len(names) > MAX_OPEN:
                raise Refused(NESTING, self.peek().at)
            self.take("(")
            names.append(self.take(NAME))
        for _ in names[1:]:
            self.take(")")
        return names
