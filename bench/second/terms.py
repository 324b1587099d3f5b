"""Reads terms. A term is the list of its nodes in postorder."""

from typing import Any, NamedTuple

from second.faults import NESTING, Refused
from second.tokens import NAME, NUM

MAX_OPEN = 200


class Node(NamedTuple):
    op: str
    at: int
    value: Any = None


PARTS = {"var": 0, "int": 0, "neg": 1, "^": 1, "hom": 1, "+": 2, "-": 2, "*": 2, "/": 2}
BINDS = {"+": 1, "-": 1, "*": 2, "/": 2, "neg": 3}


def fold(nodes, step):
    """The value of a term, where `step` gives the value of a node from those of its parts."""
    values = []
    for node in nodes:
        first = len(values) - PARTS[node.op]
        parts = values[first:]
        del values[first:]
        values.append(step(node, *parts))
    return values.pop()


class TermReader:
    """Reads one sum: operators and parentheses wait until their right ends are known."""

    def __init__(self, tokens, *ends):
        self.tokens = tokens
        self.ends = ends
        self.nodes = []
        self.waiting = []
        self.open = 0

    def read(self):
        """The nodes of the sum, and the token that ends it."""
        while True:
            self.read_operand()
            token = self.read_after_operand()
            if token.kind in self.ends:
                return self.nodes, token

    def read_operand(self):
        while True:
            token = self.tokens.take(NUM, NAME, "(", "-")
            if token.kind == "-":
                self.waiting.append(Node("neg", token.at))
            elif token.kind == "(":
                self.open_parenthesis(token, None)
            elif token.kind == NAME and self.tokens.peek().kind == "(":
                image = Node("hom", token.at, token.value)
                self.open_parenthesis(self.tokens.take("("), image)
            else:
                op = "int" if token.kind == NUM else "var"
                self.nodes.append(Node(op, token.at, token.value))
                return

    def open_parenthesis(self, token, image):
        if self.open == MAX_OPEN:
            raise Refused(NESTING, token.at)
        self.open += 1
        self.waiting.append(Node("(", token.at, image))

    def read_after_operand(self):
        """Goes on to the next operator of two parts, or to the end."""
        exponents = ["^"]
        while True:
            closing = [")"] if self.open else self.ends
            token = self.tokens.take("+", "-", "*", "/", *closing, *exponents)
            if token.kind == "^":
                exponent = self.tokens.take(NUM)
                self.nodes.append(Node("^", token.at, exponent))
                exponents = []
            elif token.kind == ")":
                self.close_parenthesis()
                exponents = ["^"]
            else:
                self.place_waiting(BINDS.get(token.kind, 0))
                if token.kind not in self.ends:
                    self.waiting.append(Node(token.kind, token.at))
                return token

    def place_waiting(self, level):
        """Places what binds at least so strongly, back to the last open parenthesis."""
        while self.waiting and BINDS.get(self.waiting[-1].op, -1) >= level:
            self.nodes.append(self.waiting.pop())

    def close_parenthesis(self):
        self.place_waiting(0)
        image = self.waiting.pop().value
        self.open -= 1
        if image is not None:
            self.nodes.append(image)
