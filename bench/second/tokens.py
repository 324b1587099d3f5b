"""Cuts bytes into tokens. A kind is NAME, NUM, STOP (the end), or the word or sign itself."""

from typing import Any, NamedTuple

from second.faults import CHARACTER, END, NUMBER, SYNTAX, Refused

MAX = 2**127 - 1

RESERVED = frozenset(
    "additive after and at atoms by char degree denominator domain field gave goal hom hyp if "
    "limit line minus no none nsatz over power proved range ring semiring step to up using var "
    "version zero".split()
)
SIGNS = (b"<>", b"->", b".", b":", b",", b"=", b"(", b")", b"+", b"-", b"*", b"/", b"^")

NAME, NUM, STOP = "name", "number", "end of input"


class Token(NamedTuple):
    kind: str
    at: int
    value: Any = None


def character(data, at):
    """The character at a byte of valid UTF-8, with its length in bytes."""
    lead = data[at]
    width = 1 if lead < 0x80 else 2 if lead < 0xE0 else 3 if lead < 0xF0 else 4
    return data[at : at + width].decode(), width


def begins_name(char):
    return char == "_" or char.isidentifier()


def continues_name(char):
    return char == "'" or ("a" + char).isidentifier()


def after_blanks(data, at):
    """The first byte from `at` on that is neither blank nor in a comment."""
    while at < len(data):
        if data[at] == ord("#"):
            line_end = data.find(b"\n", at)
            at = len(data) if line_end < 0 else line_end
        elif data[at] not in b" \t\r\n":
            break
        else:
            at += 1
    return at


def cut_name(data, at):
    stop = at
    while stop < len(data):
        char, width = character(data, stop)
        if not continues_name(char):
            break
        stop += width
    name = data[at:stop].decode()
    return (Token(name, at) if name in RESERVED else Token(NAME, at, name)), stop


def cut_number(data, at):
    stop = at
    while stop < len(data) and data[stop] in b"0123456789":
        stop += 1
    digits = data[at:stop].lstrip(b"0") or b"0"
    if len(digits) > len(str(MAX)) or int(digits) > MAX:
        raise Refused(NUMBER, at)
    return Token(NUM, at, int(digits)), stop


def cut(data, at):
    """The first token from `at` on, and where it stops."""
    at = after_blanks(data, at)
    if at == len(data):
        return Token(STOP, at), at
    if data[at] in b"0123456789":
        return cut_number(data, at)
    if begins_name(character(data, at)[0]):
        return cut_name(data, at)
    for sign in SIGNS:
        if data.startswith(sign, at):
            return Token(sign.decode(), at), at + len(sign)
    raise Refused(CHARACTER, at)


class TokenReader:
    """Takes tokens one after the other, with one token looked at ahead."""

    def __init__(self, data):
        self.data = data
        self.at = 0
        self.ahead = None

    def peek(self):
        if self.ahead is None:
            self.ahead, self.at = cut(self.data, self.at)
        return self.ahead

    def take(self, *kinds):
        token = self.peek()
        if token.kind not in kinds:
            raise Refused(END if token.kind == STOP else SYNTAX, token.at)
        self.ahead = None
        return token

    def take_if(self, kind):
        """Whether the next token is of this kind; it is taken then."""
        return self.peek().kind == kind and self.take(kind) is not None

    def take_value(self, value):
        """A numeral of just this value."""
        token = self.peek()
        if token.kind == NUM and token.value != value:
            raise Refused(SYNTAX, token.at)
        return self.take(NUM)
