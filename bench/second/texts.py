"""The canonical text of statements, terms, monomials and answers."""

from second.answers import Certified, No, Proved, Stopped, Zero, numbering
from second.files import Hom, Hyp, Sort, Vars
from second.monomials import ONE, Order
from second.search import NoneUpTo
from second.terms import fold

# A term's text comes with its level: sums 1, products 2, negations 3, powers 4, else 5.

LEVEL = {"+": 1, "-": 1, "*": 2, "/": 2, "neg": 3, "^": 4, "var": 5, "int": 5, "hom": 5}
WANTED = {"+": (1, 2), "-": (1, 2), "*": (2, 3), "/": (2, 3), "neg": (3,), "^": (5,), "hom": (1,)}
FORM = {"+": "{} + {}", "-": "{} - {}", "*": "{}*{}", "/": "{}/{}", "neg": "-{}"}


def text_step(node, *parts):
    wanted = WANTED.get(node.op, ())
    texts = [text if level >= w else f"({text})" for (text, level), w in zip(parts, wanted)]
    if node.op in FORM:
        text = FORM[node.op].format(*texts)
    elif node.op == "^":
        text = f"{texts[0]}^{node.value.value}"
    elif node.op == "hom":
        text = f"{node.value}({texts[0]})"
    else:
        text = str(node.value)
    return text, LEVEL[node.op]


def term_text(nodes):
    return fold(nodes, text_step)[0]


def path_text(path, name):
    return "".join(f"{hom}(" for hom in path) + name + ")" * len(path)


def power_text(atom, exponent):
    text = path_text(*atom)
    return text if exponent == 1 else f"{text}^{exponent}"


def statement_text(statement):
    if isinstance(statement, Sort):
        return f"{statement.kind} {statement.name}{' char 0' if statement.char0 else ''}.\n"
    if isinstance(statement, Hom):
        return f"hom {statement.name} : {statement.source} -> {statement.target}.\n"
    if isinstance(statement, Vars):
        return f"var {' '.join(statement.names)} : {statement.sort}.\n"
    if isinstance(statement, Hyp):
        relation = "<>" if statement.nonzero else "="
        sides = f"{term_text(statement.left)} {relation} {term_text(statement.right)}"
        return f"hyp {statement.name} : {sides}.\n"
    sides = f"{term_text(statement.left)} = {term_text(statement.right)}"
    return f"goal {sides} by {method_text(statement)}.\n"


def method_text(goal):
    if goal.method != "nsatz":
        return goal.method
    uses = ", ".join(path_text(path, hyp.name) for path, hyp in goal.uses)
    return f"nsatz{' using ' * bool(uses)}{uses} power {goal.power} limit {goal.limit}"


class AnswerTexts:
    """The texts of answers to one goal, certificates in format 1 or 2."""

    def __init__(self, goal, version=2):
        self.order = Order(numbering(goal))
        self.version = version

    def of(self, answer):
        """The lines of an answer, each after two spaces."""
        if isinstance(answer, Certified):
            texts = self.of_certified(answer)
        else:
            texts = [self.of_other(answer)]
        return "".join(f"  {text}.\n" for text in texts)

    def of_other(self, answer):
        if isinstance(answer, Proved):
            listed = ", ".join(f"{term_text(nodes)} <> 0" for nodes in answer.conditions)
            return f"proved if {listed}" if listed else "proved"
        if isinstance(answer, No):
            return f"no at {self.monomial(answer.at)} : {answer.left} and {answer.right}"
        if isinstance(answer, Zero):
            return f"zero denominator {term_text(answer.denominator)}"
        if isinstance(answer, Stopped):
            return answer.word
        if isinstance(answer, NoneUpTo):
            return f"none up to power {answer.power}"
        return f"gave up after {answer.limit}"

    def of_certified(self, answer):
        certificate = answer.certificate
        listed = ", ".join(f"{number} <> 0" for number in answer.constants)
        version = " version 2" if self.version == 2 else ""
        yield f"proved{version} power {certificate.power}{' if ' * bool(listed)}{listed}"
        for a, m, i, b, n, j, d in certificate.lines:
            first, second = self.before_line(m), self.before_line(n)
            yield f"line {a}, {first}{i} minus {b}, {second}{j}{self.divisor(d)}"
        for a, b, n, j, d in certificate.steps:
            yield f"step {a} minus {b}, {self.before_line(n)}{j}{self.divisor(d)}"

    def before_line(self, mono):
        return "" if self.version == 2 and mono == ONE else f"{self.monomial(mono)}, "

    def divisor(self, d):
        return "" if self.version == 2 and d == 1 else f" over {d}"

    def monomial(self, mono):
        return "*".join(power_text(*pair) for pair in self.order.factors(mono)) or "1"
