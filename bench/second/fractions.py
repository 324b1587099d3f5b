"""Fractions of terms, and the conditions of goals by field.

A fraction is a polynomial above and a map from polynomials below, none of them 0, 1 or -1, to their
exponents. A term's value here is its fraction together with its nodes, so that denominators can be
shown as they are written.
"""

from typing import NamedTuple

from second.monomials import ONE
from second.polynomials import MAX_DEGREE, Arithmetic, Overrun, degree, negated, norm
from second.tokens import MAX

FINE, DEGREE, RANGE = 0, 1, 2
NAMES = {DEGREE: "degree", RANGE: "range"}
UNITS = ({ONE: 1}, {ONE: -1})


class ZeroDenominator(Exception):
    """A denominator that is zero, by the nodes of the term."""


class Fraction(NamedTuple):
    above: dict
    below: dict


class Made(NamedTuple):
    fraction: Fraction
    nodes: list


def frozen(poly):
    return frozenset(poly.items())


def outcome(factors):
    """What making one product of polynomials with exponents breaks."""
    if any(not poly for poly, _ in factors):
        return FINE
    bound, total = 1, 0
    for poly, exponent in factors:
        bound *= norm(poly) ** exponent
        total += degree(poly) * exponent
        if bound > MAX:
            return RANGE
    return DEGREE if total > MAX_DEGREE else FINE


def as_factors(below):
    return [(dict(poly), exponent) for poly, exponent in below.items()]


def lacked(mine, other):
    """The factors of the other map that are beyond mine."""
    beyond = {poly: exponent - mine.get(poly, 0) for poly, exponent in other.items()}
    return {poly: exponent for poly, exponent in beyond.items() if exponent > 0}


def greater(left, right):
    return {poly: max(left.get(poly, 0), right.get(poly, 0)) for poly in {*left, *right}}


def tree(nodes):
    """A term without the places of its nodes."""
    return tuple((node.op, node.value.value if node.op == "^" else node.value) for node in nodes)


class FieldArithmetic(Arithmetic):
    """Fractions of the terms of one goal, with its denominators in the order of their quotients."""

    def __init__(self):
        super().__init__()
        self.denominators = []

    def keep(self, *outcomes):
        worst = max(outcomes)
        if worst != FINE:
            raise Overrun(NAMES[worst])

    def times_factors(self, poly, below):
        if not poly:
            return {}
        for factor, exponent in below.items():
            for _ in range(exponent):
                poly = self.multiplied(poly, dict(factor))
        return poly

    def cleared(self, a, b):
        """Both numerators over the common factors, with what making them breaks."""
        mine, other = lacked(a.below, b.below), lacked(b.below, a.below)
        broken = max(
            outcome([(a.above, 1), *as_factors(mine)]), outcome([(b.above, 1), *as_factors(other)])
        )
        return mine, other, broken

    def sum_of(self, a, b, sign):
        mine, other, broken = self.cleared(a, b)
        below = greater(a.below, b.below)
        beneath = outcome(as_factors(below))
        if broken != FINE:
            self.keep(broken, beneath)
        left = self.times_factors(a.above, mine)
        right = self.times_factors(b.above, other)
        self.keep(RANGE if norm(left) + norm(right) > MAX else FINE, beneath)
        return Fraction(self.total(left, negated(right) if sign == "-" else right), below)

    def product_of(self, a, b):
        below = {p: a.below.get(p, 0) + b.below.get(p, 0) for p in {*a.below, *b.below}}
        self.keep(outcome([(a.above, 1), (b.above, 1)]), outcome(as_factors(below)))
        return Fraction(self.times_factors(a.above, {frozen(b.above): 1}), below)

    def quotient_of(self, a, b):
        unit = b.above in UNITS
        factors = [(a.above, 1), *as_factors(b.below), *([(b.above, 1)] if unit else [])]
        below = dict(a.below)
        if not unit:
            below[frozen(b.above)] = below.get(frozen(b.above), 0) + 1
        self.keep(outcome(factors), outcome(as_factors(below)))
        above = self.times_factors(a.above, b.below)
        return Fraction(self.times_factors(above, {frozen(b.above): 1}) if unit else above, below)

    def power_of(self, a, exponent):
        below = {poly: e * exponent for poly, e in a.below.items()} if exponent else {}
        self.keep(outcome([(a.above, exponent)] if exponent else []), outcome(as_factors(below)))
        return Fraction(self.power(a.above, exponent), below)

    def renamed_fraction(self, name, a):
        below = {}
        for poly, exponent in a.below.items():
            image = frozen(self.renamed(name, dict(poly)))
            below[image] = below.get(image, 0) + exponent
        return Fraction(self.renamed(name, a.above), below)

    def divided(self, a, u):
        if not u.fraction.above:
            raise ZeroDenominator(u.nodes)
        made = self.quotient_of(a.fraction, u.fraction)
        self.denominators.append((u.nodes, u.fraction.above))
        return made

    def of_fraction_node(self, node, *parts):
        nodes = [other for part in parts for other in part.nodes] + [node]
        values = [part.fraction for part in parts]
        if node.op in ("int", "var"):
            return Made(Fraction(self.of_node(node), {}), nodes)
        if node.op == "neg":
            return Made(Fraction(negated(values[0].above), values[0].below), nodes)
        if node.op == "hom":
            return Made(self.renamed_fraction(node.value, values[0]), nodes)
        if node.op == "^":
            return Made(self.power_of(values[0], node.value.value), nodes)
        if node.op == "/":
            return Made(self.divided(*parts), nodes)
        if node.op == "*":
            return Made(self.product_of(*values), nodes)
        return Made(self.sum_of(*values, node.op), nodes)

    def numerators(self, left, right):
        """Both sides' numerators over the factors of both."""
        mine, other, broken = self.cleared(left, right)
        self.keep(broken)
        return self.times_factors(left.above, mine), self.times_factors(right.above, other)

    def conditions(self, char0):
        """The denominators' nodes, each tree once, but for those that need no condition."""
        kept = {}
        for nodes, above in self.denominators:
            dropped = above in UNITS or (char0 and set(above) == {ONE})
            if not dropped:
                kept.setdefault(tree(nodes), nodes)
        return list(kept.values())
