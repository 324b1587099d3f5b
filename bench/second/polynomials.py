"""Polynomials of terms, under the limits on norms and degrees.

An atom is a path of morphisms, the outermost first, over a variable; a polynomial maps monomials
to nonzero coefficients.
"""

from math import gcd, prod

from second.monomials import ONE, degree_of, joined
from second.tokens import MAX

MAX_DEGREE = 1_000
EFFORT = 400_000


class Unfinished(Exception):
    """The polynomials of a goal are too great for this prover. The program has no such end."""


class Overrun(Exception):
    """A polynomial that would pass the limit on norms (`range`) or on degrees (`degree`)."""


def norm(poly):
    return sum(map(abs, poly.values()))


def degree(poly):
    return max(map(degree_of, poly), default=0)


def keep_limits(norm_made, degree_made):
    if norm_made > MAX:
        raise Overrun("range")
    if degree_made > MAX_DEGREE:
        raise Overrun("degree")


def content(poly):
    """The greatest common divisor of the coefficients, and 1 for zero."""
    return gcd(*poly.values()) or 1


def without_zeros(poly):
    return {mono: c for mono, c in poly.items() if c != 0}


def negated(poly):
    return {mono: -c for mono, c in poly.items()}


class Arithmetic:
    """Polynomials of the terms of one goal, with a bound on the work that it takes."""

    def __init__(self):
        self.left = EFFORT

    def spend(self, work):
        self.left -= work
        if self.left < 0:
            raise Unfinished

    def total(self, left, right):
        keep_limits(norm(left) + norm(right), 0)
        self.spend(len(right))
        made = dict(left)
        for mono, c in right.items():
            made[mono] = made.get(mono, 0) + c
        return without_zeros(made)

    def difference(self, left, right):
        return self.total(left, negated(right))

    def product(self, *factors):
        """The product of some factors, made as one."""
        if not all(factors):
            return {}
        keep_limits(prod(map(norm, factors)), sum(map(degree, factors)))
        made = {ONE: 1}
        for factor in factors:
            made = self.multiplied(made, factor)
        return made

    def combination(self, a, m, p, b, n, q):
        """a*m*p - b*n*q, made as one."""
        parts = [(c, mono, poly) for c, mono, poly in ((a, m, p), (-b, n, q)) if c and poly]
        bound = sum(abs(c) * norm(poly) for c, _, poly in parts)
        keep_limits(bound, max((degree_of(mono) + degree(poly) for _, mono, poly in parts), default=0))
        made = {}
        for c, mono, poly in parts:
            self.spend(len(poly))
            for other, d in poly.items():
                product = joined(mono, other)
                made[product] = made.get(product, 0) + c * d
        return without_zeros(made)

    def multiplied(self, left, right):
        self.spend(len(left) * len(right))
        made = {}
        for m, c in left.items():
            for n, d in right.items():
                mono = joined(m, n)
                made[mono] = made.get(mono, 0) + c * d
        return without_zeros(made)

    def power(self, poly, exponent):
        if exponent == 0:
            return {ONE: 1}
        if not poly:
            return {}
        keep_limits(norm(poly) ** exponent, degree(poly) * exponent)
        if len(poly) == 1:
            ((mono, c),) = poly.items()
            return {frozenset((atom, e * exponent) for atom, e in mono): c**exponent}
        made = {ONE: 1}
        for _ in range(exponent):
            made = self.multiplied(made, poly)
        return made

    def renamed(self, name, poly):
        self.spend(len(poly))
        return {
            frozenset((((name,) + path, var), e) for (path, var), e in mono): c
            for mono, c in poly.items()
        }

    def of_node(self, node, *parts):
        if node.op == "int":
            return {ONE: node.value} if node.value else {}
        if node.op == "var":
            return {frozenset([(((), node.value), 1)]): 1}
        if node.op == "neg":
            return negated(*parts)
        if node.op == "hom":
            return self.renamed(node.value, *parts)
        if node.op == "^":
            return self.power(*parts, node.value.value)
        if node.op == "*":
            return self.product(*parts)
        return self.total(*parts) if node.op == "+" else self.difference(*parts)
