"""The machine that searches for a certificate, one move after the other."""

import heapq
from bisect import insort
from math import gcd
from typing import NamedTuple

from second.certificates import Line, Step, pruned
from second.monomials import ONE, are_coprime, degree_of, divides, least_multiple, quotient
from second.polynomials import content, keep_limits


class LimitReached(Exception):
    """A move is due, and as many as may be made were made."""


class NoneUpTo(NamedTuple):
    power: int


class GaveUp(NamedTuple):
    limit: int


class Remainder:
    """What is left of a power of the goal, with the steps to it."""

    def __init__(self, poly):
        self.poly = poly
        self.steps = []


def multipliers(u, v):
    """How two polynomials with these leading coefficients are multiplied, so that the leads go."""
    e = gcd(u, v)
    return abs(v) // e, (u if v > 0 else -u) // e


class Machine:
    def __init__(self, arithmetic, order, hypotheses, powers, limit):
        self.arithmetic = arithmetic
        self.order = order
        self.hypotheses = len(hypotheses)
        self.polys = list(hypotheses)
        self.leads = [self.order.lead(poly) if poly else None for poly in hypotheses]
        self.lines = []
        self.basis = []
        self.pairs = []
        self.inputs = list(range(len(hypotheses), 0, -1))
        self.remainders = [Remainder(poly) for poly in powers]
        self.current = None
        self.moves_left = limit

    def run(self):
        """The certificate, or None where there is no more to do."""
        while (power := self.power_of_zero()) is None:
            if self.current is not None:
                self.treat_current()
            elif (found := self.reducible_remainder()) is not None:
                self.count()
                self.reduce_remainder(*found)
            elif self.inputs:
                self.current = self.inputs.pop()
            elif self.pairs:
                self.count()
                self.join_pair(*heapq.heappop(self.pairs)[1:])
            else:
                return None
        steps = self.remainders[power - 1].steps
        return pruned(power, self.hypotheses, self.lines, steps)

    def count(self):
        """Counts a move that is due."""
        if self.moves_left == 0:
            raise LimitReached
        self.moves_left -= 1

    def power_of_zero(self):
        """The least power whose remainder is zero."""
        zeros = (r for r, remainder in enumerate(self.remainders, 1) if not remainder.poly)
        return next(zeros, None)

    def least_divisor(self, mono):
        """The least line of the basis whose lead divides the monomial."""
        return next((j for j in self.basis if divides(self.leads[j - 1], mono)), None)

    def reducible_remainder(self):
        """The first remainder with a line that reduces it."""
        for remainder in self.remainders:
            line = self.least_divisor(self.order.lead(remainder.poly))
            if line is not None:
                return remainder, line
        return None

    def treat_current(self):
        lead = self.leads[self.current - 1]
        if lead is None:
            self.current = None
        elif (line := self.least_divisor(lead)) is not None:
            self.count()
            n = quotient(lead, self.leads[line - 1])
            self.add_line(ONE, self.current, n, line)
        else:
            self.join_basis(lead)

    def join_basis(self, lead):
        for other in self.basis:
            if not are_coprime(lead, self.leads[other - 1]):
                i, j = sorted((self.current, other))
                key = self.order.key(least_multiple(lead, self.leads[other - 1]))
                heapq.heappush(self.pairs, (key, j, i))
        insort(self.basis, self.current)
        self.current = None

    def join_pair(self, j, i):
        both = least_multiple(self.leads[i - 1], self.leads[j - 1])
        keep_limits(0, degree_of(both))
        m, n = (quotient(both, self.leads[line - 1]) for line in (i, j))
        self.add_line(m, i, n, j)

    def reduce(self, p, m, lead, n, j):
        """The numbers a and b, the combination over its content, and the content."""
        q = self.polys[j - 1]
        a, b = multipliers(p[lead], q[self.leads[j - 1]])
        made = self.arithmetic.combination(a, m, p, b, n, q)
        d = content(made)
        return a, b, {mono: c // d for mono, c in made.items()}, d

    def add_line(self, m, i, n, j):
        """A new line that is the current."""
        a, b, poly, d = self.reduce(self.polys[i - 1], m, self.leads[i - 1], n, j)
        self.lines.append(Line(a, m, i, b, n, j, d))
        self.polys.append(poly)
        self.leads.append(self.order.lead(poly) if poly else None)
        self.current = len(self.polys)

    def reduce_remainder(self, remainder, j):
        lead = self.order.lead(remainder.poly)
        n = quotient(lead, self.leads[j - 1])
        a, b, poly, d = self.reduce(remainder.poly, ONE, lead, n, j)
        remainder.poly = poly
        remainder.steps.append(Step(a, b, n, j, d))


def search(arithmetic, order, hypotheses, goal, power, limit):
    """The end of the machine's run: a certificate, or why there is none."""
    powers = [arithmetic.power(goal, r) for r in range(1, power + 1)]
    try:
        certificate = Machine(arithmetic, order, hypotheses, powers, limit).run()
    except LimitReached:
        return GaveUp(limit)
    return NoneUpTo(power) if certificate is None else certificate
