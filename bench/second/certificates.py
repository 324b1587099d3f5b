"""Certificates of goals by nsatz: how they are cut to what is used, and when one is accepted.

A line says that d times it is a*m times line i less b*n times line j. A step says that d times the
remainder after it is a times the remainder before less b*n times line j. Lines are numbered from 1,
and the hypotheses come first.
"""

from typing import NamedTuple

from second.monomials import ONE
from second.polynomials import Overrun

MAX_POWER = 16


class Line(NamedTuple):
    a: int
    m: frozenset
    i: int
    b: int
    n: frozenset
    j: int
    d: int


class Step(NamedTuple):
    a: int
    b: int
    n: frozenset
    j: int
    d: int


class Certificate(NamedTuple):
    power: int
    lines: list
    steps: list


class Bad(Exception):
    """The place of the first breach, or 0."""


def pruned(power, hypotheses, lines, steps):
    """The certificate of these steps with the lines alone that they cite, by others too."""
    used = {step.j for step in steps}
    for number in range(hypotheses + len(lines), hypotheses, -1):
        if number in used:
            line = lines[number - hypotheses - 1]
            used |= {line.i, line.j}
    kept = sorted(number for number in used if number > hypotheses)
    numbers = {number: number for number in range(1, hypotheses + 1)}
    numbers |= {number: hypotheses + k for k, number in enumerate(kept, 1)}
    cited = [lines[number - hypotheses - 1] for number in kept]
    cited = [line._replace(i=numbers[line.i], j=numbers[line.j]) for line in cited]
    return Certificate(power, cited, [step._replace(j=numbers[step.j]) for step in steps])


def constants(certificate, char0):
    """The numbers that the certificate divides by, and that must not be zero."""
    if char0:
        return []
    numbers = {line.d for line in certificate.lines} | {step.a for step in certificate.steps}
    return sorted(number for number in numbers if number > 1)


def divided(poly, d, place):
    if any(c % d for c in poly.values()):
        raise Bad(place)
    return {mono: c // d for mono, c in poly.items()}


def accept(arithmetic, certificate, hypotheses, goal):
    """Raises Bad at the first breach, or Overrun where the power of the goal is too great."""
    if not 1 <= certificate.power <= MAX_POWER:
        raise Bad(0)
    remainder = arithmetic.power(goal, certificate.power)
    lines = list(hypotheses)
    place = 0
    for place, line in enumerate(certificate.lines, 1):
        if not (1 <= line.i <= len(lines) and 1 <= line.j <= len(lines) and line.d >= 1):
            raise Bad(place)
        parts = line.a, line.m, lines[line.i - 1], line.b, line.n, lines[line.j - 1]
        lines.append(divided(combined(arithmetic, place, *parts), line.d, place))
    for place, step in enumerate(certificate.steps, place + 1):
        if not (step.a >= 1 and step.d >= 1 and 1 <= step.j <= len(lines)):
            raise Bad(place)
        parts = step.a, ONE, remainder, step.b, step.n, lines[step.j - 1]
        remainder = divided(combined(arithmetic, place, *parts), step.d, place)
    if remainder:
        raise Bad(place + 1)


def combined(arithmetic, place, *parts):
    try:
        return arithmetic.combination(*parts)
    except Overrun:
        raise Bad(place) from None
