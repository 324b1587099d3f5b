"""The answers to goals."""

from typing import NamedTuple

from second.certificates import Certificate, constants
from second.fractions import FieldArithmetic, ZeroDenominator
from second.monomials import Order
from second.polynomials import Arithmetic, Overrun
from second.search import GaveUp, NoneUpTo, search
from second.terms import PARTS, fold

MAX_ATOMS = 1_000


class Proved(NamedTuple):
    """The conditions are the nodes of terms."""

    conditions: list


class Certified(NamedTuple):
    constants: list
    certificate: Certificate


class No(NamedTuple):
    """The greatest monomial with different coefficients, and both of them."""

    at: frozenset
    left: int
    right: int


class Zero(NamedTuple):
    """The nodes of a denominator that is zero."""

    denominator: list


class Stopped(NamedTuple):
    """By `atoms`, `range` or `degree`."""

    word: str


def atoms_of(nodes, path=()):
    """The atoms of a term from left to right, found from the head down."""
    found = []
    paths = [path]
    for node in reversed(nodes):
        path = paths.pop()
        if node.op == "var":
            found.append((path, node.value))
        elif node.op == "hom":
            paths.append(path + (node.value,))
        else:
            paths.extend([path] * PARTS[node.op])
    return found[::-1]


def numbering(goal):
    """The atoms of a goal and its uses, numbered in the order of first occurrence."""
    found = atoms_of(goal.left) + atoms_of(goal.right)
    for path, hyp in goal.uses:
        found += atoms_of(hyp.left, path) + atoms_of(hyp.right, path)
    numbers = {}
    for atom in found:
        numbers.setdefault(atom, len(numbers))
    return numbers


def has_table(numbers):
    return len(numbers) <= MAX_ATOMS


def compared(left, right, order, conditions):
    """Proved where the polynomials are equal."""
    differing = [m for m in {*left, *right} if left.get(m, 0) != right.get(m, 0)]
    if not differing:
        return Proved(conditions)
    at = max(differing, key=order.key)
    return No(at, left.get(at, 0), right.get(at, 0))


def answer_by_ring(goal, order):
    arithmetic = Arithmetic()
    left, right = fold(goal.left, arithmetic.of_node), fold(goal.right, arithmetic.of_node)
    return compared(left, right, order, [])


def answer_by_field(goal, order):
    arithmetic = FieldArithmetic()
    try:
        left = fold(goal.left, arithmetic.of_fraction_node).fraction
        right = fold(goal.right, arithmetic.of_fraction_node).fraction
    except ZeroDenominator as zero:
        return Zero(zero.args[0])
    numerators = arithmetic.numerators(left, right)
    return compared(*numerators, order, arithmetic.conditions(goal.sort.char0))


def prepared(arithmetic, goal):
    """The polynomials of the used equations, and the product of the goal's and of the others."""

    def difference(equation, path=()):
        sides = []
        for side in (equation.left, equation.right):
            poly = fold(side, arithmetic.of_node)
            for name in reversed(path):
                poly = arithmetic.renamed(name, poly)
            sides.append(poly)
        return arithmetic.difference(*sides)

    factors, hypotheses = [difference(goal)], []
    for path, hyp in goal.uses:
        (factors if hyp.nonzero else hypotheses).append(difference(hyp, path))
    return hypotheses, arithmetic.product(*factors)


def answer_by_nsatz(goal, order):
    arithmetic = Arithmetic()
    hypotheses, product = prepared(arithmetic, goal)
    found = search(arithmetic, order, hypotheses, product, goal.power, goal.limit)
    if isinstance(found, (NoneUpTo, GaveUp)):
        return found
    return Certified(constants(found, goal.sort.char0), found)


BY = {"ring": answer_by_ring, "field": answer_by_field, "nsatz": answer_by_nsatz}


def answer(goal):
    numbers = numbering(goal)
    if not has_table(numbers):
        return Stopped("atoms")
    try:
        return BY[goal.method](goal, Order(numbers))
    except Overrun as overrun:
        return Stopped(str(overrun))


def is_proved(found):
    return isinstance(found, (Proved, Certified))
