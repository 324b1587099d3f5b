"""Systems of equations for the search: a polynomial is a dictionary from exponents to coefficients."""

from functools import partial
from itertools import combinations
from typing import NamedTuple


class Ring:
    """Polynomials over named atoms, which are numbered in this order."""

    def __init__(self, names):
        self.names = names.split()
        self.count = len(self.names)

    def atom(self, name):
        exponents = [0] * self.count
        exponents[self.names.index(name)] = 1
        return Poly({tuple(exponents): 1})

    def number(self, value):
        return Poly({(0,) * self.count: value})

    def atoms(self):
        return [self.atom(name) for name in self.names]


class Poly:
    def __init__(self, terms):
        self.terms = {m: c for m, c in terms.items() if c}

    def __add__(self, other):
        total = dict(self.terms)
        for m, c in other.terms.items():
            total[m] = total.get(m, 0) + c
        return Poly(total)

    def __neg__(self):
        return Poly({m: -c for m, c in self.terms.items()})

    def __sub__(self, other):
        return self + -other

    def __mul__(self, other):
        total = {}
        for m, c in self.terms.items():
            for n, d in other.terms.items():
                k = tuple(x + y for x, y in zip(m, n))
                total[k] = total.get(k, 0) + c * d
        return Poly(total)


class Problem(NamedTuple):
    """Whether a power of the goal, at most this one, is a combination of the hypotheses."""

    ring: Ring
    hyps: list
    goal: Poly
    power: int


def product(ring, factors):
    result = ring.number(1)
    for factor in factors:
        result = result * factor
    return result


def total(ring, parts):
    result = ring.number(0)
    for part in parts:
        result = result + part
    return result


def power(ring, base, n):
    return product(ring, [base] * n)


def symmetric(n):
    """All elementary symmetric polynomials of n unknowns are zero: so is the n-th power of each."""
    ring = Ring(" ".join(f"x{i}" for i in range(1, n + 1)))
    xs = ring.atoms()
    hyps = [total(ring, [product(ring, part) for part in combinations(xs, k)]) for k in range(1, n + 1)]
    return Problem(ring, hyps, power(ring, xs[0], n), 1)


def polynomial(ring, name, coefficients):
    """A polynomial of one unknown, its coefficients by their exponents."""
    x = ring.atom(name)
    return total(ring, [ring.number(c) * power(ring, x, e) for e, c in coefficients.items()])


def cyclic(n):
    """The cyclic n-roots. No power of the first unknown is zero where they hold."""
    ring = Ring(" ".join(f"x{i}" for i in range(1, n + 1)))
    xs = ring.atoms()
    hyps = [
        total(ring, [product(ring, [xs[(i + j) % n] for j in range(k)]) for i in range(n)])
        for k in range(1, n)
    ]
    hyps.append(product(ring, xs) - ring.number(1))
    return Problem(ring, hyps, xs[0], 1)


def sum_of_cyclic_4():
    """The square of the sum of every other unknown is zero."""
    problem = cyclic(4)
    x1, _, x3, _ = problem.ring.atoms()
    return problem._replace(goal=x1 + x3, power=2)


def root_of_cyclic_5():
    problem = cyclic(5)
    return problem._replace(goal=polynomial(problem.ring, "x1", {15: 1, 10: 122, 5: -122, 0: -1}))


def katsura(n):
    """Katsura's equations of n + 1 unknowns. No power of the first unknown is zero where they hold."""
    ring = Ring(" ".join(f"x{i}" for i in range(n + 1)))
    xs = ring.atoms()

    def at(i):
        return xs[abs(i)] if abs(i) <= n else ring.number(0)

    places = range(-n, n + 1)
    hyps = [total(ring, [at(i) for i in places]) - ring.number(1)]
    hyps += [total(ring, [at(i) * at(m - i) for i in places]) - xs[m] for m in range(n)]
    return Problem(ring, hyps, xs[0], 1)


def root_of_katsura_3():
    problem = katsura(3)
    coefficients = {8: 128304, 7: -93312, 6: 15552, 5: 3144, 4: -1120, 3: 36, 2: 15, 1: -1}
    return problem._replace(goal=polynomial(problem.ring, "x3", coefficients))


def desargues():
    """Two triangles in perspective from a point, the origin: their sides meet on a line."""
    ring = Ring("XA XB YB XC YC YA1 XA1 YB1 YC1 XR YR XQ YQ XP YP XC1 XB1")
    zero = ring.number(0)

    def point(name):
        return (ring.atom("X" + name), zero if name == "A" else ring.atom("Y" + name))

    points = {name: point(name) for name in ["A", "B", "C", "A1", "B1", "C1", "P", "Q", "R"]}
    points["S"] = (zero, zero)

    def collinear(a, b, c):
        (xa, ya), (xb, yb), (xc, yc) = points[a], points[b], points[c]
        return (xa - xb) * (yc - yb) - (ya - yb) * (xc - xb)

    triples = ["A S A1", "B S B1", "C S C1", "B1 C1 P", "B C P", "A1 C1 Q", "A C Q", "A1 B1 R", "A B R"]
    hyps = [collinear(*triple.split()) for triple in triples]
    x = {name: points[name][0] for name in points}
    apart = [x["A"] - x["B"], x["A"] - x["C"], x["B"] - x["C"], x["A"], x["B"], x["C"]]
    lines = [collinear("S", "B", "C"), collinear("S", "A", "C"), collinear("S", "A", "B"), collinear("A", "B", "C")]
    goal = product(ring, [collinear("P", "Q", "R")] + apart)
    return Problem(ring, hyps, goal, 1)


PROBLEMS = {
    **{f"symmetric {n}": partial(symmetric, n) for n in range(3, 9)},
    "cyclic 4": partial(cyclic, 4),
    "cyclic 5": partial(cyclic, 5),
    "cyclic 4, x1 + x3": sum_of_cyclic_4,
    "cyclic 5, a polynomial of x1": root_of_cyclic_5,
    "katsura 3": partial(katsura, 3),
    "katsura 3, a polynomial of x3": root_of_katsura_3,
    "Desargues": desargues,
}
