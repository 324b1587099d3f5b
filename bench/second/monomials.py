"""Monomials. Each is the set of its atoms with their exponents, and 1 is the empty set."""

ONE = frozenset()


def degree_of(mono):
    return sum(exponent for _, exponent in mono)


def made_of(exponents):
    return frozenset((atom, exponent) for atom, exponent in exponents.items() if exponent)


def joined(left, right):
    """The product of two monomials."""
    exponents = dict(left)
    for atom, exponent in right:
        exponents[atom] = exponents.get(atom, 0) + exponent
    return frozenset(exponents.items())


def least_multiple(left, right):
    """The least common multiple."""
    exponents = dict(left)
    for atom, exponent in right:
        exponents[atom] = max(exponents.get(atom, 0), exponent)
    return frozenset(exponents.items())


def divides(divisor, mono):
    exponents = dict(mono)
    return all(exponent <= exponents.get(atom, 0) for atom, exponent in divisor)


def quotient(mono, divisor):
    """The monomial over one that divides it."""
    exponents = dict(mono)
    for atom, exponent in divisor:
        exponents[atom] -= exponent
    return made_of(exponents)


def are_coprime(left, right):
    """Whether no atom stands in both."""
    return {atom for atom, _ in left}.isdisjoint(atom for atom, _ in right)


class Order:
    """Grevlex, where each atom has a number: at equal degree less of the last atom is greater."""

    def __init__(self, numbers):
        self.numbers = numbers
        self.keys = {}

    def key(self, mono):
        """Greater for a greater monomial."""
        if mono not in self.keys:
            last_first = sorted((-self.numbers[atom], -exponent) for atom, exponent in mono)
            self.keys[mono] = degree_of(mono), last_first
        return self.keys[mono]

    def lead(self, poly):
        return max(poly, key=self.key)

    def factors(self, mono):
        """The atoms with their exponents, in the order of the atoms' numbers."""
        return sorted(mono, key=lambda pair: self.numbers[pair[0]])
