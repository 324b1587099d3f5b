"""Generated terms, as nested tuples of an operator and its parts."""

from inputs.scopes import WORDS

MAX = 2**127 - 1


def edge_literal(rng):
    """A literal at a power of 2 or 10 or at the greatest one, at times with zeros before it."""
    power = rng.choice([2 ** rng.randint(0, 128), 10 ** rng.randint(0, 39)])
    value = rng.choice([power, power, MAX, MAX // 2, MAX // 3])
    value = max(0, value + rng.randint(-1, 1))
    return "0" * rng.choice([0, 0, 0, 1, 3, 40]) + str(value)


def root(n):
    """The greatest number whose n-th power is at most MAX."""
    low, high = 1, MAX + 1
    while high - low > 1:
        middle = (low + high) // 2
        low, high = (middle, high) if middle**n <= MAX else (low, middle)
    return low


def term(scope, sort, size):
    rng = scope.rng
    if size <= 1:
        return scope.leaf(sort)
    quotients = " / / /" if scope.divides else ""
    op = rng.choice(f"+ + - - * * neg ^ hom hom{quotients}".split())
    if op == "hom":
        fitting = [hom for hom in scope.homs if hom[2] == sort]
        if not fitting:
            return term(scope, sort, size - 1)
        name, source, _ = rng.choice(fitting)
        return ("hom", name, term(scope, source, size - 1))
    if op == "neg":
        return ("neg", term(scope, sort, size - 1))
    if op == "^":
        return ("^", term(scope, sort, min(size - 1, 4)), str(rng.choice([0, 1, 1, 2, 2, 3])))
    left = rng.choice([1, size // 2, size - 1, rng.randint(1, size - 1)])
    return (op, term(scope, sort, left), term(scope, sort, max(1, size - left)))


def rewritten(rng, t):
    """A term with the same polynomial, unless a limit is passed."""
    if t[0] in ("var", "int"):
        return rewritten_leaf(rng, t)
    if t[0] == "hom":
        return pushed(rng, ("hom", t[1], rewritten(rng, t[2])))
    if t[0] == "^":
        return unrolled(rng, ("^", rewritten(rng, t[1]), t[2]))
    made = (t[0], *(rewritten(rng, part) for part in t[1:]))
    chance = rng.random()
    if made[0] in "+*" and chance < 0.5:
        return (made[0], made[2], made[1])
    if made[0] == "-" and chance < 0.5:
        return ("+", ("neg", made[2]), made[1])
    if made[0] in ("*", "/") and made[1][0] in ("+", "-") and chance < 0.9:
        inner, a, b = made[1]
        return (inner, (made[0], a, made[2]), (made[0], b, made[2]))
    if made[0] == "/" and chance < 0.5:
        return ("*", made[1], ("/", ("int", "1"), made[2]))
    return made


def rewritten_leaf(rng, t):
    chance = rng.random()
    if chance < 0.1:
        return ("*", ("int", "1"), t)
    if chance < 0.15:
        return ("+", t, ("int", "0"))
    return ("neg", ("neg", t)) if chance < 0.2 else t


def pushed(rng, t):
    """A morphism over sums, products and powers, moved to their parts at times."""
    _, name, part = t
    if rng.random() < 0.3:
        return t
    if part[0] == "int":
        return part if rng.random() < 0.5 else t
    if part[0] == "^":
        return ("^", pushed(rng, ("hom", name, part[1])), part[2])
    if part[0] in ("+", "-", "*", "/", "neg"):
        return (part[0], *(pushed(rng, ("hom", name, p)) for p in part[1:]))
    return t


def unrolled(rng, t):
    if t[2] in ("2", "3") and rng.random() < 0.5:
        square = ("*", t[1], t[1])
        return square if t[2] == "2" else ("*", square, t[1])
    return t


def edge_power(rng, x):
    """A power of a monomial at the limit on norms or on degrees, or at one more."""
    n = rng.choice([1, 2, 3, 7, 31, 63, 125, 126, 127, 500, 999, 1000, rng.randint(1, 1000)])
    if rng.random() < 0.5:
        base = ("*", ("int", str(root(n) + rng.randint(0, 1))), x)
        return ("^", base, str(n))
    return ("^", ("^", x, str(n)), str(1000 // n + rng.randint(0, 1)))


def scaled_power(rng, c, x, n):
    """A power of x, mostly with a coefficient."""
    power = ("^", x, str(n))
    return ("*", ("int", str(c)), power) if rng.random() < 0.7 else power


def edge_product(rng, x, y):
    """A product at the limit on norms, on degrees or on both, or at one more."""
    left = rng.choice([1, 2, 3, 2 ** rng.randint(1, 126), rng.randint(1, MAX)])
    right = min(MAX, MAX // left + rng.randint(0, 1))
    n = rng.choice([0, 1, 499, 500, 999, 1000, rng.randint(0, 1000)])
    m = min(1000, max(0, 1000 - n + rng.randint(-1, 1)))
    return ("*", scaled_power(rng, left, x, n), scaled_power(rng, right, y, m))


def edge_sum(rng, x, y):
    """A sum or a difference at the limit on norms, or at one more."""
    left = rng.choice([1, MAX - 1, MAX // 2, 2 ** rng.randint(1, 126), rng.randint(1, MAX)])
    right = min(MAX, MAX - left + rng.randint(-1, 1))
    return (rng.choice("+-"), ("*", ("int", str(left)), x), ("*", ("int", str(right)), y))


def edge_zero(rng, x, y):
    """A zero factor or a power 0 beside what would break a limit."""
    zero = rng.choice([("int", "0"), ("-", x, x), ("*", ("int", "0"), y), ("+", x, ("neg", x))])
    great = rng.choice([("^", y, "1000"), ("*", ("int", str(MAX)), x), ("int", str(MAX))])
    products = [("*", zero, great), ("*", great, zero), ("*", ("*", great, zero), great)]
    powers = [("^", zero, "1000"), ("^", zero, "0"), ("^", great, "0")]
    return rng.choice(products + powers)


def edge_quotient(rng, x, y):
    """A quotient, a power or a sum of such whose factors are at a limit, or that is over zero."""
    n = rng.choice([1, 2, 3, 126, 127, 499, 500, 501, 999, 1000, rng.randint(1, 1000)])
    base = rng.choice([x, ("*", ("int", str(root(n) + rng.randint(0, 1))), x), ("int", "2"), ("+", x, y)])
    zero = rng.choice([("int", "0"), ("-", x, x), ("^", ("-", x, x), "1")])
    one = rng.choice([("int", "1"), ("neg", ("int", "1")), ("^", x, "0"), ("-", ("+", x, ("int", "1")), x)])
    under = rng.choice([("^", base, str(n)), ("^", base, str(n)), zero, one, ("/", x, base)])
    made = ("/", rng.choice([x, ("int", "1"), zero, one]), under)
    if rng.random() < 0.3:
        made = ("^", made, str(rng.choice([0, 1, 2, 1000 // n, 1000 // n + 1])))
    if rng.random() < 0.3:
        made = (rng.choice("+-*/"), made, ("/", y, rng.choice([under, base, y])))
    return made


def edge_term(scope, sort):
    rng = scope.rng
    x, y = scope.leaf(sort), scope.leaf(sort)
    quotients = [edge_quotient] * 4 if scope.divides else []
    make = rng.choice([edge_power, edge_product, edge_sum, edge_zero, *quotients])
    made = make(rng, x) if make is edge_power else make(rng, x, y)
    chance = rng.random()
    if chance < 0.2:
        return ("+", made, edge_term(scope, sort))
    if chance < 0.3:
        return ("*", made, edge_term(scope, sort))
    if chance < 0.4:
        return ("int", edge_literal(rng))
    return made


def random_monomial(scope, sort):
    rng = scope.rng
    made = ("int", str(rng.choice([1, 1, 2, 3, 10**9])))
    for _ in range(rng.randint(0, 3)):
        made = ("*", made, ("^", scope.leaf(sort), str(rng.randint(1, 3))))
    return made


def dense_sides(scope, sort):
    """A power of a sum and the same power as a product, at times with one monomial more."""
    rng = scope.rng
    base = random_monomial(scope, sort)
    for _ in range(rng.randint(1, 5)):
        base = (rng.choice("+-"), base, random_monomial(scope, sort))
    n = rng.randint(2, 5)
    left, right = ("^", base, str(n)), ("*", ("^", rewritten(rng, base), str(n - 1)), base)
    if rng.random() < 0.5:
        right = (rng.choice("+-"), right, random_monomial(scope, sort))
    return left, right


def long_sum(scope, sort):
    """Many parts in a row, grouped to the left, or to the right by parentheses."""
    rng = scope.rng
    made = scope.leaf(sort)
    to_right = rng.random() < 0.4
    for _ in range(rng.choice([30, 100, 190])):
        op, leaf = rng.choice("+-"), scope.leaf(sort)
        made = (op, leaf, made) if to_right else (op, made, leaf)
    return made


def long_image(scope, sort):
    """A tower of morphisms from the sort to itself, where there are any."""
    rng = scope.rng
    loops = [hom for hom in scope.homs if hom[1] == hom[2] == sort]
    made = term(scope, sort, 3)
    for _ in range(rng.choice([5, 40, 150]) if loops else 0):
        made = ("hom", rng.choice(loops)[0], made)
    return made


def spoilt(scope, t):
    """The term with one part changed, so that a name, a sort or an exponent may be wrong."""
    rng = scope.rng
    inner = [k for k, part in enumerate(t) if k and isinstance(part, tuple)]
    if inner and rng.random() < 0.8:
        k = rng.choice(inner)
        return (*t[:k], spoilt(scope, t[k]), *t[k + 1 :])
    what = rng.randrange(8)
    if what == 0:
        return ("var", rng.choice(scope.variables)[0])
    if what == 1:
        return ("var", rng.choice(sorted(scope.names.difference(WORDS)) + ["undeclared"]))
    if what == 2:
        return ("/", t, scope.leaf(rng.choice(scope.sorts)))
    if what == 3:
        return ("^", t, rng.choice(["1000", "1001", "01001", str(MAX)]))
    if what == 4:
        return ("hom", rng.choice(scope.homs or [("undeclared",)])[0], t)
    if what == 5:
        return ("hom", rng.choice(sorted(scope.names.difference(WORDS))), t)
    if what == 6:
        return ("int", edge_literal(rng))
    return (rng.choice("+-*"), t, ("var", rng.choice(scope.variables)[0]))
