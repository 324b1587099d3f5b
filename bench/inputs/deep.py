"""Files that go deep or want much, and the twelve goals that use the whole language."""

from inputs.limits import balanced

RING = "ring R.\nvar x y : R.\n"
DOMAIN = "domain D.\nvar x y : D.\n"


def names(count):
    return [f"x{k}" for k in range(count)]


def by_ring(variables, left, right):
    return f"ring R.\nvar {' '.join(variables)} : R.\ngoal {left} = {right} by ring.\n"


def under(count):
    return "f(" * count + "x" + ")" * count


def deep_files():
    """Terms of depth 1,000 in each way that they can be, and Horner forms of the greatest depth."""
    many = names(1000)
    yield "a sum of 1,000", by_ring(["x"], " + ".join(["x"] * 1000), "1000*x")
    yield "a product of 1,000", by_ring(["x"], "*".join(["x"] * 1000), "x^1000")
    yield "999 signs", by_ring(["x"], "-" * 999 + "x", "-x")
    yield "200 parentheses", by_ring(["x"], "(" * 200 + "x" + ")" * 200, "x")
    yield "200 morphisms", f"ring R.\nhom f : R -> R.\nvar x : R.\ngoal {under(200)} = {under(200)} by ring.\n"
    yield "190 quotients", f"field F.\nvar x : F.\ngoal {'1/(' * 190}x{')' * 190} = x by field.\n"
    yield "1,000 atoms", by_ring(many, balanced(many), balanced(many[::-1]))
    yield "a monomial of 1,000 atoms", by_ring(many, "*".join(many), "*".join(many[::-1]))
    yield "1,000 atoms and a power", by_ring(many, f"{balanced(many)} + x0^1000", f"x0^1000 + {balanced(many)}")


def deep_certificates():
    """Certificates of many lines, each of which uses the one before, and of many steps."""
    head = DOMAIN + "hyp H : x = 0.\ngoal x = 0 by nsatz using H power 1 limit 10000.\n  proved power 1.\n"
    for count in (1, 1000, 100_000):
        lines = "".join(f"  line 1, 1, {k} minus 0, 1, {k} over 1.\n" for k in range(1, count + 1))
        yield f"{count} lines", head + lines + f"  step 1 minus 1, 1, {count + 1} over 1.\n"
        yield f"{count} steps", head + "  step 1 minus 0, 1, 1 over 1.\n" * count + "  step 1 minus 1, 1, 1 over 1.\n"


# A goal that wants more than 300 MB: a power of a sum has more than ten million terms.
GREEDY = by_ring(names(8), f"({' + '.join(names(8))})^24", "0").encode()

DECLARED = """ring R.
field F char 0.
hom f : R -> F.
var a b c d : R.
var u v w t : F.
"""
USED = """hyp E : a = b.
hyp H : u*v = 1.
hyp K : u*w = 1.
hyp P : u + t = 0.
hyp Q : u - t = 0.
hyp S : w^2 = 0.
"""
BY_RING_AND_FIELD = """goal (a + b)*(a - b) = a^2 - b^2 by ring.
goal (a + b)^3 = a^3 + 3*a^2*b + 3*a*b^2 + b^3 by ring.
goal (a^2 + b^2)*(c^2 + d^2) = (a*c - b*d)^2 + (a*d + b*c)^2 by ring.
goal f(a*b + c) = f(a)*f(b) + f(c) by ring.
goal f((a - b)^2) = f(a)^2 - 2*f(a)*f(b) + f(b)^2 by ring.
goal u/v + w/t = (u*t + w*v)/(v*t) by field.
goal 1/(u - v) - 1/(u + v) = 2*v/(u^2 - v^2) by field.
goal f(a)/2 + f(a)/2 = f(a) by field.
"""
BY_NSATZ = """goal v = w by nsatz using H, K.
goal t = 0 by nsatz using P, Q.
goal f(a)^2 = f(b)^2 by nsatz using f(E).
goal w = 0 by nsatz using S power 2.
"""
TWELVE = (DECLARED + USED + BY_RING_AND_FIELD + BY_NSATZ).encode()
EIGHT = (DECLARED + BY_RING_AND_FIELD).encode()
