"""Goals by nsatz, and certificates, at the limits and at one more."""

from inputs.limits import balanced
from inputs.terms import MAX, root

DOMAIN = "domain D.\nfield F char 0.\nhom k : D -> D.\nvar x y z : D.\nvar u v : F.\n"


def with_hyps(hyps, goal, options="", head=DOMAIN):
    named = [f"hyp H{k} : {hyp}.\n" for k, hyp in enumerate(hyps)]
    uses = ", ".join(f"H{k}" for k in range(len(hyps)))
    using = f" using {uses}" if uses else ""
    return f"{head}{''.join(named)}goal {goal} by nsatz{using}{options}.\n".encode()


def files_of_options():
    for power in (0, 1, 2, 15, 16, 17, MAX, MAX + 1):
        yield with_hyps(["x^16 = 0"], "x = 0", f" power {power}")
        yield with_hyps([], "x = y", f" power {power} limit 0")
    for limit in (0, 1, 2, 3, 4, 5, 999_999, 1_000_000, 1_000_001, MAX, MAX + 1):
        yield with_hyps(["x*y = 1", "x*z = 1"], "y = z", f" limit {limit}")
        yield with_hyps(["x^2 = y", "y^2 = z", "x*y = z"], "x = z^3", f" power 2 limit {limit}")


def files_of_powers():
    """The powers of a goal, and its product with what is not zero."""
    for power in range(1, 17):
        for c in (root(power), root(power) + 1):
            yield with_hyps(["x = 0"], f"{c}*x = 0", f" power {power}")
        for n in (1000 // power, 1000 // power + 1):
            yield with_hyps(["x = 0"], f"x^{n} = 0", f" power {power}")
            yield with_hyps(["x = 0"], f"2*x^{n} = {root(power)}", f" power {power}")
    for c, d in ((2, MAX // 2), (2, MAX // 2 + 1), (MAX, 1), (MAX, 2), (root(2), root(2)), (root(2), root(2) + 1)):
        yield with_hyps([f"{c}*x <> 0", "x = 0"], f"{d}*y = 0")
        yield with_hyps([f"{c}*x <> 0", "z <> z"], f"{d}*y = 0")
        yield with_hyps([f"{c} <> 0", f"{d} <> 0"], "x = 0")
        yield with_hyps([f"{c}*x <> {d - 1}"], "x = y", " power 2")
    for n in (0, 1, 499, 500, 501, 999, 1000):
        yield with_hyps([f"x^{n} <> y", f"z^{n} <> 0"], "x = 1")
        yield with_hyps([f"x^{n} <> 0", f"{MAX}*y <> 0"], "y = z")


def files_of_combinations():
    """Pairs whose least common multiple has a great degree, and coefficients that grow."""
    for n in (1, 499, 500, 501, 999):
        for m in (0, 1, 499, 500, 999 - n if n < 999 else 0, 1000 - n):
            hyps = [f"x^{n}*y = 1", f"x*y^{m} = z", f"z^{m} = x^{n}"]
            for limit in (0, 1, 2, 10):
                yield with_hyps(hyps[:2], "z = 1", f" limit {limit}")
                yield with_hyps(hyps, "z = y", f" limit {limit}")
    greats = [2, 3, 2**63, 2**64 - 1, 2**126, 2**126 - 1, MAX - 1, MAX, 3**79, 10**38]
    for c in greats:
        for d in greats:
            yield with_hyps([f"{c}*x = y", f"{d}*x = z"], "y = z", " limit 30")
            yield with_hyps([f"{c}*x*y = 1", f"{d}*x = z"], "y = z", " power 2 limit 30")
            yield with_hyps([f"{c}*x = 0"], f"{d}*x = 0")
            yield with_hyps([f"{c}*x = 1", f"{d}*y = x"], "x = y", " limit 30")
            yield with_hyps([f"0 - {c}*x = 0 - y", f"x - {d - 1}*y = 0"], "x = y", " limit 30")


def files_of_uses():
    """Paths of many morphisms, many uses, and as many atoms as can be."""
    for n in (199, 200, 201):
        path = "k(" * n + "H" + ")" * n
        head = f"{DOMAIN}hyp H : k(x) = y.\n"
        yield f"{head}goal x = y by nsatz using {path} limit 3.\n".encode()
        yield f"{head}goal {'k(' * n}y{')' * n} = y by nsatz using {path}.\n".encode()
        yield f"{head}goal x = y by nsatz using {path}, {'k(' * 201}.\n".encode()
    for n in (997, 998, 999, 1000):
        names = " ".join(f"a{k}" for k in range(n))
        head = f"{DOMAIN}var {names} : D.\n"
        total = balanced(names.split())
        yield with_hyps([f"{total} = x", "y = z"], "x = 1", " limit 4", head)
        yield with_hyps([f"x = {total}"], "x = y", " limit 4", head)
        yield with_hyps([f"{total} = 0"], "z = y", f" limit {n}", head)
        yield with_hyps(["x = x"] * n, "x = 1", f" limit {n}", head)
        yield with_hyps([f"0*{total} <> x"], "x^1000*x = y", " limit 4", head)
    for n in (0, 1, 2, 50, 300):
        yield with_hyps([f"x = {k}" for k in range(n)], "x = y", f" limit {n}")


def files_by_nsatz_at_limits():
    yield from files_of_options()
    yield from files_of_powers()
    yield from files_of_combinations()
    yield from files_of_uses()


def annotated_at_limits():
    """Certificates at the limits, and answers to goals with too many atoms."""
    head = with_hyps(["2*x = y", "y = 0", "x^2 <> x"], "x = y", " power 16").decode()
    numbers = [0, 1, 2, 3, 2**31 - 1, 2**32 - 1, 2**32, 2**126, 2**126 + 1, MAX, MAX + 1]
    for number in numbers:
        for other in numbers:
            yield f"{head}proved power 1. step {number} minus {other}, 1, 1 over 1.".encode()
            yield f"{head}proved power 1. line {number}, 1, 1 minus {other}, 1, 2 over 1.".encode()
            yield f"{head}proved version 2 power 1. line 1, {number} minus -1, {other}.".encode()
            yield f"{head}proved version 2 power {number}. step 1 minus 1, 1 over {other}.".encode()
            yield f"{head}proved power 1 if {number} <> 0, {other} <> 0.".encode()
    for n in (0, 1, 498, 499, 500, 997, 998, 999, 1000, 1001):
        yield f"{head}proved version 2 power 1. step 1 minus 1, x^{n}, 1.".encode()
        yield f"{head}proved version 2 power 1. step 1 minus 0, x^{n}*y, 1.".encode()
        yield f"{head}proved version 2 power 1. line 1, x^{n}, 1 minus 1, y^{1000 - min(n, 1000)}, 2.".encode()
        yield f"{head}proved version 2 power 1. line 0, x^{n}*x^1000, 1 minus 1, 2.".encode()
    for power in (1, 15, 16, 17):
        for c in (root(power), root(power) + 1, 0):
            for sides in (f"{c}*x = 0", f"x^{1000 // power + 1} = {c}"):
                goal = with_hyps(["x = 0"], sides, " power 16").decode()
                yield f"{goal}proved power {power}. step 1 minus 1, x, 1 over 1.".encode()
    for n in (999, 1000, 1001):
        names = [f"a{k}" for k in range(n)]
        declared = f"{DOMAIN}var {' '.join(names)} : D.\ngoal {balanced(names)} = 0 by"
        for method in ("ring", "nsatz"):
            for text in ("atoms.", "range.", "no at a0 : 1 and 0.", "no at 1 : 1 and 0.", "proved power 1."):
                yield f"{declared} {method}.\n{text}".encode()
        yield f"{declared} nsatz.\nproved power 1. step 1 minus 1, a0^0, 1 over 1.".encode()
        yield f"{declared} nsatz.\nproved power 1. step 1 minus 1, 1, 1 over 1.".encode()
