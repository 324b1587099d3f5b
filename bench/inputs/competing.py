"""Goals and declarations with two faults, in each order, in one side or in both."""

from inputs.terms import MAX

DECLARED = (
    "ring R.\ndomain D.\nfield F.\nhom f : R -> D.\nhom g : D -> F.\nhom k : F -> F.\n"
    "var x y : R.\nvar u v : D.\nvar p q' : F.\nhyp E : x = y.\nhyp H : u = v.\nhyp N : u <> v.\n"
    "hyp P : p <> 0.\n"
)

TERMS = [
    *"x 1 u f(x) f(u) f(1) q q(x) f x(y) R R(x) x+u u*x x-f(y) x^1001 1^1001 f(u)^1001".split(),
    *"x/y x/u f(x/y) 1/1 x^1000*x 0*x^1001 x^2^2 x€y (x x)".split(),
    *("(x x)", "-" * 1000 + "x", "-" * 1001 + "q", "(" * 201, f"{MAX + 1}", f"x+{MAX}"),
]
METHODS = ["ring", "field", "nsatz", "nsatz using H", "char"]
USES = [
    *"H E N P f(E) f(H) g(H) g(f(E)) f(g(H)) g(N) k(P) k(g(N)) q f(q) H(E) x u(H) R g(x) k(g(f(N)))".split(),
    *("f(E", "H)", "2", "f()", "g(" * 200 + "H" + ")" * 200, "g(" * 201, "f(1)", "H H"),
]
OPTIONS = [
    *("", "power 0", "power 1", "power 16", "power 17", "power q", "limit 0", "limit 1000000"),
    *("limit 1000001", "power 0 limit 1000001", "power 17 limit 1000001", "limit 1 power 1"),
    *(f"power {MAX}", f"limit {MAX + 1}", "power 1 limit"),
]
CONDITIONS = [
    *"u x f(x) f(u) q q(x) f x(y) R H u+x p/p 1/1 x/y k(p/p) g(u/v) g(1/2) p^1001 x^1001 2".split(),
    *("0", "u €", "(" * 201, "-" * 1000 + "x", "-" * 1001 + "q", "f(p/q')", "p/u"),
]
MONOMIALS = [
    *"u x f(x) f(u) q q(x) f x(y) R H u*x u*q u^1001 u^500*u^501 u^1000*u^0 x^1001 q^1001 p 1 2 0".split(),
    *("u*", "f(x)^2*v", "f(f(x))", "g(" * 200 + "u" + ")" * 200, "g(" * 201, f"u^{MAX}", f"u^{MAX + 1}"),
]
SIDES = {"ring": "u*f(x) = v", "field": "p = g(u)", "nsatz": "u*f(x) = v", "nsatz using f(E), N": "u = v"}

DECLARATIONS = [
    *("ring {}", "domain {} char 0", "var {} : R", "var {} {} : R", "var {} : {}"),
    *("hom {} : R -> D", "hom {} : {} -> R", "hom g : {} -> {}", "hom {} : {} -> {}"),
    *("var z {} : {}", "var z z {} : {}", "var {} {} : {}", "hyp {} : {} = {}"),
]
NAMES = ["x", "f", "R", "q", "z", "x'", "ring", "2", "€"]


def files_with_two_faults():
    for left in TERMS:
        for right in TERMS:
            yield f"{DECLARED}goal {left} = {right} by ring.".encode()
            yield f"{DECLARED}goal x*({left})*{right} = y by ring.".encode()
        for method in METHODS:
            yield f"{DECLARED}goal {left} = u by {method}.".encode()
            yield f"{DECLARED}goal x = {left} by {method}.\nhyp".encode()
    for form in DECLARATIONS:
        for first in NAMES:
            for second in NAMES:
                for third in NAMES if form.count("{}") > 2 else NAMES[:1]:
                    yield f"{DECLARED}{form.format(first, second, third)}.\nq".encode()
    yield from files_of_uses()


def files_of_uses():
    """Two uses, a use and an option, and a side and a use, for goals of each sort."""
    for sides in ("u = v", "x = y", "p = 0", "u = p", "1 = 1"):
        for first in USES:
            for second in USES if sides != "1 = 1" else USES[:3]:
                yield f"{DECLARED}goal {sides} by nsatz using {first}, {second}.".encode()
            for option in OPTIONS:
                yield f"{DECLARED}goal {sides} by nsatz using {first} {option}.".encode()
    for left in TERMS:
        for use in USES:
            yield f"{DECLARED}goal {left} = u by nsatz using {use}.".encode()
        for right in TERMS:
            yield f"{DECLARED}hyp {'E' if left == right else 'M'} : {left} <> {right}.".encode()


def annotated_with_two_faults():
    """Answers, lines and steps that are at fault in two places or in one."""
    for method, sides in SIDES.items():
        head = f"{DECLARED}goal {sides} by {method}.\n"
        for one in CONDITIONS:
            for other in CONDITIONS:
                yield f"{head}proved if {one} <> 0, {other} <> 0.".encode()
            yield f"{head}zero denominator {one}.".encode()
        for one in MONOMIALS:
            yield f"{head}no at {one} : 1 and 0.".encode()
        for text in OTHER_ANSWERS:
            yield f"{head}{text}".encode()
    head = f"{DECLARED}goal u = f(x) by nsatz using H.\n"
    for version, d in (("", " over 1"), ("version 2 ", "")):
        for one in MONOMIALS:
            for other in MONOMIALS:
                line = f"line 1, {one}, 1 minus 1, {other}, 1{d}."
                yield f"{head}proved {version}power 1.\n{line}".encode()
            for count in COUNTS:
                line = f"line 1, {one}, {count} minus 1, 1, {count}{d}."
                yield f"{head}proved {version}power 1.\n{line}".encode()
                step = f"step 1 minus 1, {one}, {count}{d}."
                yield f"{head}proved {version}power {count}.\n{step}".encode()


COUNTS = ["0", str(2**32 - 1), str(2**32), str(MAX), str(MAX + 1), "q", "1"]
OTHER_ANSWERS = [
    *(f"{form} {count}." for form in ("proved power", "none up to power", "gave up after") for count in COUNTS),
    *(f"proved version {count} power {other}." for count in ("0", "1", "2", "3") for other in COUNTS),
    *("proved.", "range.", "degree.", "atoms.", "proved. proved.", "proved power 1. proved.", "step 1"),
    *("range. line", "proved power 1. ring S. line", "proved power 1. goal u = v by ring. step"),
]

