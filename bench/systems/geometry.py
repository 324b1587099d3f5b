"""Theorems of geometry by coordinates: what is given and what follows, as terms of the language.

A point is a pair of terms, its coordinates. What must not be zero is given by `<>`.
"""

from typing import NamedTuple

ORIGIN = ("0", "0")


class Theorem(NamedTuple):
    names: list
    given: list
    follows: str


def point(name):
    return f"x{name}", f"y{name}"


def on_the_first_axis(name):
    return f"x{name}", "0"


def on_the_second_axis(name):
    return "0", f"y{name}"


def between(a, b, ratio):
    """The point of the line through a and b that divides the way from a to b in this ratio."""
    return tuple(f"({s} + {ratio}*({t} - {s}))" for s, t in zip(a, b))


def way(a, b):
    """From a to b."""
    return tuple(f"({t} - {s})" for s, t in zip(a, b))


def scalar(a, b, c, d):
    (x, y), (u, v) = way(a, b), way(c, d)
    return f"{x}*{u} + {y}*{v}"


def parallel(a, b, c, d, relation="="):
    (x, y), (u, v) = way(a, b), way(c, d)
    return f"{x}*{v} {relation} {y}*{u}"


def collinear(a, b, c, relation="="):
    return parallel(a, b, b, c, relation)


def perpendicular(a, b, c, d):
    return f"{scalar(a, b, c, d)} = 0"


def meet(p, a, b, c, d):
    """p is the one point of the lines through a and b and through c and d."""
    return [collinear(a, b, p), collinear(c, d, p), parallel(a, b, c, d, "<>")]


def foot(p, a, b, c):
    """p is the one foot of the perpendicular from a to the line through b and c."""
    return [collinear(b, c, p), perpendicular(a, p, b, c), f"{scalar(b, c, b, c)} <> 0"]


def as_far(a, b, c):
    """a is as far from b as from c."""
    return f"{scalar(a, b, a, b)} = {scalar(a, c, a, c)}"


def altitudes():
    """Two altitudes of a triangle meet in H: the third goes through H."""
    a, b, c, h = map(point, "ABCH")
    given = [perpendicular(a, h, b, c), perpendicular(b, h, c, a)]
    return Theorem("xA yA xB yB xC yC xH yH".split(), given, perpendicular(c, h, a, b))


def ceva():
    """Three lines through the corners of a triangle meet in P: the ratios in which they cut the sides."""
    a, b, c, p = ORIGIN, on_the_first_axis("B"), point("C"), point("P")
    d, e, f = between(b, c, "r"), between(c, a, "s"), between(a, b, "t")
    given = [collinear(a, p, d), collinear(b, p, e), collinear(c, p, f), collinear(a, b, c, "<>")]
    return Theorem("r s t xB xC yC xP yP".split(), given, "r*s*t = (1 - r)*(1 - s)*(1 - t)")


def simson():
    """The feet of the perpendiculars from a point D of the circle through A, B, C to the sides are on a line."""
    a, b = ORIGIN, on_the_first_axis("B")
    c, d, e, f, g, o = map(point, "CDEFGO")
    given = [as_far(o, a, b), as_far(o, a, c), as_far(o, a, d), collinear(a, b, c, "<>")]
    given += foot(e, d, b, c) + foot(f, d, c, a) + foot(g, d, a, b)
    return Theorem("xB xC yC xD yD xE yE xF yF xG yG xO yO".split(), given, collinear(e, f, g))


def hexagon(a, b, c, i, j, k):
    """AJ and BI meet in P, AK and CI in Q, BK and CJ in R, which are on a line."""
    p, q, r = map(point, "PQR")
    given = meet(p, a, j, b, i) + meet(q, a, k, c, i) + meet(r, b, k, c, j)
    return given, collinear(p, q, r)


def pappus():
    """A, B, C are on one axis and I, J, K on the other."""
    given, follows = hexagon(*map(on_the_first_axis, "ABC"), *map(on_the_second_axis, "IJK"))
    return Theorem("xA xB xC yI yJ yK xP yP xQ yQ xR yR".split(), given, follows)


def pappus_anywhere():
    """A, B, C are on one line and I, J, K on another."""
    a, b, c, i, j, k = map(point, "ABCIJK")
    given, follows = hexagon(a, b, c, i, j, k)
    names = [coordinate for name in "ABCIJKPQR" for coordinate in point(name)]
    return Theorem(names, [collinear(a, b, c), collinear(i, j, k), *given], follows)


THEOREMS = {
    "three altitudes": altitudes,
    "Ceva": ceva,
    "Simson's line": simson,
    "Pappus, the lines as axes": pappus,
    "Pappus, the lines anywhere": pappus_anywhere,
}
