"""Files with goals by nsatz, with what `prove` has to write and the exit status."""

R, V, X = "ring R.\n", "var x y : R.\n", "var x : R.\n"
D, Y = "domain D.\n", "var x y : D.\n"
TWO_SUMS = D + Y + "hyp P : x + y = 0.\nhyp Q : x - y = 0.\n"
ONE_STEP = ["proved version 2 power 1.", "step 1 minus 1, 1."]

ALL_METHODS = """ring R.
field F char 0.
hom f : R -> F.
var a b c d : R.
var u v w t : F.
hyp E : a = b.
hyp H : u*v = 1.
hyp K : u*w = 1.
hyp P : u + t = 0.
hyp Q : u - t = 0.
hyp S : w^2 = 0.
"""
GOALS_OF_ALL_METHODS = """goal (a + b)*(a - b) = a^2 - b^2 by ring.
  proved.
goal (a + b)^3 = a^3 + 3*a^2*b + 3*a*b^2 + b^3 by ring.
  proved.
goal (a^2 + b^2)*(c^2 + d^2) = (a*c - b*d)^2 + (a*d + b*c)^2 by ring.
  proved.
goal f(a*b + c) = f(a)*f(b) + f(c) by ring.
  proved.
goal f((a - b)^2) = f(a)^2 - 2*f(a)*f(b) + f(b)^2 by ring.
  proved.
goal u/v + w/t = (u*t + w*v)/(v*t) by field.
  proved if v <> 0, t <> 0, v*t <> 0.
goal 1/(u - v) - 1/(u + v) = 2*v/(u^2 - v^2) by field.
  proved if u - v <> 0, u + v <> 0, u^2 - v^2 <> 0.
goal f(a)/2 + f(a)/2 = f(a) by field.
  proved.
goal v = w by nsatz using H, K power 1 limit 10000.
  proved version 2 power 1.
  line 1, w, 1 minus 1, v, 2.
  step 1 minus 1, 3.
goal t = 0 by nsatz using P, Q power 1 limit 10000.
  proved version 2 power 1.
  line 1, 2 minus -1, 1 over 2.
  step 1 minus 1, 1.
  step 1 minus -1, 3.
goal f(a)^2 = f(b)^2 by nsatz using f(E) power 1 limit 10000.
  proved version 2 power 1.
  step 1 minus 1, f(a), 1.
  step 1 minus 1, f(b), 1.
goal w = 0 by nsatz using S power 2 limit 10000.
  proved version 2 power 2.
  step 1 minus 1, 1.
"""


def nsatz(head, sides, uses, lines, status=0, power=1, limit=10_000):
    """A goal with the options that are not the usual ones, and its answer."""
    written = (f" power {power}" if power != 1 else "") + (f" limit {limit}" if limit < 10_000 else "")
    goal, printed = (f"goal {sides} by nsatz using {uses}{o}.\n" for o in (written, f" power {power} limit {limit}"))
    answer = "".join(f"  {line}\n" for line in lines)
    return (head + goal).encode(), (head + printed + answer).encode(), status


def without_answers(text):
    """The text without its answers, and with the usual options left out."""
    lines = [line for line in text.splitlines(keepends=True) if not line.startswith("  ")]
    return "".join(lines).replace(" power 1 limit 10000", "").replace(" limit 10000", "")


def files_by_nsatz():
    square = D + Y + "hyp H : x^2 = 0.\n"
    lines = ["proved version 2 power 2.", "step 1 minus 1, 1."]
    yield nsatz(square, "x = 0", "H", lines, power=2)
    yield nsatz(square, "x = 0", "H", ["none up to power 1."], 1)
    lines = ["proved version 2 power 1 if 2 <> 0.", "step 2 minus 1, 1."]
    yield nsatz(D + Y + "hyp H : 2*x = 0.\n", "x = 0", "H", lines)
    nonzero = D + Y + "hyp H : x*y = 0.\nhyp N : x <> 0.\n"
    yield nsatz(nonzero, "y = 0", "H, N", ONE_STEP)
    yield nsatz(nonzero, "y = 0", "H, N", ["gave up after 0."], 1, limit=0)
    image = R + D + "hom f : R -> D.\n" + V + "hyp H : x = y.\n"
    yield nsatz(image, "f(x) = f(y)", "f(H)", ONE_STEP)
    lines = ["proved version 2 power 1 if 2 <> 0.", "line 1, 2 minus -1, 1 over 2."]
    lines += ["step 1 minus 1, 1.", "step 1 minus -1, 3."]
    yield nsatz(TWO_SUMS, "y = 0", "P, Q", lines)
    coprime = D + Y + "hyp A : x^2 = 1.\nhyp B : y^2 = 1.\n"
    yield nsatz(coprime, "x*y = 1", "A, B", ["none up to power 1."], 1, limit=0)
    yield (R + X + "goal x = 0 by nsatz.\n").encode(), b"refused 14 at 33\n", 2
    text = ALL_METHODS + GOALS_OF_ALL_METHODS
    yield without_answers(text).encode(), text.encode(), 0
