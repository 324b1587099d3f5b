"""Each place in a statement, with each token or the end in it."""

from inputs.scopes import SIGNS, WORDS
from inputs.terms import MAX

DECLARED = "ring R.\ndomain D.\nhom f : R -> R.\nvar x y : R.\nvar u v : D.\nhyp H : u = v.\n"

PLACES = """
|ring|ring S|domain|domain E|domain E char|domain E char 0|field|field K char|field K char 00
|hom|hom g|hom g :|hom g : R|hom g : R ->|hom g : R -> R
|var|var z|var z z2|var z :|var z : R
|hyp|hyp G|hyp G :|hyp G : x|hyp G : x =|hyp G : x = y|hyp G : x <>|hyp G : x <> y|hyp G : f(x <
|goal|goal -|goal (|goal x|goal 2|goal f|goal f(|goal f(x|goal f(x)|goal (x|goal (x)
|goal ((x)|goal x +|goal x -|goal x *|goal x /|goal x^|goal x^2|goal f(x)^2|goal (x)^2
|goal x^2*y|goal -x|goal x =|goal x = -|goal x = (|goal x = y|goal x = f
|goal x = f(y)|goal x = (y|goal x = (y)
|goal x = y^2|goal x = y by|goal x = y by ring|goal x = y by field
|goal u = v by nsatz|goal u = v by nsatz using|goal u = v by nsatz using H|goal u = v by nsatz using H,
|goal u = v by nsatz using H, H|goal u = v by nsatz using f|goal u = v by nsatz using f(
|goal u = v by nsatz using f(H|goal u = v by nsatz using f(H)|goal u = v by nsatz power
|goal u = v by nsatz power 1|goal u = v by nsatz using H power|goal u = v by nsatz using H power 1
|goal u = v by nsatz limit|goal u = v by nsatz limit 2|goal u = v by nsatz power 2 limit
|goal u = v by nsatz power 1 limit 1|goal x = y by ring.
""".replace("\n", "").split("|")

IN_ANSWERS = """
|proved|proved if|proved if u|proved if u <>|proved if u <> 0|proved if u <> 0,|proved if (u|proved power
|proved power 1|proved power 1 if|proved power 1 if 2|proved power 1 if 2 <>|proved power 1 if 2 <> 0
|proved power 1 if 2 <> 0,|proved version|proved version 2|proved version 2 power|proved version 2 power 1
|no|no at|no at u|no at u*|no at u^|no at u^2|no at f|no at f(|no at f(x|no at f(x)|no at 1|no at u :
|no at u : -|no at u : 1|no at u : 1 and|no at u : 1 and -|no at u : 1 and 0|zero|zero denominator
|zero denominator u|none|none up|none up to|none up to power|none up to power 1|gave|gave up|gave up after
|gave up after 1|range|degree|atoms|proved.
""".replace("\n", "").split("|")

IN_CERTIFICATES = """
|line|line 1|line 1,|line 1, u|line 1, u*|line 1, u^|line 1, f(|line 1, 1|line 1, 1,|line 1, u, 1|line 1, 1, 1
|line 1, 1 minus|line 1, 1 minus -|line 1, u, 1 minus 1|line 1, u, 1 minus 1,|line 1, u, 1 minus 1, v
|line 1, 1 minus 1, 1|line 1, u, 1 minus 1, v,|line 1, u, 1 minus 1, v, 1|line 1, u, 1 minus 1, 1, 1 over
|line 1, u, 1 minus 1, 1, 1 over 1|line 1, 1 minus 1, 1.|line 1, 1, 1 minus 1, 1, 1 over 1.
|step|step 1|step 1 minus|step 1 minus -|step 1 minus 1|step 1 minus 1,|step 1 minus 1, u|step 1 minus 1, 1
|step 1 minus 1, u,|step 1 minus 1, 1,|step 1 minus 1, u, 1|step 1 minus 1, 1, 1 over
|step 1 minus 1, 1, 1 over 1|step 1 minus 1, 1, 1 over 1.|step 1 minus 1, 1.
""".replace("\n", "").split("|")

NAMES = ["x", "f", "R", "u", "H", "undeclared", "_", "α"]
NUMBERS = ["0", "000", "1", "2", "1001", str(2**32), str(MAX), str(MAX + 1)]
NO_TOKENS = ["", "'", "<", ">", "#", "\u00a0", "\u0301", "\x00"]
TOKENS = WORDS + SIGNS + NAMES + NUMBERS + NO_TOKENS
RESTS = ("", " x = y by ring.")


def files_of_syntax():
    for place in PLACES:
        for token in TOKENS:
            for rest in RESTS:
                yield f"{DECLARED}{place} {token}{rest}".encode()


def files_of_answers():
    """The same in what may follow a goal, for each method and each version."""
    for method in ("ring", "field", "nsatz", "nsatz using H"):
        for place in IN_ANSWERS if method != "field" else IN_ANSWERS[::4]:
            for token in TOKENS:
                yield f"field F.\n{after_goal(method)}{place} {token}".encode()
    for version in ("", "version 1 ", "version 2 "):
        head = f"{after_goal('nsatz using H')}proved {version}power 1.\n"
        for place in IN_CERTIFICATES:
            for token in TOKENS:
                yield f"{head}{place} {token}".encode()


def after_goal(method):
    declared = DECLARED.replace("domain D", "field D") if method == "field" else DECLARED
    return f"{declared}goal u*v = v^2 by {method}.\n"
