"""Annotated files, with what `check` has to write and the exit status."""

from inputs.answered_by_nsatz import ALL_METHODS, GOALS_OF_ALL_METHODS, TWO_SUMS, D, R, V, X, Y
from inputs.terms import MAX

TWICE = (
    f"{D}{Y}hyp H : 2*x = 0.\ngoal x = 0 by nsatz using H power 1 limit 10000.\n"
    "  proved power 1 if 2 <> 0.\n  step 2 minus 1, 1, 1 over 1.\n"
)
UNEQUAL = R + V + "goal (x + y)^2 = x^2 + y^2 by ring.\n"
BY_NSATZ = D + Y + "goal x = y by nsatz.\n"
BY_RING = R + V + "goal x = x by ring.\n"

# A printed certificate in format 1, and what comes where a part of it is another.

PRINTED = (
    f"{TWO_SUMS}goal y = 0 by nsatz using P, Q power 1 limit 10000.\n"
    "  proved power 1 if 2 <> 0.\n  line 1, 1, 2 minus -1, 1, 1 over 2.\n"
    "  step 1 minus 1, 1, 1 over 1.\n  step 1 minus -1, 1, 3 over 1.\n"
)
CHANGES = [
    ("", "", "goal 1: ok proved", 0),
    ("1, 2 minus -1", "1, 3 minus -1", "goal 1: bad at 1", 1),
    ("over 2", "over 0", "goal 1: bad at 1", 1),
    ("over 2", "over 3", "goal 1: bad at 1", 1),
    ("over 2", "over 1", "goal 1: bad at 4", 1),
    ("1, 2 minus -1", "1, 4294967295 minus -1", "goal 1: bad at 1", 1),
    ("1, 2 minus -1", "1, 4294967296 minus -1", "refused 18 at 154", 2),
    ("line 1", f"line {MAX}", "goal 1: bad at 1", 1),
    ("line 1, 1", "line 1, x^1000", "goal 1: bad at 1", 1),
    ("line 1, 1", "line 1, x^1001", "refused 18 at 151", 2),
    ("step 1 minus 1", "step 0 minus 1", "goal 1: bad at 2", 1),
    ("1, 3 over", "1, 4 over", "goal 1: bad at 3", 1),
    ("proved power 1", "proved power 2", "goal 1: bad", 1),
    ("proved power 1", "proved power 0", "goal 1: bad", 1),
    (" if 2 <> 0", "", "goal 1: bad", 1),
]
CUT_TO = {
    **dict.fromkeys((0, 9, 10, 22, 23, 41, 42, 60, 61), ("", 0)),
    **dict.fromkeys(range(112, 116), ("goal 1: unchecked\n", 1)),
    **dict.fromkeys(range(140, 144), ("goal 1: bad at 1\n", 1)),
    **dict.fromkeys(range(178, 182), ("goal 1: bad at 2\n", 1)),
    **dict.fromkeys(range(209, 213), ("goal 1: bad at 3\n", 1)),
    **dict.fromkeys((241, 242), ("goal 1: ok proved\n", 0)),
}

# What is read after a goal, with the code of its fault and the byte in it.

REFUSED = [
    (BY_NSATZ, "proved if zz <> 0.", 7, 10),
    (BY_NSATZ, "proved if x <> 0.", 17, 0),
    (BY_NSATZ, "proved version 3 power 1.", 18, 15),
    (BY_NSATZ, "no at zz : 1 and 0.", 7, 6),
    (BY_RING, "proved if x/x <> 0.", 13, 11),
    (BY_RING, "proved version 3 power 1.", 17, 0),
    (BY_RING, "zero denominator x.", 17, 0),
    (BY_RING, "no at y : 1 and 0.", 18, 6),
    (BY_RING, "no at q(x) : 1 and 0.", 7, 6),
    (BY_RING, "no at R : 1 and 0.", 8, 6),
    (BY_RING, "no at x^1001 : 1 and 0.", 18, 6),
    (BY_RING, "no at 2 : 1 and 0.", 4, 6),
    (BY_RING, "proved.\nproved.", 4, 8),
]


def checked(text, written, status):
    return text.encode(), f"{written}\n".encode(), status


def files_to_check():
    yield checked(TWICE, "goal 1: ok proved", 0)
    yield checked(TWICE.replace("step 2", "step 3"), "goal 1: bad at 2", 1)
    yield checked(TWICE.replace("1, 1 over", "1, 2 over"), "goal 1: bad at 1", 1)
    yield checked(TWICE.replace(" if 2 <> 0", ""), "goal 1: bad", 1)
    yield checked(UNEQUAL + "  no at x*y : 2 and 0.\n", "goal 1: ok", 0)
    yield checked(UNEQUAL, "goal 1: unchecked", 1)
    yield checked(BY_RING + "proved.", "goal 1: ok proved", 0)
    yield checked(BY_RING + "proved if x <> 0.", "goal 1: bad", 1)
    reports = "\n".join(f"goal {k}: ok proved" for k in range(1, 13))
    yield checked(ALL_METHODS + GOALS_OF_ALL_METHODS, reports, 0)
    yield checked(R + X + "proved.", f"refused 4 at {len(R + X)}", 2)
    for goal, text, code, at in REFUSED:
        yield checked(goal + text, f"refused {code} at {len(goal) + at}", 2)
    yield from files_changed()


def files_changed():
    for old, new, report, status in CHANGES:
        yield checked(PRINTED.replace(old, new, 1), report, status)
    for length, (text, status) in CUT_TO.items():
        yield PRINTED[:length].encode(), text.encode(), status


def files_cut_short():
    """Cuts of a printed certificate that are refused with code 2, 4 or 5."""
    for length in range(len(PRINTED)):
        if length not in CUT_TO:
            yield PRINTED[:length].encode()
