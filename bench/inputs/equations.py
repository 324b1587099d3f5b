"""Generated hypotheses, and goals by nsatz that often follow from them."""

from inputs.terms import MAX, term

POWERS = ["1", "2", "2", "3", "4", "16", "0", "17", "016", str(MAX)]
LIMITS = ["0", "1", "2", "3", "5", "8", "20", "50", "300", "10000", "1000000", "1000001", "00"]
ZERO = ("int", "0")


def product_of(scope, sort, greatest):
    rng = scope.rng
    made = scope.leaf(sort)
    for _ in range(rng.randint(0, greatest)):
        made = ("*", made, scope.leaf(sort))
    if rng.random() < 0.15:
        made = ("^", made, str(rng.choice([0, 2, 2, 3])))
    return made


def small_side(scope, sort):
    """A sum of a few products of leaves."""
    rng = scope.rng
    made = product_of(scope, sort, 2)
    for _ in range(rng.choice([0, 0, 1, 1, 2])):
        part = product_of(scope, sort, 1)
        if rng.random() < 0.3:
            part = ("*", ("int", str(rng.choice([2, 2, 3, 4, 6]))), part)
        made = (rng.choice("+-"), made, part)
    return made


def great_power(scope, sort):
    """Great degrees or coefficients, so that a pair or a combination may pass a limit."""
    rng = scope.rng
    x, y = scope.leaf(sort), scope.leaf(sort)
    if rng.random() < 0.5:
        n, m = rng.choice([(600, 1), (1, 600), (500, 500), (999, 1), (1000, 0), (334, 333)])
        return ("*", ("^", x, str(n)), ("^", y, str(m)))
    great = rng.choice([MAX, MAX - 1, 2**126, 2**64, 2**63 - 1, 10**19, 3 * 10**37])
    return ("-", ("*", ("int", str(great)), x), y)


def equation(scope, sort):
    """The sides of a hypothesis."""
    rng = scope.rng
    chance = rng.random()
    if chance < 0.12:
        return great_power(scope, sort), small_side(scope, sort)
    if chance < 0.2:
        return term(scope, sort, rng.randint(1, 6)), term(scope, sort, rng.randint(1, 4))
    return small_side(scope, sort), rng.choice([ZERO, ZERO, small_side(scope, sort)])


def image(path, t):
    for name in reversed(path):
        t = ("hom", name, t)
    return t


def path_to(scope, source, sort):
    """Morphisms from one sort to another, the outermost first, or None where none were found."""
    for _ in range(6):
        path, at = [], source
        while at != sort or scope.rng.random() < 0.2:
            fitting = [hom for hom in scope.homs if hom[1] == at]
            if not fitting or len(path) > 3:
                break
            name, _, at = scope.rng.choice(fitting)
            path.insert(0, name)
        if at == sort:
            return path
    return None


def uses_for(scope, sort):
    """Some hypotheses with paths to the sort."""
    rng = scope.rng
    uses = []
    for hyp in rng.sample(scope.hyps, min(len(scope.hyps), rng.choice([1, 1, 2, 2, 3, 4]))):
        path = path_to(scope, hyp[1], sort)
        if path is not None and not (hyp[2] and path and hyp[1] not in scope.fields):
            uses.append((path, hyp))
    if uses and rng.random() < 0.1:
        uses.append(rng.choice(uses))
    return uses


def following_sides(scope, sort, uses):
    """Sides that differ by a combination of the used equations, at times by a part of one."""
    rng = scope.rng
    left = right = rng.choice([ZERO, small_side(scope, sort)])
    for path, (_, _, nonzero, one, other) in uses:
        if nonzero or rng.random() < 0.2:
            continue
        factor = rng.choice([("int", "1"), scope.leaf(sort), product_of(scope, sort, 1)])
        left = (rng.choice("+-"), left, ("*", factor, image(path, one)))
        right = (left[0], right, ("*", factor, image(path, other)))
    return left, right


def consequence(scope, sort, uses):
    """A goal from a new hypothesis: a multiple of the goal, a power of it, or both."""
    rng = scope.rng
    wanted = small_side(scope, sort)
    made = ("^", wanted, str(rng.choice([1, 2, 2, 3])))
    if rng.random() < 0.4:
        made = ("*", ("int", str(rng.choice([2, 3, 6]))), made)
    statements = []
    if rng.random() < 0.4:
        factor = scope.leaf(sort)
        made = ("*", made, factor)
        statements.append(hyp_of(scope, sort, True, factor, ZERO))
        uses.append(([], scope.hyps[-1]))
    statements.append(hyp_of(scope, sort, False, made, ZERO))
    uses.append(([], scope.hyps[-1]))
    rng.shuffle(uses)
    return statements, (wanted, ZERO)


def hyp_of(scope, sort, nonzero, left, right):
    """A hypothesis that is declared, as its parts."""
    name = scope.new_name()
    scope.hyps.append((name, sort, nonzero, left, right))
    return name, left, "<>" if nonzero else "=", right


def hyp(scope):
    sort = scope.rng.choice([sort for _, sort in scope.variables])
    return hyp_of(scope, sort, scope.rng.random() < 0.2, *equation(scope, sort))


def use_tokens(path, name):
    opened = [token for hom in path for token in (hom, "(")]
    return [*opened, name, *[")"] * len(path)]


def options(rng, uses):
    """The tokens after the word `nsatz`."""
    made = []
    for path, (name, *_) in uses:
        made += [",", *use_tokens(path, name)]
    if made:
        made[0] = "using"
    if rng.random() < 0.5:
        made += ["power", rng.choice(POWERS[: rng.choice([5, 5, 5, len(POWERS)])])]
    if rng.random() < 0.6:
        made += ["limit", rng.choice(LIMITS[: rng.choice([10, 10, 10, len(LIMITS)])])]
    return made


def goal_by_nsatz(scope, sort):
    """Hypotheses that are declared for it, the sides and the tokens after the word `nsatz`."""
    rng = scope.rng
    uses = uses_for(scope, sort)
    statements = []
    kind = rng.choice("following following consequence consequence small great".split())
    if kind == "following":
        sides = following_sides(scope, sort, uses)
    elif kind == "consequence":
        statements, sides = consequence(scope, sort, uses)
    elif kind == "small":
        sides = small_side(scope, sort), rng.choice([ZERO, small_side(scope, sort)])
    else:
        sides = great_power(scope, sort), small_side(scope, sort)
    return statements, sides, options(rng, uses)
