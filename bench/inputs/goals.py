"""Generated goals and statements, as lists of tokens."""

from inputs.equations import goal_by_nsatz, hyp
from inputs.scopes import Scope
from inputs.terms import dense_sides, edge_term, long_image, long_sum, rewritten, spoilt, term

LEVEL = {"+": 1, "-": 1, "*": 2, "/": 2, "neg": 3, "^": 4}


def tokens_of(rng, t, wanted, extra):
    """The tokens of a term, with parentheses where they are wanted and at times elsewhere."""
    level = LEVEL.get(t[0], 5)
    if t[0] in ("var", "int"):
        made = [t[1]]
    elif t[0] == "neg":
        made = ["-", *tokens_of(rng, t[1], 3, extra)]
    elif t[0] == "hom":
        made = [t[1], "(", *tokens_of(rng, t[2], 1, extra), ")"]
    elif t[0] == "^":
        made = [*tokens_of(rng, t[1], 5, extra), "^", t[2]]
    else:
        made = [*tokens_of(rng, t[1], level, extra), t[0], *tokens_of(rng, t[2], level + 1, extra)]
    return ["(", *made, ")"] if level < wanted or rng.random() < extra else made


def loose_tokens(scope):
    """Tokens of terms, an operand and an operator in turn, but for a few."""
    rng = scope.rng
    operands = [scope.leaf(sort)[1] for sort in scope.sorts] + [hom[0] for hom in scope.homs]
    operands += ["(", "-"]
    operators = ["+", "-", "*", "^", ")", "=", "("]
    made = []
    for k in range(rng.randint(1, 14)):
        in_turn = (operands, operators)[k % 2]
        made.append(rng.choice(in_turn if rng.random() < 0.85 else operands + operators))
    return made


def sides(scope, sort):
    """The two sides of a goal, often with the same polynomial."""
    rng = scope.rng
    kind = rng.choice("same same same near different dense edge edge long".split())
    if kind in ("same", "near"):
        left = term(scope, sort, rng.choice([1, 3, 6, 10, 15]))
        right = rewritten(rng, rewritten(rng, left))
        more = (rng.choice("+-"), right, term(scope, sort, rng.randint(1, 3)))
        return left, right if kind == "same" else more
    if kind == "different":
        return term(scope, sort, rng.randint(1, 12)), term(scope, sort, rng.randint(1, 12))
    if kind == "dense":
        return dense_sides(scope, sort)
    if kind == "edge":
        left = edge_term(scope, sort)
        return left, left if rng.random() < 0.4 else edge_term(scope, sort)
    return long_sum(scope, sort), long_image(scope, sort)


def method_and_sort(scope):
    """A method, and a sort that a variable has; mostly a field for goals by field."""
    rng = scope.rng
    sorts = [sort for _, sort in scope.variables]
    fields = [sort for sort in sorts if sort in scope.fields]
    domains = [sort for sort in sorts if sort in scope.domains]
    if rng.random() < (0.5 if domains else 0.05):
        return "nsatz", rng.choice(domains if domains and rng.random() < 0.97 else sorts)
    if rng.random() < (0.6 if fields else 0.05):
        return "field", rng.choice(fields if fields and rng.random() < 0.95 else sorts)
    return "ring", rng.choice(sorts)


def goal(scope):
    """The statements of a goal: itself last, and hypotheses that were made for it."""
    rng = scope.rng
    if rng.random() < 0.08:
        return [["goal", *loose_tokens(scope), "=", *loose_tokens(scope), "by", "ring", "."]]
    method, sort = method_and_sort(scope)
    scope.divides = method == "field"
    hyps, options = [], []
    if method == "nsatz":
        hyps, (left, right), options = goal_by_nsatz(scope, sort)
    else:
        left, right = sides(scope, sort)
    if rng.random() < 0.1:
        left, right = right, left
    for _ in range(rng.choice([0, 0, 0, 0, 1, 2] if method != "nsatz" else [0] * 9 + [1])):
        left = spoilt(scope, left)
        right = spoilt(scope, right) if rng.random() < 0.5 else right
    extra = rng.choice([0, 0, 0.1])
    left, right = tokens_of(rng, left, 1, extra), tokens_of(rng, right, 1, extra)
    made = ["goal", *left, "=", *right, "by", method, *options, "."]
    return [*(hyp_tokens(rng, *parts) for parts in hyps), made]


def hyp_tokens(rng, name, left, relation, right):
    extra = rng.choice([0, 0, 0.1])
    left, right = tokens_of(rng, left, 1, extra), tokens_of(rng, right, 1, extra)
    return ["hyp", name, ":", *left, relation, *right, "."]


def statements(rng):
    scope = Scope(rng)
    made = scope.declarations()
    for _ in range(rng.choice([0, 1, 2, 3])):
        made.append(hyp_tokens(rng, *hyp(scope)))
    for _ in range(rng.choice([0, 1, 1, 2, 3])):
        made += goal(scope)
        if rng.random() < 0.2:
            made.append(scope.var())
    return made
