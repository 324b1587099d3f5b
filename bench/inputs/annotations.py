"""Annotated files: what a prover wrote, at times with its answers spoilt."""

import re

from inputs.spoilt import any_token, is_name, spaced, spoil_bytes
from inputs.terms import MAX

TOKEN = re.compile(r"<>|->|[-.:,=()+*/^]|[^\s.:,=()+*/^<>-]+")
NUMBERS = ["0", "1", "2", "3", "4", "00", "1000", "1001", str(2**32 - 1), str(2**32)]
GREAT_NUMBERS = [str(MAX), str(MAX + 1), str(2**64), str(2**31)]

# Answers of each form. A term stands for T, a monomial for M, a number for N.

ANSWERS = """
proved|proved if T <> 0|proved if T <> 0, T <> 0|proved if T <> N|proved power N|proved power 1
|proved power N if N <> 0|proved version N power N|proved version 1 power 1|proved version 2 power 1
|proved version 2 power 1 if N <> 0, N <> 0|no at M : N and N|no at M : - N and N|no at 1 : N and - N
|zero denominator T|none up to power N|gave up after N|range|degree|atoms
""".replace("\n", "").split("|")
LINES = """
line N, M, N minus N, M, N over N|line N, N minus - N, N|line N, M, N minus N, N over N
|step N minus N, M, N over N|step N minus - N, N|step N minus N, M, N|step N minus N, N over N
""".replace("\n", "").split("|")


def tokens_of_text(text):
    return TOKEN.findall(text)


def statements_of(text):
    """The statements as lists of tokens, each to its `.`"""
    return [tokens_of_text(line) for line in text.splitlines()]


def is_answer(statement):
    return statement[0] in ANSWER_WORDS


ANSWER_WORDS = {"proved", "no", "zero", "none", "gave", "range", "degree", "atoms", "line", "step"}


def names_of(statements):
    return [token for statement in statements for token in statement if is_name(token)] or ["x"]


def some_term(rng, names):
    made = [rng.choice([*names, "1", "2"])]
    for _ in range(rng.choice([0, 0, 1, 2])):
        made += [rng.choice("+-*/"), rng.choice([*names, "0", "2"])]
    if rng.random() < 0.2:
        made = [rng.choice(names), "(", *made, ")"]
    return made + rng.choice([[], [], ["^", "2"], ["^", "1001"]])


def some_monomial(rng, names):
    made = []
    for _ in range(rng.choice([1, 1, 2, 3])):
        made += ["*", rng.choice(names)]
        if rng.random() < 0.3:
            made += ["(", rng.choice(names), ")"]
        if rng.random() < 0.3:
            made += ["^", rng.choice(["0", "1", "2", "500", "1000", "1001", str(MAX)])]
    return made[1:] if rng.random() < 0.8 else ["1"]


def filled(rng, form, names):
    """The tokens of a form with terms, monomials and numbers in it."""
    made = []
    for token in tokens_of_text(form):
        if token == "T":
            made += some_term(rng, names)
        elif token == "M":
            made += some_monomial(rng, names)
        else:
            made.append(rng.choice(NUMBERS) if token == "N" else token)
    return [*made, "."]


def put_answer(rng, statements):
    """An answer, a line or a step somewhere, mostly in the place of another."""
    names = names_of(statements)
    made = filled(rng, rng.choice(rng.choice([ANSWERS, ANSWERS, LINES])), names)
    places = [k for k, statement in enumerate(statements) if is_answer(statement)]
    if places and rng.random() < 0.8:
        statements[rng.choice(places)] = made
        return
    goals = [k + 1 for k, statement in enumerate(statements) if statement[0] == "goal"]
    statements.insert(rng.choice(goals or [0]), made)


def an_answer(rng, statements):
    answers = [statement for statement in statements if is_answer(statement)]
    return rng.choice(answers or statements)


def put_number(rng, statements):
    """Another number in an answer: a near one, or one at a limit."""
    statement = an_answer(rng, statements)
    places = [k for k, token in enumerate(statement) if token.isascii() and token.isdigit()]
    if not places:
        return
    k = rng.choice(places)
    near = str(max(0, int(statement[k]) + rng.choice([-1, 1, 1])))
    statement[k] = rng.choice([near, near, "0" + statement[k], rng.choice(NUMBERS + GREAT_NUMBERS)])


def put_name(rng, statements):
    """Another name in an answer, or a name in the place of a number."""
    statement = an_answer(rng, statements)
    places = [k for k, token in enumerate(statement) if is_name(token) or token == "1"]
    if places:
        statement[rng.choice(places)] = rng.choice([*names_of(statements), "undeclared"])


def put_token(rng, statements):
    """A token of an answer taken out, said twice, replaced or moved."""
    statement = an_answer(rng, statements)
    k, m = rng.randrange(len(statement)), rng.randrange(len(statement))
    what = rng.randrange(4)
    if what == 0:
        del statement[k]
    elif what == 1:
        statement.insert(k, statement[k])
    elif what == 2:
        statement[k] = any_token(rng, statement)
    else:
        statement[k], statement[m] = statement[m], statement[k]


def move_statement(rng, statements):
    """A statement left out, said twice or moved, mostly an answer."""
    places = [k for k, statement in enumerate(statements) if is_answer(statement)]
    if not places or rng.random() < 0.2:
        places = range(len(statements))
    k = rng.choice(places)
    what = rng.randrange(3)
    made = statements[k]
    if what != 1:
        del statements[k]
    if what:
        statements.insert(rng.randrange(len(statements) + 1), list(made))


def say_otherwise(rng, statements):
    """The same said in other words: factors in another order, apart or with the exponent 0 or 1."""
    statement = an_answer(rng, statements)
    stars = [k for k, token in enumerate(statement) if token == "*"]
    powers = [k for k, token in enumerate(statement) if token == "^" and statement[k + 1] == "2"]
    if stars and rng.random() < 0.5:
        k = rng.choice(stars)
        if len(statement) > k + 1 and "^" not in statement:
            statement[k - 1], statement[k + 1] = statement[k + 1], statement[k - 1]
    elif powers:
        k = rng.choice(powers)
        statement[k : k + 2] = ["*", statement[k - 1]]
    elif "minus" in statement or "at" in statement:
        places = [k for k, token in enumerate(statement) if is_name(token)]
        if places:
            k = rng.choice(places)
            statement[k:k] = [statement[k], "^", rng.choice(["0", "00", "1"]), "*"]


def change_option(rng, statements):
    """Another power or limit in a goal, or another version in an answer."""
    for statement in rng.sample(statements, len(statements)):
        for k, token in enumerate(statement[:-1]):
            if token in ("power", "limit", "version") and rng.random() < 0.5:
                statement[k + 1] = rng.choice(["0", "1", "2", "3", "16", "17"])
                return
            if token == "proved" and statement[k + 1] == "power":
                statement[k + 1 : k + 1] = ["version", rng.choice(["1", "2", "3", "01"])]
                return


CHANGES = [
    put_answer,
    put_answer,
    put_number,
    put_number,
    put_number,
    put_name,
    put_token,
    move_statement,
    say_otherwise,
    change_option,
]


def annotated(rng, text):
    """The text of answered goals, as it is or with some changes."""
    statements = [statement for statement in statements_of(text) if statement]
    changes = rng.choice([0, 1, 1, 1, 2, 3])
    for _ in range(changes if statements else 0):
        statements = [statement for statement in statements if statement] or [["."]]
        rng.choice(CHANGES)(rng, statements)
    tokens = [token for statement in statements for token in statement]
    if not tokens or rng.random() < 0.1:
        data = text.encode()
    else:
        data = spaced(rng, tokens).encode()
    if rng.random() < 0.1:
        data = data[: rng.randrange(len(data) + 1)]
    return spoil_bytes(rng, data) if rng.random() < 0.04 else data
