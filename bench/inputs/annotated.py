"""Generated files with hypotheses and goals by nsatz, and answered files that are spoilt."""

import re

from inputs.spoilt import any_token, spoil_bytes
from inputs.terms import MAX

TOKEN = re.compile(rb"\s+|[0-9]+|[^\s.:,=<>()+*/^-]+|.", re.S)
NUMBERS = [0, 1, 2, 3, 4, 5, 16, 17, 1000, 1001, 2**31, 2**32 - 1, 2**32, MAX, MAX + 1]
NAMES = ["x", "y", "z"]


def monomial(rng):
    names = rng.choices(NAMES, k=rng.choice([0, 1, 1, 2, 2]))
    return "*".join([str(rng.choice([1, 1, 1, 2, 3, 7])), *names])


def polynomial(rng):
    return rng.choice(["", "-"]) + rng.choice([" + ", " - "]).join(monomial(rng) for _ in range(rng.randint(1, 3)))


def combined(rng, hyps):
    """A sum of multiples of the hypotheses' differences."""
    parts = [f"({polynomial(rng)})*(({left}) - ({right}))" for left, right in hyps if rng.random() < 0.8]
    return " + ".join(parts) or "0"


def certified(rng):
    """A domain or a field, a few hypotheses, and goals by nsatz that mostly follow from them."""
    head = rng.choice(["domain", "domain", "field"]) + " D" + rng.choice(["", " char 0"]) + ".\n"
    image = rng.random() < 0.4
    text = head + ("hom f : D -> D.\n" if image else "") + f"var {' '.join(NAMES)} : D.\n"
    hyps = [(polynomial(rng), polynomial(rng) if rng.random() < 0.5 else "0") for _ in range(rng.randint(1, 4))]
    for number, (left, right) in enumerate(hyps):
        text += f"hyp H{number} : x + {left} = x + {right}.\n"
    factor = rng.choice(["", "", "", "N"])
    if factor:
        text += "hyp N : z <> 0.\n"
    for _ in range(rng.randint(1, 3)):
        uses = [f"H{number}" for number in range(len(hyps))]
        goal = combined(rng, hyps) if rng.random() < 0.8 else polynomial(rng)
        if image and rng.random() < 0.5:
            uses, goal = [f"f({use})" for use in uses], f"f({goal})"
        options = rng.choice(["", "", " power 2", " power 3"]) + rng.choice([" limit 60", " limit 60", " limit 7"])
        using = ", ".join(uses + ([factor] if factor else []))
        text += f"goal x + {goal} = x by nsatz using {using}{options}.\n"
    return text.encode()


def spoil_number(rng, tokens):
    """A numeral in the place of another: one near it, or one at a limit."""
    places = [k for k, token in enumerate(tokens) if token.isdigit()]
    if places:
        k = rng.choice(places)
        near = int(tokens[k]) + rng.choice([-1, 1, 2])
        tokens[k] = str(rng.choice([max(0, near), rng.choice(NUMBERS)])).encode()


def spoil_token(rng, tokens):
    """A token left out, doubled, swapped, or another one in its place."""
    k, m = rng.randrange(len(tokens)), rng.randrange(len(tokens))
    what = rng.randrange(4)
    if what == 0:
        tokens[k] = b" "
    elif what == 1:
        tokens.insert(k, tokens[k])
    elif what == 2:
        tokens[k], tokens[m] = tokens[m], tokens[k]
    else:
        tokens[k] = any_token(rng, ["x", "step", "line"]).encode()


def spoil_length(rng, tokens):
    """A run of tokens left out, said again, or all that follows cut off."""
    k = rng.randrange(len(tokens))
    end = min(len(tokens), k + rng.choice([1, 2, 10, 40]))
    what = rng.randrange(3)
    if what == 0:
        del tokens[k:end]
    elif what == 1:
        tokens[k:k] = tokens[k:end]
    else:
        del tokens[k:]


def spoilt(rng, data):
    """The bytes as they are, or with one to three changes in numbers, tokens, lengths or bytes."""
    for _ in range(rng.choice([0, 1, 1, 1, 2, 3])):
        tokens = TOKEN.findall(data)
        spoil = rng.choice([spoil_number, spoil_number, spoil_token, spoil_length, None])
        if spoil and tokens:
            spoil(rng, tokens)
            data = b"".join(tokens)
        else:
            data = spoil_bytes(rng, data)
    return data
