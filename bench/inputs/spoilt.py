"""Generated files: valid, or spoilt in their tokens or their bytes."""

from inputs.goals import statements
from inputs.scopes import PLAIN_NAMES, SIGNS, WORDS
from inputs.terms import MAX, edge_literal

# Characters that begin no token, or that look as if they did, and bytes that aren't UTF-8.
ODD_CHARACTERS = (
    "\ufeff \u00a0 \u2028 \u200b \x0b \x0c \x00 \u0301 \u0660 \u037a \u309b \u00b7 "
    "² ½ ∀ € ∞ → − × ' < > ~ ! @ $ % & [ ] { } | \\ ; ? \" `"
).split(" ")
BROKEN_BYTES = (
    b"\xff \x80 \xc0\x80 \xc2 \xe2\x82 \xe0\x80\x80 \xed\x9f\xbf \xed\xa0\x80 "
    b"\xf0\x9f\x98 \xf0\x80\x80\x80 \xf4\x8f\xbf\xbf \xf4\x90\x80\x80 \xf8\x88\x80\x80\x80"
).split(b" ")
BLANKS = [" ", "  ", "\n", "\t", "\r\n", "\r", "# a note: (x .\n", "#\n", "#é\n", " # by ring.\r\n"]


def fuses(left, right):
    """Whether two tokens side by side would be cut as another one."""
    last = left[-1]
    if last.isdigit() and left[0].isdigit() and left[0].isascii():
        return right[0].isascii() and right[0].isdigit()
    named = last in "_'" or ("a" + last).isidentifier()
    return named and (right[0] in "_'" or ("a" + right[0]).isidentifier())


def spaced(rng, tokens):
    """The text of the tokens: as it is printed, as tight as can be, or with any blanks."""
    tightness = rng.choice([0, 0.5, 0.95, 1])
    text = [rng.choice(BLANKS)] if rng.random() < 0.1 else []
    for left, right in zip(tokens, tokens[1:] + ["."]):
        text.append(left)
        if left == "." and rng.random() < 0.7:
            text.append("\n")
        elif fuses(left, right) or rng.random() > tightness:
            text.append(" " if rng.random() < 0.6 else rng.choice(BLANKS))
    if rng.random() < 0.2:
        text.append(rng.choice(BLANKS + ["# the end", "#"]))
    return "".join(text)


def any_token(rng, tokens):
    numbers = ["0", "1", "1000", "1001", "01000", edge_literal(rng)]
    pools = [WORDS, SIGNS, tokens or ["x"], PLAIN_NAMES, numbers, ODD_CHARACTERS]
    return rng.choice(rng.choice(pools))


def positions(tokens, wanted):
    return [k for k, token in enumerate(tokens) if wanted(token)]


def is_name(token):
    return token not in WORDS and (token[0] == "_" or token[0].isidentifier())


def spoil_one_token(rng, tokens):
    """Takes out, doubles, swaps, replaces or adds one token."""
    k, m = rng.randrange(len(tokens)), rng.randrange(len(tokens))
    what = rng.randrange(6)
    if what == 0:
        del tokens[k]
    elif what == 1:
        tokens.insert(k, tokens[k])
    elif what == 2:
        tokens[k], tokens[m] = tokens[m], tokens[k]
    elif what == 3:
        tokens[k] = any_token(rng, tokens)
    elif what == 4:
        tokens.insert(k, any_token(rng, tokens))
    else:
        del tokens[rng.randrange(max(1, len(tokens))) :]


def spoil_name(rng, tokens):
    """Another name of the file, or one that isn't declared, in the place of a name."""
    places = positions(tokens, is_name)
    if places:
        names = [tokens[k] for k in places] + ["undeclared", "u'"]
        tokens[rng.choice(places)] = rng.choice(names)


def spoil_statements(rng, tokens):
    """Statements swapped, left out, or said twice."""
    made = [[]]
    for token in tokens:
        made[-1].append(token)
        if token == ".":
            made.append([])
    k, m = rng.randrange(len(made)), rng.randrange(len(made))
    what = rng.randrange(3)
    if what == 0:
        made[k], made[m] = made[m], made[k]
    elif what == 1:
        del made[k]
    else:
        made.insert(m, list(made[k]))
    tokens[:] = [token for statement in made for token in statement]


def spoil_operator(rng, tokens):
    """A quotient, an exponent at its limit, or a long run of `-` or `(` in a term."""
    what = rng.randrange(5)
    operators = positions(tokens, lambda t: t in "+-*/^=")
    if not operators:
        return
    k = rng.choice(operators)
    if what == 0 and tokens[k] in "+-*":
        tokens[k] = "/"
    elif what == 1:
        exponent = rng.choice(["0", "1000", "1001", str(MAX), str(MAX + 1)])
        tokens[k + 1 : k + 1] = ["x", "^", exponent, "*"]
    elif what == 2:
        tokens[k:k] = ["^", rng.choice(["0", "1", "1000", "1001", "00001001"])]
    elif what == 3:
        tokens[k + 1 : k + 1] = ["-"] * rng.choice([2, 990, 999, 1000, 1001, 1200])
    else:
        tokens[k + 1 : k + 1] = ["("] * rng.choice([1, 199, 200, 201])


def spoil_method(rng, tokens):
    """Another method, other options, or a hypothesis somewhere."""
    places = positions(tokens, lambda t: t == "by")
    what = rng.randrange(3)
    if places and what:
        k = rng.choice(places)
        tokens[k + 1 : k + 2] = [rng.choice(["field", "nsatz", "nsatz", "hyp", "by", "char"])]
        return
    ends = positions(tokens, lambda t: t == ".") or [0]
    k = rng.choice(ends)
    if what:
        tokens[k:k] = rng.choice([["using", "H"], ["power", "17"], ["limit", "1000001"], ["power"]])
        return
    made = ["hyp", "H", ":", "x", rng.choice(["=", "<>"]), "y", "."]
    tokens[k + 1 : k + 1] = made[: rng.randint(1, len(made))]


def spoil_bytes(rng, data):
    """Bytes flipped, taken out, put in, or the end cut off."""
    data = bytearray(data)
    k = rng.randrange(len(data) + 1)
    what = rng.randrange(6)
    if what == 0 and k < len(data):
        data[k] ^= 1 << rng.randrange(8)
    elif what == 1:
        del data[k : k + rng.randint(1, 3)]
    elif what == 2:
        data[k:k] = rng.choice(BROKEN_BYTES)
    elif what == 3:
        data[k:k] = rng.choice(ODD_CHARACTERS).encode()
    elif what == 4:
        data[k:k] = bytes([rng.randrange(256)])
    else:
        del data[k:]
    return bytes(data)


SPOILERS = [
    spoil_one_token,
    spoil_one_token,
    spoil_name,
    spoil_statements,
    spoil_operator,
    spoil_method,
]


def unspoilt(rng):
    """One file without changes; it may be refused for what it says."""
    return spaced(rng, [token for statement in statements(rng) for token in statement]).encode()


def generated(rng):
    """One file: valid, or spoilt by one to three changes that may compete."""
    tokens = [token for statement in statements(rng) for token in statement]
    changes = rng.choice([0, 0, 1, 1, 2, 3])
    in_bytes = changes and rng.random() < 0.25
    for _ in range(0 if in_bytes else changes):
        if tokens:
            rng.choice(SPOILERS)(rng, tokens)
    data = spaced(rng, tokens).encode() if tokens else b""
    for _ in range(changes if in_bytes else 0):
        data = spoil_bytes(rng, data)
    return data
