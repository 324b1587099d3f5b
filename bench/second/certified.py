"""Whether the proofs of an answered file hold, tried at random values modulo a prime.

Terms, conditions and certificates are evaluated as they stand; no polynomial is made. Each atom, a
variable under a path of morphisms, has a value of its own. A proof that holds fails at no value; one
that fails does so nearly everywhere modulo the great prime, and one that lacks a condition does so
soon modulo a small one.
"""

import random
import re

PRIME = 2**61 - 1
SMALL_PRIMES = (2, 3, 5, 7)
TRIES = 4
ANSWERS = ("proved", "no", "zero", "none", "gave", "range", "degree", "atoms", "line", "step")
TOKEN = re.compile(r"\s+|#[^\n]*|([0-9]+|[^\s.:,=<>()+*/^#-]+|<>|->|.)")


def statements(text):
    """The tokens of each statement, without its point."""
    tokens = []
    for token in (match.group(1) for match in TOKEN.finditer(text)):
        if token == ".":
            yield tokens
            tokens = []
        elif token:
            tokens.append(token)


class Values:
    """Values of terms, each atom at a random value modulo a prime."""

    def __init__(self, rng, prime=PRIME):
        self.rng, self.prime, self.atoms = rng, prime, {}

    def of(self, tokens, path=()):
        self.tokens, self.at = [*tokens, None], 0
        return self.sum(path)

    def take(self):
        self.at += 1
        return self.tokens[self.at - 1]

    def sees(self, *tokens):
        return self.tokens[self.at] in tokens

    def sum(self, path):
        value = self.product(path)
        while self.sees("+", "-"):
            value = value + self.product(path) if self.take() == "+" else value - self.product(path)
        return value % self.prime

    def product(self, path):
        value = self.unary(path)
        while self.sees("*", "/"):
            value *= self.inverse(self.unary(path)) if self.take() == "/" else self.unary(path)
            value %= self.prime
        return value

    def inverse(self, value):
        if value % self.prime == 0:
            raise ZeroDivisionError
        return pow(value, -1, self.prime)

    def unary(self, path):
        sign = 1
        while self.sees("-"):
            self.take()
            sign = -sign
        value = self.leaf(path)
        if self.sees("^"):
            self.take()
            value = pow(value, int(self.take()), self.prime)
        return sign * value

    def leaf(self, path):
        token = self.take()
        if token.isdigit():
            return int(token) % self.prime
        if token != "(" and not self.sees("("):
            return self.atoms.setdefault((path, token), self.rng.randrange(self.prime))
        if token != "(":
            path = (*path, token)
            self.take()
        value = self.sum(path)
        self.take()
        return value


def split(tokens, mark):
    """The tokens between the marks that stand outside parentheses."""
    parts, depth = [[]], 0
    for token in tokens:
        depth += (token == "(") - (token == ")")
        if token == mark and depth == 0:
            parts.append([])
        else:
            parts[-1].append(token)
    return parts


def difference(values, equation, path=()):
    left, right = split(equation, "<>" if "<>" in equation else "=")
    return values.of(left, path) - values.of(right, path)


class Checker:
    """The proofs of one file."""

    def __init__(self, text, rng):
        self.rng = rng
        self.statements = [tokens for tokens in statements(text) if tokens]
        self.hyps = {s[1]: s[3:] for s in self.statements if s[0] == "hyp"}
        self.char0 = any(s[-2:] == ["char", "0"] for s in self.statements)

    def goals(self):
        """Of each goal its tokens, and those of its answer, its lines and its steps."""
        goals = []
        for tokens in self.statements:
            if tokens[0] == "goal":
                goals.append((tokens, []))
            elif goals and tokens[0] in ANSWERS:
                goals[-1][1].append(tokens)
        return goals

    def holds(self, goal, answers):
        """Whether the goal's answer, which is to be a proof, proves it."""
        by = len(goal) - 1 - goal[::-1].index("by")
        equation, method = goal[1:by], goal[by + 1 :]
        if method[0] == "nsatz":
            return self.is_certified(equation, method, answers)
        conditions = [split(c, "<>")[0] for c in split(answers[0][2:], ",") if c]
        plain = method[0] == "ring" or self.char0 or any(s[0] == "hom" for s in self.statements)
        primes = (PRIME,) if plain else (PRIME, *SMALL_PRIMES)
        return all(self.is_equal(equation, conditions, prime) for prime in primes for _ in range(TRIES))

    def is_equal(self, equation, conditions, prime):
        """Whether the sides are equal at random values, if all conditions hold there."""
        values = Values(self.rng, prime)
        try:
            return not all(values.of(c) for c in conditions) or difference(values, equation) % prime == 0
        except ZeroDivisionError:
            return False

    def is_certified(self, equation, method, answers):
        """Whether the certificate makes the remainder zero, and its constants are the printed ones."""
        values = Values(self.rng)
        lines, goal = [], difference(values, equation)
        names = split(method[2 : method.index("power")], ",") if "using" in method else []
        for use in names:
            *path, hyp = (token for token in use if token not in ("(", ")"))
            value = difference(values, self.hyps[hyp], tuple(path))
            if "<>" in self.hyps[hyp]:
                goal *= value
            else:
                lines.append(value)
        answer = answers[0]
        goal = pow(goal, int(answer[answer.index("power") + 1]), PRIME)
        constants = set()
        for kind, *step in answers[1:]:
            left, right = split(step, "minus")
            right, *over = split(right, "over")
            d = int(over[0][0]) if over else 1
            b, subtracted = self.multiple(values, right, lines)
            if kind == "step":
                a = int(left[0])
                goal = (a * goal - b * subtracted) * values.inverse(d) % PRIME
                constants.add(a)
            else:
                a, multiple = self.multiple(values, left, lines)
                lines.append((a * multiple - b * subtracted) * values.inverse(d) % PRIME)
                constants.add(d)
        printed = [int(c[0]) for c in split(answer[answer.index("if") + 1 :], ",")] if "if" in answer else []
        wanted = [] if self.char0 else sorted(c for c in constants if c > 1)
        return goal == 0 and (self.char0 or printed == wanted)

    def multiple(self, values, tokens, lines):
        """A factor, and a monomial times the line of a number."""
        factor, *monomial, line = split(tokens, ",")
        value = values.of(monomial[0]) if monomial else 1
        return int("".join(factor)), value * lines[int(line[0]) - 1]


def wrong_proofs(text, numbers=None, seed="0"):
    """The numbers of the goals, of these or of all, whose answer is a proof that does not hold."""
    checker = Checker(text, random.Random(seed))
    for number, (goal, answers) in enumerate(checker.goals(), 1):
        proved = bool(answers) and answers[0][0] == "proved"
        if (number in numbers if numbers is not None else proved) and not (proved and checker.holds(goal, answers)):
            yield number
