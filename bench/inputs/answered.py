"""Words and files, with what has to be written and the exit status."""

from inputs.answered_by_nsatz import R, V, X, files_by_nsatz
from inputs.answered_checks import files_to_check
from inputs.limits import MAX_BYTES
from inputs.terms import MAX

F = "field F.\n"
Y = "var x y : F.\n"
HOM_F = "hom f : R -> R.\n"
HOM_G = "hom g : R -> R.\n"
NAMES = [f"x{k}" for k in range(1001)]


def answered(text, answer, status):
    return text.encode(), f"{text}  {answer}.\n".encode(), status


def refused(text, code, at):
    return text.encode(), f"refused {code} at {at}\n".encode(), 2


def runs_with_answers():
    """Words and files, with what has to be written and the exit status."""
    for family in (files_by_ring, files_by_field, files_by_nsatz):
        for file in family():
            yield ["prove"], *file
    for file in files_to_check():
        yield ["check"], *file
    for n, proved in ((0, 0), (1, 1), (10, 7), (10_000, 6_667)):
        text = f"load {n}: {proved} proved, {n - proved} not\n"
        yield ["load", str(n)], b"", text.encode(), int(proved < n)


def files_by_ring():
    """Goals by ring, and files that are refused."""
    great = f"x + {MAX}"
    less = f"x + {MAX - 1}"
    power = "(2*x)^{0} = (2*x)^{0}"
    yield b"", b"", 0
    yield answered(R + V + "goal (x + y)^2 = x^2 + 2*x*y + y^2 by ring.\n", "proved", 0)
    yield answered(R + V + "goal (x + y)^2 = x^2 + y^2 by ring.\n", "no at x*y : 2 and 0", 1)
    yield answered(R + HOM_F + V + "goal f(x*y + 1) = f(x)*f(y) + 1 by ring.\n", "proved", 0)
    paths = R + HOM_F + HOM_G + V + "goal f(g(x)) = g(f(x)) by ring.\n"
    yield answered(paths, "no at f(g(x)) : 1 and 0", 1)
    yield answered(R + V + f"goal {less} = {less} by ring.\n", "proved", 0)
    yield answered(R + V + f"goal {great} = {great} by ring.\n", "range", 1)
    yield answered(R + V + f"goal {power.format(126)} by ring.\n", "proved", 0)
    yield answered(R + V + f"goal {power.format(127)} by ring.\n", "range", 1)
    yield answered(R + V + "goal x - x + 1 = 0 by ring.\n", "no at 1 : 1 and 0", 1)
    yield refused(R + X + "goal 1 = 0 by ring.\n", 10, 26)
    yield refused("ring R.\nvar x : R", 5, 17)
    yield refused("var x : R.\n", 7, 8)
    yield b" " * MAX_BYTES, b"", 0
    yield b" " * (MAX_BYTES + 1), b"refused large\n", 2
    yield answered(R + V + "goal x^1000*x = 0 by ring.\n", "degree", 1)
    yield answered(R + V + "goal x^1000 = x^1000 by ring.\n", "proved", 0)
    yield refused(R + X + f"goal x = {MAX + 1} by ring.\n", 3, 28)
    yield refused(F + "var x : F.\ngoal x/x = 1 by ring.\n", 13, 26)
    yield b"\xff", b"refused 1 at 0\n", 2
    yield answered(R + "var α : R.\ngoal α + α = 2*α by ring.\n", "proved", 0)
    many = f"var {' '.join(NAMES)} : R.\ngoal {unwrapped(NAMES)} = 0 by ring.\n"
    yield answered(R + many, "atoms", 1)
    yield from files_at_nesting()


def files_at_nesting():
    """The deepest terms, and what is deeper."""
    thousand = R + X + f"goal {' + '.join(['x'] * 1000)} = 0 by ring.\n"
    data, written, status = answered(thousand, "no at x : 1000 and 0", 1)
    yield data.replace(b" + ", b"+"), written, status
    yield refused(R + X + f"goal {'+'.join(['x'] * 1001)} = 0 by ring.\n", 11, 2023)
    yield refused(R + X + f"goal {'-' * 1200}x = 0 by ring.\n", 11, 224)
    yield refused(R + X + "goal " + "(" * 201 + "\n", 19, 224)
    data, written, status = answered(R + X + "goal x = x by ring.\n", "proved", 0)
    yield data.replace(b"x =", b"(" * 200 + b"x" + b")" * 200 + b" ="), written, status


def files_by_field():
    """Goals by field, with their conditions, and where they may not stand."""
    char0 = "field F char 0.\n" + Y
    yield answered(F + Y + "goal x/x = 1 by field.\n", "proved if x <> 0", 0)
    conditions = "x <> 0, y <> 0, x*y <> 0"
    yield answered(F + Y + "goal 1/x + 1/y = (x + y)/(x*y) by field.\n", f"proved if {conditions}", 0)
    yield answered(F + Y + "goal 1/(x - x) = 0 by field.\n", "zero denominator x - x", 1)
    under = F + "field K.\nhom f : F -> K.\n" + Y + "goal f(1/x) = 1/f(x) by field.\n"
    yield answered(under, "proved if x <> 0, f(x) <> 0", 0)
    yield answered(F + Y + "goal x/2 + x/2 = x by field.\n", "proved if 2 <> 0", 0)
    yield answered(char0 + "goal x/2 + x/2 = x by field.\n", "proved", 0)
    yield answered(F + Y + "goal 1/x = 1/(x + 1) by field.\n", "no at 1 : 1 and 0", 1)
    yield answered(F + Y + "goal 0/0 = 0 by field.\n".replace("= 0", "= x"), "zero denominator 0", 1)
    yield answered(F + Y + "goal x^0/x^0 = 1 by field.\n", "proved", 0)
    yield answered(F + Y + "goal 1/(x - x)^0 = 1 by field.\n", "proved", 0)
    yield refused(R + X + "goal x = x by field.\n", 15, 33)


def unwrapped(names):
    """A balanced sum as it is printed: no parentheses but around right parts."""
    if len(names) == 1:
        return names[0]
    middle = (len(names) + 1) // 2
    left, right = unwrapped(names[:middle]), unwrapped(names[middle:])
    return f"{left} + ({right})" if len(names) - middle > 1 else f"{left} + {right}"
