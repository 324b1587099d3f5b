"""Files at the limits of the language, and at one more."""

from inputs.terms import MAX, root

MAX_BYTES = 1_048_576

RING = "ring R.\nvar x y : R.\n"


def with_goal(left, right="0", head=RING):
    return f"{head}goal {left} = {right} by ring.\n".encode()


def balanced(names):
    if len(names) == 1:
        return names[0]
    middle = len(names) // 2
    return f"({balanced(names[:middle])} + {balanced(names[middle:])})"


def files_of_bytes():
    for size in (MAX_BYTES - 1, MAX_BYTES, MAX_BYTES + 1):
        yield b" " * size
        yield b"ring R.\n" + b"#" * (size - 8)
        yield b"\xff" * size
        yield (b"ring R.\nvar x : R.\ngoal x = 0 by ring." + b"\n" * size)[:size]
        yield (b"ring R.\nvar " + b"x" * size)[:size]
        yield (b"ring R.\nvar x : R.\ngoal " + b"x + " * size)[:size]
        yield (b"ring R.\nvar x : R.\ngoal " + b"-" * size)[:size]
        yield (b"0" * size)[:size]
        yield (b"hyp" + b"." * size)[:size]


def files_of_nesting():
    for n in (199, 200, 201):
        yield with_goal("(" * n + "x" + ")" * n, "x")
        yield with_goal("x", "(" * n + "x" + ")" * n)
        yield with_goal("(" * n)
        yield with_goal("-(" * n + "x" + ")" * n, "x")
        yield with_goal("x + (" * n + "x" + ")" * n)
        yield with_goal("f(" * n + "x" + ")" * n, "x", "ring R.\nhom f : R -> R.\nvar x : R.\n")
        yield with_goal("(" * n + "x" + ")" * n, "(" * n + "x" + ")" * n)
        yield with_goal("(" * n + ")" * n)
        yield with_goal("(" * n + "x" + ")" * (n + 1))
        yield with_goal("(" * n + "x 2")


def files_of_depth():
    for n in (998, 999, 1000, 1001, 1002, 1200):
        yield with_goal("-" * n + "x")
        yield with_goal("x", "-" * n + "x")
        yield with_goal("+".join(["x"] * n))
        yield with_goal("*".join(["x"] * n))
        yield with_goal("-".join(["x"] * n), "-x*998")
        yield with_goal("*".join(["x"] * n) + "^1001", "zz")
        yield with_goal("-" * n + "x", "-" * n + "x")
        yield with_goal("+".join(["x"] * n) + "+" + "-" * n + "x")
        yield with_goal("y*" + "-" * n + "x", "/".join(["x"] * n))
        yield with_goal("(" + "-" * n + "x)^2", "zz")


def files_of_atoms():
    head = "ring R.\nhom f : R -> R.\nhom g : R -> R.\n"
    for n in (999, 1000, 1001):
        names = [f"x{k}" for k in range(n)]
        declared = head + f"var {' '.join(names)} : R.\n"
        yield with_goal(balanced(names), "0", declared)
        yield with_goal(balanced(names), balanced(names[::-1]), declared)
        yield with_goal(balanced(names[:500]), balanced(names[500:]), declared)
        yield with_goal(f"x0^1000*x0 + {balanced(names)}", "0", declared)
        yield with_goal(f"f({balanced(names[:500])})", f"g({balanced(names[: n - 500])})", declared)
        yield with_goal(f"f(g({balanced(names)}))", f"g(f({balanced(names[:2])}))", declared)
        yield with_goal(f"f({balanced(names)}) - f({balanced(names)})", "0", declared)
        yield with_goal(f"0*{balanced(names)}", "0", declared)


def files_of_numbers():
    for k in range(129):
        for value in (2**k - 1, 2**k, 2**k + 1):
            yield with_goal(f"x + {value}", f"{value} + x")
            yield with_goal(f"{value}*x - y", "y")
            yield with_goal(f"{value} - {2**k}*x", "2*x")
    for n in range(1, 128):
        for base in (root(n), root(n) + 1):
            yield with_goal(f"({base}*x)^{n}", f"{base ** n if base ** n <= MAX else 0}*x^{n}")
            yield with_goal(f"({base})^{n}", "x")
    for n in (0, 1, 2, 126, 127, 999, 1000, 1001):
        for base in ("0", "1", "x", "-x", "(x - x)", "2", "(x + y)", "x*y", "f"):
            yield with_goal(f"{base}^{n}")
            yield with_goal(f"x^1000*{base}^{n}", f"{base}^{n}*x^1000")


def filled(head, piece, tail):
    """A text of the greatest size: the head, the piece many times, the tail, then blanks."""
    times = (MAX_BYTES - len(head) - len(tail)) // len(piece)
    return (head + piece * times + tail).ljust(MAX_BYTES)


def files_of_size():
    """Valid files of many statements, many nodes, and great names."""
    head = b"ring R.\nhom f : R -> R.\nvar x y : R.\n"
    yield filled(head, b"goal x*f(y + 1) = f(y)*x + x by ring.\n", b"")
    yield filled(head, b"goal x = 2by ring.", b"goal y = f(y) by ring.")
    yield filled(head, b"# f(x) = y\n", b"goal x = y by ring.")
    yield filled(b"ring R.var ", b"x", b" : R.")
    yield filled(b"ring R.var ", "𐐀".encode(), b":R.")
    statements = b"".join(b"var v%d : R.\n" % k for k in range(60_000))
    names = b"".join(b" v%d" % k for k in range(120_000))
    yield b"ring R.\n" + statements + b"goal v1 = v59999 by ring."
    yield b"ring R.\nvar" + names + b" : R.goal v1 = v1 by ring."
    yield b"ring R.\nvar" + names + b" v119999 : R."
    yield with_goal(balanced(["x"] * 100_000), "100000*x")
    yield with_goal(balanced(["x"] * 50_000 + ["x*1001^1001"]), "1")
    yield with_goal(balanced(["x", "y", "-x", "-y"] * 20_000), "0")
    yield with_goal("f(" * 200 + "-" * 800 + "x" + ")" * 200, "0", head.decode())
    yield with_goal("f(" * 200 + "-" * 799 + "x" + ")" * 200, "0", head.decode())


def files_of_paths():
    """As many atoms as can be, or one more, each under a path of 181 morphisms."""
    head = "ring R.\nhom f : R -> R.\nhom g : R -> R.\n"
    for n in (1000, 1001):
        names = [f"x{k}" for k in range(n)]
        atoms = ["gf"[k % 2] + "(" + "f(" * 180 + name + ")" * 181 for k, name in enumerate(names)]
        declared = head + f"var {' '.join(names)} : R.\n"
        yield with_goal(balanced(atoms), f"{atoms[0]} + {atoms[-1]}", declared)
        yield with_goal(f"{atoms[-1]}^2", f"{atoms[-1]}*({balanced(atoms)})", declared)


def files_at_limits():
    yield from files_of_paths()
    yield from files_of_nesting()
    yield from files_of_depth()
    yield from files_of_atoms()
    yield from files_of_numbers()
    yield from files_of_size()
    yield from files_of_bytes()
