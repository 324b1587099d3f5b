#!/usr/bin/env python3
"""Compares the built program with Singular and giac on goals by ring. It is no test.

Run from anywhere: bench/algebra.py [--program PROGRAM] [--times N] [WORD]. Each goal is an equation
that holds; each program makes both sides and compares them. The table has the processor seconds of
whole processes, the least of N runs, and the ratio to the better of the other two. Singular and giac
are Debian's packages `singular` and `xcas`; where one is missing its column is empty.
"""

import argparse
import itertools
import os
import resource
import shutil
import subprocess
import sys

TOP = os.path.dirname(os.path.dirname(os.path.abspath(__file__)))
PROGRAM = f"{TOP}/crates/alg_cli/out/alg_cli"
SECONDS = 120


def names(count):
    return [f"x{i}" for i in range(1, count + 1)]


def halves(count, n):
    total = " + ".join(names(count))
    half = n // 2
    return names(count), f"({total})^{n}", f"({total})^{half}*({total})^{n - half}"


def product(count):
    factors = [f"({x} + {k})" for k, x in enumerate(names(count), 1)]
    return names(count), "*".join(factors), "*".join(reversed(factors))


def sign(order):
    inversions = sum(a > b for a, b in itertools.combinations(order, 2))
    return -1 if inversions % 2 else 1


def sum_of(terms):
    """The sum of terms with signs, by halves in parentheses, since a term's depth is at most 1,000."""
    if len(terms) == 1:
        positive, term = terms[0]
        return term if positive > 0 else f"(-1)*{term}"
    half = len(terms) // 2
    return f"({sum_of(terms[:half])} + {sum_of(terms[half:])})"


def vandermonde(count):
    x = names(count)
    orders = itertools.permutations(range(count))
    terms = [(sign(order), "*".join(f"{x[i]}^{e}" for i, e in enumerate(order))) for order in orders]
    right = "*".join(f"({x[j]} - {x[i]})" for i in range(count) for j in range(i + 1, count))
    return x, sum_of(terms), right


def determinant(rows):
    orders = itertools.permutations(range(len(rows)))
    return sum_of([(sign(order), "*".join(rows[i][j] for i, j in enumerate(order))) for order in orders])


def determinants(size):
    """The determinant of a matrix of unknowns times one of numbers, against the product of both."""
    places = range(size)
    unknowns = [[f"x{i}_{j}" for j in places] for i in places]
    numbers = [[(i * j + i + 2 * j) % 5 - 2 for j in places] for i in places]
    entries = [[" + ".join(f"({numbers[k][j]})*{unknowns[i][k]}" for k in places) for j in places] for i in places]
    entries = [[f"({entry})" for entry in row] for row in entries]
    by = determinant([[f"({c})" for c in row] for row in numbers])
    return sum(unknowns, []), determinant(entries), f"({by})*({determinant(unknowns)})"


def seconds(command, text):
    before = resource.getrusage(resource.RUSAGE_CHILDREN)
    done = subprocess.run(
        command, input=text.encode(), stdout=subprocess.PIPE, stderr=subprocess.DEVNULL, timeout=SECONDS
    )
    after = resource.getrusage(resource.RUSAGE_CHILDREN)
    return after.ru_utime + after.ru_stime - before.ru_utime - before.ru_stime, done.stdout


def of_program(program, x, left, right):
    text = f"ring R.\nvar {' '.join(x)} : R.\ngoal {left} = {right} by ring.\n"
    spent, out = seconds([program, "prove"], text)
    return spent, out.rstrip().endswith(b"proved.")


def of_singular(x, left, right):
    text = f"ring r=0,({','.join(x)}),dp;\npoly p={left};\npoly q={right};\np==q;\nquit;\n"
    spent, out = seconds(["Singular", "-q"], text)
    return spent, out.strip().endswith(b"1")


def of_giac(x, left, right):
    spent, out = seconds(["giac"], f"p:=expand({left}):;\nq:=expand({right}):;\np-q;\n")
    return spent, b"0" in out


def main():
    parser = argparse.ArgumentParser(description="Compares the built program with Singular and giac on goals by ring.")
    parser.add_argument("--program", default=PROGRAM)
    parser.add_argument("--times", type=int, default=3)
    parser.add_argument("word", nargs="?", default="", help="run only the rows with it in their name")
    given = parser.parse_args()
    rows = [
        ("(x1 + .. + x5)^24 against two halves", halves(5, 24)),
        ("product of 16 unknowns, both ways round", product(16)),
        ("Vandermonde's determinant of 7 unknowns", vandermonde(7)),
        ("determinant of a product of size 5", determinants(5)),
    ]
    others = [(name, call) for name, call in (("Singular", of_singular), ("giac", of_giac)) if shutil.which(name)]
    print(f"{'goal':42} {'alg':>7} " + " ".join(f"{name:>9}" for name, _ in others) + f" {'ratio':>6}")
    for what, goal in rows:
        if given.word not in what:
            continue
        tries = [("alg", lambda *goal: of_program(given.program, *goal))] + others
        least = {name: min(call(*goal) for _ in range(given.times)) for name, call in tries}
        wrong = [name for name, (_, holds) in least.items() if not holds]
        best = min((least[name][0] for name, _ in others), default=0)
        ratio = f"{least['alg'][0] / best:6.1f}" if best else ""
        print(f"{what:42} {least['alg'][0]:7.2f} " + " ".join(f"{least[name][0]:9.2f}" for name, _ in others)
              + f" {ratio}" + (f"   not confirmed by {', '.join(wrong)}" if wrong else ""), flush=True)
    return 0


if __name__ == "__main__":
    sys.exit(main())
