#!/usr/bin/env python3
"""Times the built program on files of growing size and prints a table. It is no test.

Run from anywhere: bench/bench.py [--program PROGRAM] [--times N] [WORD]. With a word only the rows
that have it in their name are run. The program is crates/alg_cli/out/alg_cli where none is named.
Each row: what the file has, its bytes, the exit status, seconds of processor time and peak memory in
MB, each the least of N runs (3). Rows that begin with `check` run `check`, all others `prove`.
"""

import argparse
import os
import signal
import subprocess
import sys
import tempfile
from functools import partial

from measured import measured

TOP = os.path.dirname(os.path.dirname(os.path.abspath(__file__)))
PROGRAM = f"{TOP}/crates/alg_cli/out/alg_cli"
SECONDS = 60


def names(count):
    return [f"x{i}" for i in range(1, count + 1)]


def file_of(variables, goals, head="ring R.\n", method="ring"):
    declared = f"var {' '.join(variables)} : R.\n"
    return head + declared + "".join(f"goal {goal} by {method}.\n" for goal in goals)


def field_file(variables, goals):
    return file_of(variables, goals, "field R.\n", "field")


def power(count, n):
    total = " + ".join(names(count))
    return file_of(names(count), [f"({total})^{n} = ({total})^{n - 1}*({total})"])


def product(count):
    factors = [f"({x} + {k})" for k, x in enumerate(names(count), 1)]
    return file_of(names(count), ["*".join(factors) + " = " + "*".join(reversed(factors))])


def small_goals(count):
    goals = [f"(x1 + {k})*(x2 - {k}) = x1*x2 - {k}*x1 + {k}*x2 - {k * k}" for k in range(count)]
    return file_of(names(2), goals)


def short_statements(size):
    text = "ring R.\n"
    k = 0
    while len(text) < size:
        text += f"var v{k} : R.\n"
        k += 1
    return text[:size].rsplit(".", 1)[0] + ".\n"


def under_paths(depth):
    head = "ring R.\n" + "".join(f"hom f{i} : R -> R.\n" for i in range(4))
    image = "x1*x2 + 1"
    pushed = ["x1", "x2"]
    for i in range(depth):
        image = f"f{i % 4}({image})"
        pushed = [f"f{i % 4}({x})" for x in pushed]
    return file_of(names(2), [f"{image} = {pushed[0]}*{pushed[1]} + 1"], head)


def continued_fraction(depth):
    """x1 + 1/(x2 + 1/(..)) against its quotient of continuants."""
    nested = f"x{depth}"
    above, below = nested, "1"
    for k in range(depth - 1, 0, -1):
        nested = f"x{k} + 1/({nested})"
        above, below = f"x{k}*({above}) + {below}", above
    return field_file(names(depth), [f"{nested} = ({above})/({below})"])


def telescope(terms):
    """1/x(x + 1) + 1/(x + 1)(x + 2) + .., which is the first less the last."""
    total = " + ".join(f"1/((x1 + {k})*(x1 + {k + 1}))" for k in range(terms))
    return field_file(names(1), [f"{total} = 1/(x1 + 0) - 1/(x1 + {terms})"])


def inverses(count):
    """A sum of inverses of many unknowns, both ways round."""
    parts = [f"1/({x} + {k})" for k, x in enumerate(names(count), 1)]
    return field_file(names(count), [" + ".join(parts) + " = " + " + ".join(reversed(parts))])


def small_field_goals(count):
    goals = [f"1/(x1 + {k}) + x2/(x1 + {k}) = (1 + x2)/(x1 + {k})" for k in range(count)]
    return field_file(names(2), goals)


def certificate(count):
    """A certificate of so many lines, each the one before less the one before that, so that they stay short."""
    head = "domain D.\nvar x y : D.\nhyp P : x = 0.\nhyp Q : y = 0.\n"
    head += "goal x = 0 by nsatz using P, Q power 1 limit 10000.\n"
    lines = "".join(f"  line 1, {k} minus 1, {k - 1}.\n" for k in range(2, count + 2))
    return f"{head}  proved version 2 power 1.\n{lines}  step 1 minus 1, 1.\n"


ANSWERED_GOALS = """goal x + {k} = {k} + x by ring.
  proved.
goal x + {k} = x by ring.
  no at 1 : {k} and 0.
goal {k}/x = {k}*x/x^2 by field.
  proved if x <> 0, x^2 <> 0.
goal {k}*x = 0 by nsatz using H power 1 limit 10000.
  proved version 2 power 1.
  step 1 minus {k}, 1.
"""


def answered_goals(most):
    """At most so many bytes of short goals with their answers."""
    head = "field F.\nvar x : F.\nhyp H : x = 0.\n"
    parts = [head]
    left, k = most - len(head), 1
    while (part := ANSWERED_GOALS.format(k=k)) and len(part) <= left:
        parts.append(part)
        left, k = left - len(part), k + 1
    return "".join(parts)


ROWS = [
    ("1 MB of short statements", partial(short_statements, 1_000_000)),
    ("3,000 small goals", partial(small_goals, 3_000)),
    *((f"a goal under {depth} morphisms", partial(under_paths, depth)) for depth in (50, 190)),
    *((f"(x1 + .. + x5)^{n}, two ways", partial(power, 5, n)) for n in (6, 12, 18, 24)),
    *((f"product of {n} unknowns, both ways round", partial(product, n)) for n in (8, 10, 12, 14, 16)),
    *((f"continued fraction of depth {depth}", partial(continued_fraction, depth)) for depth in (4, 8, 12, 16)),
    *((f"telescope of {terms} quotients", partial(telescope, terms)) for terms in (8, 16, 32)),
    *((f"sum of {n} inverses, both ways round", partial(inverses, n)) for n in (6, 10, 12)),
    ("1,000 small goals by field", partial(small_field_goals, 1_000)),
    *((f"check a certificate of {n:,} lines", partial(certificate, n)) for n in (5_000, 10_000, 100_000)),
    *((f"check {size} MB of goals with answers", partial(answered_goals, size << 20)) for size in (4, 8, 16)),
]


def run(program, what, text, times):
    """The exit status in words, seconds of processor time, and the peak memory in MB."""
    word = "check" if what.startswith("check ") else "prove"
    with tempfile.TemporaryFile("w+") as given:
        given.write(text)
        runs = []
        for _ in range(times):
            given.seek(0)
            runs.append(measured([program, word], given, subprocess.DEVNULL, SECONDS))
    status = runs[-1].status
    least = min(one.seconds for one in runs), min(one.peak for one in runs)
    return f"over {SECONDS} s" if status == -signal.SIGXCPU else str(status), *least


def main():
    parser = argparse.ArgumentParser(description="Times the built program on files of growing size.")
    parser.add_argument("--program", default=PROGRAM)
    parser.add_argument("--times", type=int, default=3)
    parser.add_argument("word", nargs="?", default="", help="run only the rows with it in their name")
    given = parser.parse_args()
    if not os.path.exists(given.program):
        print(f"{given.program} is not there: build it by ./build", file=sys.stderr)
        return 1
    print(f"{'what':44} {'bytes':>10} {'status':>9} {'seconds':>8} {'peak MB':>8}")
    for what, make in ROWS:
        if given.word in what:
            text = make()
            status, seconds, peak = run(given.program, what, text, given.times)
            print(f"{what:44} {len(text):10,} {status:>9} {seconds:8.3f} {peak:8.0f}", flush=True)
    return 0


if __name__ == "__main__":
    sys.exit(main())
