#!/usr/bin/env python3
"""Times finding certificates and checking them, with the built program. It is no test.

Run from anywhere: bench/certificates.py [--program PROGRAM] [--moves] [--times N] [WORD]. With a word
only the goals that have it in their name are run. The program is crates/alg_cli/out/alg_cli where none
is named. Each goal by nsatz is a file, which is kept with its answer in the folder alg_certificates of
the temporary folder. The table has the answer; the processor seconds of `prove` and of `check` on what
`prove` wrote, each the least of N runs (3; fewer where they are long); what checking takes in percent of
finding; the peak memory of both in MB; and with --moves the counted moves, the least limit with which
the search does not give up, found by halving. The exit status is 1 where a goal is not answered or a
proof is not confirmed.
"""

import argparse
import os
import sys
import tempfile

from measured import measured
from systems.geometry import THEOREMS
from systems.problems import PROBLEMS

TOP = os.path.dirname(os.path.dirname(os.path.abspath(__file__)))
FOLDER = os.path.join(tempfile.gettempdir(), "alg_certificates")
MOST_MOVES = 1_000_000
MOST_SECONDS = 1_000
LONG = 5
CONFIRMED = "goal 1: ok proved\n"


def term_text(names, exponents, coefficient):
    powers = [name if e == 1 else f"{name}^{e}" for name, e in zip(names, exponents) if e]
    number = [str(abs(coefficient))] if abs(coefficient) != 1 or not powers else []
    return "*".join(number + powers)


def poly_text(names, poly):
    text = ""
    for exponents, c in poly.terms.items():
        sign = ("-" if c < 0 else "") if not text else (" - " if c < 0 else " + ")
        text += sign + term_text(names, exponents, c)
    return text or "0"


def file_text(names, given, follows, power, limit):
    text = f"domain D.\nvar {' '.join(names)} : D.\n"
    uses = [f"H{k}" for k in range(1, len(given) + 1)]
    text += "".join(f"hyp {use} : {equation}.\n" for use, equation in zip(uses, given))
    return text + f"goal {follows} by nsatz using {', '.join(uses)} power {power} limit {limit}.\n"


def of_problem(make):
    """The file of a system of polynomials, for each limit."""

    def text(limit):
        problem = make()
        names = problem.ring.names
        goal, *hyps = (f"{poly_text(names, poly)} = 0" for poly in (problem.goal, *problem.hyps))
        return file_text(names, hyps, goal, problem.power, limit)

    return text


def of_theorem(make):
    def text(limit):
        return file_text(*make(), 1, limit)

    return text


GOALS = {name: of_problem(make) for name, make in PROBLEMS.items()}
GOALS |= {name: of_theorem(make) for name, make in THEOREMS.items()}


def path_of(name, ending):
    return os.path.join(FOLDER, name.replace(",", "").replace("'", "").replace(" ", "_") + ending)


def write(path, text):
    with open(path, "w") as file:
        file.write(text)


def run(program, word, path, written):
    """One run on one file, what is written kept in another."""
    with open(path) as given, open(written, "w") as taken:
        return measured([program, word], given, taken, MOST_SECONDS)


def least(times, *command):
    """The shortest of some runs, of fewer where they are long."""
    runs = [run(*command)]
    while len(runs) < times and sum(one.seconds for one in runs) < LONG:
        runs.append(run(*command))
    return min(runs, key=lambda one: one.seconds)


def answer_in(path):
    """The answer in a file with one goal, with the numbers of lines and steps; there may be none."""
    with open(path) as file:
        answers = [line.strip().rstrip(".") for line in file if line.startswith("  ")]
    if not answers:
        return ""
    lines, steps = (sum(text.startswith(word) for text in answers) for word in ("line ", "step "))
    return answers[0] + (f", {lines:,} lines, {steps:,} steps" if steps else "")


def moves(program, text):
    """The least limit with which the search does not give up."""
    path, written = path_of("moves", ".alg"), path_of("moves", ".answered.alg")
    low, high = 0, MOST_MOVES
    while low < high:
        middle = (low + high) // 2
        write(path, text(middle))
        run(program, "prove", path, written)
        if answer_in(written).startswith("gave up"):
            low = middle + 1
        else:
            high = middle
    return low


def checked(given, finding, answered, reported):
    """The cells of checking what was written, and whether the proof in it is confirmed."""
    checking = least(given.times, given.program, "check", answered, reported)
    share = 100 * checking.seconds / finding.seconds
    with open(reported) as file:
        return f"{checking.seconds:8.3f} {checking.peak:5.0f} {share:6.0f}", file.read() == CONFIRMED


def row(given, name, text):
    """A row of the table, and whether the goal is answered and its proof, if there is one, confirmed."""
    path, answered, reported = (path_of(name, ending) for ending in (".alg", ".answered.alg", ".report"))
    write(path, text(MOST_MOVES))
    finding = least(given.times, given.program, "prove", path, answered)
    answer = answer_in(answered)
    well = bool(answer)
    cells = f"{'':21}"
    if answer.startswith("proved"):
        cells, well = checked(given, finding, answered, reported)
    if given.moves:
        ends = answer and not answer.startswith("gave up")
        cells += f" {moves(given.program, text):9,}" if ends else f" {'':9}"
    shown = (answer if well else f"{answer}, NOT CONFIRMED") if answer else f"status {finding.status}"
    return f"{name:30} {finding.seconds:8.3f} {finding.peak:5.0f} {cells} {shown}", well


def main():
    parser = argparse.ArgumentParser(description="Times finding certificates and checking them.")
    parser.add_argument("--program", default=f"{TOP}/crates/alg_cli/out/alg_cli")
    parser.add_argument("--moves", action="store_true", help="count the moves of each search")
    parser.add_argument("--times", type=int, default=3)
    parser.add_argument("word", nargs="?", default="", help="run only the goals with it in their name")
    given = parser.parse_args()
    os.makedirs(FOLDER, exist_ok=True)
    counted = f" {'moves':>9}" if given.moves else ""
    print(f"{'goal':30} {'prove s':>8} {'MB':>5} {'check s':>8} {'MB':>5} {'%':>6}{counted} answer")
    well = True
    for name, text in GOALS.items():
        if given.word in name:
            shown, is_well = row(given, name, text)
            print(shown, flush=True)
            well = well and is_well
    return 0 if well else 1


if __name__ == "__main__":
    sys.exit(main())
