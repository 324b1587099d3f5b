#!/usr/bin/env python3
"""Times the search for certificates on known systems of equations. It is no test.

Run from anywhere: bench/search.py [--moves] [WORD]. With a word only the systems that have it in
their name are run. It builds bench/systems/main.txt over a copy of this repository's crates in
/tmp/alg_search, which takes some minutes at first, and prints for each system how the search ends,
the counted moves (with --moves, which finds them by halving), the seconds and the peak memory in MB.
"""

import argparse
import os
import shutil
import subprocess
import sys
import tempfile
import time

HERE = os.path.dirname(os.path.abspath(__file__))
TOP = os.path.dirname(HERE)
BUILT = "/tmp/alg_search"
sys.path.insert(0, HERE)

from systems.problems import PROBLEMS  # noqa: E402

NAME = "search_bench"
LIMIT = 1_000_000
NEEDS = ["alg_terms", "alg_mono", "alg_poly", "alg_lines", "alg_pairs", "alg_groebner"]


def build():
    crates = f"{BUILT}/crates"
    os.makedirs(f"{crates}/{NAME}/src", exist_ok=True)
    for need in NEEDS:
        for part in ["src", "specs", "proofs", "must-fail"]:
            shutil.rmtree(f"{crates}/{need}/{part}", ignore_errors=True)
            if os.path.isdir(f"{TOP}/crates/{need}/{part}"):
                shutil.copytree(f"{TOP}/crates/{need}/{part}", f"{crates}/{need}/{part}")
    lines = [line for line in open(f"{TOP}/crates.txt") if line.split(":")[0] in NEEDS]
    lines.append(f"{NAME}: {' '.join(NEEDS)} sqlite_items\n")
    open(f"{BUILT}/crates.txt", "w").writelines(lines)
    shutil.copy(f"{HERE}/systems/main.txt", f"{crates}/{NAME}/src/main.rt")
    open(f"{crates}/{NAME}/stdin", "w").close()
    open(f"{crates}/{NAME}/stdout", "w").write("no system\n")
    subprocess.run(["rt", "run"], cwd=f"{crates}/{NAME}", check=True, stdout=sys.stderr)
    return f"{crates}/{NAME}/out/{NAME}"


def text_of(poly):
    def term(exponents, c):
        pairs = [f"{k} {e}" for k, e in enumerate(exponents) if e]
        return " ".join([str(c), *pairs])

    return " ; ".join(term(m, c) for m, c in poly.terms.items()) or "0"


def run(program, problem, limit):
    """How the search ends, its seconds, and its peak memory in MB."""
    polys = [problem.goal, *problem.hyps]
    text = "\n".join([f"{problem.power} {limit}", *map(text_of, polys)]) + "\n"
    start = time.time()
    with tempfile.TemporaryFile("w+") as given, tempfile.TemporaryFile("w+") as taken:
        given.write(text)
        given.seek(0)
        process = subprocess.Popen([program], stdin=given, stdout=taken)
        _, _, usage = os.wait4(process.pid, 0)
        seconds = time.time() - start
        taken.seek(0)
        return taken.read().strip(), seconds, usage.ru_maxrss / 1024


def moves(program, problem):
    """The least limit at which the search does not give up."""
    low, high = 0, LIMIT
    while low < high:
        middle = (low + high) // 2
        if run(program, problem, middle)[0].startswith("gave up"):
            low = middle + 1
        else:
            high = middle
    return low


def main():
    parser = argparse.ArgumentParser()
    parser.add_argument("word", nargs="?", default="")
    parser.add_argument("--moves", action="store_true")
    options = parser.parse_args()
    program = build()
    for name, make in PROBLEMS.items():
        if options.word not in name:
            continue
        problem = make()
        end, seconds, peak = run(program, problem, LIMIT)
        count = f", {moves(program, problem)} moves" if options.moves else ""
        print(f"{name}: {end}{count}, {seconds:.2f} s, peak {peak:.0f} MB", flush=True)


if __name__ == "__main__":
    main()
