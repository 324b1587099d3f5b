#!/usr/bin/env python3
"""Compares the program with a second one on generated files. It is no test of the gate.

Run from anywhere: bench/peer.py [COUNT] [SEED] [PROGRAM] [FAMILY ..]. Where no program is named, or
it is `.`, it is the one that `./alg` runs, which is built first where it is out of date. Where
PROGRAM is a folder, its checkout is run before its proof, by `rt try`, on at most COUNT files of
each family, spread over it. The bytes of each file are given to the program and to
`second.program.run`, and what is written and the exit status are compared: first files with known
answers, then each family, the last two of which have COUNT generated files (2,000 where none is
given). A generated file depends on its number and on SEED alone. A file on which the two differ is
kept in the folder peer_differences of the temporary folder. The exit status is 1 where some file
differs.
"""

import os
import random
import subprocess
import sys
import tempfile
from collections import Counter
from itertools import islice
from typing import Any, NamedTuple

from inputs.annotations import annotated
from inputs.answered import runs_with_answers
from inputs.answered_checks import files_cut_short
from inputs.competing import annotated_with_two_faults, files_with_two_faults
from inputs.limits import files_at_limits
from inputs.limits_by_nsatz import annotated_at_limits, files_by_nsatz_at_limits
from inputs.spoilt import generated, unspoilt
from inputs.syntax import files_of_answers, files_of_syntax
from programs import Built, Tried
from second.polynomials import Unfinished
from second.program import run
from second.prover import prove

TOP = os.path.dirname(os.path.dirname(os.path.abspath(__file__)))
BUILT = f"{TOP}/crates/alg_cli/out/alg_cli"
DIFFERENCES = os.path.join(tempfile.gettempdir(), "peer_differences")
AT_ONCE = 10_000
SHOWN = 200

USAGES = (
    [],
    [""],
    ["Prove"],
    ["prove "],
    ["prove", "prove"],
    ["check", ""],
    ["check", "prove"],
    ["--help"],
    *(["load", *words] for words in ([], [""], ["00"], ["01"], ["-1"], ["10001"], ["9" * 99], ["1", "1"])),
    ["load", "١"],
    ["usage"],
)


class Run(NamedTuple):
    """What both programs are run on, and what comes where that is known."""

    name: str
    words: list
    data: bytes
    wanted: Any = None


def shown(written, status):
    text = written if len(written) <= SHOWN else written[:SHOWN] + b" .."
    return f"status {status}, {len(written)} bytes, {text!r}"


def what_came(words, written, status):
    """A word for the table of what was compared."""
    if written.startswith((b"refused", b"usage")):
        return b" ".join(written.split()[:2]).decode()
    return f"{words[0]}: all well" if status == 0 else f"{words[0]}: not all"


def well_annotated(rng):
    """The answers that the second prover writes, mostly with a proof, at times spoilt."""
    while True:
        try:
            written, status = prove(unspoilt(rng), rng.choice([1, 2, 2]))
        except Unfinished:
            continue
        proofs = written.count(b"\n  step ") or rng.random() < 0.3
        if status != 2 and proofs and b"goal" in written:
            return annotated(rng, written.decode())


class Comparison:
    def __init__(self, program):
        self.program = program
        self.differ = 0
        self.unfinished = 0
        self.not_tried = 0
        self.came = Counter()

    def compare(self, runs):
        """Compares the two programs, and with what is wanted where the answer is known."""
        while some := list(islice(runs, AT_ONCE)):
            firsts = self.program.answers([(one.words, one.data) for one in some])
            for one, first in zip(some, firsts, strict=True):
                self.compare_one(one, first)

    def compare_one(self, one, first):
        if first is None:
            self.not_tried += 1
            return
        try:
            second = run(one.words, one.data)
        except Unfinished:
            self.unfinished += 1
            return
        if first == second and one.wanted in (None, second):
            self.came[what_came(one.words, *second)] += 1
        else:
            self.tell(one, first, second)

    def tell(self, one, first, second):
        self.differ += 1
        os.makedirs(DIFFERENCES, exist_ok=True)
        path = os.path.join(DIFFERENCES, f"{one.name.replace(' ', '_')}.alg")
        with open(path, "wb") as file:
            file.write(one.data)
        print(f"{one.name} differs with {one.words}, kept as {path}")
        print(f"  program {shown(*first)}")
        print(f"  second  {shown(*second)}")
        if one.wanted is not None:
            print(f"  wanted  {shown(*one.wanted)}")

    def summary(self):
        for came, count in sorted(self.came.items()):
            print(f"{count:8} {came}")
        agree = sum(self.came.values())
        print(f"{agree} agree, {self.differ} differ, {self.unfinished} unfinished, {self.not_tried} not tried")


def known_runs():
    for number, words in enumerate(USAGES):
        yield Run(f"usage {number}", words, b"ring R.\n", (b"usage\n", 3))
    for number, (words, data, *wanted) in enumerate(runs_with_answers()):
        yield Run(f"known {number}", words, data, tuple(wanted))


PROVED = {
    "limits": files_at_limits,
    "limits_by_nsatz": files_by_nsatz_at_limits,
    "syntax": files_of_syntax,
    "two_faults": files_with_two_faults,
}
CHECKED = {
    "cuts": files_cut_short,
    "limits_annotated": annotated_at_limits,
    "syntax_annotated": files_of_answers,
    "two_faults_annotated": annotated_with_two_faults,
}
GENERATED = {"generated": (generated, ["prove"]), "annotated": (well_annotated, ["check"])}


def runs_of(family, count, seed):
    if family == "known":
        yield from known_runs()
    elif family in GENERATED:
        make, words = GENERATED[family]
        for number in range(count):
            name = f"{family} seed {seed} file {number}"
            yield Run(name, words, make(random.Random(f"{seed} {number}")))
    else:
        words = ["prove"] if family in PROVED else ["check"]
        for number, data in enumerate({**PROVED, **CHECKED}[family]()):
            yield Run(f"{family} {number}", words, data)


def spread(runs, count):
    """So many of the runs, spread over them."""
    runs = list(runs)
    return [runs[k * len(runs) // count] for k in range(count)] if len(runs) > count else runs


def program_named(name):
    if name == ".":
        subprocess.run([f"{TOP}/alg", "prove"], stdin=subprocess.DEVNULL, check=True)
        return Built(BUILT)
    return Tried(name) if os.path.isdir(name) else Built(name)


def main(count="2000", seed="0", program=".", *families):
    comparison = Comparison(program_named(program))
    for family in families or ["known", *PROVED, *CHECKED, *GENERATED]:
        runs = runs_of(family, int(count), seed)
        if isinstance(comparison.program, Tried):
            runs = iter(spread(runs, int(count)))
        comparison.compare(runs)
    comparison.summary()
    return 1 if comparison.differ else 0


if __name__ == "__main__":
    sys.exit(main(*sys.argv[1:]))
