#!/usr/bin/env python3
"""Runs the built program where it is treated badly. It is no test of the gate.

Run from anywhere: bench/hostile.py [--program PROGRAM] [--files N] [--seed SEED] [WORD]. With a word
only the parts that have it in their name are run. The program is crates/alg_cli/out/alg_cli where
none is named. The parts: one allocation refused a run, each in turn, for `prove`, `check` and `load`;
the address space cut; a full device and a closed input; terms, forms and certificates of the greatest
depth on a stack of 8 MB; and N generated files (20,000), valid or spoilt in tokens, numbers, bytes and
lengths, through `prove`, and what comes of them, spoilt again, through `check`. No run may crash or
take over ten seconds of processor time, and each proof that is written or reported is tried by
`second.certified`, which shares nothing with the program. Allocations are refused by a small library in
C, for which gcc is needed. A file that fails is kept in the folder hostile_failures of the temporary
folder. The exit status is 1 where something failed. What the program can't do yet is left out, and said.
"""

import argparse
import os
import random
import resource
import signal
import subprocess
import sys
import tempfile
from collections import Counter

from inputs.annotated import certified, spoilt
from inputs.deep import EIGHT, GREEDY, TWELVE, deep_certificates, deep_files
from inputs.spoilt import generated
from second.certified import wrong_proofs
from shims.refusal import Refusal

TOP = os.path.dirname(os.path.dirname(os.path.abspath(__file__)))
FAILURES = os.path.join(tempfile.gettempdir(), "hostile_failures")
SECONDS = 10
LONG = 300
PATIENCE = 30
MEGABYTE = 1 << 20
OUT_OF_MEMORY = (b"", 6)


def run(program, word, data=b"", seconds=SECONDS, limits=(), **options):
    """What is written and the exit status, which is None where it takes too much processor time.

    The clock is given more, since on a busy machine a run waits for its turn.
    """
    limits = [(resource.RLIMIT_CPU, seconds), *limits]

    def limited():
        for kind, size in limits:
            resource.setrlimit(kind, (size, size + 1))

    command = [program, *word.split()]
    try:
        done = subprocess.run(
            command, input=data, capture_output=True, timeout=PATIENCE * seconds, preexec_fn=limited, **options
        )
    except subprocess.TimeoutExpired:
        return b"", None
    return done.stdout + done.stderr, None if done.returncode == -signal.SIGXCPU else done.returncode


class Report:
    """How many runs of each part were as wanted, and what was not."""

    def __init__(self, program):
        self.program = program
        self.runs = Counter()
        self.wrong = 0
        self.checks = not run(program, "check")[0].startswith(b"usage")
        self.loads = not run(program, "load 1")[0].startswith(b"usage")
        self.certifies = run(program, "prove", TWELVE)[1] == 0

    def tell(self, part, wanted, what, data=b""):
        self.runs[part] += 1
        if wanted:
            return
        self.wrong += 1
        os.makedirs(FAILURES, exist_ok=True)
        path = os.path.join(FAILURES, f"{part}_{self.wrong}".replace(" ", "_"))
        with open(path, "wb") as file:
            file.write(data)
        print(f"{part}: {what}; its input is {path}")

    def leave_out(self, part, why):
        print(f"{part}: left out, since {why}")

    def compare(self, part, name, word, data, wanted, **options):
        """A run whose bytes and exit status are to be one of these."""
        got = run(self.program, word, data, **options)
        self.tell(part, got in wanted, f"{name}: status {got[1]}, {got[0][:80]!r}", data)


def refuse_in_turn(report, part, refusal, word, data):
    """Each allocation of a run refused, one a run: there is no memory, or the run is as without."""
    program = report.program
    whole = run(program, word, data)
    count = refusal.allocations(lambda options: run(program, word, data, **options))
    for number in range(1, count + 1):
        name = f"{word}, allocation {number} of {count}"
        report.compare(part, name, word, data, (OUT_OF_MEMORY, whole), **refusal.refusing(number))


def refused_memory(report, part):
    refusal = Refusal()
    if not report.certifies:
        report.leave_out(f"{part}: goals by nsatz", "they are not answered yet")
    goals = TWELVE if report.certifies else EIGHT
    refuse_in_turn(report, part, refusal, "prove", goals)
    if report.checks:
        refuse_in_turn(report, part, refusal, "check", run(report.program, "prove", goals)[0])
    else:
        report.leave_out(f"{part}: check", "there is no such command yet")


def refused_loads(report, part):
    """That `load` answers its goals: it takes memory after the file is made."""
    made = [f"{TOP}/crates/alg_load/out/alg_load_tests", "tests::a_file_of_100_goals_is_made"]
    if not report.loads:
        report.leave_out(part, "there is no command load yet")
    elif not os.path.exists(made[0]):
        report.leave_out(part, "the tests of alg_load are not built: `rt test` there builds them")
    else:
        refusal = Refusal()
        last = last_needed(refusal, made)
        runs = [run(report.program, "load 100", **refusal.refusing(last + k)) for k in range(41, 61)]
        whole = run(report.program, "load 100")
        for k, got in enumerate(runs, 41):
            report.tell(part, got in (OUT_OF_MEMORY, whole), f"allocation {last} + {k}: status {got[1]}")
        report.tell(part, OUT_OF_MEMORY in runs, "no run has no memory, so no goal is answered")


def last_needed(refusal, command):
    """The greatest number of an allocation without which the command ends otherwise."""

    def end(options):
        return subprocess.run(command, capture_output=True, timeout=PATIENCE * SECONDS, **options).returncode

    whole = end({})
    number = refusal.allocations(end)
    while number and end(refusal.refusing(number)) == whole:
        number -= 1
    return number


def cut_address_space(report, part):
    for size in (50, 100, 300):
        limits = [(resource.RLIMIT_AS, size * MEGABYTE)]
        report.compare(part, f"{size} MB", "prove", GREEDY, (OUT_OF_MEMORY,), seconds=LONG, limits=limits)


def bad_streams(report, part):
    """A full device as the output, and a closed input."""
    words = ["prove", ""] + ["check"] * report.checks + ["load 10"] * report.loads
    for word in words:
        for streams, status in (("> /dev/full", 5), ("<&-", 4 if word in ("prove", "check") else None)):
            command = ["sh", "-c", f'exec "$0" {word} {streams}', report.program]
            done = subprocess.run(command, input=TWELVE, capture_output=True, timeout=PATIENCE * SECONDS)
            wanted = done.returncode in (0, 1, 3) if status is None else (done.stdout, done.returncode) == (b"", status)
            report.tell(part, wanted, f"{word} {streams}: status {done.returncode}")


def deep_stack(report, part):
    """What is as deep as it may be, on a stack of 8 MB: each is proved, or accepted."""
    options = {"seconds": LONG, "limits": [(resource.RLIMIT_STACK, 8 * MEGABYTE)]}
    for name, text in deep_files():
        written, status = run(report.program, "prove", text.encode(), **options)
        report.tell(part, status == 0, f"{name}: status {status}, {written[-80:]!r}", text.encode())
    if not report.checks:
        report.leave_out(f"{part}: certificates", "there is no command check yet")
        return
    for name, text in deep_certificates():
        wanted = (b"goal 1: ok proved\n", 0)
        report.compare(part, name, "check", text.encode(), (wanted,), **options)


def wrong_of(text, numbers=None):
    """The goals whose proofs do not hold, or what is the matter with the text."""
    try:
        return list(wrong_proofs(text, numbers))
    except (IndexError, KeyError, ValueError, TypeError) as error:
        return [repr(error)]


def proofs_reported(report_text):
    lines = report_text.decode().splitlines()
    return {number for number, line in enumerate(lines, 1) if line.endswith(": ok proved")}


def generated_files(report, part, count, seed):
    came = Counter()
    if not report.checks:
        report.leave_out(f"{part}: check", "there is no such command yet")
    for number in range(count):
        rng = random.Random(f"{seed} {number}")
        data = certified(rng) if rng.random() < 0.6 else generated(rng)
        data = spoilt(rng, data) if rng.random() < 0.3 else data
        written, status = run(report.program, "prove", data)
        came["prove", status] += 1
        report.tell(part, status in (0, 1, 2), f"prove, file {number}: status {status}", data)
        if status in (0, 1):
            wrong = wrong_of(written.decode())
            report.tell(part, not wrong, f"prove, file {number}: wrong proofs of goals {wrong}", data)
        if status in (0, 1) and report.checks:
            data = spoilt(rng, written)
            written, status = run(report.program, "check", data)
            came["check", status] += 1
            report.tell(part, status in (0, 1, 2), f"check, file {number}: status {status}", data)
            proofs = proofs_reported(written) if status in (0, 1) else ()
            came["proofs confirmed", ""] += len(proofs)
            wrong = wrong_of(data.decode(), proofs) if proofs else []
            report.tell(part, not wrong, f"check, file {number}: wrong proofs of goals {wrong}", data)
    for (what, status), times in sorted(came.items(), key=str):
        print(f"{times:8} {what} {status}")


def main():
    parser = argparse.ArgumentParser(description="Runs the built program where it is treated badly.")
    parser.add_argument("--program", default=f"{TOP}/crates/alg_cli/out/alg_cli")
    parser.add_argument("--files", type=int, default=20_000)
    parser.add_argument("--seed", default="0")
    parser.add_argument("word", nargs="?", default="", help="run only the parts with it in their name")
    given = parser.parse_args()
    parts = {
        "refused memory": refused_memory,
        "refused loads": refused_loads,
        "address space": cut_address_space,
        "streams": bad_streams,
        "stack": deep_stack,
        "generated files": lambda report, part: generated_files(report, part, given.files, given.seed),
    }
    report = Report(given.program)
    for part, call in parts.items():
        if given.word in part:
            call(report, part)
            print(f"{part}: {report.runs[part]} runs and tests")
    print(f"{report.wrong} wrong")
    return 1 if report.wrong else 0


if __name__ == "__main__":
    sys.exit(main())
