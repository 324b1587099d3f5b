#!/usr/bin/env python3
"""Runs the built program at its edge, and compares the bytes that it writes and its exit status.

Each exit status comes at least once: on inputs, on words, on streams that fail, and where memory is
short. No contract speaks of these runs: the contracts end at the sources and sinks that `main` lends,
so what the system gives and takes, and the status that `main` hands to it, are only tried here.

Usage: edge/run.py PROGRAM..   Ends with 1 where anything differs.
"""
import os
import resource
import subprocess
import sys

MOST_BYTES = 1_048_576
MOST_CHECKED = 16_777_216
PROVED = b"ring R.\nvar x y : R.\ngoal (x + y)^2 = x^2 + 2*x*y + y^2 by ring.\n"
DIFFERS = b"ring R.\nvar x y : R.\ngoal (x + y)^2 = x^2 + y^2 by ring.\n"
UNFINISHED = b"ring R.\nvar x : R"
CERTIFIED = b"""domain D.
var x y : D.
hyp H : 2*x = 0.
goal x = 0 by nsatz using H power 1 limit 10000.
  proved version 2 power 1 if 2 <> 0.
  step 2 minus 1, 1.
"""
DECLARED = b"""ring R.
field F char 0.
hom f : R -> F.
var a b c d : R.
var u v w t : F.
hyp E : a = b.
hyp H : u*v = 1.
hyp K : u*w = 1.
hyp P : u + t = 0.
hyp Q : u - t = 0.
hyp S : w^2 = 0.
"""
GOALS = b"""goal (a + b)*(a - b) = a^2 - b^2 by ring.
goal (a + b)^3 = a^3 + 3*a^2*b + 3*a*b^2 + b^3 by ring.
goal (a^2 + b^2)*(c^2 + d^2) = (a*c - b*d)^2 + (a*d + b*c)^2 by ring.
goal f(a*b + c) = f(a)*f(b) + f(c) by ring.
goal f((a - b)^2) = f(a)^2 - 2*f(a)*f(b) + f(b)^2 by ring.
goal u/v + w/t = (u*t + w*v)/(v*t) by field.
goal 1/(u - v) - 1/(u + v) = 2*v/(u^2 - v^2) by field.
goal f(a)/2 + f(a)/2 = f(a) by field.
goal v = w by nsatz using H, K.
goal t = 0 by nsatz using P, Q.
goal f(a)^2 = f(b)^2 by nsatz using f(E).
goal w = 0 by nsatz using S power 2.
"""
GOALS_ANSWERED = b"""goal (a + b)*(a - b) = a^2 - b^2 by ring.
  proved.
goal (a + b)^3 = a^3 + 3*a^2*b + 3*a*b^2 + b^3 by ring.
  proved.
goal (a^2 + b^2)*(c^2 + d^2) = (a*c - b*d)^2 + (a*d + b*c)^2 by ring.
  proved.
goal f(a*b + c) = f(a)*f(b) + f(c) by ring.
  proved.
goal f((a - b)^2) = f(a)^2 - 2*f(a)*f(b) + f(b)^2 by ring.
  proved.
goal u/v + w/t = (u*t + w*v)/(v*t) by field.
  proved if v <> 0, t <> 0, v*t <> 0.
goal 1/(u - v) - 1/(u + v) = 2*v/(u^2 - v^2) by field.
  proved if u - v <> 0, u + v <> 0, u^2 - v^2 <> 0.
goal f(a)/2 + f(a)/2 = f(a) by field.
  proved.
goal v = w by nsatz using H, K power 1 limit 10000.
  proved version 2 power 1.
  line 1, w, 1 minus 1, v, 2.
  step 1 minus 1, 3.
goal t = 0 by nsatz using P, Q power 1 limit 10000.
  proved version 2 power 1.
  line 1, 2 minus -1, 1 over 2.
  step 1 minus 1, 1.
  step 1 minus -1, 3.
goal f(a)^2 = f(b)^2 by nsatz using f(E) power 1 limit 10000.
  proved version 2 power 1.
  step 1 minus 1, f(a), 1.
  step 1 minus 1, f(b), 1.
goal w = 0 by nsatz using S power 2 limit 10000.
  proved version 2 power 2.
  step 1 minus 1, 1.
"""
MANY = b"ring R.\nvar x : R.\n" + b"goal x + x = 2*x by ring.\n" * 30_000
MANY_ANSWERED = MANY.replace(b"by ring.\n", b"by ring.\n  proved.\n")

# What a row shows, the words, the input, the bytes that are to be written, the exit status.
INPUTS = [
    ("all goals are proved", ["prove"], PROVED, PROVED + b"  proved.\n", 0),
    ("goals by each method", ["prove"], DECLARED + GOALS, DECLARED + GOALS_ANSWERED, 0),
    ("no goals", ["prove"], b"", b"", 0),
    ("more than a pipe holds", ["prove"], MANY, MANY_ANSWERED, 0),
    ("a goal is not proved", ["prove"], DIFFERS, DIFFERS + b"  no at x*y : 2 and 0.\n", 1),
    ("the input is no file", ["prove"], UNFINISHED, b"refused 5 at 17\n", 2),
    ("the input is no text", ["prove"], b"\xff", b"refused 1 at 0\n", 2),
    ("as many bytes as may be", ["prove"], b" " * MOST_BYTES, b"", 0),
    ("one byte too many", ["prove"], b" " * (MOST_BYTES + 1), b"refused large\n", 2),
    ("no words", [], PROVED, b"usage\n", 3),
    ("another word", ["Prove"], PROVED, b"usage\n", 3),
    ("two words", ["prove", "prove"], PROVED, b"usage\n", 3),
    ("a word that is no text", [b"\xff"], PROVED, b"usage\n", 3),
    ("a certificate is good", ["check"], CERTIFIED, b"goal 1: ok proved\n", 0),
    ("a certificate is spoilt", ["check"], CERTIFIED.replace(b"step 2", b"step 3"), b"goal 1: bad at 2\n", 1),
    ("an answer is none of the method", ["check"], DIFFERS + b"  none up to power 1.\n", b"refused 17 at 59\n", 2),
    ("as many bytes as may be checked", ["check"], b" " * MOST_CHECKED, b"", 0),
    ("one byte too many to check", ["check"], b" " * (MOST_CHECKED + 1), b"refused large\n", 2),
    ("a loaded file", ["load", "10"], b"", b"load 10: 7 proved, 3 not\n", 1),
    ("the greatest loaded file", ["load", "10000"], b"", b"load 10000: 6667 proved, 3333 not\n", 1),
    ("a greater one", ["load", "10001"], b"", b"usage\n", 3),
]

# What a row shows, the words, how the shell redirects the streams, the bytes, the exit status.
STREAMS = [
    ("a closed input", "prove", "<&-", b"", 4),
    ("a folder as the input", "prove", "< /", b"", 4),
    ("the usage reads nothing", "", "<&-", b"usage\n", 3),
    ("a loaded file reads nothing", "load 1", "<&-", b"load 1: 1 proved, 0 not\n", 0),
    ("an empty device", "prove", "< /dev/null", b"", 0),
    ("a full device", "prove", "> /dev/full", b"", 5),
    ("a closed input to check", "check", "<&-", b"", 4),
    ("a full device for the usage", "", "> /dev/full", b"", 5),
    ("a closed output", "prove", ">&-", b"", 5),
    ("a closed output for the usage", "", ">&-", b"", 5),
]

# Enough for the program to start, and not for a file of this size.
LITTLE_MEMORY = 8 << 20


def little_memory():
    resource.setrlimit(resource.RLIMIT_AS, (LITTLE_MEMORY, LITTLE_MEMORY))


def run(command, given, **options):
    done = subprocess.run(command, input=given, stdout=subprocess.PIPE, timeout=60, **options)
    return done.stdout, done.returncode


def broken_pipe(program):
    """The reader of the output goes away before anything is written."""
    reading, writing = os.pipe()
    os.close(reading)
    try:
        return b"", subprocess.run([program, "prove"], input=PROVED, stdout=writing, timeout=60).returncode
    finally:
        os.close(writing)


def runs_of(program):
    """Each run: what it shows, the bytes and status that are wanted, and those that came."""
    for shows, words, given, text, status in INPUTS:
        yield shows, (text, status), run([program, *words], given)
    for shows, words, streams, text, status in STREAMS:
        command = ["sh", "-c", f'exec "$0" {words} {streams}', program]
        yield shows, (text, status), run(command, PROVED)
    yield "an output that no one reads", (b"", 5), broken_pipe(program)
    yield "little memory", (b"", 6), run([program, "prove"], MANY, preexec_fn=little_memory)


def main(programs):
    runs = wrong = 0
    for program in programs:
        for shows, wanted, got in runs_of(os.path.abspath(program)):
            runs += 1
            if got != wanted:
                wrong += 1
                text, status = got
                print(f"edge: {program}: {shows}: status {status} and {text[:80]!r}, wanted status {wanted[1]}")
    print(f"edge: {runs - wrong} runs as wanted, {wrong} not")
    return 1 if wrong or not runs else 0


if __name__ == "__main__":
    sys.exit(main(sys.argv[1:]))
