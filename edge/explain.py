#!/usr/bin/env python3
"""Runs the companion `explain` on files, and compares what it shows and its exit status.

What it shows of a report at each place of a certificate is tried on reports written by hand.

Usage: edge/explain.py    Ends with 1 where anything differs.
"""
import importlib.machinery
import importlib.util
import pathlib
import re
import subprocess
import sys
import tempfile

TOP = pathlib.Path(__file__).resolve().parent.parent
RING = "ring R.\nvar x : R.\n"

# What a row shows, the file, the first line, the line with the caret, the last line, the exit status.
REFUSALS = [
    ("a sign that is none", RING + "goal x $ x = 0 by ring.\n", ":3:8: a character begins no token (code 2)",
     "      |        ^", "mend it by: leaving it out", 2),
    ("columns are characters", "ring R. # é漢\nvar é : R. goal é/é = 1 by ring.", ":2:18: ",
     "      |                  ^", "mend it by: `by field`; a field", 2),
    ("wide characters and tabs", "ring 漢.\tvar x : S.\n", ":1:17: ", "      |                  ^",
     "mend it by: declaring it first", 2),
    ("the end of the input", "ring R", ":1:7: the input ends inside a statement (code 5)", "      |       ^",
     "mend it by: ending it by `.`", 2),
    ("bytes that are no text", b"ring R.\n  \xff", ":2:3: ", "      |   ^", "mend it by: saving the file as UTF-8", 2),
    ("too many bytes", " " * 1_048_577, ": too many bytes", None, None, 2),
]

# What a row shows, the file, what is shown, the exit status.
TABLES = [
    ("each goal at its line", "ring R. # goal x. by field\nvar x : R.\n\ngoal x = x\nby ring. goal x + x =\n x by ring.",
     ["  line  by     answer", "     4  ring   proved", "     5  ring   no at x : 2 and 1", "1 of 2 goals proved"], 1),
    ("no goals", "ring R.\n", ["  line  by     answer", "0 of 0 goals proved"], 0),
]

CERTIFIED = """domain D.
var x : D.
hyp H : x = 0.
goal x = 0 by nsatz using H.
  proved version 2 power 1.
  line 1, 1 minus 1, 1.
  step 1 minus 1, 1.
goal x = x by ring.
  proved.
"""

# What a row shows, the reports, what is shown of the first goal.
REPORTS = [
    ("a line", "goal 1: bad at 1\ngoal 2: ok proved\n", "     4  nsatz  bad at the line in line 6 of the file, line number 1"),
    ("a step", "goal 1: bad at 2\ngoal 2: ok proved\n", "     4  nsatz  bad at the step in line 7 of the file, step number 1"),
    ("the last remainder", "goal 1: bad at 3\ngoal 2: ok proved\n", "     4  nsatz  bad: the last remainder is not zero"),
    ("a right one", "goal 1: ok proved\ngoal 2: ok\n", "     4  nsatz  ok proved"),
]


# What a row shows, the file with answers, what is shown of it by `check`, the exit status.
CHECKS = [
    ("a right certificate", CERTIFIED,
     ["  line  by     answer", "     4  nsatz  ok proved", "     8  ring   ok proved", "2 of 2 goals proved"], 0),
    ("a step that cites no line", CERTIFIED.replace("step 1 minus 1, 1.", "step 1 minus 1, 3."),
     ["  line  by     answer", "     4  nsatz  bad at the step in line 7 of the file, step number 1",
      "     8  ring   ok proved", "1 of 2 goals proved"], 1),
    ("an answer of another method", RING + "goal x = x by ring.\n  none up to power 1.\n",
     [":4:3: an answer has a form that is none of the goal's method (code 17)",
      "    4 |   none up to power 1.", "      |   ^", "mend it by: leaving it out"], 2),
]


def explain(content, *words):
    """What `explain` shows of a file with this content, and its exit status."""
    with tempfile.NamedTemporaryFile(suffix=".alg") as file:
        file.write(content if isinstance(content, bytes) else content.encode())
        file.flush()
        done = subprocess.run([TOP / "explain", file.name, *words], capture_output=True, text=True)
        return done.stdout.replace(file.name, "").splitlines(), done.returncode


def wrong_refusals():
    for name, content, head, caret, last, status in REFUSALS:
        lines, ended = explain(content)
        right = lines[0].startswith(head) and (caret is None or (lines[2], lines[-1]) == (caret, last))
        if not right or ended != status:
            yield name, lines, ended


def wrong_tables():
    for name, content, lines, status in TABLES:
        if explain(content) != (lines, status):
            yield name, *explain(content)
    for name, content, lines, status in CHECKS:
        if explain(content, "check") != (lines, status):
            yield name, *explain(content, "check")


def companion():
    """The companion as a module."""
    loader = importlib.machinery.SourceFileLoader("companion", str(TOP / "explain"))
    module = importlib.util.module_from_spec(importlib.util.spec_from_loader("companion", loader))
    sys.dont_write_bytecode = True
    loader.exec_module(module)
    return module


def wrong_reports(module):
    for name, written, line in REPORTS:
        lines = module.explained("f", CERTIFIED.encode(), "check", 1, written, "").splitlines()
        if lines[1] != line:
            yield name, lines, 1


def codes_that_differ(module):
    """Codes of the program that the table of refusals lacks, or the other way round."""
    source = (TOP / "crates/alg_tokens/src/code.rt").read_text()
    known = {int(code) for code in re.findall(r"Code::\w+ => (\d+)", source)}
    told = set(module.faults((TOP / "docs/LANGUAGE.md").read_text()))
    if known != told:
        yield "the table of refusals", sorted(known ^ told), 0


def main():
    module = companion()
    wrong = [*wrong_refusals(), *wrong_tables(), *wrong_reports(module), *codes_that_differ(module)]
    for name, lines, status in wrong:
        print(f"explain: {name}: {lines}, status {status}")
    tried = len(REFUSALS) + len(TABLES) + len(CHECKS) + len(REPORTS) + 1
    print(f"explain: {tried - len(wrong)} of {tried} right")
    return 1 if wrong else 0


if __name__ == "__main__":
    sys.exit(main())
