"""Tries the second prover on files with known answers: `python3 -m second.rows` in `bench/`."""

import sys

from inputs.answered import runs_with_answers
from inputs.answered_checks import files_cut_short
from second.program import run

REFUSALS = (b"refused 2 ", b"refused 4 ", b"refused 5 ")


def wrong_rows():
    """Each row whose bytes or status are others, with what came."""
    for words, data, written, status in runs_with_answers():
        came = run(words, data)
        if came != (written, status):
            yield words, data, came, (written, status)
    for data in files_cut_short():
        written, status = run(["check"], data)
        if status != 2 or not written.startswith(REFUSALS):
            yield ["check"], data, (written, status), "a refusal"


def main():
    wrong = list(wrong_rows())
    for words, data, came, wanted in wrong:
        print(f"{words} on {data[:500]!r} gives {came}, and not {wanted}")
    print(f"{len(wrong)} rows are wrong" if wrong else "all rows are right")
    return 1 if wrong else 0


if __name__ == "__main__":
    sys.exit(main())
