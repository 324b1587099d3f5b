#!/usr/bin/env python3
"""Runs each input of docs/GUIDE.md, and compares what is written with what the guide shows.

Usage: edge/guide.py    Ends with 1 where anything differs.
"""
import pathlib
import re
import subprocess
import sys

TOP = pathlib.Path(__file__).resolve().parent.parent
PAIR = re.compile(r"```alg\n(.*?)```\n(?:(?!```).)*?```answer\n(.*?)```", re.DOTALL)


def main():
    guide = (TOP / "docs/GUIDE.md").read_text()
    pairs = PAIR.findall(guide)
    wrong = 0
    for given, shown in pairs:
        done = subprocess.run([TOP / "alg", "prove"], input=given, stdout=subprocess.PIPE, text=True)
        if done.stdout != shown:
            wrong += 1
            print(f"guide: shows\n{shown}and the program writes\n{done.stdout}")
    if len(pairs) != guide.count("```alg\n"):
        wrong += 1
        print("guide: an input has no answer")
    print(f"guide: {len(pairs)} examples, {wrong} wrong")
    return 1 if wrong or not pairs else 0


if __name__ == "__main__":
    sys.exit(main())
