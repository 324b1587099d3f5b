#!/usr/bin/env python3
"""Shows that each reserved word and each sign of the language is in the syntax files for editors.

Usage: edge/editors.py    Ends with 1 where one is missing.
"""
import json
import pathlib
import re
import sys

TOP = pathlib.Path(__file__).resolve().parent.parent


def listed(language, head):
    """The words in backquotes on the line of docs/LANGUAGE.md that begins so."""
    line = next(line for line in language.splitlines() if line.startswith(head))
    return re.findall(r"`([^`]+)`", line)


def vim_words_and_signs():
    """The keywords of the syntax file for Vim, and a test of whether it has a sign."""
    text = (TOP / "editors/vim/syntax/alg.vim").read_text()
    words = {word for line in re.findall(r"syntax keyword \w+ (.*)", text) for word in line.split()}
    signs = re.search(r"algSign '(.*)'", text).group(1).replace(r"\|", "|")
    return words, re.compile(signs)


def textmate_words_and_signs():
    """The words of the TextMate grammar, and a test of whether it has a sign."""
    patterns = json.loads((TOP / "editors/alg.tmLanguage.json").read_text())["patterns"]
    matches = [pattern["match"] for pattern in patterns]
    words = {word for match in matches for group in re.findall(r"\(([a-z|]+)\)", match) for word in group.split("|")}
    signs = [p["match"] for p in patterns if p["name"].startswith(("keyword.operator", "punctuation"))]
    return words, re.compile("|".join(signs))


def main():
    language = (TOP / "docs/LANGUAGE.md").read_text()
    reserved = listed(language, "- The **reserved words**")
    signs = listed(language, "- The **signs**")
    missing = []
    for editor, (words, sign) in [("Vim", vim_words_and_signs()), ("TextMate", textmate_words_and_signs())]:
        missing += [f"{editor}: {word}" for word in reserved if word not in words]
        missing += [f"{editor}: {one}" for one in signs if not sign.fullmatch(one)]
    for one in missing:
        print(f"editors: missing in {one}")
    print(f"editors: {len(reserved)} words and {len(signs)} signs, {len(missing)} missing")
    return 1 if missing else 0


if __name__ == "__main__":
    sys.exit(main())
