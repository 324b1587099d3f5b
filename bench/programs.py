"""Runs the program on words and files, built or before its proof."""

import os
import re
import shutil
import subprocess
import tempfile

HERE = os.path.dirname(os.path.abspath(__file__))
SECONDS = 60
SECONDS_OF_BATCH = 1_500
BYTES_OF_BATCH = 300_000
TOO_MUCH = b"the program wrote more than"
HEAD = re.compile(rb"(\d+) (\d+)\n")


class Built:
    """A program that is run once for each file."""

    def __init__(self, path):
        self.path = path

    def answers(self, runs):
        """What is written and the exit status; the status is None where it takes too long."""
        return [self.answer(words, data) for words, data in runs]

    def answer(self, words, data):
        try:
            done = subprocess.run([self.path, *words], input=data, capture_output=True, timeout=SECONDS)
        except subprocess.TimeoutExpired:
            return b"", None
        return done.stdout + done.stderr, done.returncode


def piece(data):
    return b"%d\n%b" % (len(data), data)


def batch(runs):
    """The input of the program that does many runs."""
    for words, data in runs:
        yield b"%d\n" % len(words)
        yield from (piece(word.encode()) for word in words)
        yield piece(data)


def first_of(numbers, runs):
    """So many of the runs as may be tried at once, since what is written has a limit."""
    total, chosen = 0, []
    for k in numbers:
        total += len(runs[k][1]) + 40
        if total > BYTES_OF_BATCH:
            break
        chosen.append(k)
    return chosen


class Tried:
    """A checkout that is run before its proof, by a program that does many runs at once.

    A run before the proof may write 1 MB in all. Where it would write more, nothing of it is told.
    """

    def __init__(self, top):
        self.copy = tempfile.TemporaryDirectory()
        ignored = shutil.ignore_patterns("out", "must-fail", "tests", "tests.rt")
        for name in os.listdir(os.path.join(top, "crates")):
            crate = os.path.join("crates", name)
            shutil.copytree(os.path.join(top, crate), os.path.join(self.copy.name, crate), ignore=ignored)
            self.leave_out_tests(os.path.join(self.copy.name, crate, "src", "lib.rt"))
        for name in ("crates.txt", "HANDLES"):
            shutil.copy(os.path.join(top, name), self.copy.name)
        self.folder = os.path.join(self.copy.name, "crates", "alg_cli")
        shutil.copy(os.path.join(HERE, "batch", "main.txt"), os.path.join(self.folder, "src", "main.rt"))

    def leave_out_tests(self, path):
        if os.path.exists(path):
            with open(path) as file:
                text = file.read()
            with open(path, "w") as file:
                file.write(text.replace("#[cfg(test)]\nmod tests;\n", ""))

    def answers(self, runs):
        """What is written and the exit status.

        The status is None for a run at which the program stops, and the answer is None for a file
        that is too great to be tried.
        """
        found = [None] * len(runs)
        small = [k for k, (_, data) in enumerate(runs) if len(data) < BYTES_OF_BATCH // 4]
        while small:
            numbers = first_of(small, runs)
            some = self.answers_to_some([runs[k] for k in numbers])
            for k, answer in zip(numbers, some):
                found[k] = answer
            small = small[len(some) :]
        return found

    def answers_to_some(self, runs):
        """The answers up to the first run at which the program stops."""
        command = ["rt", "try", "--seconds", str(SECONDS_OF_BATCH)]
        done = subprocess.run(command, cwd=self.folder, input=b"".join(batch(runs)), capture_output=True)
        found = []
        at = 0
        while (head := HEAD.match(done.stdout, at)) and head.end() + int(head[2]) <= len(done.stdout):
            at = head.end() + int(head[2])
            found.append((done.stdout[head.end() : at], int(head[1])))
        if not found and b"run=none" in done.stderr:
            raise RuntimeError(done.stderr.decode())
        if TOO_MUCH in done.stderr and len(runs) > 1:
            return self.answers_to_some(runs[: len(runs) // 2])
        return found if len(found) == len(runs) else [*found, (done.stderr[-300:], None)]
