"""Runs a program on a file and measures the process."""

import os
import resource
import subprocess
from typing import NamedTuple


class Measured(NamedTuple):
    """The exit status, or minus the signal that ended it; seconds of processor time; peak memory in MB.

    The peak is at least what the process that starts the program has itself.
    """

    status: int
    seconds: float
    peak: float


def measured(command, given, taken, seconds):
    """One run, with so many seconds of processor time at most."""

    def limited():
        resource.setrlimit(resource.RLIMIT_CPU, (seconds, seconds + 1))

    process = subprocess.Popen(command, stdin=given, stdout=taken, preexec_fn=limited)
    _, status, usage = os.wait4(process.pid, 0)
    process.returncode = os.waitstatus_to_exitcode(status)
    return Measured(process.returncode, usage.ru_utime + usage.ru_stime, usage.ru_maxrss / 1024)
