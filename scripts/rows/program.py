"""Checks of rows: of those that hold nothing is said."""

from lib import checks
from lib.programs import ends_with, run

SECONDS = 300


def check(name, holds, told=""):
    return checks.check(name, holds, told, quiet=True)


def run_lines(words, given, program="rme_cli"):
    return run(words, given, program, timeout=SECONDS)


def difference(found, wanted):
    """The first line in which two texts differ, told in short."""
    found, wanted = found.split(b"\n"), wanted.split(b"\n")
    for number, (line, other) in enumerate(zip(found, wanted), 1):
        if line != other:
            return f"line {number} is {line[:300]!r} in place of {other[:300]!r}"
    return f"{len(found) - 1} lines in place of {len(wanted) - 1}"


def check_output(name, words, given, wanted, status=0, program="rme_cli"):
    """A run must write just this, end with this status and say nothing on the standard error."""
    ran = run_lines(words, given, program)
    told = f"status {ran.returncode}, {ran.stderr!r}, {difference(ran.stdout, wanted)}"
    check(name, ends_with(ran) == (status, wanted, b""), told)
