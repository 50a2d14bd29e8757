"""Worlds that are saved: runs of `rme run` on lines that are objects, and the smallest image."""

import json

from lib import programs
from lib.checks import Stop

OPENING = {"cells": 1, "do": "open", "jobs": 10, "locks": ["bank"], "workers": 2}
# A world of 1 worker, 1 lock, 1 cell and 1 job at opening: the header, 37 words and no entry.
SMALLEST = bytes.fromhex("524d4549020001010100000001" + "0" * 592 + "00000000")


def lines_of(*asked):
    return b"".join(json.dumps(line).encode() + b"\n" for line in asked)


def run(words, *asked, **more):
    """Runs `rme run` with these words on lines that are texts or objects."""
    given = b"".join(line if isinstance(line, bytes) else lines_of(line) for line in asked)
    return programs.run(["run", *words], given, **more)


def answers(words, *asked):
    """The answers of a run that must end with status 0 and no message."""
    ran = run(words, *asked)
    if (ran.returncode, ran.stderr) != (0, b""):
        raise Stop(f"{words}: status {ran.returncode}, {ran.stderr!r}")
    return ran.stdout.splitlines()


def job(worker):
    return {"do": "submit", "lock": "bank", "script": [["add", 0, 1]], "worker": worker}, {"do": "walk", "worker": worker}
