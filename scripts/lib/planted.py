"""Planted defects of the sources, each of which some seed finds. They are must-fail edits of the crates, and the texts
of scripts/faults; some of these also switch off the comparison that would refuse them. Each is built separately,
without a proof, by `rt try`, which takes some minutes of one processor.

A text has comment lines, lines `file:`, and after each pairs of lines `old:` and `new:`, each old text standing once in the
file.
"""

import concurrent.futures
import glob
import os
import re
import subprocess
import sys
import tempfile

from lib.checks import Stop, check
from lib.programs import SCRIPTS, TOP, sources_in
from lib.sources import below, listed

# Crates, and those of their must-fail edits that clients can see without threads. (A look-up before its lines is not one of them: each
# line of a session is answered as a whole before the next, so a look-up meets no lines of another that are not durable.)
REFUSED = {
    "rme_durable_server": (
        "a-choice-that-waits-for-nothing",
        "an-answer-that-waits-for-nothing",
        "an-end-without-a-crash",
    ),
}
SEEDS, SECONDS = 200, 300
PROGRAM = "rme_faults"


def edits():
    """The name of each edit, and its path."""
    for crate, names in REFUSED.items():
        for name in names:
            yield name, os.path.join(TOP, "crates", crate, "must-fail", name + ".edit")
    for path in sorted(glob.glob(os.path.join(SCRIPTS, "faults", "*.edit"))):
        yield os.path.basename(path)[: -len(".edit")], path


def parse(path):
    """The files that an edit changes, below crates/, each with its pairs."""
    crate = "" if path.startswith(SCRIPTS) else path.split(os.sep)[-3] + "/"
    files = []
    with open(path, encoding="utf-8") as file:
        for line in file.read().splitlines():
            word, _, rest = line.partition(": ")
            if word == "file":
                files.append((crate + rest, []))
            elif word == "old":
                files[-1][1].append([rest, None])
            elif word == "new":
                files[-1][1][-1][1] = rest
            elif not line.startswith("#"):
                raise Stop(f"{path}: not a line of an edit: {line}")
    return files


def apply(folder, path):
    for changed, pairs in parse(path):
        target = os.path.join(folder, "crates", changed)
        with open(target, encoding="utf-8") as file:
            text = file.read()
        for old, new in pairs:
            if text.count(old + "\n") != 1:
                raise Stop(f"{path}: does not stand once in {changed}: {old}")
            text = text.replace(old + "\n", new + "\n")
        with open(target, "w", encoding="utf-8") as file:
            file.write(text)


def simulate(path):
    """What simulations find with an edit: the number of seeds that it takes, and what is wrong; or the end of the run."""
    crates = listed()
    names = [*below(crates, PROGRAM), PROGRAM]
    with tempfile.TemporaryDirectory() as folder:
        sources_in(folder, names)
        with open(os.path.join(folder, "crates.txt"), "w", encoding="utf-8") as file:
            file.write("\n".join(crates[name][0] for name in names) + "\n")
        if path:
            apply(folder, path)
        words = ["rt", "try", "--seconds", str(SECONDS), "--", "1", str(SEEDS)]
        how = {"stdin": subprocess.DEVNULL, "stdout": subprocess.PIPE, "stderr": subprocess.STDOUT}
        ran = subprocess.run(words, cwd=os.path.join(folder, "crates", PROGRAM), text=True, errors="replace", **how)
    found = re.search(r"^FAILED seed (\d+) step \d+: (.*)$", ran.stdout, re.M)
    return found, ran.stdout[-600:]


def try_edits():
    wanted = sys.argv[1:]
    chosen = [(name, path) for name, path in edits() if not wanted or name in wanted]
    with concurrent.futures.ThreadPoolExecutor(os.cpu_count() or 1) as lanes:
        for (name, _), (found, told) in zip(chosen, lanes.map(simulate, [path for _, path in chosen])):
            check(f"{name}: found by {found[1]} seeds: {found[2]}" if found else name, found, told)
