"""A Climb, a Held or a Leave cannot be lost: each text of scripts/losses makes a change that loses one, in rme_table,
rme_session_threads, rme_server or a small caller of rme_table, and the type check must refuse it for only that.

A text has comment lines, a line `file:`, and pairs of lines `old:` and `new:`, each old text standing once in the file.
"""

import glob
import os
import re
import shutil
import subprocess
import tempfile

from lib.checks import Stop, check, main
from lib.programs import SCRIPTS, TOP, sources_in

LOSSES = os.path.join(SCRIPTS, "losses")
REFUSAL = "linear-value-let-go"
SECONDS = 300


def needed(name):
    """A crate and the crates of the repository that it stands on, lowest first, with the line of each."""
    with open(os.path.join(TOP, "crates.txt")) as file:
        lines = [line.split("#")[0].strip() for line in file]
    lines = {re.split(r"[: ]", line)[0]: line for line in lines if line}
    found = {}

    def find(crate):
        for below in lines[crate].split(":")[1].split():
            if below in lines and below not in found:
                find(below)
        found[crate] = lines[crate]

    find(name)
    return found


def copy_to(folder):
    """Copies the sources of rme_server and the crates below, rme_table among them, and puts the caller beside them."""
    crates = needed("rme_server")
    sources_in(folder, crates)
    caller = os.path.join(folder, "crates", "loser", "src")
    os.makedirs(caller)
    shutil.copy(os.path.join(LOSSES, "caller.text"), os.path.join(caller, "lib.rt"))
    used = crates["rme_table"].split(":")[1]
    with open(os.path.join(folder, "crates.txt"), "w") as file:
        file.write("\n".join(crates.values()) + f"\nloser: rme_table{used}\n")


def parse(path):
    """The file that a text changes, and its pairs."""
    changed, pairs = None, []
    with open(path) as file:
        for line in file.read().splitlines():
            word, _, rest = line.partition(": ")
            if word == "file":
                changed = rest
            elif word == "old":
                pairs.append([rest, None])
            elif word == "new":
                pairs[-1][1] = rest
            elif not line.startswith("#"):
                raise Stop(f"{path}: not a line of a text: {line}")
    return changed, pairs


def errors_of(folder, words):
    """The names of all errors of a run in a folder, and its output. Where no check kept the libraries below they are built
    first; a run that goes on to the proofs is stopped."""
    ran = subprocess.run(
        ["timeout", "--kill-after=5", str(SECONDS)] + words,
        cwd=folder,
        stdin=subprocess.DEVNULL,
        stdout=subprocess.PIPE,
        stderr=subprocess.STDOUT,
        text=True,
    )
    return re.findall(r"error\[([a-z-]+)\]", ran.stdout), ran


def try_text(folder, path):
    """A text is refused, and only for the loss; the file is put back."""
    name = os.path.basename(path)[: -len(".loss")]
    changed, pairs = parse(path)
    target = os.path.join(folder, "crates", changed)
    with open(target) as file:
        whole = file.read()
    text = whole
    for old, new in pairs:
        if text.count(old + "\n") != 1:
            check(name, False, f"does not stand once in {changed}: {old}")
            return
        text = text.replace(old + "\n", new + "\n")
    with open(target, "w") as file:
        file.write(text)
    crate = os.path.join(folder, "crates", changed.split("/")[0])
    errors, ran = errors_of(crate, ["rt", "check", "--only="])
    with open(target, "w") as file:
        file.write(whole)
    told = f"not refused only by {REFUSAL}: {errors}, status {ran.returncode}\n{ran.stdout[-1000:]}"
    check(name, errors and set(errors) == {REFUSAL}, told)


def try_losses():
    with tempfile.TemporaryDirectory() as folder:
        copy_to(folder)
        errors, ran = errors_of(os.path.join(folder, "crates", "loser"), ["rt", "try", "--test"])
        check("the caller, as it stands", not errors and ran.returncode == 0, ran.stdout)
        for path in sorted(glob.glob(os.path.join(LOSSES, "*.loss"))):
            try_text(folder, path)


def part():
    main(try_losses)
