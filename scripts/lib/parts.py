"""Scripts of parts. A part is a module of scripts/parts/SUBJECT with a function `part`, which makes its checks.

A script runs its parts one after another, each in a process of its own: so no part is affected by what another has
left, as servers, threads, limits of time or handlers of signals. Its last line is `N checks, M failed`, over all of its
parts.
"""

import ast
import importlib
import os
import subprocess
import sys
import tempfile

from lib import checks
from lib.programs import SCRIPTS

COUNTED = "--counted"  # before the descriptor to which the count is written, if a script starts itself for a part


def script(about, *names):
    """Runs the parts with these names in this order, or the one that the first word names, with the words after it."""
    subject = os.path.basename(sys.argv[0]).removeprefix("try-")
    words = sys.argv[1:]
    if words[:1] == [COUNTED]:
        checks.counted = int(words[1])
        words = words[2:]
    if not words:
        run_all(names)
    elif words[0] in names:
        run_one(subject, *words)
    elif words[0] in ("-h", "--help"):
        print(help_of(about, subject, names))
    else:
        sys.exit(f"try-{subject}: there is no part {words[0]}; there are {', '.join(names)}")


def run_one(subject, name, *words):
    """Runs a part in this process, with these words as its arguments. It ends the script."""
    sys.argv = [f"{sys.argv[0]} {name}", *words]
    importlib.import_module(f"parts.{subject}.{name.replace('-', '_')}").part()


def run_all(names):
    made = failed = left_out = 0
    for name in names:
        print(f"-- {name}", flush=True)
        counts = counts_of(name)
        print(f"     {name}: {told(*counts[:2])}", flush=True)
        made, failed, left_out = made + counts[0], failed + counts[1], left_out + counts[2]
    print(told(made, failed), flush=True)
    sys.exit(0 if checks.is_well(made, failed, left_out) else 1)


def told(made, failed):
    return f"{made} checks, {failed} failed"


def counts_of(name):
    """Runs a part in a process of its own: how many checks it made, how many failed, and how much was left out. A part
    that ends without a count, or with a status that contradicts its count, counts as one more failed check."""
    with tempfile.TemporaryFile() as file:
        command = [sys.executable, sys.argv[0], COUNTED, str(file.fileno()), name]
        with subprocess.Popen(command, pass_fds=[file.fileno()]) as part:
            status = part.wait()
        file.seek(0)
        counts = [int(word) for word in file.read().split()]
    made, failed, left_out = counts or (0, 0, 0)
    if counts and (status == 0) == (failed == 0):
        return made, failed, left_out
    print(f"FAIL {name}: it ended with status {status} after {told(made, failed)}", flush=True)
    return made + 1, failed + 1, left_out


def help_of(about, subject, names):
    """What a script checks: its own text, and that of each part."""
    lines = [about.strip(), "", f"scripts/try-{subject} [PART [WORD..]]: makes the checks of all parts, or of one. The parts:"]
    for name in names:
        with open(os.path.join(SCRIPTS, "parts", subject, name.replace("-", "_") + ".py"), encoding="utf-8") as file:
            text = ast.get_docstring(ast.parse(file.read()))
        lines += ["", f"-- {name}", text]
    return "\n".join(lines)
