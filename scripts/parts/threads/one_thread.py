"""A supervisor on one thread does not pass: with the keepers called one after another in place of being started, the
test of two sections of different locks at the same time must fail, since the first worker waits in vain."""

import os
import subprocess
import tempfile

from lib.checks import Stop, check, main
from lib.programs import sources_in

CHANGED = os.path.join("crates", "rme_supervisor", "src", "keeping.rt")
OLD = "let _ = scope.spawn(keeper);"
NEW = "keeper();"

# What the test then prints: both ends must be AllDone.
FAILED = """test supervisor::runs::gate ... FAILED
    assertion `left == right` failed
      left: [Stalled, AllDone]
"""


def copied(folder):
    """Copies the sources, with the keepers called one after another."""
    sources_in(folder)
    path = os.path.join(folder, CHANGED)
    with open(path) as file:
        text = file.read()
    if text.count(OLD) != 1:
        raise Stop(f"{CHANGED} has not just one `{OLD}`")
    with open(path, "w") as file:
        file.write(text.replace(OLD, NEW))


def try_one_thread():
    with tempfile.TemporaryDirectory() as folder:
        copied(folder)
        ran = subprocess.run(
            ["rt", "try", "--test"],
            cwd=os.path.join(folder, "crates", "rme_test_service"),
            stdin=subprocess.DEVNULL,
            stdout=subprocess.PIPE,
            stderr=subprocess.STDOUT,
            text=True,
            timeout=600,
        )
        failed = ran.stdout.count("... FAILED") == 1 and FAILED in ran.stdout
        check("one thread ends Stalled", failed, f"status {ran.returncode}:\n{ran.stdout}")


def part():
    main(try_one_thread)
