"""node: the package of clients/node: its own tests, which have the conversations of clients/conversations, and a storm of job
runners of a server that is killed and started again."""

import os
import shutil
import subprocess
import tempfile

from lib.checks import main, skip
from lib.client_storms import COUNT, LOCK, WORKERS, try_storm
from lib.conversations import told_of_tests
from lib.programs import TOP

PACKAGE = os.path.join(TOP, "clients", "node")
OLDEST = 18


def version():
    """The first number of the version of node, or None without node."""
    if not shutil.which("node"):
        return None
    told = subprocess.run(["node", "--version"], capture_output=True, text=True, check=False).stdout
    return int(told.lstrip("v").split(".")[0]) if told.startswith("v") else None


def try_package():
    found = version()
    if found is None or found < OLDEST:
        skip("the client for Node.js", f"there is no node of version {OLDEST} or later")
        return
    how = {"stdin": subprocess.DEVNULL, "stdout": subprocess.PIPE, "stderr": subprocess.STDOUT, "text": True, "timeout": 900}
    told_of_tests("node --test", subprocess.run(["node", "--test"], cwd=PACKAGE, **how))
    runner = os.path.join(PACKAGE, "examples", "job_runner.js")
    commands = [lambda port, worker=worker: ["node", runner, port, worker, LOCK, COUNT] for worker in range(WORKERS)]
    with tempfile.TemporaryDirectory() as folder:
        try_storm("Node.js", folder, commands)


def part():
    main(try_package)
