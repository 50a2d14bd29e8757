"""rust: the crate of clients/rust: its own tests, which have the conversations of clients/conversations, and a storm of job
runners of a server that is killed and started again."""

import os
import shutil
import subprocess
import tempfile

from lib.checks import check, main, skip
from lib.client_storms import COUNT, LOCK, WORKERS, try_storm
from lib.conversations import told_of_tests
from lib.programs import TOP

CRATE = os.path.join(TOP, "clients", "rust")
MINUTES = 10
QUICK = {"CARGO_INCREMENTAL": "0", "CARGO_PROFILE_DEV_DEBUG": "0", "CARGO_PROFILE_TEST_DEBUG": "0"}


def cargo(folder, *words):
    """How cargo ends, whose files lie in this folder."""
    command = ["cargo", words[0], "--offline", "--locked", *words[1:]]
    how = {"stdin": subprocess.DEVNULL, "stdout": subprocess.PIPE, "stderr": subprocess.STDOUT, "text": True, "timeout": 60 * MINUTES}
    return subprocess.run(command, cwd=CRATE, env={**os.environ, **QUICK, "CARGO_TARGET_DIR": folder}, **how)


def try_crate():
    if not (shutil.which("cargo") and shutil.which("rustc")):
        skip("the client in Rust", "there is no cargo, or no rustc")
        return
    with tempfile.TemporaryDirectory() as folder:
        told_of_tests("cargo test", cargo(folder, "test", "--", "--nocapture"))
        built = cargo(folder, "build", "--example", "job_runner")
        runner = os.path.join(folder, "debug", "examples", "job_runner")
        if check("the job runner is built, without a warning", built.returncode == 0 and "warning" not in built.stdout, built.stdout):
            commands = [lambda port, worker=worker: [runner, port, worker, LOCK, COUNT] for worker in range(WORKERS)]
            try_storm("Rust", folder, commands)


def part():
    main(try_crate)
