"""The programs of this repository, and runs of them."""

import functools
import glob
import os
import shutil
import subprocess
import time

from lib.checks import skip

TOP = os.path.dirname(os.path.dirname(os.path.dirname(os.path.realpath(__file__))))
SCRIPTS = os.path.join(TOP, "scripts")
REFUSED_GROWTH = b"growth refused\n"


@functools.lru_cache(maxsize=None)
def built(name="rme_cli"):
    """The path of a program, which is built first if it is not there yet."""
    subprocess.run([os.path.join(SCRIPTS, "build"), name], check=True, stdin=subprocess.DEVNULL)
    return os.path.join(TOP, "crates", name, "out", name)


def run(words, given=b"", program="rme_cli", **how):
    """A run of `rme` on this input, which must end by itself within a minute; its outputs are bytes."""
    how = {"input": given, "stdout": subprocess.PIPE, "stderr": subprocess.PIPE, "timeout": 60, **how}
    if "stdin" in how:
        del how["input"]
    return subprocess.run([built(program), *map(str, words)], **how)


def ends_with(ran):
    """A run's status, output and standard error."""
    return ran.returncode, ran.stdout, ran.stderr


def examples():
    """The name and the bytes of each input of examples/."""
    for path in sorted(glob.glob(os.path.join(TOP, "examples", "*.jsonl"))):
        if not path.endswith(".expected.jsonl"):
            with open(path, "rb") as file:
                yield os.path.basename(path)[: -len(".jsonl")], file.read()


@functools.lru_cache(maxsize=None)
def has_strace():
    """Whether `strace` is there and may look at another program."""
    if not shutil.which("strace"):
        return False
    return subprocess.run(["strace", "-o", "/dev/null", "true"], capture_output=True).returncode == 0


def lines_traced(log):
    """The lines that `strace` wrote about a program that was killed, once all are written."""
    for _ in range(200):
        with open(log, "rb") as file:
            told = file.read()
        if b"+++ killed" in told:
            break
        time.sleep(0.05)
    return told.splitlines()


def growth_refuser(folder):
    """A library that refuses one growth of memory if it is preloaded, or None if there is no C compiler."""
    compiler = shutil.which("cc")
    if not compiler:
        skip("refused growths", "there is no C compiler cc, which builds the library that refuses them")
        return None
    shim = os.path.join(folder, "refused-growth.so")
    source = os.path.join(SCRIPTS, "refused-growth.c")
    subprocess.run([compiler, "-shared", "-fPIC", "-O1", "-o", shim, source], check=True)
    return shim


def refusing(shim, number):
    """The environment that makes the growth of this number fail."""
    return {"LD_PRELOAD": shim, "REFUSED_GROWTH": str(number)}


def sources_in(folder, crates=None):
    """Copies the sources of these crates, or of all, into a folder, with the files in the folders above them."""
    skipped = shutil.ignore_patterns("out", "must-fail")
    for crate in crates or os.listdir(os.path.join(TOP, "crates")):
        shutil.copytree(os.path.join(TOP, "crates", crate), os.path.join(folder, "crates", crate), ignore=skipped)
    for name in ("HANDLES", "crates.txt"):
        shutil.copy(os.path.join(TOP, name), folder)
