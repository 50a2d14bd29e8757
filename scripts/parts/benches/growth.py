"""What reads and draws the figures of benchmarks, and `bench/growth` with sizes up to 10. No figure is judged."""

import doctest
import os
import shutil
import signal
import subprocess
import xml.dom.minidom

from lib import machine
from lib.checks import check, main_in_folders, same, skip
from lib.programs import TOP, built

BENCH = os.path.join(TOP, "bench")


def bench(name, *words, **how):
    how = {"stdin": subprocess.DEVNULL, "stdout": subprocess.PIPE, "stderr": subprocess.PIPE, "text": True, **how}
    return subprocess.Popen([os.path.join(BENCH, name), *words], **how)


def ended(run):
    """The status, the output and the standard error of a benchmark."""
    output, errors = run.communicate(timeout=120)
    return run.returncode, output, errors


def growth(folder, *words):
    """A run of bench/growth whose files lie in a folder."""
    return bench("growth", "--program", built(), *words, env={**os.environ, "TMPDIR": folder})


def try_examples(_):
    for name in ("all", "growth"):
        status, output, _ = ended(bench(name, "--self-test"))
        check(f"bench/{name} --self-test: {output.splitlines()[-1:]}", status == 0, output)
    same("the examples of lib/machine.py that fail", doctest.testmod(machine).failed, 0)


def try_small(folder):
    picture = os.path.join(folder, "growth.svg")
    held = os.path.join(folder, "held")
    os.mkdir(held)
    status, output, errors = ended(growth(held, "--most", "10", "--svg", picture))
    check("bench/growth up to 10", status == 0, errors)
    rows = [line.split("|")[1].strip() for line in output.splitlines() if line.startswith("|") and "---" not in line]
    half = len(rows) // 2
    check("two tables of the same rows", half > 10 and rows[1:half] == rows[half + 1 :], rows)
    lines = len(xml.dom.minidom.parse(picture).getElementsByTagName("g"))
    same("the picture has a line for each row, twice", lines, 2 * (half - 1))
    same("what is left of its files", os.listdir(held), [])


def try_stopped(folder):
    """Its server and its files are gone when it was stopped."""
    for way in (signal.SIGINT, signal.SIGTERM):
        run = growth(folder, "--only", "state")
        run.stderr.readline()
        run.send_signal(way)
        status, _, errors = ended(run)
        check(f"stopped by {way.name}", status in (1, 130), (status, errors))
        same("what is left of its files", os.listdir(folder), [])
        if shutil.which("pgrep"):
            left = subprocess.run(["pgrep", "-f", f"{folder}/"], stdout=subprocess.PIPE, text=True).stdout
            same("what is left of its processes", left, "")


def part():
    # If this is run in the background, the shell has it ignore what Ctrl-C sends.
    signal.signal(signal.SIGINT, signal.default_int_handler)
    if shutil.which("gcc"):
        main_in_folders(try_examples, try_small, try_stopped, minutes=5)
    else:
        skip("bench/growth", "there is no gcc")
        main_in_folders(try_examples, minutes=5)
