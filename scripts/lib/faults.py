"""Runs of the simulator of faults, crates/rme_faults."""

import concurrent.futures
import os
import re
import subprocess

from lib.programs import built

FAILED = re.compile(r"FAILED seed (\d+) step (\d+): (.*)")
SECONDS = 600


def simulate(first, count, *words):
    """Runs this number of seeds from the first on: the failures, each a seed, a step and what is wrong, and the
    counts."""
    command = [built("rme_faults"), str(first), str(count), *map(str, words)]
    ran = subprocess.run(
        command, stdin=subprocess.DEVNULL, stdout=subprocess.PIPE, stderr=subprocess.DEVNULL, text=True, timeout=SECONDS
    )
    failures = [(int(seed), int(step), wrong) for seed, step, wrong in FAILED.findall(ran.stdout)]
    counts = {}
    for line in ran.stdout.splitlines():
        named = line.split()
        if line.startswith(("seeds ", "lives ", "checkpoints ")):
            counts.update(zip(named[::2], map(int, named[1::2])))
    if ran.returncode not in (0, 1) or "failed" not in counts:
        failures.append((first, 0, f"the program ended with status {ran.returncode}"))
    return failures, counts


def simulate_all(first, count, at_once=None):
    """The same with as many processes as there are processors: failures and sums of counts."""
    at_once = at_once or os.cpu_count() or 1
    share = -(-count // at_once)
    parts = [(first + at, min(share, count - at)) for at in range(0, count, share)]
    failures, sums = [], {}
    with concurrent.futures.ThreadPoolExecutor(at_once) as lanes:
        for found, counts in lanes.map(lambda part: simulate(*part), parts):
            failures += found
            for name, number in counts.items():
                sums[name] = sums.get(name, 0) + number
    return sorted(failures), sums


def smaller(seed, step):
    """The words of the smallest case of a seed that fails at a step: with fewer sessions, and with fewer steps."""
    best = ["--steps", step]
    for sessions in range(1, 8):
        failures, _ = simulate(seed, 1, "--sessions", sessions)
        if failures and failures[0][1] <= step:
            best, step = ["--sessions", sessions, "--steps", failures[0][1]], failures[0][1]
            break
    while step > 1 and simulate(seed, 1, *best[:-1], step - 1)[0]:
        step -= 1
        best[-1] = step
    return best


def told(sums):
    return ", ".join(f"{number} {name}" for name, number in sums.items())
