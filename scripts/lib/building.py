"""Builds a program of this repository with the crates that it stands on, side by side as far as processors and memory reach.

`rt` holds the folders of all crates below the one that it builds, so two runs of it in one clone take turns: of crates `a`,
`b: a` and `c: a`, `rt lib` in c waits for that in b. So each crate is built in a room of its own, a folder with its sources
and the built libraries below it; what is made there is then moved to the crate's out/.
"""

import fcntl
import os
import re
import shutil
import signal
import subprocess
import sys
import time
from concurrent.futures import FIRST_COMPLETED, ThreadPoolExecutor, wait

from lib.sources import TOP, MadeOf, below, folder_of, library_of, sources_of, time_of

MEMORY_OF_A_LANE = 3_500_000_000
# A crate's functions are proved in some six batches: two rounds with three jobs, and with four, which take more work.
MOST_JOBS = 3
# A crate's processes are a group, which `stop` can end, and no session: the system shares the processors among sessions
# first, and by niceness only inside a session. (An older Python can only make sessions: the build is then slower.)
GROUP = {"process_group": 0} if sys.version_info >= (3, 11) else {"start_new_session": True}
# A crate that can wait has at least this niceness, and one more for each period of this number of seconds of its wait.
LEAST_NICE, MOST_NICE, SECONDS_A_NICE = 5, 19, 15
# The processor seconds that crates take with one job, some measured and some estimated. They say which chain of crates
# is the longest, and about how long a build takes.
SECONDS = {
    "rme_words": 38, "rme_tree": 16, "rme_script": 38, "rme_line_io": 75, "rme_cli_options": 200, "rme_program": 85,
    "rme_machine": 18, "rme_history": 45, "rme_core_image": 65, "rme_core_image_check": 40, "rme_core_checker": 60,
    "rme_world": 95, "rme_waiting": 30, "rme_line_json": 35, "rme_line_text": 100, "rme_wire": 100, "rme_session_protocol": 130,
    "rme_line_diagnose": 60, "rme_line_check": 110, "rme_cli_messages": 120, "rme_draw_picture": 145,
    "rme_ask_client": 110, "rme_cli_ask": 260,
    "rme_service_steps": 60, "rme_service_phases": 100, "rme_table": 135, "rme_supervisor": 140,
    "rme_session_threads": 140, "rme_session_loop": 110, "rme_session_server": 80, "rme_server": 65, "rme_line_engine": 88,
    "rme_draw_history": 70, "rme_cli_lines": 80, "rme_cli_run": 49, "rme_session_world": 95, "rme_durable_log": 65,
    "rme_durable_format": 160, "rme_durable_epochs": 145, "rme_durable_checkpoint": 110, "rme_durable_lookups": 90,
    "rme_durable_server": 215,
    "rme_process_file": 90, "rme_durable_file": 240, "rme_cli_listen": 150, "rme_cli_look": 260, "rme_cli_durable": 280, "rme_cli_state": 200,
    "rme_cli_commands": 180, "rme_cli": 300,
    "rme_cli_help": 15, "rme_metrics": 55, "rme_session_metrics": 38, "rme_session_keys": 70, "rme_session_spaces": 75,
    "rme_durable_metrics": 15, "rme_replica_state": 35, "rme_cli_cluster": 45,
    "rme_cli_cluster_state": 220, "rme_cli_spaces": 350, "rme_cli_replica": 310,
}  # fmt: skip
# Side by side crates keep some 2.7 processors busy, if there are four. The longest chain takes about four fifths of
# its seconds (an estimate).
BUSY, OF_CHAIN = 2.7, 0.8
LAST_LINES = 40  # of a log, if a crate failed
# What a program is run with once it is built, on no input; any other is asked for its version.
FIRST_WORDS = {"rme_cli_run": "run", "rme_faults": "1"}
running = set()


def say(text):
    print(f"rme: {text}", file=sys.stderr, flush=True)


def say_end(name, log):
    """Prints the last lines of a log, and the path of the whole log."""
    lines = log.splitlines(keepends=True)
    sys.stderr.write("".join(lines[-LAST_LINES:]))
    if len(lines) > LAST_LINES:
        path = os.path.join(folder_of(name), "out", "failed.log")
        with open(path, "w", encoding="utf-8") as file:
            file.write(log)
        say(f"these are its last lines; all are in {path}")


def weight(name):
    """About how many seconds a crate takes: as measured, or else by its lines."""
    lines = 0
    for path in sources_of(name):
        if path.endswith(".rt"):
            with open(path, "rb") as file:
                lines += file.read().count(b"\n")
    return SECONDS.get(name, 15 + lines // 6)


def stale(crates, names, made_of):
    """The crates of these whose library is missing, not of its sources, or older than a library below it."""
    found, built = set(), {}
    for name in names:
        built[name] = time_of(library_of(name))
        older = any(built[it] > built[name] or it in found for it in below(crates, name))
        if older or not made_of.is_library_fresh(name):
            found.add(name)
    return found


def link_tree(source, target, skipped):
    def link(path, to):
        try:
            os.link(path, to)
        except OSError:
            shutil.copy2(path, to)

    shutil.copytree(source, target, copy_function=link, ignore=shutil.ignore_patterns(*skipped), dirs_exist_ok=True)


def furnish(room, crates, name):
    """Puts into a room what the crate is made of: its sources, what is kept of earlier work, and the libraries below."""
    os.makedirs(room)
    shutil.copy(os.path.join(TOP, "HANDLES"), room)
    used = below(crates, name)
    with open(os.path.join(room, "crates.txt"), "w", encoding="utf-8") as file:
        file.write("".join(crates[it][0] + "\n" for it in [*used, name]))
    for it in [*used, name]:
        link_tree(folder_of(it), os.path.join(room, "crates", it), ("out", "must-fail"))
    for it in used:
        link_tree(os.path.join(folder_of(it), "out", "rlib"), os.path.join(room, "crates", it, "out", "rlib"), ())


def move_all(source, target, but=()):
    os.makedirs(target, exist_ok=True)
    for part in os.listdir(source) if os.path.isdir(source) else ():
        if part not in but:
            to = os.path.join(target, part)
            if os.path.isdir(to):
                shutil.rmtree(to)
            os.rename(os.path.join(source, part), to)


def niceness(slack):
    """The niceness of a crate that can wait for this number of seconds: at 0 it goes first, and gets all processors
    that it can use."""
    return min(MOST_NICE, LEAST_NICE + slack // SECONDS_A_NICE) if slack else 0


def make(crates, name, is_program, jobs, nice):
    """Builds a crate in a room, and answers whether it was built, and what was said."""
    out = os.path.join(folder_of(name), "out")
    room = os.path.join(out, "room")
    inside = os.path.join(room, "crates", name)
    # What a run that was killed left in its room is not lost.
    move_all(os.path.join(inside, "out"), out)
    shutil.rmtree(room, ignore_errors=True)
    furnish(room, crates, name)
    move_all(out, os.path.join(inside, "out"), ("room",))
    verb, ending = ("run", ["--", FIRST_WORDS.get(name, "--version")]) if is_program else ("lib", [])
    words = ["nice", "-n", str(nice), "rt", verb, "--jobs", str(jobs), *ending]
    how = {"cwd": inside, "stdin": subprocess.DEVNULL, "stdout": subprocess.PIPE, "stderr": subprocess.STDOUT}
    with subprocess.Popen(words, text=True, errors="replace", **GROUP, **how) as ran:
        running.add(ran)
        told = ran.stdout.read()
    running.discard(ran)
    move_all(os.path.join(inside, "out"), out)
    shutil.rmtree(room, ignore_errors=True)
    return ran.returncode == 0, told


def lanes():
    """How many crates are built side by side."""
    with open("/proc/meminfo", encoding="utf-8") as file:
        free = 1024 * int(re.search(r"MemAvailable:\s+(\d+)", file.read())[1])
    return max(1, min(len(os.sched_getaffinity(0)), free // MEMORY_OF_A_LANE))


def expected(weight, chain, places):
    """How many seconds this work takes at pace 1, with this number of crates side by side and this longest chain of
    crates."""
    return max(weight / min(places, BUSY), (OF_CHAIN if places > 2 else 1) * chain)


def minutes_for(crates, names):
    """About how many minutes it takes to build these crates on the machine of the estimates."""
    weights = {name: weight(name) for name in crates if name in names}
    chain = max(chains(crates, weights).values(), default=0)
    return round(expected(sum(weights.values()), chain, lanes()) / 60)


def to_build(crates, made, name):
    """What is to be built for a file of a crate: that crate and those below it that are out of date, or nothing."""
    names = below(crates, name)
    made_of = MadeOf(made, crates, [*names, name])
    return [] if made_of.is_fresh() else [*stale(crates, names, made_of), name]


class Progress:
    """How far the build is, by the weights of its crates: of all, and of the chain of crates that is the longest.

    A slow machine shows slowly, as if some seconds at pace 1 had gone by before: its first crate is also the first that
    reads the toolchain from the disk. A fast machine shows at once, as when most crates are found to be proved already.
    """

    SECONDS_AT_PACE_1 = 300

    def __init__(self, program, weights, chain, places):
        self.weights, self.chain, self.places = weights, chain, places
        self.began, self.done = time.monotonic(), 0
        minutes = round(expected(sum(weights.values()), chain, places) / 60)
        some = f"some {minutes} minutes" if minutes > 1 else "a minute or two"
        say(f"proving and building {program}: {len(weights)} crates, {some}; done once, and again only for what changes")

    def built(self, name, number, chain_left):
        self.done += self.weights[name]
        left = sum(self.weights.values()) - self.done
        took = time.monotonic() - self.began
        so_far = expected(self.done, self.chain - chain_left, self.places)
        slow = (took + self.SECONDS_AT_PACE_1) / (so_far + self.SECONDS_AT_PACE_1)
        pace = min(slow, took / so_far)
        minutes = round(pace * expected(left, chain_left, self.places) / 60)
        still = f"some {minutes} minutes still" if minutes > 1 else "a minute still" if left else "done"
        say(f"{number} of {len(self.weights)}: {name}, after {round(took)} s; {still}")


def chains(crates, weights):
    """For each crate the weight of the longest chain of crates that begins with it and waits for it."""
    found = {}
    for name in reversed([*weights]):
        above = [found[it] for it in found if name in crates[it][1]]
        found[name] = weights[name] + max(above, default=0)
    return found


def shares(idle, count):
    """How many jobs each of `count` crates gets if `idle` processors are idle."""
    return [max(1, min(MOST_JOBS, idle // count + (at < idle % count))) for at in range(min(idle, count))]


def build(crates, names, program):
    """Builds these crates, lowest first, the program last."""
    weights = {name: weight(name) for name in names}
    first, places = chains(crates, weights), lanes()
    progress = Progress(program, weights, max(first.values()), places)
    left, working, number = [*names], {}, 0
    with ThreadPoolExecutor(places) as pool:
        while left or working:
            waiting = {*left, *working.values()}
            ready = [it for it in left if not waiting & {*below(crates, it)}]
            ready.sort(key=lambda it: -first[it])
            # The longest chain decides when all is done, so its crate comes first, and the others take what it leaves.
            longest = max((first[it] for it in waiting), default=0)
            for name, jobs in zip(ready, shares(places - len(working), len(ready))):
                slack = longest - first[name]
                jobs = jobs if slack else max(jobs, min(MOST_JOBS, places - 1))
                # A program has few functions, and each job would read all the libraries again.
                jobs = 1 if name == program else jobs
                left.remove(name)
                working[pool.submit(make, crates, name, name == program, jobs, niceness(slack))] = name
            for it in wait(working, return_when=FIRST_COMPLETED).done:
                name = working.pop(it)
                well, told = it.result()
                if not well:
                    say_end(name, told)
                    say(f"{program} was not built: {name} failed")
                    stop()
                number += 1
                progress.built(name, number, max((first[it] for it in {*left, *working.values()}), default=0))


def hold(names):
    """Keeps other runs, and those of `rt`, out of these crates until this one ends."""
    held = [os.open(folder_of(it), os.O_RDONLY) for it in sorted(names)]
    for it in held:
        try:
            fcntl.flock(it, fcntl.LOCK_EX | fcntl.LOCK_NB)
        except BlockingIOError:
            say("waiting for another run that builds or checks here")
            fcntl.flock(it, fcntl.LOCK_EX)
        except OSError:
            # Some file systems have no locks.
            return


def stop_at_signals():
    for name in (signal.SIGINT, signal.SIGTERM):
        signal.signal(name, stop)


def stop(*_):
    """Ends what is running, and this."""
    for ran in [*running]:
        os.killpg(ran.pid, signal.SIGTERM)
    os._exit(1)


def build_stale(crates, program, made_of):
    """Builds what is out of date of a program and of what it stands on, and the program."""
    names = below(crates, program)
    out_of_date = stale(crates, names, made_of)
    build(crates, [it for it in names if it in out_of_date] + [program], program)
