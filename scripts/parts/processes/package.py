"""package [SEED]: the package of clients/processes, over files of the C library.

Each call with its refusals; jobs that killed processes left; calls that signals and exceptions end; threads; and storms,
in which processes are killed at random moments, and each job counts once. What documents show of it is run.
"""

import os
import pickle
import random
import re
import signal
import struct
import subprocess
import sys
import tempfile
import threading
import time

from lib.checks import check, main, main_in_folders, note, same, skip
from lib.processes import C, compiler, has, shared, shared_memory
from lib.programs import TOP

SEED = int(sys.argv[1]) if len(sys.argv) > 1 else random.randrange(10**6)


# ---- the package of clients/processes


def raises(name, kind, call, *words, **named):
    """A call raises this refusal, which is answered; the check fails if it does not."""
    try:
        check(name, False, f"{call(*words, **named)!r} in place of {kind.__name__}")
    except kind as error:
        check(name, True)
        return error
    except Exception as error:
        check(name, False, f"{error!r} in place of {kind.__name__}")
    return None


FIVE = [("add", 0, 5)]
BAD_SCRIPTS = [("mul", 0, 1)], [("get", 0, 0)], [("add", 0)], [("add", 0, -1)], [("set", 0, 2**64)], [()], FIVE * 9


def try_package(folder):
    """Each call of the package, in one process."""
    rme = shared()
    path = os.path.join(folder, "package")
    rme.create(path, ["bank", "shop"], workers=2, cells=2, jobs=20)
    try_beginnings(rme, path)
    with rme.Worker(path, 0) as worker, rme.Worker(path, 1) as other:
        raises("taken", rme.Taken, rme.Worker, path, 0)
        try_runs(rme, worker, other)
        try_bad_scripts(rme, worker)
        try_three_parts(rme, worker)
        try_blocks(rme, worker)
        same("which workers live", rme.living(path), {0, 1})
    raises("closed", rme.NotAttached, worker.last)
    try_after_renewal(rme, path)


def try_beginnings(rme, path):
    """Files and workers that are refused."""
    raises("a file that is there", rme.Exists, rme.create, path, ["bank"], workers=1)
    for name in ("", "A", "a\0b", "x" * 33):
        raises(f"the name {name!r}", rme.BadShape, rme.create, path + "1", [name], workers=1)
    raises("a shape", rme.BadShape, rme.create, path + "1", ["a"], workers=-1)
    raises("no file", rme.NoFile, rme.Worker, path + "1", 0)
    with open(path + "2", "w", encoding="utf-8") as file:
        file.write("text")
    error = raises("a text", rme.NotRme, rme.look, path + "2")
    check("why", "shorter" in str(error), error)
    error = raises("a call of the system", rme.SystemFailed, rme.create, "x" * 5000, ["a"], workers=1)
    same("its number", error.errno, 36)  # ENAMETOOLONG
    for number in (2, -1, 2**32):
        raises(f"worker {number}", rme.NoWorker, rme.Worker, path, number)


def try_runs(rme, worker, other):
    """Jobs of one worker, and of another behind it."""
    same("ready", (worker.stance, worker.next_number(), worker.pending(), worker.last()), ("ready", 1, None, None))
    first = rme.Receipt("shop", 1, 0, 5, 0)
    same("run", worker.run("shop", FIVE), first)
    same("the same number again", worker.run("shop", FIVE, number=1), first)
    error = raises("a number", rme.WrongNumber, worker.run, "shop", FIVE, number=3)
    same("expected", error.expected, 2)
    same("expected, told to another process", pickle.loads(pickle.dumps(error)).expected, 2)
    with worker.inside("shop", FIVE) as held:
        same("inside", (held.number, held.receipt, worker.stance, worker.owner("shop")), (2, None, "inside", 0))
        same("the place that its receipt will have", held.section, 1)
        same("its job", worker.pending(), rme.Job(2, "shop", FIVE))
        raises("in a block", RuntimeError, worker.run, "shop", FIVE)
        raises("the other", rme.Blocked, other.run, "shop", FIVE, wait=0)
        raises("the other, for a while", rme.Blocked, other.run, "shop", FIVE, wait=0.25)
        same("it waits", (other.stance, other.next_number()), ("waiting", 1))
        same("not settled", worker.cells("shop"), ([5, 0], False))
    same("its receipt", held.receipt, rme.Receipt("shop", 2, 1, 10, 0))
    same("the other goes on with its job", other.run("shop", FIVE), rme.Receipt("shop", 1, 2, 15, 1))
    same("settled", worker.cells("shop"), ([15, 0], True))


def try_bad_scripts(rme, worker):
    raises("no lock", rme.NoLock, worker.run, "mill", FIVE)
    raises("no cell", rme.NoCell, worker.run, "shop", [("get", 2)])
    raises("no cell that C could be told", rme.NoCell, worker.run, "shop", [("get", 2**32)])
    for kind in ("copy", "swap"):
        raises(f"no second cell of a {kind}", rme.NoCell, worker.run, "shop", [(kind, 0, 2**32)])
    for script in BAD_SCRIPTS:
        raises(f"{script}", rme.BadScript, worker.submit, "shop", script)


def try_three_parts(rme, worker):
    """A job by its three calls, and one that is given up."""
    same("three parts", (worker.submit("bank", [("set", 1, 7), ("copy", 1, 0)]), worker.enter()), (3, None))
    raises("inside", rme.NotWaiting, worker.withdraw)
    raises("another job", rme.Differs, worker.run, "bank", FIVE)
    same("commit", worker.commit(), rme.Receipt("bank", 3, 0, 7, 0))
    raises("idle", rme.Idle, worker.commit)
    same("given up", (worker.submit("bank", FIVE), worker.withdraw(), worker.last()), (4, 4, None))
    raises("its number", rme.Withdrawn, worker.run, "bank", FIVE, number=4)


def try_blocks(rme, worker):
    try:
        with worker.inside("bank", FIVE, number=5):
            raise KeyError("its own")
    except KeyError:
        same("a block that raises", (worker.stance, worker.next_number()), ("inside", 5))
    with worker.inside("bank", FIVE) as held:
        same("and is begun again", held.number, 5)
    same("it counts once", held.receipt, rme.Receipt("bank", 5, 1, 12, 0))
    raises("a number that counted", rme.Done, lambda: worker.inside("bank", FIVE, number=5).__enter__())


def try_after_renewal(rme, path):
    shown = rme.look(path)
    same("look", shown.locks[0], rme.LockLook("bank", None, [12, 7], True))
    same("look", (shown.workers, shown.jobs, shown.living), (2, 20, frozenset()))
    rme.renew(path, path + "3")
    raises("renewed", rme.Moved, rme.Worker, path, 0)
    same("the next file", [lock.cells for lock in rme.look(path + "3").locks], [[12, 7], [15, 0]])
    with rme.Worker(path + "3", 0) as worker:
        # One job set the cells of each lock, and one more was given up.
        same("its numbers go on", (worker.next_number(), worker.last()), (4, None))
        for number in (1, 2):
            raises("a number of the renewal's", rme.WrongNumber, worker.run, "bank", FIVE, number=number)
        raises("the one that was given up", rme.Withdrawn, worker.run, "bank", FIVE, number=3)
        same("its own", worker.run("bank", FIVE, number=4).reply, 17)


def blocks_of(path, kind):
    """The blocks of this kind in a document."""
    with open(os.path.join(TOP, path), encoding="utf-8") as file:
        return re.findall(rf"^```{kind}\n(.*?)^```$", file.read(), re.M | re.S)


def try_documents(folder):
    """What the documents show: lines of C that stand in example.c, and Python that is run."""
    with open(os.path.join(C, "example.c"), encoding="utf-8") as file:
        lines = [line.strip() for line in file]
    for page in ("README.md", "docs/processes.md"):
        for block in blocks_of(page, "c"):
            shown = [line.strip() for line in block.splitlines()]
            check(f"the C of {page}", any(lines[at : at + len(shown)] == shown for at in range(len(lines))), block)
    shared()
    for page in ("docs/processes.md", "clients/processes/README.md"):
        for number, block in enumerate(blocks_of(page, "python")):
            path = os.path.join(folder, f"{page.replace('/', '-')}-{number}")
            with python(block.replace("/dev/shm/bank", path)) as ran:
                same(f"the Python of {page}", ran.stdout.read(), "0 5\n1 6\n")


def try_stopped(folder):
    """A call that an exception ends just behind what it did in C, as a signal's handler may: the next one makes its own."""
    rme = shared()
    from rme_shared import worker as module

    path, call = os.path.join(folder, "stopped"), module.call
    rme.create(path, ["bank"], workers=1)

    def stops_behind(name):
        """From now on a call of this name is stopped; of none if it is empty."""

        def stop(at, *words):
            call(at, *words)
            if at == name:
                raise KeyboardInterrupt

        module.call = stop if name else call

    with rme.Worker(path, 0) as worker:
        try_stopped_jobs(rme, worker, stops_behind)
        try_stopped_blocks(worker, stops_behind)
        same("each counted once", (worker.next_number(), worker.cells("bank")), (14, ([36], True)))
    try_stopped_beginnings(rme, path, stops_behind)
    stops_behind("")
    same("no number is kept by what was stopped", rme.living(path), set())


def try_stopped_jobs(rme, worker, stops_behind):
    for number, name in enumerate(("rme_submit", "rme_enter", "rme_commit"), 1):
        stops_behind(name)
        raises(f"stopped behind {name}", KeyboardInterrupt, worker.run, "bank", [("set", 0, number)])
        stops_behind("")
        if name != "rme_commit":
            raises("another script is not made in its place", rme.Differs, worker.run, "bank", [("set", 0, 99)])
            same("the same job goes on", worker.run("bank", [("set", 0, number)]).number, worker.next_number() - 1)
        same("another job is made", worker.run("bank", [("set", 0, 10 * number)]).reply, 10 * number)
    worker.submit("bank", [])
    stops_behind("rme_withdraw")
    raises("stopped behind rme_withdraw", KeyboardInterrupt, worker.withdraw)
    stops_behind("")
    same("and another one behind that", worker.run("bank", [("add", 0, 1)]).reply, 31)
    same("none was made twice", worker.next_number(), 9)


def try_stopped_blocks(worker, stops_behind):
    for name, again in (("rme_submit", True), ("rme_enter", True), ("rme_commit", False)):
        blocks = []
        stops_behind(name)
        raises(f"a block, stopped behind {name}", KeyboardInterrupt, add_in_block, worker, blocks)
        stops_behind("")
        same("the next one has a block too", (add_in_block(worker, blocks), len(blocks)), (again, 2 - again))
    raises("stopped in a block", KeyboardInterrupt, add_in_block, worker, [], KeyboardInterrupt)
    same("it is begun again", add_in_block(worker, []), True)


def add_in_block(worker, blocks, error=None):
    """Adds 1 in a block of its own, which is noted; answers whether the job was pending before."""
    with worker.inside("bank", [("add", 0, 1)]) as held:
        blocks.append(held.number)
        if error:
            raise error
    return held.again


def try_stopped_beginnings(rme, path, stops_behind):
    for name in ("rme_attach", "rme_recover", "rme_shape", "rme_lock_name"):
        stops_behind(name)
        raises(f"a worker that is stopped behind {name}", KeyboardInterrupt, rme.Worker, path, 0)


def try_pending(folder):
    """A job that a killed process left is not counted without its block, nor without the caller's word."""
    rme, path = shared(), os.path.join(folder, "pending")
    rme.create(path, ["bank", "shop"], workers=4)
    for number in (1, 2):
        killed_inside(path)
        with rme.Worker(path, 1) as worker, rme.Worker(path, 0) as other:
            refuses_pending(rme, worker, number, "inside")
            raises("it is inside", rme.NotWaiting, worker.withdraw)
            with worker.inside("bank", [("add", 0, 100)]) as held:
                same("its block is run", (held.again, held.number, worker.owner("bank")), (True, number, 1))
                same("with its own script, in the same section", (held.script, held.section), ([("add", 0, 1)], number - 1))
                raises("nobody comes between", rme.Blocked, other.run, "bank", [], wait=0.02)
            same("then it counts, as it was written down", (held.receipt.number, held.receipt.reply), (number, number))
            other.withdraw()
    with rme.Worker(path, 1) as worker:
        with worker.inside("bank", [("add", 0, 1)]) as held:
            same("a job of its own", (held.again, held.number, held.script), (False, 3, [("add", 0, 1)]))
    try_pending_blocks(rme, path)
    try_pending_waits(rme, path)


def first_version(path):
    """Writes a file of version 1, which has no lives, of two workers and a lock `bank` of one cell: 31 words a worker, and 6."""
    with open("/proc/sys/kernel/random/boot_id", "rb") as file:
        boot = file.read(36) + bytes(4)
    page = b"rmewords" + struct.pack("=2Q", 1, 0x0102030405060708) + boot + struct.pack("=6Q", 2, 1, 1, 10, 68, 0) + b"bank"
    with open(path, "wb") as file:
        file.write(page + bytes(4096 + 8 * 68 - len(page)))


def try_lives(folder):
    """With the section the life is a pair that only rises: each `Worker` of a number has one more than the one before."""
    rme, path, old = shared(), os.path.join(folder, "lives"), os.path.join(folder, "old")
    rme.create(path, ["bank", "shop"], workers=4)
    with rme.Worker(path, 1) as worker:
        with worker.inside("bank", FIVE) as held:
            same("the first life", (held.section, held.life, worker.life), (0, 1, 1))
    killed_inside(path)
    for life in (3, 4):
        with rme.Worker(path, 1) as worker:
            try:
                with worker.inside("bank", []) as held:
                    same("once more, in the same section", (held.again, held.section, held.life), (True, 1, life))
                    raise KeyError
            except KeyError:
                pass
    with rme.Worker(path, 1) as worker, rme.Worker(path, 0) as other:
        worker.finish()
        same("of each worker its own", (worker.life, other.life), (5, 1))
    rme.renew(path, path + "-next")
    with rme.Worker(path + "-next", 1) as worker, rme.Worker(path + "-next", 0) as other:
        same("the next file has them", (worker.life, other.life), (6, 2))
    first_version(old)
    for section in (0, 1):
        with rme.Worker(old, 1) as worker, worker.inside("bank", FIVE) as held:
            same("a file of version 1 has none", (held.section, held.life, worker.life), (section, 0, 0))
        same("its receipt", held.receipt, rme.Receipt("bank", section + 1, section, 5 * section + 5, 1))
    rme.renew(old, old + "-next")
    with rme.Worker(old + "-next", 1) as worker:
        same("the next one has", (worker.life, worker.cells("bank")), (1, ([10], True)))


def killed_inside(path):
    with python(INSIDE, path) as inside:
        inside.stdout.readline()
        inside.kill()


def refuses_pending(rme, worker, number, stance):
    """Each call without a number but that for its block refuses, says what is pending, and leaves it."""
    calls = {
        "run": lambda: worker.run("bank", [("add", 0, 1)]),
        "submit": lambda: worker.submit("bank", [("add", 0, 1)]),
        "inside another lock": lambda: worker.inside("shop", [("add", 0, 1)]).__enter__(),
    }
    for name, call in calls.items():
        error = raises(f"{name}, while one is pending", rme.Pending, call)
        same(f"{name} says which", error and (error.lock, error.number, error.stance), ("bank", number, stance))
        told = [f"{what}()" in str(error) for what in ("finish", "withdraw")]
        same(f"{name} says what to do", told, [True, stance == "waiting"])
        copy = pickle.loads(pickle.dumps(error))
        same("told to another process", (str(copy), copy.lock, copy.code), (str(error), "bank", rme.Busy.code))
    same("it is as it was", (worker.stance, worker.next_number()), (stance, number))


def try_pending_blocks(rme, path):
    """A block that raises, for a job that was left."""
    killed_inside(path)
    with rme.Worker(path, 1) as worker:
        for _ in range(2):
            try:
                with worker.inside("bank", [("add", 0, 5)]) as held:
                    raise KeyError(held.number)
            except KeyError as error:
                same("it is left again", (error.args, held.again, held.receipt), ((4,), True, None))
        refuses_pending(rme, worker, 4, "inside")
        with worker.inside("bank", [("add", 0, 1)], number=4) as held:
            same("by its number it is the caller's own", (held.again, held.number), (True, 4))
        same("it counted", worker.last().number, 4)
        killed_inside_after = worker.next_number()
    killed_inside(path)
    with rme.Worker(path, 1) as worker:
        same("finished", worker.finish().number, killed_inside_after)
        raises("nothing is pending", rme.Idle, worker.finish)
        same("and the next", worker.run("bank", [("add", 0, 1)]).number, killed_inside_after + 1)


def try_pending_waits(rme, path):
    with rme.Worker(path, 0) as owner, owner.inside("bank", []):
        with python(WAITS, path) as waiting:
            waiting.stdout.readline()
            waiting.kill()
        with rme.Worker(path, 3) as worker:
            refuses_pending(rme, worker, 1, "waiting")
            raises("it cannot be finished yet", rme.Blocked, worker.finish, wait=0.02)
            same("it is given up", worker.withdraw(), 1)
            raises("its own job waits", rme.Blocked, worker.run, "bank", [("add", 0, 2)], wait=0)
            raises("and is gone on with", rme.Blocked, worker.run, "bank", [("add", 0, 2)], wait=0)
            same("it is the same", worker.next_number(), 2)
    with rme.Worker(path, 3) as worker:
        same("another object finishes it", worker.finish(wait=1).number, 2)


def try_waits(folder):
    """A time that is no number is refused before a job is written down."""
    rme, path = shared(), os.path.join(folder, "waits")
    rme.create(path, ["bank"], workers=1)
    with rme.Worker(path, 0) as worker:
        calls = {
            "run": lambda wait: worker.run("bank", [("add", 0, 1)], wait=wait),
            "inside": lambda wait: worker.inside("bank", [("add", 0, 1)], wait=wait).__enter__(),
            "enter": lambda wait: worker.enter(wait=wait),
            "finish": lambda wait: worker.finish(wait=wait),
        }
        for name, call in calls.items():
            raises(f"{name} for NaN seconds", ValueError, call, float("nan"))
            for wait in ("1", 1j, [1]):
                raises(f"{name} for {wait!r} seconds", TypeError, call, wait)
            same(f"{name} wrote nothing down", (worker.stance, worker.next_number()), ("ready", 1))
        same("for ever", worker.run("bank", [("add", 0, 1)], wait=float("inf")).reply, 1)


def try_dropped(folder):
    """A worker that nothing refers to gives its number back; a forked child's copy of it does not."""
    rme, path = shared(), os.path.join(folder, "dropped")
    rme.create(path, ["bank"], workers=2)
    worker = rme.Worker(path, 0)
    worker.submit("bank", [("add", 0, 1)])
    del worker
    same("dropped", rme.living(path), set())
    worker = rme.Worker(path, 0)
    same("it stands where it was", worker.stance, "waiting")
    child = os.fork()
    if child == 0:
        del worker
        os._exit(0 if rme.living(path) == {0} else 1)
    same("a forked child drops its copy", os.waitpid(child, 0)[1], 0)
    raises("and the parent has its number still", rme.Taken, rme.Worker, path, 0)
    same("and goes on", worker.finish().reply, 1)
    files = len(os.listdir("/proc/self/fd"))
    for _ in range(100):
        rme.Worker(path, 1)
    same("a hundred leave no open file", len(os.listdir("/proc/self/fd")), files)
    raises("a worker that is not made", rme.NoWorker, rme.Worker, path, 2)
    worker.close()
    same("closed", rme.living(path), set())


def try_files(folder):
    """Who has a worker, and what became of one, also in a file that was renewed."""
    rme, path = shared(), os.path.join(folder, "files")
    rme.create(path, ["bank"], workers=4)
    with python(INSIDE, path) as inside:
        inside.stdout.readline()
        error = raises("taken", rme.Taken, rme.Worker, path, 1)
        same("by which process", (error.process, f"process {inside.pid}" in str(error)), (inside.pid, True))
        same("told to another process", pickle.loads(pickle.dumps(error)).process, inside.pid)
        error = raises("a renewal", rme.Taken, rme.renew, path, path + "1")
        same("which process refuses it", error.process, inside.pid)
        same("who holds", [rme.holder(path, worker) for worker in range(4)], [None, inside.pid, None, None])
        raises("no worker", rme.NoWorker, rme.holder, path, 4)
        inside.kill()
    raises("a job is pending", rme.Busy, rme.outcome, path, 1)
    with rme.Worker(path, 1) as worker:
        worker.finish()
        same("this process", rme.holder(path, 1), os.getpid())
    with rme.Worker(path, 2) as worker:
        worker.submit("bank", [])
        worker.withdraw()
    wanted = [rme.Outcome(0, False, None, None), rme.Outcome(1, True, 0, 1), rme.Outcome(1, False, None, None)]
    same("outcomes", [rme.outcome(path, worker) for worker in range(3)], wanted)
    rme.renew(path, path + "1")
    same("the same of the old file", [rme.outcome(path, worker) for worker in range(3)], wanted)
    same("in the new one they begin anew", rme.outcome(path + "1", 1), wanted[0])
    with open(path + "1", "r+b") as file:
        file.seek(104)
        file.write((0x554E << 48).to_bytes(8, sys.byteorder))
    raises("a renewal that is not over", rme.Unfinished, rme.Worker, path + "1", 1)


INSIDE = """
import sys, time
from rme_shared import Worker
with Worker(sys.argv[1], 1) as worker:
    with worker.inside("bank", [("add", 0, 1)]) as held:
        print(held.number, flush=True)
        time.sleep(60)
"""
# It notes each job in its block, which no number is given for.
BLOCKS = """
import sys
from rme_shared import Worker
with Worker(sys.argv[1], int(sys.argv[2])) as worker, open(f"{sys.argv[1]}-{sys.argv[2]}", "a") as noted:
    print("ready", flush=True)
    while True:
        with worker.inside("bank", [("add", 0, 1)]) as held:
            print(held.number, file=noted, flush=True)
"""
ADDER = """
import sys
from rme_shared import Done, Worker
with Worker(sys.argv[1], int(sys.argv[2])) as worker:
    while worker.next_number() <= int(sys.argv[3]):
        try:
            with worker.inside("bank", [("add", 0, 1)], number=worker.next_number()):
                pass
        except Done:
            pass
"""
# A signal's handler raises at any moment of a job: each that counts had its block, and the worker is given back. The alarm comes
# within a time and a half of what a job takes on this machine.
INTERRUPTED = """
import random, signal, statistics, sys, time
from rme_shared import Worker, living

def interrupt(*_):
    if armed:
        raise KeyboardInterrupt

def job(path):
    global armed
    try:
        armed = True
        signal.setitimer(signal.ITIMER_REAL, random.uniform(0.01, 1.5) * usual)
        with Worker(path, 0) as worker, worker.inside("bank", [("add", 0, 1)]) as held:
            noted.add(held.number)
        armed = False
        return 0
    except KeyboardInterrupt:
        armed = False
        return 1

def seconds():
    began = time.perf_counter()
    job(sys.argv[1])
    return time.perf_counter() - began

armed, noted, interrupts, usual = False, set(), 0, 1000
signal.signal(signal.SIGALRM, interrupt)
usual = statistics.median(seconds() for _ in range(101))
for _ in range(2000):
    interrupts += job(sys.argv[1])
    if living(sys.argv[1]):
        sys.exit("its number is kept")
with Worker(sys.argv[1], 0) as worker:
    with worker.inside("bank", []) as held:
        noted.add(held.number)
    over = worker.next_number() - 1
signal.setitimer(signal.ITIMER_REAL, 0)
print(over, len(noted), interrupts > 200)
"""


def try_signals(folder):
    rme, path = shared(), os.path.join(folder, "signals")
    rme.create(path, ["bank"], workers=1)
    with python(INTERRUPTED, path) as ran:
        over, noted, often = ran.stdout.read().split() or (0, 1, 2)
        same("it was interrupted often", often, "True")
        same(f"each of {over} jobs had its block", noted, over)
        same("it ended by itself", ran.wait(), 0)


WAITS = """
import signal, sys
from rme_shared import Worker
signal.signal(signal.SIGINT, signal.default_int_handler)  # also where what began this ignores it
with Worker(sys.argv[1], 3) as worker:
    print(worker.submit("bank", [("add", 0, 7)]), flush=True)
    worker.enter()
"""
CLOSER = """
import random, signal, sys, threading
from rme_shared import InUse, NotAttached, Worker

def looks():
    try:
        while True:
            try:
                worker.stance
            except InUse:
                pass
    except NotAttached:
        pass

def closes():
    try:
        worker.close()
    except InUse:
        return True

sys.setswitchinterval(1e-6)
signal.signal(signal.SIGALRM, lambda *_: worker.close())
for _ in range(200 if sys.argv[2] == "thread" else 20000):
    worker = Worker(sys.argv[1], 1)
    if sys.argv[2] == "thread":
        threads = [threading.Thread(target=looks) for _ in range(2)]
        for thread in threads:
            thread.start()
        while closes():
            pass
        for thread in threads:
            thread.join()
    else:
        signal.setitimer(signal.ITIMER_REAL, random.uniform(5e-6, 60e-6))
        looks()
"""


def python(program_text, *words):
    command = [sys.executable, "-c", program_text, *map(str, words)]
    return subprocess.Popen(command, stdin=subprocess.DEVNULL, stdout=subprocess.PIPE, stderr=subprocess.DEVNULL, text=True)


def try_killed_pythons(folder):
    """Processes with the package that are killed."""
    rme = shared()
    path = os.path.join(folder, "killed")
    rme.create(path, ["bank"], workers=4)
    with python(INSIDE, path) as inside, rme.Worker(path, 0) as worker:
        same("one is inside", inside.stdout.readline(), "1\n")
        raises("its number is taken", rme.Taken, rme.Worker, path, 1)
        raises("and its lock", rme.Blocked, worker.run, "bank", [("add", 0, 1)], wait=0.05)
        inside.kill()
        inside.wait()
        same("dead, and the owner", (rme.living(path), rme.look(path).locks[0].owner), ({0}, 1))
        raises("the lock is its own", rme.Blocked, worker.run, "bank", [("add", 0, 1)], wait=0.05)
        with rme.Worker(path, 1) as again:
            same("the next process of its number", (again.stance, again.pending().script), ("inside", [("add", 0, 1)]))
            same("finishes", again.run("bank", [("add", 0, 1)], number=1).place, 0)
        same("then the other", worker.run("bank", [("add", 0, 1)]).place, 1)
        waiting = threading.Thread(target=lambda: worker.run("bank", [("add", 0, 1)]))
        with rme.Worker(path, 2) as owner, owner.inside("bank", []):
            waiting.start()
            while worker_is_free(rme, worker):
                time.sleep(0.001)
        waiting.join()
    try_interrupted(rme, path)
    storm_of_pythons(rme, folder)
    storm_of_blocks(rme, folder)


def try_interrupted(rme, path):
    """A signal's handler runs while a call waits, though it waits in C; the job waits still."""
    with rme.Worker(path, 0) as owner, owner.inside("bank", []):
        with python(WAITS, path) as waiting:
            same("one waits", waiting.stdout.readline(), "1\n")
            waiting.send_signal(signal.SIGINT)
            began = time.monotonic()
            same("it is interrupted", waiting.wait(), -signal.SIGINT)
            check("at once", time.monotonic() - began < 5)
    with rme.Worker(path, 3) as worker:
        same("its job waits", (worker.stance, worker.pending()), ("waiting", rme.Job(1, "bank", [("add", 0, 7)])))
        same("and is given up", worker.withdraw(), 1)


def try_closed(folder):
    """A worker that is closed while another thread is in a call: it is refused, or that thread's next call is."""
    rme, path = shared(), os.path.join(folder, "closed")
    rme.create(path, ["bank"], workers=2)
    with rme.Worker(path, 0) as owner, owner.inside("bank", []):
        worker = rme.Worker(path, 1)
        waiting = threading.Thread(target=lambda: raises("it waits", rme.Blocked, worker.run, "bank", [], wait=1))
        waiting.start()
        while worker_is_free(rme, worker):
            time.sleep(0.001)
        raises("closed meanwhile", rme.InUse, worker.close)
        waiting.join()
        same("its job waits still", worker.stance, "waiting")
        worker.close()
        same("closed afterwards", rme.living(path), {0})
    for how in ("thread", "handler"):
        with python(CLOSER, path, how) as closer:
            same(f"closed again and again, by a {how}", closer.wait(), 0)


def worker_is_free(rme, worker):
    """Whether no thread is in a call of this worker; `InUse` if one is."""
    try:
        return bool(worker.stance)
    except rme.InUse:
        return False


def storm_of_blocks(rme, folder, workers=3, kills=40):
    """Processes that give no numbers, killed during their jobs: each job that counted had its block."""
    path, numbers = os.path.join(folder, "blocks"), random.Random(SEED)
    rme.create(path, ["bank"], workers=workers, jobs=1_000_000)
    running = [python(BLOCKS, path, worker) for worker in range(workers)]
    for kill in range(kills + workers):
        worker = kill % workers
        check("one is at work", running[worker].stdout.readline() == "ready\n", quiet=True)
        time.sleep(numbers.uniform(0.002, 0.02))
        running[worker].kill()
        running[worker].wait()
        running[worker].stdout.close()
        if kill < kills:
            running[worker] = python(BLOCKS, path, worker)
    counted = 0
    for worker in range(workers):
        with rme.Worker(path, worker) as at, open(f"{path}-{worker}", encoding="utf-8") as noted:
            over = at.next_number() - 1
            counted += over
            left_out = set(range(1, over + 1)) - {int(line) for line in noted if line.endswith("\n")}
            same(f"worker {worker}: of {over} jobs none counted without its block", sorted(left_out), [])
    same(f"after {kills} kills each job counted once", rme.look(path).locks[0].cells, [counted])


def storm_of_pythons(rme, folder, workers=4, jobs=400, kills=20):
    path, numbers = os.path.join(folder, "storm"), random.Random(SEED)
    rme.create(path, ["bank"], workers=workers, jobs=jobs)
    running = [python(ADDER, path, worker, jobs) for worker in range(workers)]
    made = 0
    for _ in range(kills):
        time.sleep(numbers.uniform(0.02, 0.1))
        worker = numbers.randrange(workers)
        running[worker].kill()
        made += running[worker].wait() == -signal.SIGKILL
        running[worker].stdout.close()
        running[worker] = python(ADDER, path, worker, jobs)
    ends = []
    for ran in running:
        ends.append(ran.wait())
        ran.stdout.close()
    same("all end by themselves", ends, [0] * workers)
    same(f"after {made} kills each job counted once", rme.look(path).locks[0].cells, [workers * jobs])


CALLS = (try_package, try_lives, try_pending, try_waits, try_dropped, try_files, try_stopped, try_signals)


def part():
    if shared_memory():
        tempfile.tempdir = shared_memory()
    if not has(compiler()):
        skip("the package", f"there is no C compiler {compiler()}")
        main()
    else:
        note(f"seed {SEED}")
        main_in_folders(*CALLS, try_documents, try_killed_pythons, try_closed, minutes=4)
