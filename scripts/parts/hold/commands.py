"""Commands that end, fail, are killed and wait: what their environments say, which worker is inside meanwhile, and each
status."""

import os
import signal
import socket
import subprocess
import time

from lib.checks import check, main_in_folders, note, same
from lib.holds import Door, Way, until, ways
from lib.servers import HOST
from lib.storms import free_port

TOLD = 'echo "$RME_LOCK $RME_WORKER $RME_NUMBER $RME_SECTION${RME_AGAIN:+ again}"'
TELLS = ["bank", "--", "sh", "-c", TOLD]
LONG = ["bank", "--", "sh", "-c", "echo inside; exec sleep 60"]


def each_way(folder, checks):
    for name in ways():
        way = Way(name, folder)
        checks(name, way)
        way.end()


def try_runs(folder):
    """Commands that end well: each is one section of the lock."""

    def checks(name, way):
        same(f"{name}: a command", way.hold(*TELLS), (0, "bank 0 1 0\n", ""))
        same(f"{name}: the next one of another worker", way.hold(*TELLS, worker=2), (0, "bank 2 1 1\n", ""))
        same(f"{name}: the next one of the first", way.hold(*TELLS), (0, "bank 0 2 2\n", ""))
        same(f"{name}: another lock", way.hold("shop", *TELLS[1:]), (0, "shop 0 3 0\n", ""))
        same(f"{name}: with a script", way.hold("--script", '[["add",0,5]]', *TELLS), (0, "bank 0 4 3\n", ""))
        same(f"{name}: it has the standard input", way.hold("bank", "--", "cat", input="a line\n"), (0, "a line\n", ""))

    each_way(folder, checks)


def try_lives(folder):
    """Each run is a life more of its worker, even if its command is run again in the same section."""
    tells = ["bank", "--", "sh", "-c", 'echo "$RME_SECTION $RME_LIFE"; exit $0']

    def checks(name, way):
        for status, told in (0, "0 1\n"), (3, "1 2\n"), (4, "1 3\n"), (0, "1 4\n"):
            same(f"{name}: section and life, with status {status}", way.hold(*tells, str(status))[:2], (status, told))
        same(f"{name}: of another worker", way.hold(*tells, "0", worker=2)[:2], (0, "2 1\n"))

    each_way(folder, checks)


def try_failures(folder):
    """A command that fails keeps the lock for its next run, unless it is to be counted."""

    def checks(name, way):
        status, told, why = way.hold("bank", "--", "sh", "-c", f"{TOLD}; exit 3")
        same(f"{name}: its own status", (status, told), (3, "bank 0 1 0\n"))
        check(f"{name}: it is said that the lock is kept", "worker 0 stays inside bank" in why, why)
        same(f"{name}: nobody else comes in", way.hold("-n", *TELLS, worker=1)[:2], (75, ""))
        same(f"{name}: the other lock is free", way.hold("-n", "shop", *TELLS[1:], worker=1)[0], 0)
        status, _, why = way.hold("-n", "shop", *TELLS[1:])
        check(f"{name}: its worker is not free for the other", status == 75 and "pending job" in why, why)
        killed = way.hold("bank", "--", "sh", "-c", f"{TOLD}; kill -9 $$")
        same(f"{name}: it is run again, and killed", killed[:2], (137, "bank 0 1 0 again\n"))
        same(f"{name}: and again", way.hold(*TELLS)[:2], (0, "bank 0 1 0 again\n"))
        same(f"{name}: then the lock is free", way.hold("-n", *TELLS, worker=1)[:2], (0, "bank 1 3 1\n"))
        same(f"{name}: one that counts though it fails", way.hold("--on-failure", "commit", "bank", "--", "false")[0], 1)
        same(f"{name}: the lock is free", way.hold("-n", *TELLS, worker=3)[:2], (0, "bank 3 1 3\n"))

    each_way(folder, checks)


def try_waits(folder):
    """A lock that another has: at once, for a time, until it is free; and what waits no more holds nothing."""

    def checks(name, way):
        first = way.begin(*LONG)
        same(f"{name}: a command is inside", first.stdout.readline(), "inside\n")
        began = time.monotonic()
        same(f"{name}: not at once", way.hold("-n", *TELLS, worker=1)[0], 75)
        same(f"{name}: not in half a second", way.hold("--wait", "0.5", *TELLS, worker=1)[0], 75)
        check(f"{name}: it was waited for", time.monotonic() - began > 0.5)
        same(f"{name}: nor its own worker", way.hold("-n", *TELLS)[0], 75)
        waits = way.begin(*TELLS, worker=1)
        until(lambda: handles(waits.pid, signal.SIGTERM))
        time.sleep(0.5)
        waits.send_signal(signal.SIGTERM)
        same(f"{name}: a signal ends the waiting", waits.wait(20), 143)
        waits = way.begin(*TELLS, worker=2)
        time.sleep(0.3)
        first.send_signal(signal.SIGTERM)
        same(f"{name}: a signal is the command's", first.wait(20), 143)
        same(f"{name}: it is inside still", way.hold("-n", *TELLS, worker=3)[0], 75)
        same(f"{name}: its next run", way.hold(*TELLS)[:2], (0, "bank 0 1 0 again\n"))
        # Worker 1 gave up three jobs, each by a number of its own, and holds nothing that could keep this one out.
        same(f"{name}: the one that waited", (waits.stdout.read(), waits.wait(20)), ("bank 2 1 1\n", 0))

    each_way(folder, checks)


def try_kills(folder):
    """rme-hold is killed, and its command goes on: it has the worker until it ends."""

    def checks(name, way):
        first = way.begin("bank", "--", "sh", "-c", "echo inside; sleep 1.5; echo over")
        same(f"{name}: a command is inside", first.stdout.readline(), "inside\n")
        first.kill()
        first.wait()
        began = time.monotonic()
        same(f"{name}: nobody else comes in", way.hold("-n", *TELLS, worker=1)[0], 75)
        same(f"{name}: the next of its worker waits for it", way.hold(*TELLS)[:2], (0, "bank 0 1 0 again\n"))
        check(f"{name}: as long as it lived", first.stdout.read() == "over\n" and time.monotonic() - began > 0.5)
        first = way.begin("bank", "--", "sh", "-c", "echo $$; sleep 60")
        child = int(first.stdout.readline())
        first.kill()
        first.wait()
        told = way.hold("--kill", "--wait", "20", *TELLS)
        same(f"{name}: or ends it", (told[:2], until(lambda: not is_alive(child))), ((0, "bank 0 2 1 again\n"), True))

    each_way(folder, checks)


def handles(process, number):
    """Whether a process has a handler for this signal."""
    with open(f"/proc/{process}/status", encoding="utf-8") as file:
        masks = dict(line.split(":", 1) for line in file)
    return bool(int(masks["SigCgt"], 16) >> (number - 1) & 1)


def is_alive(process):
    try:
        with open(f"/proc/{process}/stat", encoding="utf-8") as file:
            return file.read().rpartition(")")[2].split()[0] != "Z"
    except OSError:
        return False


def try_any(folder):
    """Whatever worker is free; first of all one with a job of this lock that is not over."""

    def checks(name, way):
        first, second = way.begin(*LONG, worker=None), way.begin("shop", *LONG[1:], worker=None)
        same(f"{name}: two at once", (first.stdout.readline(), second.stdout.readline()), ("inside\n", "inside\n"))
        same(f"{name}: a third for the lock of one", way.hold("-n", *TELLS, worker=None)[0], 75)
        for it in (first, second):
            it.send_signal(signal.SIGTERM)
            it.wait(20)
        told = sorted(way.hold(lock, *TELLS[1:], worker=None)[1] for lock in ("bank", "shop"))
        wanted = ["bank 0 1 0 again\n", "shop 1 1 0 again\n"], ["bank 1 1 0 again\n", "shop 0 1 0 again\n"]
        check(f"{name}: each goes on with its own job", told in wanted, told)
        time.sleep(1)  # the sessions of both have ended, also on a machine with much else to do
        same(f"{name}: then the first that is ready", way.hold(*TELLS, worker=None)[1].split()[1], "0")

    each_way(folder, checks)


def behind_door(name, folder):
    """A way whose server's connections can be broken, and a command that runs until there is a file of this name."""
    way = Way(name, folder)
    way.door = Door(way.server.port)
    path = os.path.join(folder, f"{name}.over")
    first = way.begin("bank", "--", "sh", "-c", f"echo $$; until [ -e {path} ]; do sleep 0.02; done; echo over", stderr=subprocess.PIPE)
    return way, first, int(first.stdout.readline()), path


def is_cut(way):
    """Whether the broken connection was made again."""
    before = len(way.door.open)
    way.door.cut()
    return before > 0 and until(lambda: len(way.door.open) >= 2)


def try_cut(folder):
    """The connection breaks while a command runs, and comes back: the command goes on, and keeps its worker."""
    for name in ("plain", "state"):
        way, first, child, path = behind_door(name, folder)
        for turn in range(3):
            check(f"{name}: cut {turn + 1} times", is_cut(way))
            time.sleep(0.3)  # it is attached again
            same(f"{name}: nobody else comes in", way.hold("-n", *TELLS, worker=1)[0], 75)
            same(f"{name}: nor its own worker", way.hold("-n", *TELLS)[0], 75)
        check(f"{name}: the command goes on", is_alive(child))
        end(path)
        same(f"{name}: it ends well", (first.wait(20), first.stdout.read(), first.stderr.read()), (0, "over\n", ""))
        same(f"{name}: it counted once", way.hold(*TELLS, worker=1)[:2], (0, "bank 1 4 1\n"))  # three were given up
        way.end()


def end(path):
    """Has the command of `behind_door` end."""
    with open(path, "x", encoding="utf-8"):
        pass


def try_cut_and_killed(folder):
    """The connection that came in the place of one that broke lasts as long as the command too."""
    for name in ("plain", "state"):
        way, first, child, path = behind_door(name, folder)
        check(f"{name}: cut", is_cut(way))
        time.sleep(0.3)
        first.kill()
        first.wait()
        same(f"{name}: rme-hold is killed, and its command has the worker", way.hold("-n", *TELLS)[0], 75)
        check(f"{name}: it goes on", is_alive(child))
        end(path)
        same(f"{name}: the next one", way.hold(*TELLS)[:2], (0, "bank 0 1 0 again\n"))
        os.remove(path)
        first = way.begin("bank", "--", "sh", "-c", "echo $$; sleep 60")
        child = int(first.stdout.readline())
        check(f"{name}: cut once more", is_cut(way))
        time.sleep(0.3)
        first.kill()
        first.wait()
        way.door.cut()
        check(f"{name}: with nobody to make it again its end is that of the command", until(lambda: not is_alive(child)))
        way.end()


def try_overtaken(folder):
    """Another client has the worker before the connection is made again: the command is ended, and what is pending stays."""
    for name in ("plain", "state"):
        way, first, child, _ = behind_door(name, folder)
        way.door.is_shut = True
        way.door.cut()
        check(f"{name}: it tries", until(lambda: way.door.refused > 1))
        session = way.server.session()
        check(f"{name}: another attaches it", until(lambda: "code" not in session.told(do="attach", worker=0)))
        session.hang_up()
        way.door.is_shut = False
        same(f"{name}: it is ended", (first.wait(20), until(lambda: not is_alive(child))), (75, True))
        told = first.stderr.read()
        check(f"{name}: it is said", "another client went on with worker 0" in told, told)
        same(f"{name}: its job is pending", way.hold(*TELLS)[:2], (0, "bank 0 1 0 again\n"))
        way.end()


def try_started_again(folder):
    """The server is killed while a command runs, and started again: the command goes on if there is a state."""
    for name in ("plain", "state"):
        way = Way(name, folder)
        first = way.begin("bank", "--", "sh", "-c", "echo $$; sleep 3; echo over")
        child = int(first.stdout.readline())
        port = way.server.port
        way.server.program.kill()
        way.server.program.wait()
        way.start(port)
        told = first.wait(20), first.stdout.read()
        same(f"{name}: a server that is started again", told, (0, "over\n") if name == "state" else (75, ""))
        check(f"{name}: the command is over", until(lambda: not is_alive(child)))
        same(f"{name}: it counted, or was lost", way.hold(*TELLS)[:2], (0, f"bank 0 {(2, 1)[name == 'plain']} {(1, 0)[name == 'plain']}\n"))
        way.end()


def try_broken(folder):
    """The server ends while a command runs, and does not come back: the command is ended too. The next one goes on with its
    job, if there is a state."""
    for name in ("plain", "state"):
        way = Way(name, folder)
        first = way.begin("bank", "--", "sh", "-c", "echo $$; sleep 60")
        child = int(first.stdout.readline())
        port = way.server.port
        way.server.program.kill()
        began = time.monotonic()
        same(f"{name}: the server ends", (first.wait(30), until(lambda: not is_alive(child))), (75, True))
        check(f"{name}: it was waited for", time.monotonic() - began > 9)
        same(f"{name}: no server", way.hold("-n", *TELLS)[0], 69)
        way.start(port)
        wanted = "bank 0 1 0 again\n" if name == "state" else "bank 0 1 0\n"
        same(f"{name}: the next server", way.hold(*TELLS)[:2], (0, wanted))
        way.end()


def try_several(folder):
    """Several servers: each that is not there, or that answers nothing, is passed over, also when the connection is made again."""
    way, dead = Way("state", folder), free_port()
    with socket.create_server((HOST, 0)) as silent:
        rows = {
            "the second one is there": [dead, way.server.port],
            "the first one is there": [way.server.port, dead],
            "one that answers nothing": [silent.getsockname()[1], way.server.port],
        }
        for number, (name, way.ports) in enumerate(rows.items()):
            same(name, way.hold(*TELLS), (0, f"bank 0 {number + 1} {number}\n", ""))
    way.ports = [dead, free_port()]
    same("none is there", way.hold("-n", *TELLS)[0], 69)
    way.ports = [way.server.port, dead]
    first = way.begin("bank", "--", "sh", "-c", "echo inside; sleep 3; echo over", stderr=subprocess.PIPE)
    same("a command is inside", first.stdout.readline(), "inside\n")
    way.server.program.kill()
    way.server.program.wait()
    way.start(dead)
    same("it goes on at the next server", (first.wait(20), first.stdout.read(), first.stderr.read()), (0, "over\n", ""))
    same("it counted once", way.hold(*TELLS), (0, "bank 0 5 4\n", ""))
    way.end()


def try_wrong(folder):
    """Words that are wrong, and what is not there."""
    way = Way("state", folder)
    rows = {
        "no command": ["bank"],
        "no command behind the dashes": ["bank", "--"],
        "no lock": ["--", "true"],
        "an unknown option": ["--loud", *TELLS],
        "half an option": ["--scr", "[]", *TELLS],
        "an invalid wait": ["--wait", "long", *TELLS],
        "an invalid script": ["--script", "{}", *TELLS],
        "a script of no operations": ["--script", '[["mul",0,1]]', *TELLS],
        "no such lock": ["yard", "--", "true"],
        "two ways to wait": ["-n", "--wait", "1", *TELLS],
    }
    for name, words in rows.items():
        status, told, why = way.hold(*words)
        check(name, (status, told) == (64, "") and why, (status, told, why))
    same("no such worker", way.hold(*TELLS, worker=9)[0], 64)
    same("an invalid worker", way.hold(*TELLS, worker="x")[0], 64)
    same("any worker is no one's to be ended", way.hold("--kill", *TELLS, worker=None)[0], 64)
    same("no such program", way.hold("bank", "--", "no-such-program")[0], 127)
    same("nothing of this was a job", way.hold(*TELLS)[:2], (0, "bank 0 1 0\n"))
    status, told, _ = way.hold("--help")
    check("help", status == 0 and "RME_SECTION" in told and "75 try again later" in told, told)
    way.end()
    with socket.socket() as other:
        other.bind(("127.0.0.1", 0))
        other.listen()
        way.server.port = other.getsockname()[1]
        other.close()
    same("nobody listens", way.hold("-n", *TELLS)[0], 69)
    way.name, way.path = "file", os.path.join(folder, "no-such-file")
    if "file" in ways():
        same("no such file", way.hold("-n", *TELLS)[0], 69)
    else:
        note("no C compiler: files are left out")


WHOLE = try_runs, try_lives, try_failures, try_waits, try_kills, try_any, try_wrong
BROKEN = try_cut, try_cut_and_killed, try_overtaken, try_started_again, try_broken, try_several


def part():
    main_in_folders(*WHOLE, *BROKEN, minutes=8)
