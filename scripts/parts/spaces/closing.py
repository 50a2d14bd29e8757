"""closing: a space without a session is closed after `--close-after`, and opened by the next `use`; restarts of the server; how long
it takes to open a space, and how much memory 1,000 open ones take."""

import os
import shutil
import statistics
import time

from lib import kept
from lib.checks import check, main_in_folders, note, same
from lib.limits import raise_files
from lib.orders import COMMIT, DETACH, LAST, ONE, RESUME, STATUS, attach, job, receipt, stands, text
from lib.servers import line_of
from lib.spaces import DROPPED, PING, PONG, SPACES, USED, drop, listed, made, one_job, path_of, refused, serve, session_in, use

MOST_OPEN = 1000
KIB_EACH = 100 * 1000 / 1024  # of memory for each open space
LINES, MILLISECONDS = 100, 5  # in which a space of this number of lines is opened


def open_files(server, folder):
    """The spaces of this folder whose files a server has open."""
    found, fds = set(), f"/proc/{server.program.pid}/fd"
    for name in os.listdir(fds):
        try:
            path = os.readlink(os.path.join(fds, name))
        except OSError:
            continue
        if path.startswith(os.path.realpath(folder) + "/") and path.endswith(".state"):
            found.add(os.path.basename(path)[: -len(".state")])
    return found


def until(holds, seconds=20):
    """Whether something holds within this number of seconds."""
    latest = time.monotonic() + seconds
    while not holds():
        if time.monotonic() > latest:
            return False
        time.sleep(0.02)
    return True


def try_closed(folder):
    """A space is open while a session uses it, and closed some time after the last one; then it is as it was."""
    server = serve(folder, close_after=1)
    made(server, "a", "b", workers=3)
    keeper = session_in(server, "b", attach(0), job("enter", "bank", 1, ["add", 0, 4]))
    session = session_in(server, "a", attach(0, **{"as": "host7"}), job("submit", "bank", 1, ["add", 0, 5]), job("enter", "bank", 2, *ONE))
    waiter = session_in(server, "a", attach(1))
    waiter.ask(job("enter", "bank", 1, *ONE, tries=1))
    same("both are open", open_files(server, folder), {"a", "b"})
    time.sleep(2.5)
    same("and stay so while they are used", open_files(server, folder), {"a", "b"})
    waiter.close()
    session.close()
    began = time.monotonic()
    check("the one without a session is closed", until(lambda: open_files(server, folder) == {"b"}))
    took = time.monotonic() - began
    check("after a second", 0.7 < took < 10, took)
    session = server.session()
    told = session.ask_all(use("a"), attach(0), COMMIT, LAST)
    made_there = receipt(0, 2, "bank", 1, 6)
    same("it is as it was: the worker inside is still inside", told, [USED, stands("held", 2), text(ok="commit", receipt=made_there), text(last=made_there, ok="last")])
    other = session_in(server, "a")
    told = [other.told(**attach(1)), other.told(**RESUME)]
    same("who waited waits", (told[0].get("stance"), told[1].get("receipt")), ("climb", receipt(1, 1, "bank", 2, 7)))
    same("a number that was answered has the same receipt", session.told(**job("submit", "bank", 2, *ONE)).get("receipt"), made_there)
    enter = session.told(**job("enter", "bank", 3))
    same("lives go on", (enter.get("life"), enter.get("section")), (2, 3))
    same("labels do not", [it.get("as") for it in session.told(**STATUS)["workers"]], [None] * 3)
    same("the other space was open all the time", keeper.told(**COMMIT).get("receipt"), receipt(0, 1, "bank", 0, 4))
    server.kill()


def try_again_and_again(folder):
    """A space that is closed and opened many times, at the moment of its closing too: each job counts once."""
    server, count, wrong = serve(folder, close_after=1), 40, []
    made(server, "a", "b")
    began = time.monotonic()
    for number in range(1, 1 + count):
        told = one_job(server, "a")
        wrong += [(number, told)] * (told != number)
        if number % 8 == 0:
            time.sleep(0.9 + 0.01 * (number // 8) * 5)  # about when it is closed
    note(f"{count} jobs in {time.monotonic() - began:.1f} seconds")
    same("each job counts once", wrong, [])
    server.kill()
    same("a run", kept.faults_of(kept.read(path_of(folder, "a"))), [])


def try_drop_closed(folder):
    """A space that is closed is dropped by its file: if a job is pending in it, it is not."""
    server = serve(folder, close_after=1)
    made(server, "a", "b")
    session_in(server, "a", attach(0), job("enter", "bank", 1, *ONE)).close()
    session_in(server, "b", attach(0), job("submit", "bank", 1, *ONE)).close()
    check("both are closed", until(lambda: not open_files(server, folder)))
    session = server.session()
    same("one with a job, and one without", session.ask_all(drop("a"), drop("b"), SPACES), [refused(9), DROPPED, listed("a")])
    session.ask_all(use("a"), attach(0), COMMIT, DETACH)
    session.close()
    session = server.session()
    check("once that is made", until(lambda: session.ask(drop("a")) == DROPPED))
    kept.kill(server)
    server = serve(folder)
    made(server, "c")
    session_in(server, "c", attach(0), job("enter", "bank", 1, *ONE)).close()
    kept.kill(server)
    server = serve(folder)
    same("after a restart too, where nobody has used it", server.session().ask_all(drop("c"), PING), [refused(9), PONG])
    server.kill()


def try_withdraw(folder):
    """With `--waiting withdraw` a job that waits is withdrawn when its session ends, and when its space is opened."""
    server = serve(folder, waiting="withdraw")
    made(server, "a", workers=3)
    holder = session_in(server, "a", attach(0), job("enter", "bank", 1, *ONE))
    session_in(server, "a", attach(1), job("enter", "bank", 1, *ONE, tries=1)).close()
    looker = session_in(server, "a")
    check("a waiting job of a session that ended", until(lambda: looker.told(**STATUS)["workers"][1]["stance"] == "ready"))
    waiter = session_in(server, "a", attach(2))
    waiter.send(line_of(**job("enter", "bank", 1, *ONE, wait=60_000)))
    check("another one waits", until(lambda: looker.told(**STATUS)["workers"][2]["stance"] == "climb"))
    kept.kill(server)
    holder.close()
    server = serve(folder, waiting="withdraw")
    session = server.session()
    told = session.ask_all(use("a"), attach(2), job("enter", "bank", 1, *ONE, tries=1))
    same("is withdrawn when the space is opened", told, [USED, stands("ready", 1), text(ok="enter", withdrawn=True)])
    server.kill()


def try_restarts(folder):
    """The server is killed and started again: each space is as it was, and is opened when it is used."""
    places = {"port": 0, "socket": os.path.join(folder, "socket")}
    place, names = os.path.join(folder, "spaces"), [f"s{number}" for number in range(6)]
    server = serve(place, **places)
    made(server, *names, workers=2)
    for turn in range(1, 4):
        told = [one_job(server, name, amount=number) for number, name in enumerate(names)]
        same(f"start {turn}: a job in each", told, [turn * number for number in range(len(names))])
        kept.kill(server)
        server = serve(place, **places)
        same(f"start {turn}: no space is open", open_files(server, place), set())
        same(f"start {turn}: all are there", server.session().ask(SPACES), listed(*sorted(names)))
        one_job(server, "s0", amount=0)
        same(f"start {turn}: then the one that is used", open_files(server, place), {"s0"})
        kept.kill(server)
        server = serve(place, **places)
    server.program.terminate()
    same("by SIGTERM too", server.end()[0], -15)
    server = serve(place, **places)
    same("nothing is lost", one_job(server, "s5"), 3 * 5 + 1)
    server.kill()


def try_opened_fast(folder):
    """At the median, a space of 100 lines is opened under 5 milliseconds."""
    server, names = serve(folder), [f"s{number}" for number in range(10)]
    made(server, *names)
    for name in names:
        session = session_in(server, name, attach(0))
        number = 0
        while kept.read(path_of(folder, name)).count(b"\n") < LINES:
            number += 1
            session.ask(job("submit", "bank", number, *ONE))
        session.close()
    kept.kill(server)
    server = serve(folder)
    session, took = server.session(), []
    for name in names:
        began = time.monotonic()
        told = session.ask(use(name))
        took.append(1000 * (time.monotonic() - began))
        check(name, told == USED, told, quiet=True)
    lines = kept.read(path_of(folder, names[0])).count(b"\n")
    note(f"`use` of {lines} lines: {statistics.median(took):.2f} ms, at most {max(took):.2f}")
    check(f"{len(names)} spaces of {lines} lines, at the median within {MILLISECONDS} ms", statistics.median(took) < MILLISECONDS, took)
    server.kill()


def memory_of(server):
    """The memory that a server has now, in KiB."""
    with open(f"/proc/{server.program.pid}/status", encoding="utf-8") as status:
        return next(int(line.split()[1]) for line in status if line.startswith("VmRSS"))


def try_memory(folder):
    """1,000 open spaces take at most 100 KB each, and give it back when they are closed."""
    raise_files(4 * MOST_OPEN)
    server, names = serve(folder, close_after=10), [f"s{number:03}" for number in range(MOST_OPEN)]
    made(server, names[0])
    for name in names[1:]:
        shutil.copy(path_of(folder, names[0]), path_of(folder, name))
    session = server.session()
    before, began = memory_of(server), time.monotonic()
    told = {session.ask(use(name)) for name in names}
    took, opened = time.monotonic() - began, open_files(server, folder)
    each = (memory_of(server) - before) / MOST_OPEN
    same("each is used", told, {USED})
    if took < 9:
        same("all are open at once", len(opened), MOST_OPEN)
        check("at most 100 KB each", each <= KIB_EACH, f"{each:.1f} KiB")
    else:
        check("they are opened in time", False, f"{took:.1f} seconds")
    note(f"{len(opened)} spaces are opened in {took:.2f} seconds, and take {each:.1f} KiB each")
    check("all but the last are closed", until(lambda: open_files(server, folder) == {names[-1]}, 60), len(open_files(server, folder)))
    session.send(b"".join(line_of(**use(name)) for name in names))
    same("and opened again", {session.hear() for _ in names}, {USED + b"\n"})
    again = (memory_of(server) - before) / MOST_OPEN
    check("which takes no more memory than at first", again <= 1.2 * each + 4, (each, again))
    server.kill()


def part():
    main_in_folders(
        try_closed, try_again_and_again, try_drop_closed, try_withdraw, try_restarts, try_opened_fast, try_memory, minutes=12
    )
