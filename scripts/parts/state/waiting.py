"""`rme serve --state --waiting withdraw`: a job that waits for its lock when its session ends is withdrawn, and so is each one
that waits at a start. Without it such a job keeps its place, and may keep other workers out.

With four workers a lock's tree has a node for workers 0 and 1, one for workers 2 and 3, and one above both. A worker that waits
behind the upper node holds its lower one.
"""

import os
import time

from lib.checks import check, main_in_folders, same
from lib.kept import kill, look, read, serve, until_waiting, whole_lines
from lib.orders import ONE, attach, job
from lib.programs import ends_with, run

WITHDRAWN = {"ok": "submit", "withdrawn": True}
WAITING = {"ok": "enter", "waiting": True}


def begin(path, **options):
    """A server of four workers, of which worker 0 is inside the lock."""
    server = serve(path, "bank", workers=4, **options)
    owner = server.session()
    owner.attach(0)
    same("worker 0 is inside", owner.told(**job("enter", "bank", 1, *ONE)).get("stance"), "held")
    return server, owner


def wait_and_leave(server, worker, number=1):
    """Has a worker wait for the lock, ends its session, and waits until the server has noticed."""
    session = server.session()
    session.attach(worker)
    same(f"worker {worker} waits", session.told(**job("enter", "bank", number, *ONE, tries=3)), WAITING)
    session.close()
    return until(server, worker, lambda told: not told["attached"])


def until(server, worker, holds):
    """The status of a worker, once this holds of it; after ten seconds as it is."""
    watcher, latest = server.session(), time.monotonic() + 10
    told = watcher.told(do="status")["workers"][worker]
    while not holds(told) and time.monotonic() < latest:
        time.sleep(0.01)
        told = watcher.told(do="status")["workers"][worker]
    watcher.close()
    return told


def try_session_ends(folder):
    """A client is gone while its job waits: its worker is ready, keeps nobody out, and its number is answered as withdrawn."""
    path = os.path.join(folder, "bank.state")
    server, owner = begin(path, waiting="withdraw")
    left = wait_and_leave(server, 2)
    check("since now", left.pop("seconds") in (0, 1), left)
    same("the worker of a session that ended is ready", left, {"attached": False, "number": 1, "stance": "ready"})
    same("worker 0 commits", owner.told(do="commit").get("ok"), "commit")
    other = server.session()
    other.attach(3)
    made = other.told(**job("submit", "bank", 1, *ONE, tries=3))
    same("the worker beside it is not kept out", made["receipt"]["place"], 1)
    again = server.session()
    same("its number is the last one", again.attach(2), {"number": 1, "ok": "attach", "stance": "ready"})
    same("its job is answered as withdrawn", again.told(**job("submit", "bank", 1, *ONE)), WITHDRAWN)
    same("the next one is done", again.told(**job("submit", "bank", 2, *ONE))["receipt"]["place"], 2)
    kill(server)
    lines = whole_lines(read(path))
    same("the withdrawal is in the file once", sum(b'"do":"withdraw"' in line for line in lines), 1)
    same("the file can be read", ends_with(look(path, "--check")), (0, b"yes\n", b""))
    same("so says `rme run`", ends_with(run(["run"], given=b"".join(lines[1:])))[0], 0)


def try_kept(folder):
    """Without it the job keeps its place, and the worker beside it is kept out of a lock that is free."""
    path = os.path.join(folder, "bank.state")
    for options in ({}, {"waiting": "keep"}):
        server, owner = begin(path, **options)
        same("the job keeps its place", wait_and_leave(server, 2)["stance"], "climb")
        same("worker 0 commits", owner.told(do="commit").get("ok"), "commit")
        other = server.session()
        other.attach(3)
        same("the worker beside it is kept out", other.told(**job("enter", "bank", 1, *ONE, tries=100)), WAITING)
        kill(server)
        os.remove(path)


def try_inside(folder):
    """A worker that is inside when its session ends stays inside: its section is half done."""
    path = os.path.join(folder, "bank.state")
    server, owner = begin(path, waiting="withdraw")
    owner.close()
    same("the worker is inside", until(server, 0, lambda told: not told["attached"])["stance"], "held")
    again = server.session()
    same("and goes on", again.attach(0), {"number": 1, "ok": "attach", "stance": "held"})
    same("its job counts", again.told(do="commit")["receipt"]["place"], 0)
    kill(server)


def try_taken_over(folder):
    """A session that takes over the worker of a waiting one finds it ready."""
    path = os.path.join(folder, "bank.state")
    server, _ = begin(path, waiting="withdraw")
    waiting = server.session()
    waiting.attach(1)
    same("worker 1 waits", waiting.told(**job("enter", "bank", 1, *ONE, tries=3)), WAITING)
    taker = server.session()
    told = taker.told(**attach(1, take=True))
    same("it is taken over, ready", told, {"number": 1, "ok": "attach", "stance": "ready"})
    same("its job is answered as withdrawn", taker.told(**job("submit", "bank", 1, *ONE)), WITHDRAWN)
    kill(server)


def try_start(folder):
    """A server is killed while jobs wait: the next one withdraws them before it serves, and leaves the one inside."""
    path = os.path.join(folder, "bank.state")
    server, _ = begin(path)
    sessions = []
    for worker in (1, 2, 3):
        session = server.session()
        session.attach(worker)
        session.send(b'{"do":"enter","lock":"bank","number":1,"script":[],"wait":60000}\n')
        sessions.append(session)
    watcher = server.session()
    for worker in (1, 2, 3):
        same(f"worker {worker} waits", until_waiting(watcher, worker)["workers"][worker]["stance"], "climb")
    kill(server)
    server = serve(path, waiting="withdraw")
    told = server.session().told(do="status")["workers"]
    same("none waits", [worker["stance"] for worker in told], ["held", "ready", "ready", "ready"])
    kill(server)
    server = serve(path)
    told = server.session().told(do="status")["workers"]
    same("that is in the file", [worker["stance"] for worker in told], ["held", "ready", "ready", "ready"])
    kill(server)
    same("which can be read", ends_with(look(path, "--check")), (0, b"yes\n", b""))


def try_words(folder):
    """Other values, and the option without a state, are refused."""
    path = os.path.join(folder, "bank.state")
    sizes = ["--workers", "2", "--cells", "1", "--jobs", "9", "--port", "0"]
    for words, named in ((["--state", path, "--waiting", "never"], b"--waiting"), ([*sizes, "--waiting", "keep"], b"--state")):
        status, _, told = ends_with(run(["serve", *words, "bank"]))
        same("status 2", status, 2)
        check(f"it names {named.decode()}", named in told, told)
    check("no file is made", not os.path.exists(path))


def part():
    main_in_folders(try_session_ends, try_kept, try_inside, try_taken_over, try_start, try_words, minutes=2)
