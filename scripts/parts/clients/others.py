"""What the package of clients/python does if its own process, thread or session is not the only one.

Sessions that ended while nobody looked, and a worker that others used meanwhile: a job is made under a number of its own, or the
call says that it was overtaken. Exceptions of signal handlers at each line. Forked children, threads, and a child that keeps
the session of a client that is killed. Locks, workers and servers that are not to be had, with a limit to the waiting.
"""

import faulthandler
import logging
import os
import signal
import socket
import subprocess
import sys
import tempfile
import threading
import time

from lib.checks import check, main, same
from lib.clients import CLIENTS, by_another, entered, in_time, inside, job, raised, receipt, serve
from lib.peers import between
from lib.servers import HOST
from lib.storms import free_port

import rme_client
from rme_client import Observer, Worker

PACKAGE = os.path.dirname(rme_client.__file__)


def enter(number, amount, lock="bank"):
    return {"do": "enter", "lock": lock, "number": number, "script": [["add", 0, amount]]}


# ---- sessions that ended


def try_ended():
    """A's session ends while A is idle: for silence, by a take-over, or by a cut. B makes a job, or enters one, and leaves."""
    idle = serve(idle=1)
    ways = {
        "silence": (idle, lambda: time.sleep(1.3)),
        "a take-over": (serve(), lambda: None),
        "a long silence": (serve(), lambda: time.sleep(0.3)),
    }
    for name, (server, way) in ways.items():
        with Worker(HOST, server.port, 0) as worker:
            worker.submit("bank", [["add", 0, 1]])
            way()
            taken = server.session()
            same(f"{name}: B has the worker", taken.told(do="attach", worker=0, take=True)["number"], 1)
            same(f"{name}: and makes a job", taken.told(**job(2, 10))["receipt"]["number"], 2)
            taken.close()
            told = raised(lambda: worker.submit("bank", [["add", 0, 100]]))
            same(f"{name}: a job of A's own", told, receipt(0, 3, 2, 111))
            way()
            by_another_who_takes(server, enter(4, 10), {"do": "commit"})
            told = raised(lambda: entered(worker, 100))
            same(f"{name}: a block of A's own", told, (5, False, receipt(0, 5, 4, 221)))
            by_another_who_takes(server, enter(6, 10))
            told = raised(lambda: worker.submit("bank", [["add", 0, 10]]), "number", "stance")
            same(f"{name}: a job of B's is not A's", told, ("Pending", 6, "held"))
            same(f"{name}: its block is run again", raised(lambda: entered(worker, 10)), (6, True, receipt(0, 6, 5, 231)))
        server.kill()


def by_another_who_takes(server, *orders):
    session = server.session()
    session.told(do="attach", worker=0, take=True)
    for order in orders:
        session.told(**order)
    session.close()


def try_ended_unheard():
    """Something between A and the server does not pass the end of A's session on: the next line finds nobody."""
    server, gone = serve(), []
    peer = between(server, lambda number, order, answer: None if gone and number == 0 and hang() else answer or order)
    with Worker(HOST, peer.port, 0, timeout=1) as worker:
        in_time(lambda: worker.submit("bank", [["add", 0, 1]]))
        time.sleep(0.3)
        gone.append(True)
        by_another_who_takes(server, job(2, 10))
        told = in_time(lambda: raised(lambda: worker.submit("bank", [["add", 0, 100]])))
        same("an end that was not heard of", told, receipt(0, 3, 2, 111))
    peer.close()
    server.kill()


def hang():
    time.sleep(1.5)
    return True


# ---- a worker that others use


def overtaken(call, cut, *orders, ends=False, done=()):
    """The result of a call of A, after jobs that were `done`, if its connection is cut at the first order `cut`, before
    it is sent on or, where `ends` is true, before its answer is passed on; and B has the worker then for these
    orders."""
    server, cuts = serve(locks=["bank", "shop"], workers=2), []

    def passes(_, order, answer):
        if order["do"] != cut or cuts or (answer is None) == ends:
            return answer or order
        cuts.append(order)
        by_another_who_takes(server, *orders)
        return None

    for order in done:
        by_another(server, order)
    peer = between(server, passes)
    with Worker(HOST, peer.port, 0) as worker:
        told = in_time(lambda: raised(lambda: call(worker), "number", "found", "receipt"))
    peer.close()
    server.kill()
    return told


def try_overtaken():
    """A's line is lost, and B makes jobs before A is back."""

    def submit(worker):
        return worker.submit("bank", [["add", 0, 5]])

    def block(worker):
        return entered(worker, 5)

    other, same_job = {**job(1, 7), "lock": "shop"}, job(1, 5)
    same("two jobs", overtaken(submit, "submit", job(1, 1), job(2, 1)), ("Overtaken", 1, 2, None))
    of_shop = receipt(0, 1, 0, 7, "shop")
    same("one of another lock", overtaken(submit, "submit", other), ("Overtaken", 1, 1, of_shop))
    same("one that is entered", overtaken(submit, "submit", enter(1, 1)), ("Overtaken", 1, 1, None))
    same("two, the second pending", overtaken(submit, "submit", job(1, 1), enter(2, 5)), ("Overtaken", 1, 2, None))
    same("none", overtaken(submit, "submit"), receipt(0, 1, 0, 5))
    same("none, after the answer", overtaken(submit, "submit", ends=True), receipt(0, 1, 0, 5))
    same("one after the answer", overtaken(submit, "submit", job(2, 1), ends=True), ("Overtaken", 1, 2, None))
    same("two jobs, and a block", overtaken(block, "enter", job(1, 1), job(2, 1)), ("Overtaken", 1, 2, None))
    made = ("Overtaken", 1, 1, receipt(0, 1, 0, 5))
    same("one of the same lock and script, and a block", overtaken(block, "enter", same_job), made)
    same("none, and a block", overtaken(block, "enter"), (1, False, receipt(0, 1, 0, 5)))
    in_a_block = "Overtaken", 1, None, None  # by the life of the worker, whatever the other did
    same("none, and the end of a block", overtaken(block, "commit"), in_a_block)
    same("one that goes on, and a block", overtaken(block, "commit", {"do": "commit"}), in_a_block)
    same("one more, and a block", overtaken(block, "commit", {"do": "commit"}, job(2, 1)), in_a_block)
    told = overtaken(lambda worker: worker.finish(), "resume", {"do": "resume"}, job(2, 1), done=[enter(1, 5)])
    same("one more, behind one that is finished", told, ("Overtaken", 1, 2, None))
    told = overtaken(lambda worker: worker.submit("bank", [["add", 0, 5]], 1), "submit", job(1, 1), job(2, 1))
    same("a number that was given", told, ("Overtaken", 1, 2, None))


def try_another_lock():
    """The receipt of a number that was given is compared with the line."""
    server = serve(locks=["bank", "shop"])
    by_another(server, {**job(1, 7), "lock": "shop"})
    with Worker(HOST, server.port, 0) as worker:
        told = raised(lambda: worker.submit("bank", [["add", 0, 5]], 1), "number", "receipt")
        same("another lock's job", told, ("Overtaken", 1, receipt(0, 1, 0, 7, "shop")))
        told = raised(lambda: inside(worker, 5, 1), "number", "receipt")
        same("and its block", told, ("Overtaken", 1, receipt(0, 1, 0, 7, "shop")))
        same("the next job", worker.submit("bank", [["add", 0, 5]]), receipt(0, 2, 0, 5))
    server.kill()


# ---- exceptions of signal handlers


def interrupted(call, line):
    """Makes a call in which a `KeyboardInterrupt` comes before this line of the package. Whether it reached that
    line."""
    left = line

    def trace(frame, event, _):
        nonlocal left
        if not frame.f_code.co_filename.startswith(PACKAGE):
            return None
        if event == "line":
            left -= 1
            if left == 0:
                raise KeyboardInterrupt
        return trace

    sys.settrace(trace)
    try:
        call()
    except KeyboardInterrupt:
        pass
    finally:
        sys.settrace(None)
    return left <= 0


def try_interrupted():
    """At each line of `inside` in turn: after it, the next block is run, and each job that counts has had its block run."""
    server = serve(jobs=100_000)
    begun, wrong, line = [], [], 0
    with Worker(HOST, server.port, 0) as worker:

        def block():
            with worker.inside("bank", [["add", 0, 1]]) as held:
                begun.append(held.number)
            return held

        comes = True
        while comes and not wrong:
            line += 1
            comes = interrupted(block, line)
            before = len(begun)
            try:
                held = block()
            except Exception as error:
                wrong.append((line, repr(error)))
                break
            told = held.receipt
            if len(begun) != before + 1 or told != receipt(0, held.number, held.number - 1, held.number):
                wrong.append((line, begun[before:], told))
            if line % 2:  # with a new session, and with one that goes on
                worker.close()
    same("after an interrupt at each line the next block is run", wrong, [])
    same("each job that counted had its block run", sorted(set(begun)), list(range(1, max(begun) + 1)))
    check(f"there were {line} lines", line > 50, line)
    server.kill()


def try_interrupted_submit():
    """At each line of `submit` in turn: what it left is pending, or it counted, or it was never made."""
    server = serve(jobs=100_000)
    wrong, line, comes = [], 0, True
    with Worker(HOST, server.port, 0) as worker:
        while comes and not wrong:
            line += 1
            comes = interrupted(lambda: worker.submit("bank", [["add", 0, 1]]), line)
            try:
                left = worker.next_number()
                told = worker.submit("bank", [["add", 0, 1]])
            except Exception as error:
                wrong.append((line, repr(error)))
                break
            if told != receipt(0, left, left - 1, left):
                wrong.append((line, left, told))
            if line % 2:
                worker.close()
    same("after an interrupt at each line the next job has its own number", wrong, [])
    server.kill()


# ---- children and threads

CALLS = {
    "submit": lambda worker: worker.submit("bank", [["add", 0, 1]]),
    "inside": lambda worker: inside(worker, 1),
    "finish": lambda worker: worker.finish(),
    "withdraw": lambda worker: worker.withdraw(),
    "next_number": lambda worker: worker.next_number(),
    "last": lambda worker: worker.last(),
}


def in_child(call):
    """What a forked child says by its status: whether the call answers true there."""
    child = os.fork()
    if child == 0:
        status = 1
        try:
            signal.alarm(20)
            status = 0 if call() else 3
        finally:
            os._exit(status)
    return os.waitpid(child, 0)[1]  # 0 only if it exited so


def try_forked():
    server = serve()
    with Worker(HOST, server.port, 0) as worker:
        worker.submit("bank", [["add", 0, 1]])
        for name, call in {**CALLS, "fileno": lambda worker: worker.fileno()}.items():
            same(f"{name} in a child", in_child(lambda: raised(lambda: call(worker)) == ("Forked",)), 0)
        same("close in a child", in_child(lambda: worker.close() is None), 0)
        place = worker.fileno()
        same("the parent goes on", worker.submit("bank", [["add", 0, 1]]), receipt(0, 2, 1, 2))
        same("in its session", worker.fileno(), place)

        block = worker.inside("bank", [["add", 0, 1]])
        held = block.__enter__()
        same("close in a block's child", in_child(lambda: raised(worker.close) is None), 0)
        comes_out = in_child(lambda: raised(lambda: block.__exit__(None, None, None)) == ("Forked",))
        same("a child that comes out of the block", comes_out, 0)
        raises = in_child(lambda: raised(lambda: block.__exit__(ValueError, ValueError(), None)) is False)
        same("one whose block raises", raises, 0)
        block.__exit__(None, None, None)
        same("the parent commits", (held.receipt, worker.fileno()), (receipt(0, 3, 2, 3), place))
    server.kill()


def try_threads():
    """While one thread waits for a lock, which B has, another one calls."""
    server = serve()
    holder = server.session()
    holder.attach(1)
    holder.told(**enter(1, 5))
    worker, told = Worker(HOST, server.port, 0), []
    waits = threading.Thread(target=lambda: told.append(raised(lambda: worker.submit("bank", [["add", 0, 1]]))), daemon=True)
    waits.start()
    time.sleep(0.5)
    for name, call in {**CALLS, "close": lambda worker: worker.close()}.items():
        same(f"{name} in another thread", in_time(lambda: raised(lambda: call(worker)), 3), ("InUse",))
    holder.told(do="commit")
    waits.join(10)
    same("the first thread has its receipt", told, [receipt(0, 1, 1, 6)])
    holder.close()
    worker.close()
    server.kill()


def try_threads_and_block():
    """While one thread is in a block, another one calls."""
    server, told = serve(), []
    with Worker(HOST, server.port, 0) as worker:
        with worker.inside("bank", [["add", 0, 5]]) as held:
            for call in [*CALLS.values(), lambda worker: worker.close()]:
                told.append(in_time(lambda: raised(lambda: call(worker)), 3))
        same("calls beside a block", told, [("InUse",)] * 7)
        same("its job counts", held.receipt, receipt(0, 1, 0, 5))
    server.kill()


# A client that is inside, and whose child holds its session.
PARENT = """
import subprocess, sys, time
from rme_client import Worker
worker = Worker("127.0.0.1", int(sys.argv[1]), 0)
with worker.inside("bank", [["add", 0, 5]]) as held:
    fds = [worker.fileno()] if sys.argv[2] == "keeps" else []
    child = subprocess.Popen([sys.executable, "-c", "import sys; sys.stdin.read()"], pass_fds=fds)
    print("inside", flush=True)
    time.sleep(600)
"""


def try_child_keeps():
    """A client is killed inside. Its worker is to be had once its child has ended, if that holds the connection."""
    for way in ("keeps", "does not keep"):
        server = serve()
        parent = subprocess.Popen(
            [sys.executable, "-c", PARENT, str(server.port), way],
            cwd=CLIENTS, stdin=subprocess.PIPE, stdout=subprocess.PIPE, text=True,
        )  # fmt: skip
        same(f"a child that {way} the session is there", parent.stdout.readline(), "inside\n")
        parent.kill()
        parent.wait()
        session = server.session()
        time.sleep(0.5)
        told = session.told(do="attach", worker=0).get("code")
        same(f"a child that {way} the session", told, 18 if way == "keeps" else None)
        if way == "keeps":
            with Worker(HOST, server.port, 0, connect_timeout=0.3) as worker:
                told = raised(lambda: entered(worker, 5), "number")
                same("no block meanwhile", told, ("Unreachable", None))
        parent.stdin.close()  # the child reads it too, and ends
        session.close()
        with Worker(HOST, server.port, 0, connect_timeout=10) as worker:
            same("then it is begun again", raised(lambda: entered(worker, 5)), (1, True, receipt(0, 1, 0, 5)))
        server.kill()
    same("no session", raised(lambda: Worker(HOST, 7000, 0).fileno()), ("ValueError",))


# A client whose work is two writes, of which the first is no good without the second; with a word more it stops between them.
TWO_WRITES = """
import sys, time
from rme_client import Worker
def write(text):
    with open(sys.argv[2], "w") as file:
        file.write(text)
with Worker("127.0.0.1", int(sys.argv[1]), 0) as worker, worker.inside("bank", [["add", 0, 5]]) as held:
    write("half")
    if sys.argv[3:]:
        print("half", flush=True)
        time.sleep(600)
    time.sleep(0.5)
    write("whole")
print(held.number, getattr(held, "again", None))
"""


def try_half_done():
    """A client dies in its block, and the same program is started again, while a worker waits for the lock: it enters behind
    the block."""
    server, seen = serve(), []
    with tempfile.TemporaryDirectory() as folder, Worker(HOST, server.port, 1) as other:
        path = os.path.join(folder, "file")
        words = [sys.executable, "-c", TWO_WRITES, str(server.port), path]
        how = {"cwd": CLIENTS, "stdin": subprocess.DEVNULL, "stdout": subprocess.PIPE, "text": True}
        dies = subprocess.Popen([*words, "stops"], **how)
        same("a client is half done", dies.stdout.readline(), "half\n")

        def look():
            with open(path, encoding="utf-8") as file:
                seen.append(file.read())

        waits = threading.Thread(target=lambda: inside(other, 1, block=look), daemon=True)
        waits.start()
        time.sleep(0.2)
        dies.kill()
        dies.wait()
        again = subprocess.run(words, timeout=30, **how)
        waits.join(10)
        same("the same program, again", again.stdout, "1 True\n")
        same("who waited saw no work that was half done", seen, ["whole"])
    server.kill()


# ---- what is not to be had


def timed(call, *attributes):
    """What a call raises or answers, and after how many seconds."""
    began = time.monotonic()
    told = in_time(lambda: raised(call, *attributes))
    return told, time.monotonic() - began


def lasts(name, told, wanted, least, most):
    same(name, told[0], wanted)
    check(f"{name}, in {told[1]:.1f} seconds", least <= told[1] <= most, told)


def try_blocked():
    """B has the lock."""
    server, script = serve(), [["add", 0, 1]]
    holder = server.session()
    holder.attach(1)
    holder.told(**enter(1, 5))
    with Worker(HOST, server.port, 0) as worker:
        for wait in (float("nan"), -1, -0.001):
            same(f"wait={wait}", raised(lambda: worker.submit("bank", script, wait=wait)), ("ValueError",))
            same(f"inside, wait={wait}", raised(lambda: inside(worker, 1, wait=wait)), ("ValueError",))
        same("nothing was sent", worker.next_number(), 1)
        told = timed(lambda: worker.submit("bank", script, wait=0), "lock", "number")
        lasts("no wait", told, ("Blocked", "bank", 1), 0, 1)
        told = raised(lambda: worker.submit("bank", script, wait=0), "lock", "number")
        same("the same call goes on with the job", told, ("Blocked", "bank", 1))
        told = raised(lambda: worker.submit("bank", [["add", 0, 2]], wait=0), "code")
        same("another job is not taken for it", told, ("Refused", 17))
        worker.close()
        with Worker(HOST, server.port, 0) as another:
            told = raised(lambda: another.submit("bank", script, wait=0), "lock", "number", "stance")
            same("to another object the job is pending", told, ("Pending", "bank", 1, "climb"))
        lasts("a wait", timed(lambda: worker.submit("bank", script, 1, 0.5), "number"), ("Blocked", 1), 0.5, 2)
        lasts("to finish", timed(lambda: worker.finish(0.3), "lock", "number"), ("Blocked", "bank", 1), 0.3, 2)
        ran = []
        told = timed(lambda: inside(worker, 1, block=lambda: ran.append(1), wait=0.3), "number")
        lasts("a block", told, ("Blocked", 1), 0.3, 2)
        same("is not run", ran, [])
        threading.Timer(0.3, lambda: holder.told(do="commit")).start()
        told = timed(lambda: worker.submit("bank", script, 1, wait=20))
        lasts("a lock that is left", told, receipt(0, 1, 1, 6), 0, 5)
    holder.close()
    server.kill()


def try_worker_taken():
    server = serve()
    holder = server.session()
    holder.attach(0)
    with Worker(HOST, server.port, 0, connect_timeout=0.4) as worker:
        told = timed(worker.next_number, "number")
        lasts("a worker that another client has", told, ("Unreachable", None), 0.4, 3)
        reason = raised(worker.next_number, "reason")[1]
        check("which the reason says", "another client has worker 0" in str(reason), reason)
        threading.Timer(0.2, holder.close).start()
        same("once it is let go", raised(worker.next_number), 1)
    server.kill()


def try_full():
    """A server with as many sessions as it may have is waited for."""
    server = serve(at_once=1)
    holder = server.session()
    holder.attach(1)
    told = timed(lambda: Worker(HOST, server.port, 0, connect_timeout=0.5).next_number(), "number")
    lasts("a full server", told, ("Unreachable", None), 0.5, 3)
    threading.Timer(0.5, holder.close).start()
    with Worker(HOST, server.port, 0) as worker:
        lasts("once it has room", timed(lambda: worker.submit("bank", [["add", 0, 5]])), receipt(0, 1, 0, 5), 0.2, 5)
    server.kill()


# Tries a socket as a user who may not connect to it.
OTHER_USER = """
import os, sys
from rme_client import RmeError, Worker
if os.getuid() == 0:
    os.seteuid(65534)
try:
    Worker("", 0, 0, socket_path=sys.argv[1]).next_number()
except RmeError as error:
    print(type(error).__name__, "ermission" in error.reason)
"""


def try_unreachable():
    """At once if another try does not help; after `connect_timeout` else."""
    with tempfile.TemporaryDirectory() as folder:
        plain, path = os.path.join(folder, "plain"), os.path.join(folder, "socket")
        with open(plain, "wb"):
            pass
        paths = {"a file": plain, "a folder": folder, "below a file": plain + "/x", "too long": folder + "/" + "x" * 200}
        for name, wrong in paths.items():
            lasts(name, timed(lambda: Worker("", 0, 0, socket_path=wrong).last(), "number"), ("Unreachable", None), 0, 2)
        lasts("an invalid host", timed(lambda: Worker("no such host", 7000, 0).last()), ("Unreachable",), 0, 5)
        missing = timed(lambda: Worker("", 0, 0, socket_path=path, connect_timeout=0.4).last())
        lasts("no socket yet", missing, ("Unreachable",), 0.4, 2)
        nobody = timed(lambda: Worker(HOST, free_port(), 0, connect_timeout=0.4).last())
        lasts("nobody there", nobody, ("Unreachable",), 0.4, 2)
        for port in (0, -1, 70_000):
            same(f"port {port}", raised(lambda: Worker(HOST, port, 0)), ("ValueError",))
        for words in ({"timeout": 0}, {"timeout": float("nan")}, {"connect_timeout": -1}):
            same(f"{words}", raised(lambda: Worker(HOST, 7000, 0, **words)), ("ValueError",))
        told = raised(lambda: Observer(HOST, free_port()).status())
        same("an observer", told, ("Unreachable",))
        try_permission(folder)


def try_permission(folder):
    path = os.path.join(folder, "closed", "socket")
    os.mkdir(os.path.dirname(path), 0o700)
    server = serve(socket=path)
    if os.getuid() != 0:
        os.chmod(os.path.dirname(path), 0)
    words = [sys.executable, "-c", OTHER_USER, path]
    try:
        ran = subprocess.run(words, cwd=CLIENTS, stdin=subprocess.DEVNULL, capture_output=True, text=True, timeout=20)
        same("a socket without permission", (ran.stdout, ran.stderr), ("Unreachable True\n", ""))
    except subprocess.TimeoutExpired:
        check("a socket without permission", False, "no end")
    os.chmod(os.path.dirname(path), 0o700)
    server.kill()


class Heard(logging.Handler):
    """What a logger tells, by its level."""

    def __init__(self, name):
        super().__init__(logging.INFO)
        self.told = []
        logging.getLogger(name).addHandler(self)
        logging.getLogger(name).setLevel(logging.INFO)

    def emit(self, record):
        self.told.append((record.levelname, record.getMessage()))


def try_logger():
    """What is logged of a connection that breaks, and of a wait for a server."""
    heard, server = Heard("rme_client"), serve()
    with Worker(HOST, server.port, 0, connect_timeout=1.6) as worker:
        with worker.inside("bank", []):
            with socket.socket(fileno=os.dup(worker.fileno())) as connection:
                connection.shutdown(socket.SHUT_RDWR)
        infos = [text for level, text in heard.told if level == "INFO"]
        check("a session, its end, and the next", len(infos) == 3 and "attached, held 1" in infos[2], heard.told)
        server.kill()
        raised(worker.next_number)
    warnings = [text for level, text in heard.told if level == "WARNING"]
    check("a server that is waited for, once in a while", len(warnings) == 1 and str(server.port) in warnings[0], warnings)


SESSIONS = try_ended, try_ended_unheard, try_overtaken, try_another_lock, try_interrupted, try_interrupted_submit
ALONE = try_forked, try_threads, try_threads_and_block, try_child_keeps, try_half_done


def part():
    faulthandler.dump_traceback_later(300, exit=True)  # no end: it shows where each thread is
    main(*SESSIONS, *ALONE, try_blocked, try_worker_taken, try_full, try_unreachable, try_logger)
