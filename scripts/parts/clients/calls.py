"""Runs the package of clients/python against `rme serve`: each call while the worker is ready, waits, is inside, or was
given up by another; a server that comes late; and programs that are killed again and again: a job runner, and several
that write one file in turn.

What a client does if it is not the only one is in the part `others`, what it does with peers that are no good server in
`broken`, and a crowd of clients in `storm`. Runs whose connections are cut at random bytes are made by `try-server sessions`.
"""

import ast
import glob
import json
import os
import random
import signal
import socket
import subprocess
import sys
import tempfile
import threading
import time

from lib import kept
from lib.checks import check, main, same
from lib.clients import CLIENTS, JOBS, by_another, entered, inside, job, keeps_out, leave, raised, receipt, refusal_of, serve
from lib.orders import text
from lib.peers import READY, Peer, answering
from lib.servers import HOST

import guarded_file  # noqa: E402
from rme_client import Overtaken, Worker  # noqa: E402

WRITERS, CHANGES, KILLS = 4, 25, 30

# A writer that is killed before a line of its own or of its client, in the functions that do its work: line, port, file, changes.
KILLED_AT = """
import os, signal, sys
import guarded_file
left = int(sys.argv[1])
def trace(frame, event, _):
    global left
    if event == "line" and frame.f_code.co_name in ("change", "write", "ask", "hand", "_enter", "_commit"):
        left -= 1
        if left == 0:
            os.kill(os.getpid(), signal.SIGKILL)
    return trace
sys.settrace(trace)
guarded_file.run(int(sys.argv[2]), 0, sys.argv[3], int(sys.argv[4]))
"""


def cut_off(worker):
    """Breaks the worker's connection."""
    with socket.socket(fileno=os.dup(worker.fileno())) as connection:
        connection.shutdown(socket.SHUT_RDWR)


def try_python():
    """Each file is Python 3.9."""
    for path in glob.glob(os.path.join(CLIENTS, "**", "*.py"), recursive=True):
        with open(path, encoding="utf-8") as file:
            ast.parse(file.read(), path, feature_version=(3, 9))
    check("the package is Python 3.9", True)


def try_ready():
    server = serve()
    with Worker(HOST, server.port, 0) as worker:
        same("no job yet", (worker.last(), worker.withdraw()), (None, None))
        same("a first job", worker.submit("bank", [["add", 0, 5]]), receipt(0, 1, 0, 5))
        same("its number again", worker.submit("bank", [["add", 0, 5]], 1), receipt(0, 1, 0, 5))
        same("its receipt", (worker.last(), worker.withdraw(), worker.finish()), (receipt(0, 1, 0, 5),) * 3)
        same("no such lock", refusal_of(lambda: worker.submit("shop", [])), {"code": 11, "error": "NoLock"})
        wrong = refusal_of(lambda: worker.submit("bank", [], 3))
        same("a number that is not the next", wrong, {"code": 16, "error": "WrongNumber", "expected": 2})
        same("the next job", worker.submit("bank", [["add", 0, 1]]), receipt(0, 2, 1, 6))
    with Worker(HOST, server.port, 2) as nobody:
        same("no such worker", refusal_of(nobody.last), {"code": 6, "error": "NoWorker"})
        same("nor at the next call", refusal_of(nobody.last), {"code": 6, "error": "NoWorker"})
    server.kill()


def try_waiting():
    """Worker 0 falls inside, so that the job of worker 1 waits."""
    server = serve()
    leave(server, 7)
    leave(server, 7, 1)
    with Worker(HOST, server.port, 1) as worker:
        same("busy", refusal_of(worker.last), {"code": 9, "error": "Busy"})
        same("a job that waits is given up", worker.withdraw(), None)
        same("its number is over", (worker.last(), worker.withdraw()), (None, None))
        gone = refusal_of(lambda: worker.submit("bank", [["add", 0, 5]], 1))
        same("a job that was given up", gone, {"ok": "submit", "withdrawn": True})
        with Worker(HOST, server.port, 0) as inside:
            same("one that is inside is finished", inside.withdraw(), receipt(0, 1, 0, 5))
        same("the next number", worker.submit("bank", [["add", 0, 1]]), receipt(1, 2, 1, 6))
    server.kill()


def try_pending():
    """A job that another client left: `submit` without a number leaves it as it is, and says so."""
    server = serve()
    leave(server, 7)
    with Worker(HOST, server.port, 0) as worker:
        found = raised(lambda: worker.submit("bank", [["add", 0, 1]]), "lock", "number", "stance")
        same("a job that was pending", found, ("Pending", "bank", 1, "held"))
        same("it is pending still", (worker.next_number(), raised(worker.last, "code")), (1, ("Refused", 9)))
        same("its own number", worker.submit("bank", [["add", 0, 5]], 1), receipt(0, 1, 0, 5))
        same("the next", worker.submit("bank", [["add", 0, 1]]), receipt(0, 2, 1, 6))
    leave(server, 7, number=3)
    with Worker(HOST, server.port, 0) as worker:
        found = raised(lambda: worker.submit("bank", [["add", 0, 5]]), "lock", "number", "stance")
        same("the same job was pending", found, ("Pending", "bank", 3, "held"))
        same("it is finished, when that is said", worker.finish(), receipt(0, 3, 2, 11))
    leave(server, 6, number=4)
    with Worker(HOST, server.port, 0) as worker:
        found = raised(lambda: worker.submit("bank", []), "lock", "number", "stance")
        same("a job that waited", found, ("Pending", "bank", 4, "climb"))
        same("it is given up, when that is said", (worker.withdraw(), worker.last(), worker.next_number()), (None, None, 5))
        same("there is nothing to finish", worker.finish(), None)
    server.kill()


def try_second_lock():
    """A worker has one pending job at a time: what a job for a second lock is answered meanwhile, and what then is."""
    server = serve(locks=["bank", "shop"])
    enter = {"do": "enter", "lock": "bank", "number": 1, "script": [["add", 0, 5]]}
    told = by_another(server, enter, {**enter, "lock": "shop", "number": 2}, {**enter, "lock": "shop"})
    wrong, differs = {"code": 16, "error": "WrongNumber", "expected": 1}, {"code": 17, "error": "Differs"}
    same("a second lock, under the next number and under this one", told[1:], [wrong, differs])
    with Worker(HOST, server.port, 0) as worker:
        worker.finish()
        made = worker.submit("shop", [["add", 0, 5]])
        same("once the first is finished", made, receipt(0, 2, 0, 5, "shop"))
    server.kill()


def try_64_bits():
    """Cells and replies are numbers of 64 bits, which are written in digits."""
    server, most = serve(), 2**64 - 1
    with Worker(HOST, server.port, 0) as worker:
        replies = [worker.submit("bank", script)["reply"] for script in ([["set", 0, most]], [["get", 0]], [["add", 0, 2]])]
        same("the largest cell, and what comes behind it", replies, [most, most, 1])
        told = [refusal_of(lambda: worker.submit("bank", [["set", 0, amount]]))["code"] for amount in (2**64, 5.0, -1, True)]
        same("invalid amounts", told, [1, 1, 1, 1])
    server.kill()


def try_late():
    """The server comes when the client waits for it already."""
    with socket.socket() as free:
        free.bind((HOST, 0))
        port = free.getsockname()[1]
    told = []
    worker = Worker(HOST, port, 0)
    waits = threading.Thread(target=lambda: told.append(worker.submit("bank", [["add", 0, 5]])), daemon=True)
    waits.start()
    time.sleep(0.3)
    server = serve(port)
    waits.join(30)
    worker.close()
    same("a server that comes late", told, [receipt(0, 1, 0, 5)])
    server.kill()


# ---- inside


def try_inside():
    server, kept = serve(), []
    with Worker(HOST, server.port, 0) as worker:
        told = inside(worker, 5, block=lambda: kept.append(keeps_out(server, 1)))
        same("a first block", (told, kept), ((1, receipt(0, 1, 0, 5)), [True]))
        same("its number again, without the block", inside(worker, 5, 1, kept.clear), receipt(0, 1, 0, 5))
        same("no block was run", kept, [True])
        same("the next", inside(worker, 1, 2), (2, receipt(0, 2, 1, 6)))
        same("the next number", worker.next_number(), 3)
        same("a job without a block", worker.submit("bank", [["add", 0, 1]]), receipt(0, 3, 2, 7))
        same("no such lock", refusal_of(lambda: worker.inside("shop", []).__enter__()), {"code": 11, "error": "NoLock"})
    server.kill()


def try_inside_and_cut():
    """Whatever becomes of the connection in the block, its lock is kept, and the job counts once."""
    server, kept = serve(), []

    def cut(way):
        way()
        kept.append(keeps_out(server, len(kept) + 1))

    with Worker(HOST, server.port, 0) as worker:
        gone = inside(worker, 5, block=lambda: cut(lambda: cut_off(worker)))
        same("a connection that broke in the block", gone, (1, receipt(0, 1, 0, 5)))
        same("one that was closed in the block", inside(worker, 5, block=lambda: cut(worker.close)), (2, receipt(0, 2, 1, 10)))
        same("the lock was kept", kept, [True, True])
    server.kill()


def life_of(worker, block=lambda: None):
    """The section and the life of a block."""
    with worker.inside("bank", [["add", 0, 5]]) as held:
        block()
    return held.section, held.life


def try_lives():
    """Each attachment is a life more of the worker, also that of a call whose connection broke in its block."""
    server = serve()
    with Worker(HOST, server.port, 0) as worker, Worker(HOST, server.port, 1) as other:
        same("the first", life_of(worker), (0, 1))
        same("in the same session", life_of(worker), (1, 1))
        same("of another worker", life_of(other), (2, 1))
        same("cut in the block", life_of(worker, lambda: cut_off(worker)), (3, 1))
        same("behind it", life_of(worker), (4, 2))
        same("cut twice", life_of(worker, lambda: (cut_off(worker), worker.close())), (5, 2))
        same("behind that", life_of(worker), (6, 3))
        worker.close()
        same("after a close", life_of(worker), (7, 4))
    server.kill()


def try_inside_and_overtaken():
    """A client that was inside, and attaches again after another had the worker, is told so and changes nothing."""
    server, commit = serve(), {"do": "commit"}

    def overtaken(worker, *orders):
        def goes_on():
            worker.close()
            by_another(server, *orders)

        return raised(lambda: inside(worker, 5, block=goes_on), "number", "found", "receipt")

    with Worker(HOST, server.port, 0) as worker:
        same("another left it inside", overtaken(worker), ("Overtaken", 1, None, None))
        same("so it is, for the same job", entered(worker, 5), (1, True, receipt(0, 1, 0, 5)))
        same("another committed", overtaken(worker, commit), ("Overtaken", 2, None, None))
        same("its number tells what became of it", inside(worker, 5, 2), receipt(0, 2, 1, 10))
        same("another made one more", overtaken(worker, commit, job(4, 1)), ("Overtaken", 3, None, None))
        same("that one is the last", worker.last(), receipt(0, 4, 3, 16))
    check("the text says so", "another went on" in str(Overtaken(1, None)))
    server.kill()


def try_inside_of_an_older_server():
    """A server that tells no life, and one that does not know `after`, which is not asked a second time without it."""
    held = b'{"number":1,"ok":"enter","section":0,"stance":"held"}\n'
    done = b'{"ok":"commit","receipt":' + text(**receipt(0, 1, 0, 5)) + b"}\n"
    peer = answering(READY, held, done)
    with Worker(HOST, peer.port, 0) as worker:
        same("no life", life_of(worker), (0, None))
    peer.close()
    bad = b'{"code":1,"error":"BadLine"}\n'

    def serve_one(peer, connection, lines, number):
        for answer in (READY, b'{"life":1,' + held[1:]) if number == 0 else (bad,):
            peer.hear(lines)
            connection.sendall(answer)
        peer.hear(lines)

    peer = Peer(serve_one)
    with Worker(HOST, peer.port, 0) as worker:
        told = raised(lambda: inside(worker, 5, block=lambda: cut_off(worker)), "code")
    same("no `after`", (told, peer.connections), (("Refused", 1), 2))
    peer.close()


def try_inside_and_raised():
    """A block that raises leaves its worker inside; so does one that asks for more."""
    server, kept = serve(locks=["bank", "shop"]), []
    with Worker(HOST, server.port, 0) as worker:
        for number in (1, 2):
            try:
                inside(worker, 5, block=lambda: 1 // 0)
            except ZeroDivisionError:
                kept.append(keeps_out(server, number))
        same("the lock was kept", (kept, worker.next_number()), ([True, True], 1))
        other = raised(lambda: inside(worker, 6, lock="shop"), "lock", "number", "stance")
        same("another job in its place", other, ("Pending", "bank", 1, "held"))
        named = refusal_of(lambda: inside(worker, 6, 1))
        same("the same under its number", named, {"code": 17, "error": "Differs"})
        same("the next attempt has its number", entered(worker, 5), (1, True, receipt(0, 1, 0, 5)))
        for call in (worker.last, worker.withdraw, lambda: worker.submit("bank", []), lambda: inside(worker, 1)):
            try:
                inside(worker, 5, block=call)
            except RuntimeError:
                kept.append(keeps_out(server, len(kept) + 1))
        same("no order in a block", kept, [True] * 6)
        same("nor did one count", entered(worker, 5), (2, True, receipt(0, 2, 1, 10)))
    server.kill()


def try_inside_and_raised_and_finished():
    """A block that raised, whose job and a next one are made by another client, stands in nobody's way."""
    server = serve()
    with Worker(HOST, server.port, 0) as worker:
        raised(lambda: inside(worker, 5, block=lambda: 1 // 0))
        told = by_another(server, {"do": "resume"}, job(2, 5))
        same("another client goes on", [each.get("ok") for each in told], ["resume", "submit"])
        same("the next block is run for the next job", raised(lambda: entered(worker, 5)), (3, False, receipt(0, 3, 2, 15)))
    server.kill()


def try_inside_and_pending():
    """A job that another client left is the one for which the block is run, under its number and without a number."""
    for steps in (6, 7, 20):  # it waits, it is inside, and its section is begun
        server = serve()
        leave(server, steps)
        with Worker(HOST, server.port, 0) as worker:
            same("a pending job's own number", inside(worker, 5, 1), (1, receipt(0, 1, 0, 5)))
        server.kill()
        server, kept = serve(), []
        leave(server, steps)
        with Worker(HOST, server.port, 0) as worker:
            told = inside(worker, 5, block=lambda: kept.append(keeps_out(server, 1)))
            same("without a number", (told, kept), ((1, receipt(0, 1, 0, 5)), [True]))
            same("and then the next", entered(worker, 1), (2, False, receipt(0, 2, 1, 6)))
        server.kill()


def try_inside_and_another_is_pending():
    """A pending job of another lock, or of another script: the block is run for it only if it is inside this lock."""
    with tempfile.TemporaryDirectory() as folder:
        for name, options in (("no state", {}), ("a state", {"state": os.path.join(folder, "state")})):
            server = serve(locks=["bank", "shop"], **options)
            try_another(f"{name}, inside", server, ("Pending", "bank", 1, "held"), 1)
            other = server.session()
            other.attach(1)
            other.told(do="enter", lock="bank", number=1, script=[])
            try_another(f"{name}, waiting", server, ("Pending", "bank", 2, "climb"), None, lambda: other.told(do="commit"))
            server.kill()


def try_another(name, server, wanted, number, way=lambda: None):
    """Worker 0 has a job in `bank`. Another lock, and another script; then it is finished."""
    by_another(server, dict(do="enter", lock="bank", number=wanted[2], script=[["add", 0, 5]], tries=1))
    with Worker(HOST, server.port, 0) as worker:
        told = raised(lambda: inside(worker, 6, lock="shop"), "lock", "number", "stance")
        same(f"{name}: another lock", told, wanted)
        told = raised(lambda: worker.submit("bank", []), "lock", "number", "stance")
        same(f"{name}: no block", told, wanted)
        if number is None:
            told = raised(lambda: inside(worker, 6), "lock", "number", "stance")
            same(f"{name}: another script", told, wanted)
        else:
            same(f"{name}: another script, inside this lock", entered(worker, 6)[:2], (number, True))
        way()
        made = worker.finish()
        same(f"{name}: it counts as it was handed over", (made["number"], made["reply"]), (wanted[2], 5 * wanted[2]))


def withdrawn_meanwhile(work):
    """What a call of worker 1 answers that waits for worker 0 while the server is killed, and started again so that it
    withdraws the jobs that wait."""
    with tempfile.TemporaryDirectory() as folder:
        path = os.path.join(folder, "bank.state")
        server = kept.serve(path, "bank", workers=2)
        port = server.port
        enter = {"do": "enter", "lock": "bank", "number": 1, "script": [["add", 0, 5]]}
        server.session().ask_all({"do": "attach", "worker": 0}, enter)
        told = []
        with Worker(HOST, port, 1) as worker:
            thread = threading.Thread(target=lambda: told.append(work(worker)))
            thread.start()
            kept.until_waiting(server.session(), 1)
            kept.kill(server)
            server = kept.serve(path, port=port, waiting="withdraw")
            owner = server.session()
            owner.ask_all({"do": "attach", "worker": 0}, {"do": "commit"})
            thread.join(30)
        kept.kill(server)
        return told


def try_withdrawn_meanwhile():
    told = withdrawn_meanwhile(lambda worker: worker.submit("bank", [["add", 0, 1]]))
    same("a job that the server gave up is made under the next number", told, [receipt(1, 2, 1, 6)])
    told = withdrawn_meanwhile(lambda worker: refusal_of(lambda: worker.submit("bank", [["add", 0, 1]], 1)))
    same("one whose number the program gave is not", told, [{"ok": "submit", "withdrawn": True}])


def try_inside_and_withdrawn_meanwhile():
    def work(worker):
        with worker.inside("bank", [["add", 0, 1]]) as held:
            pass
        return held.number, held.again, held.section, held.receipt

    told = withdrawn_meanwhile(work)
    same("its block is run under the next number", told, [(2, False, 1, receipt(1, 2, 1, 6))])


def try_inside_and_withdrawn():
    server = serve()
    leave(server, 6)
    with Worker(HOST, server.port, 0) as worker:
        worker.withdraw()
        gone = refusal_of(lambda: inside(worker, 5, 1))
        same("a job that was given up", gone, {"ok": "enter", "withdrawn": True})
    server.kill()


# ---- programs that are killed


def size_of(path):
    return os.path.getsize(path) if os.path.exists(path) else 0


def too_long(*_):
    print("FAIL no end after 5 minutes", flush=True)
    os._exit(1)


def try_killed():
    """A job runner that is killed at any moment and started again, until all its jobs have their receipts."""
    numbers = random.Random(7)
    server = serve()
    with tempfile.TemporaryDirectory() as folder:
        jobs, receipts = os.path.join(folder, "jobs"), os.path.join(folder, "receipts")
        with open(jobs, "w", encoding="utf-8") as file:
            file.writelines(json.dumps([["add", 0, number]]) + "\n" for number in range(1, JOBS + 1))
        kills, ended = 0, None
        while ended is None and kills < 10 * JOBS:
            words = [sys.executable, os.path.join(CLIENTS, "job_runner.py"), str(server.port), "0", jobs, receipts]
            goal = size_of(receipts) + numbers.randrange(1500)  # some twenty receipts more at most
            runner = subprocess.Popen(words, stdin=subprocess.DEVNULL)
            while runner.poll() is None and size_of(receipts) < goal:
                time.sleep(0.0005)
            ended = runner.poll()
            if ended is None:
                runner.send_signal(signal.SIGKILL)
                runner.wait()
                kills += 1
        with open(receipts, "rb") as file:
            told = [json.loads(line) for line in file]
    wanted = [receipt(0, number, number - 1, number * (number + 1) // 2) for number in range(1, JOBS + 1)]
    check(f"each of {JOBS} jobs has its one receipt, in order", (ended, told) == (0, wanted), (ended, told[-3:]))
    check(f"the runner was killed {kills} times", kills > 5, kills)
    server.kill()


def writer(server, worker, path):
    words = [sys.executable, os.path.join(CLIENTS, "guarded_file.py"), str(server.port), str(worker), path, str(CHANGES)]
    return subprocess.Popen(words, stdin=subprocess.DEVNULL)


def kill_some(server, path, numbers):
    """Runs the writers to their ends, and kills one of them, and starts it again, each time that the file has grown by some
    versions, or that one is being written. Answers how often."""
    running = [writer(server, worker, path) for worker in range(WRITERS)]
    kills, goal = 0, 0
    while any(each.poll() is None for each in running) and not any(each.poll() for each in running):
        worker = numbers.randrange(WRITERS)
        grown = size_of(path) >= goal or (numbers.random() < 0.1 and os.path.exists(path + ".next"))
        if kills < KILLS and grown and running[worker].poll() is None:
            running[worker].send_signal(signal.SIGKILL)
            running[worker].wait()
            running[worker] = writer(server, worker, path)
            kills, goal = kills + 1, size_of(path) + numbers.randrange(60)  # some six versions more at most
        time.sleep(0.0005)
    same("each writer ended well", [each.poll() for each in running], [0] * WRITERS)
    for each in running:  # one that ended badly is inside still, and the others wait for it
        each.kill()
        each.wait()
    return kills


def check_versions(server, path, writers, changes):
    """Each version is there once, in order, and was counted; so is each change of each writer."""
    with open(path, encoding="utf-8") as file:
        lines = [[int(word) for word in line.split()] for line in file]
    versions = [version for version, _, _ in lines]
    same("each version was written once, in order", versions, list(range(1, writers * changes + 1)))
    for worker in range(writers):
        own = [number for _, who, number in lines if who == worker]
        same(f"the changes of writer {worker}, once and in order", own, list(range(1, changes + 1)))
    with Worker(HOST, server.port, 0) as worker:
        counted = worker.submit("file", [["get", 0]])
    same("the cell has counted them", (counted["place"], counted["reply"]), (len(lines), len(lines)))


def try_killed_at_each_line():
    """A writer that is killed before each of its lines in turn, and started again; after each time another makes a change."""
    server, count, ended = serve(locks=["file"]), 0, None
    with tempfile.TemporaryDirectory() as folder, Worker(HOST, server.port, 1) as other:
        path = os.path.join(folder, "file")
        while ended != 0:
            count += 1
            words = [sys.executable, "-c", KILLED_AT, *map(str, (count, server.port, path, count))]
            ended = subprocess.run(words, cwd=CLIENTS, stdin=subprocess.DEVNULL, timeout=60).returncode
            if ended not in (0, -signal.SIGKILL):
                return check(f"killed before line {count}", False, ended)
            guarded_file.run(server.port, 0, path, count)
            guarded_file.change(other, path, count)
        check_versions(server, path, 2, count)
    check(f"it was killed before each of {count - 1} lines", count > 20, count)
    server.kill()


def try_written():
    """Writers of one file that are killed at any moment."""
    server = serve(workers=WRITERS, locks=["file"])
    with tempfile.TemporaryDirectory() as folder:
        path = os.path.join(folder, "file")
        kills = kill_some(server, path, random.Random(7))
        check_versions(server, path, WRITERS, CHANGES)
    check(f"the writers were killed {kills} times", kills > 10, kills)
    server.kill()


def try_label():
    """Each session of a worker has its label, which a server with a state shows; one that is too long is refused at once."""
    with tempfile.TemporaryDirectory() as folder:
        server = kept.serve(os.path.join(folder, "labels"), "bank", workers=2)
        watcher = server.session()
        with Worker(HOST, server.port, 0, label="host7:cron") as worker, Worker(HOST, server.port, 1) as other:
            for number in (1, 2):
                same(f"session {number}", (worker.next_number(), other.next_number()), (1, 1))
                told = watcher.told(do="status")["workers"]
                same(f"session {number}: the labels", [it.get("as") for it in told], ["host7:cron", None])
                cut_off(worker)
        server.kill()
    same("32 letters of two bytes", Worker(HOST, 7000, 0, label="\u00fc" * 32).label, "\u00fc" * 32)
    same("33 letters of two bytes", raised(lambda: Worker(HOST, 7000, 0, label="\u00fc" * 33)), ("ValueError",))


INSIDE = (try_inside, try_inside_and_cut, try_lives, try_inside_and_overtaken, try_inside_of_an_older_server)
INSIDE += (try_inside_and_raised, try_inside_and_raised_and_finished)
INSIDE += (try_inside_and_pending, try_inside_and_another_is_pending, try_inside_and_withdrawn)
INSIDE += (try_inside_and_withdrawn_meanwhile,)
KILLED = (try_killed, try_killed_at_each_line, try_written)
PLAIN = try_python, try_ready, try_waiting, try_withdrawn_meanwhile, try_pending, try_second_lock, try_64_bits, try_late
PLAIN += (try_label,)


def part():
    signal.signal(signal.SIGALRM, too_long)
    signal.alarm(300)
    main(*PLAIN, *INSIDE, *KILLED)
