"""kept [SEED]: servers that keep their state in a file, by `rme serve --state`, and `rme look`.

A first session by hand, over kills. Look-ups. When lines are written, and what was answered is kept. Workers that wait, and
that are taken. At last storms: clients with numbered jobs whose server is killed again and again; each job counts once.
"""

import json
import os
import random
import re
import signal
import sys
import time

from lib.checks import check, main_in_folders, note, same, skip
from lib.kept import LOCKS, faults_of, kill, look, looked, read, serve, state_words, until_waiting, without_count
from lib.orders import COMMIT, DETACH, LAST, ONE, RESUME, STATUS, WITHDRAW, attach, job, lock_status, receipt, stands
from lib.orders import status_bytes, text, without_seconds, worker_status
from lib.programs import built, ends_with, has_strace, lines_traced
from lib.servers import HOST, Server, line_of
from lib.storms import Storm
from rme_client import Observer, Refused

SEED = int(sys.argv[1]) if len(sys.argv) > 1 else random.randrange(10**6)
KILLS = 20
SIZES = {"workers": 2, "cells": 2, "jobs": 10}
BAD_LINE = b'{"code":1,"error":"BadLine"}'
# What `rme look` prints where worker 0 is inside `shop` and worker 1 waits for it.
TABLES = """\
epoch 0

LOCK  OWNER   CELLS  SETTLED  SECTIONS
bank  nobody  5,9    yes      1
shop  0       0,0    no       0

WORKER  {session}  STANCE  LOCK  NUMBER  BLOCKED BY
0       {up}  held    shop  2       -
1       {up}  climb   shop  1       0
"""
LEFT = "\nworker 0 is down inside lock shop, and keeps 1 waiting: rme ask finish 0\n"


def status(locks, workers):
    return text(epoch=0, locks=locks, ok="status", workers=workers)


# ---- by hand


def try_first(folder):
    """Worker 0 makes a job and is inside with another, behind which worker 1 waits; the server is killed there."""
    path = os.path.join(folder, "first")
    server = serve(path, *LOCKS, **SIZES)
    one, two = server.session(), server.session()
    free = [lock_status(name, [0, 0]) for name in LOCKS]
    same("nothing was done yet", status_bytes(one.ask(STATUS)), status(free, [worker_status(False, "ready", 0)] * 2))
    made = receipt(0, 1, "bank", 0, 9)
    told = one.ask_all(attach(0), job("submit", "bank", 1, ["add", 0, 5], ["set", 1, 9]), LAST)
    same("a job", told, [stands("ready", 0), text(ok="submit", receipt=made), text(last=made, ok="last")])
    told = [one.ask(job("enter", "shop", 2, ["add", 1, 7]))]
    told += two.ask_all(attach(1), job("enter", "shop", 1, *ONE, tries=3))
    wanted = [text(life=1, number=2, ok="enter", section=0, stance="held"), stands("ready", 0), text(ok="enter", waiting=True)]
    same("one is inside and one waits", told, wanted)
    locks = [lock_status("bank", [5, 9], sections=1), lock_status("shop", [0, 0], owner=0, settled=False)]
    begun = []
    for up in (True, False):
        owner, waiter = worker_status(up, "held", 2, lock="shop"), worker_status(up, "climb", 1, blocked_by=0, lock="shop")
        begun.append(status(locks, [owner, waiter]))
    same("what all are at", status_bytes(two.ask(STATUS)), begun[0])
    same("it is in the file, which a server has", ends_with(look(path, "--json")), (0, begun[0] + b"\n", b""))
    same("it is killed", kill(server)[:2], (-signal.SIGKILL, b""))
    same("look, by tables", ends_with(look(path)), (0, TABLES.format(session="SESSION ", up="attached").encode(), b""))
    same("look, whether all can be read", ends_with(look(path, "--check")), (0, b"yes\n", b""))
    go_on(path, server.port, begun[1])


def go_on(path, port, begun):
    """The next servers of the first session, on the same port."""
    server = serve(path, *LOCKS, port=port, **SIZES)
    one, two, three = (server.session() for _ in range(3))
    same("the same words again", server.port, port)
    same("all workers are down", status_bytes(three.ask(STATUS)), begun)
    told = TABLES.format(session="SESSION", up="down   ") + LEFT
    same("look says what is left to finish", ends_with(look(path)), (0, told.encode(), b""))
    same("and so it is in the file", ends_with(look(path, "--json")), (0, begun + b"\n", b""))
    same("who waited waits", two.ask(attach(1)), stands("climb", 1))
    told = two.ask({**RESUME, "tries": 3}), *one.ask_all(attach(0), COMMIT), two.ask(RESUME)
    second, third = receipt(0, 2, "shop", 0, 7), receipt(1, 1, "shop", 1, 1)
    wanted = text(ok="resume", waiting=True), stands("held", 2), text(ok="commit", receipt=second)
    same("the owner is the owner, and then the next", told, (*wanted, text(ok="resume", receipt=third)))
    same("a number again", one.ask(job("enter", "shop", 2)), text(ok="enter", receipt=second))
    one.ask(job("enter", "shop", 3, *ONE))
    two.ask(job("submit", "shop", 2, *ONE, tries=1))
    same("one is given up", two.ask(WITHDRAW), text(number=2, ok="withdraw"))
    one.ask(COMMIT)
    told = kill(server)
    same("killed again, and it said how many lines it read", (told[0], without_count(told[2])), (-signal.SIGKILL, b""))
    server = serve(path, port=0)
    one = server.session()
    told = one.ask_all(attach(0), LAST, job("submit", "bank", 3), job("submit", "bank", 1), job("submit", "bank", 5))
    again = receipt(0, 3, "shop", 2, 2)
    wrong = text(code=16, error="WrongNumber", expected=4)
    wanted = [stands("ready", 3), text(last=again, ok="last"), text(ok="submit", receipt=again), wrong, wrong]
    same("without names: what was answered is answered again", told, wanted)
    one.ask(DETACH)
    told = one.ask_all(attach(1), job("submit", "shop", 2, *ONE), LAST)
    same("what was given up", told, [stands("ready", 2), text(ok="submit", withdrawn=True), text(last=None, ok="last")])
    server.program.terminate()
    ended = server.end()
    same("SIGTERM ends it at once", (*ended[:2], without_count(ended[2])), (-signal.SIGTERM, b"", b""))
    same("the file is a run that the machine has", faults_of(read(path)), [])
    locks = [lock_status("bank", [5, 9], sections=1), lock_status("shop", [2, 7], sections=3)]
    same("and leads to what all jobs did", looked(path)["locks"], locks)


def try_looking_up(folder):
    """Look-ups in each stance, which stays as it was, and malformed lines."""
    server = serve(os.path.join(folder, "lookups"), *LOCKS, workers=3)
    idle, ready, held, climb = (server.session() for _ in range(4))
    held.ask_all(attach(0), job("enter", "bank", 1, *ONE))
    climb.ask_all(attach(1), job("enter", "bank", 1, *ONE, tries=1))
    ready.ask(attach(2))
    looks = [{"do": "owner", "lock": "bank"}, {"do": "owner", "lock": "shop"}, {"do": "cells", "lock": "bank"}]
    wanted = [text(ok="owner", owner=0), text(ok="owner", owner=None), text(cells=[0], ok="cells", settled=False)]
    no_lock = [{"do": do, "lock": "mill"} for do in ("owner", "cells")]
    bad = [{**STATUS, "lock": "bank"}, {"do": "owner"}, {"do": "cells", "lock": 0}, {**looks[0], "worker": 0}]
    bad += [{"do": do} for do in ("history", "report", "save", "Status", "look")]
    for name, session, after in (
        ("none", idle, text(code=19, error="NotAttached")),
        ("ready", ready, text(last=None, ok="last")),
        ("held", held, text(code=9, error="Busy")),
        ("climb", climb, text(code=9, error="Busy")),
    ):
        same(f"{name}: look-ups", session.ask_all(*looks), wanted)
        same(f"{name}: of no lock", session.ask_all(*no_lock), [text(code=11, error="NoLock")] * 2)
        same(f"{name}: malformed lines", session.ask_all(*bad), [BAD_LINE] * len(bad))
        same(f"{name}: as it was", session.ask(LAST), after)
    kill(server)


def try_observer(folder):
    """The look-ups of clients/python."""
    path = os.path.join(folder, "observer")
    server = serve(path, "bank", port=0, socket=path + ".socket")
    session = server.session()
    session.ask_all(attach(7), job("submit", "bank", 1, ["add", 0, 5]), job("enter", "bank", 2))
    for observer in (Observer(HOST, server.port), Observer("", 0, socket_path=server.path)):
        name, told = observer.socket_path and "the socket" or "the port", without_seconds(observer.status())
        same(f"by {name}: a worker with a job", told["workers"][7], worker_status(True, "held", 2, lock="bank"))
        same(f"by {name}: the workers that are there without words", len(told["workers"]), 8)
        same(f"by {name}: a lock", told["locks"], [lock_status("bank", [5], 7, 1, False)])
        same(f"by {name}: its owner", observer.owner("bank"), 7)
        same(f"by {name}: its cells", observer.cells("bank"), {"cells": [5], "settled": False})
    plain = Server(without="connections")
    for name, port, lock, code in (("no such lock", server.port, "x", 11), ("no state", plain.port, "bank", 1)):
        try:
            check(name, False, Observer(HOST, port).cells(lock))
        except Refused as refused:
            same(name, refused.code, code)
    plain.kill()
    kill(server)
    try:
        check("no server", False, Observer(HOST, server.port).status())
    except OSError:
        check("no server", True)


# ---- when it is written


def calls_of(folder, sync):
    """What a server did for three jobs, in order: it wrote, waited for the disk, and answered."""
    path, log = os.path.join(folder, f"calls-{sync}"), os.path.join(folder, f"log-{sync}")
    traced = "trace=write,writev,pwrite64,sendto,sendmsg,fsync,fdatasync"
    # The tracer is not the parent, so that what is killed is the server.
    words = ["-D", "-f", "-s", "300", "-o", log, "-e", traced, built()]
    server = Server(program="strace", words=[*words, *state_words(path, "bank", port=0, sync=sync)])
    session = server.session()
    session.ask_all(attach(0), *(job("submit", "bank", number, *ONE) for number in (1, 2, 3)))
    kill(server)
    synced = rb"sync(\(\d+\)| resumed>\)) *= 0"
    # The lines and their sum line by one call.
    marks = {"written": rb'{\\"do\\":\\"submit.*\\"sum\\":', "synced": synced, "answered": rb'\\"receipt'}
    calls = [name for line in lines_traced(log) for name, mark in marks.items() if re.search(mark, line)]
    return calls[calls.index("written") :] if "written" in calls else calls


def try_sync(folder):
    """What an order did is written before its answer goes out, and with `--sync always` the disk is waited for."""
    if not has_strace():
        skip("when it is written", "there is no strace that may look")
        return
    same("never", calls_of(folder, "never"), ["written", "answered"] * 3)
    same("always", calls_of(folder, "always"), ["written", "synced", "answered"] * 3)


def try_lines_together(folder):
    """A client that sends 400 jobs without waiting, whose server is killed meanwhile: what it was answered is kept."""
    path, numbers, wrong, first = os.path.join(folder, "together"), random.Random(SEED), [], 1
    for turn in range(8):
        server = serve(path, "bank", sync=("always", "never")[turn % 2])
        session = server.session()
        session.ask(attach(0))
        session.send(b"".join(line_of(**job("submit", "bank", number, *ONE)) for number in range(first, first + 400)))
        answers = [session.hear() for _ in range(numbers.randrange(1, 200))]
        server.program.kill()
        try:
            answers += session.lines.readlines()
        except OSError:  # reset
            pass
        kill(server)
        told = [json.loads(line)["receipt"]["number"] for line in answers if line.endswith(b"\n")]
        number, made = looked(path)["workers"][0]["number"], len(told)
        if told != list(range(first, first + made)) or number < first + made - 1:
            wrong.append((first, told[-2:], number))
        session.close()
        server = serve(path)
        session = server.session()
        session.ask(attach(0))
        first = session.told(**job("submit", "bank", number, *ONE))["receipt"]["number"] + 1
        kill(server)
    told = looked(path)["locks"][0]
    check("lines that were sent together, and killed", not wrong, wrong)
    same("each counted once", (told["cells"], told["sections"]), ([first - 1], first - 1))


def try_waiting(folder):
    """An `enter` that waits is answered when the lock is left; one whose server is killed meanwhile waits on."""
    path = os.path.join(folder, "waiting")
    server = serve(path, "bank", workers=2)
    one, two, three = (server.session() for _ in range(3))
    one.ask_all(attach(0), job("enter", "bank", 1, *ONE))
    two.ask(attach(1))
    two.send(line_of(**job("enter", "bank", 1, *ONE, wait=60_000)))
    told = without_seconds(until_waiting(three, 1))["workers"]
    wanted = [worker_status(True, "held", 1, lock="bank"), worker_status(True, "climb", 1, blocked_by=0, lock="bank")]
    same("waiting workers are shown, and for which worker they wait", told, wanted)
    time.sleep(0.3)  # its pauses grow
    began = time.monotonic()
    one.ask(COMMIT)
    same("it has the lock once that is left", two.hear(), b'{"life":1,"number":1,"ok":"enter","section":1,"stance":"held"}\n')
    took = time.monotonic() - began
    check("and at once", took < 1, took)
    one.send(line_of(**job("enter", "bank", 2, *ONE, wait=60_000)))
    before = without_seconds(until_waiting(three, 0))
    kill(server)
    same("what was answered of one that waits is kept", looked(path), before)
    server = serve(path)
    one, two = server.session(), server.session()
    told = [one.ask(attach(0)), two.ask(attach(1))]
    same("after a kill one waits and one is inside", told, [stands("climb", 2), stands("held", 1)])
    began = time.monotonic()
    told = one.told(**job("enter", "bank", 2, *ONE, wait=300))
    took = time.monotonic() - began
    same("nobody gives way", told, {"ok": "enter", "waiting": True})
    check("and it waited that time", 0.3 <= took < 5, took)
    one.send(line_of(**job("submit", "bank", 2, *ONE, wait=60_000)))
    two.ask(COMMIT)
    same("then it is done", json.loads(one.hear()).get("receipt"), receipt(0, 2, "bank", 2, 3))
    kill(server)


def try_taking(folder):
    """A worker is taken from a session that is inside, and from one that waits; the keeper can't be attached."""
    server = serve(os.path.join(folder, "taking"), "bank", workers=2)
    one, two, taker = (server.session() for _ in range(3))
    one.ask_all(attach(0), job("enter", "bank", 1, *ONE))
    two.ask(attach(1))
    two.send(line_of(**job("enter", "bank", 1, *ONE, wait=3_600_000)))
    until_waiting(taker, 1)
    told = [taker.told(**attach(worker, take=take)).get("code") for worker in (2, 3) for take in (False, True)]
    same("the keeper, and workers that are not there", told, [6] * 4)
    same("a worker that another has", taker.told(**attach(0)).get("code"), 18)
    same("it is taken from one that is inside", taker.ask(attach(0, take=True)), stands("held", 1))
    same("whose connection is closed", one.lines.read(), b"")
    taker.ask(DETACH)
    same("and from one that waits", taker.ask(attach(1, take=True)), stands("climb", 1))
    check("whose connection is closed too", two.lines.read() in (b"", b'{"ok":"enter","waiting":true}\n'))
    same("and may be given up", taker.ask(WITHDRAW), text(number=1, ok="withdraw"))
    kill(server)


def try_doors(folder):
    """Sockets, sessions at a time, silence, reasons, and jobs of more than one file."""
    path = os.path.join(folder, "doors")
    where = path + ".socket"
    for _ in range(2):  # the second time the socket that the first left is there
        server = serve(path, "bank", workers=1, jobs=2, socket=where)
        same("only a socket", server.first, f"listening {where}\n".encode())
        kill(server)
    server = serve(path, port=0, socket=where, at_once=2)
    same("a port and a socket", (server.port is not None, server.second), (True, f"listening {where}\n".encode()))
    one, two = server.session(), server.session_at_socket()
    same("they have one worker", [one.told(**attach(0)).get("ok"), two.told(**attach(0)).get("code")], ["attach", 18])
    same("a session more than may be", server.session().hear(), b'{"code":9,"error":"Busy"}\n')
    told = one.ask_all(*(job("submit", "bank", number, *ONE) for number in (1, 2, 3)))
    same("its jobs go on in a new file", json.loads(told[2]).get("receipt"), receipt(0, 3, "bank", 2, 3))
    kill(server)
    server = Server(words=[*state_words(path, port=0, idle=1), "--why"])
    session = server.session()
    told = session.ask_all(attach(0), job("submit", "bank", 5, *ONE), {"do": "none"})
    same("and after a restart", told[1:], [text(code=16, error="WrongNumber", expected=4), BAD_LINE])
    began = time.monotonic()
    same("silence ends a session", session.hear(), b"")
    took = time.monotonic() - began
    check("after a second", 0.8 < took < 10, took)
    _, _, said = kill(server)
    check("a reason for a malformed line", without_count(said).startswith(b"rme: connection "), said)


def worker_in_status(session, worker, is_up):
    """The status of a worker once a session has it, or has it no more; after ten seconds as it is."""
    latest = time.monotonic() + 10
    told = session.told(**STATUS)["workers"][worker]
    while told["attached"] != is_up and time.monotonic() < latest:
        time.sleep(0.01)
        told = session.told(**STATUS)["workers"][worker]
    return told


def try_labels(folder):
    """The label of a worker's last attachment is shown, also once its session is gone, but not by the next server."""
    path, odd = os.path.join(folder, "labels"), 'a"\\\u0007\u00fc'
    server = serve(path, "bank", workers=3)
    one, two, watcher = (server.session() for _ in range(3))
    same("nobody attached", [it.get("as") for it in watcher.told(**STATUS)["workers"]], [None] * 3)
    same("with a label", one.ask(attach(0, **{"as": "host7:cron"})), stands("ready", 0))
    same("one that is refused", watcher.told(**attach(0, **{"as": "host9"})).get("code"), 18)
    same("one of the server's choice", two.told(**{"do": "attach", "any": "ready", "as": odd}).get("worker"), 1)
    answer = watcher.ask(STATUS)
    same("both labels", [it.get("as") for it in json.loads(answer)["workers"]], ["host7:cron", odd, None])
    escaped = b'{"as":"a\\"\\\\\\u0007\xc3\xbc","attached":true,"number":0,"seconds":'
    check("the bytes of the second, escaped", escaped in answer, answer)
    same("it is inside", one.told(**job("enter", "bank", 1, *ONE)).get("stance"), "held")
    one.close()
    left = worker_in_status(watcher, 0, False)
    told = left.get("as"), left.get("lock"), left["stance"]
    same("whose worker is dead", told, ("host7:cron", "bank", "held"))
    next_one = server.session()
    same("an attachment without a label", next_one.ask(attach(0)), stands("held", 1))
    same("removes it", worker_in_status(watcher, 0, True).get("as"), None)
    kill(server)
    server = serve(path)
    same("the next server knows none", [it.get("as") for it in server.session().told(**STATUS)["workers"]], [None] * 3)
    kill(server)


def try_seconds(folder):
    """Since when each worker is at what it is at: since the start, or since it last changed."""
    server = serve(os.path.join(folder, "seconds"), "bank", workers=2)
    one, watcher = server.session(), server.session()
    one.ask(attach(0))
    time.sleep(1.5)
    first, second = (it["seconds"] for it in watcher.told(**STATUS)["workers"])
    check("since the attachment, and since the start", 1 <= first <= second <= first + 5, (first, second))
    one.ask_all(job("submit", "bank", 1, *ONE), LAST)
    third = watcher.told(**STATUS)["workers"][0]["seconds"]
    check("a job that is done in one order is no change", first <= third <= first + 5, (first, third))
    one.ask(job("enter", "bank", 2, *ONE))
    inside = watcher.told(**STATUS)["workers"]
    check("inside since now", (inside[0]["stance"], inside[0]["seconds"]) in (("held", 0), ("held", 1)), inside)
    check("of the other it is since the start", inside[1]["seconds"] >= second, inside)
    time.sleep(1.5)
    one.close()
    left = worker_in_status(watcher, 0, False)
    check("down since now", left["seconds"] in (0, 1), left)
    time.sleep(1.5)
    dead = watcher.told(**STATUS)["workers"][0]["seconds"]
    check("and then for longer", 1 <= dead <= 6, dead)
    kill(server)


# ---- storms


def try_storm(folder):
    for number in (1, 2):
        inner = os.path.join(folder, f"storm-{number}")
        os.mkdir(inner)
        storm = Storm(inner, f"{SEED} {number}")
        wrong = storm.run(KILLS // 2 if number == 2 else KILLS)
        told = f"{storm.kills} kills, {storm.torn} torn lines, {storm.jobs()} jobs, each once"
        check(f"a server that is killed under its clients: {told}", not wrong and storm.jobs() > 200, wrong[:3])


LIVING = (try_sync, try_lines_together, try_waiting, try_taking, try_labels, try_seconds, try_doors, try_storm)


def part():
    note(f"seed {SEED}")
    main_in_folders(try_first, try_looking_up, try_observer, *LIVING, minutes=5)
