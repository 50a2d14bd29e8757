"""renewal [SEED]: servers that renew the file of their state, by `--jobs` and by `--sections`.

Rows by hand: one worker whose numbers, places and receipts go on, a number that was given up, workers in each stance,
all cells of a lock, and how often each worker was restarted. What the file says: its size, its header with each byte
changed, its mode and owner, and what a server does that can't renew it. When it is replaced, and by which server: two
servers on one file. At last storms: clients with numbered jobs whose server renews its file all the time and is killed
again and again.
"""

import json
import os
import random
import re
import signal
import stat
import subprocess
import sys
import threading
import time

from lib.checks import check, main_in_folders, note, same, skip
from lib.damage import changes_of, is_verdict, verdicts_on
from lib.kept import epoch_of, faults_of, header_of, kill, lives_of, look, looked, read, serve, state_words, status_in
from lib.kept import whole_lines, written
from lib.orders import COMMIT, DETACH, LAST, ONE, RESUME, STATUS, WITHDRAW
from lib.orders import attach, job, lock_status, receipt, stands, status_bytes, text, worker_status
from lib.programs import built, ends_with, has_strace, lines_traced, run
from lib.servers import Server, line_of
from lib.storms import Storm
from lib.sums import first_version, mended, writes_of

SEED = int(sys.argv[1]) if len(sys.argv) > 1 else random.randrange(10**6)
KILLS = 25
EPOCHS = 50
TOO_MANY = b'{"code":14,"error":"TooManyJobs"}'


def wrong_number(expected):
    return text(code=16, error="WrongNumber", expected=expected)


class Busy:
    """A client with numbered jobs, each of which adds 1 to the first cell of a lock."""

    def __init__(self, server, worker, lock, made=0):
        self.session, self.worker, self.lock = server.session(), worker, lock
        self.number = self.session.attach(worker)["number"]
        self.made = made  # the number of the lock's sections

    def order(self, number):
        return job("submit", self.lock, number, *ONE)

    def make(self):
        """Makes one more job, and answers what is wrong with its receipt."""
        self.number, self.made = self.number + 1, self.made + 1
        wanted = text(ok="submit", receipt=receipt(self.worker, self.number, self.lock, self.made - 1, self.made))
        told = self.session.ask(self.order(self.number))
        return [] if told == wanted else [(told, wanted)]

    def renew(self, path, times=1):
        """Makes jobs until the file was renewed this number of times, and answers what is wrong."""
        goal, wrong = epoch_of(read(path)) + times, []
        for _ in range(10_000):
            if epoch_of(read(path)) >= goal or wrong:
                break
            wrong = self.make()
        return wrong + [("it is not renewed", epoch_of(read(path)))] * (epoch_of(read(path)) < goal)


def is_run(name, path):
    """The lines of the file are a run of the machine, and what they lead to is what look says."""
    held = read(path)
    same(f"{name}: the file is a run that the machine has", faults_of(held), [])
    same(f"{name}: look, beside `rme run`", looked(written(f"{path}.then", held)), status_in(held))
    same(f"{name}: all can be read", ends_with(look(path, "--check")), (0, b"yes\n", b""))


# ---- by hand


def try_one_worker(folder):
    """One worker with three jobs a file makes ten, and another waits with one."""
    path = os.path.join(folder, "state")
    server = serve(path, "bank", "shop", workers=2, jobs=3, sections=1000)
    idle, busy = server.session(), Busy(server, 0, "bank")
    first = receipt(1, 1, "shop", 0, 5)
    told = idle.ask_all(attach(1), job("submit", "shop", 1, ["add", 0, 5]))
    same("the other's only job", told, [stands("ready", 0), text(ok="submit", receipt=first)])
    wrong, epochs = [], []
    for number in range(1, 11):
        wrong += busy.make()
        last = receipt(0, number, "bank", number - 1, number)
        told = busy.session.ask_all(LAST, *map(busy.order, (number, number - 1, number + 2, number + 1000)))
        wanted = [text(last=last, ok="last"), text(ok="submit", receipt=last), *[wrong_number(number + 1)] * 3]
        wrong += [(number, told, wanted)] * (told != wanted)
        told = idle.ask_all(LAST, *(job("submit", "shop", number, *ONE) for number in (1, 3, 0)))
        wanted = [text(last=first, ok="last"), text(ok="submit", receipt=first), wrong_number(2), wrong_number(2)]
        wrong += [(number, told, wanted)] * (told != wanted)
        epochs.append(idle.told(**STATUS)["epoch"])
        wrong += [(number, epochs[-1], looked(path))] * (looked(path)["epoch"] != epochs[-1])
        wrong += faults_of(read(path))
    check("numbers, places and receipts go on, and the other's stay", not wrong, wrong[:3])
    may_be = [((number - 1) // 3, number // 3) for number in range(1, 11)]
    check("a new epoch for each three jobs", all(it in ends for it, ends in zip(epochs, may_be)), epochs)
    locks = [lock_status("bank", [10], sections=10), lock_status("shop", [5], sections=1)]
    workers = [worker_status(True, "ready", 10), worker_status(True, "ready", 1)]
    same("what all is at", status_bytes(idle.ask(STATUS)), text(epoch=epochs[-1], locks=locks, ok="status", workers=workers))
    header = header_of(read(path))
    told = header["epoch"], header["numbers"][1], header["last"][1]
    same("what the header says of the other", told, (epochs[-1], 1, first))
    is_run("one worker", path)
    kill(server)
    one_worker_after_a_kill(path, busy, first)


def one_worker_after_a_kill(path, busy, first):
    server = serve(path)
    one, two = server.session(), server.session()
    told = one.ask_all(attach(0), LAST, busy.order(10), busy.order(12), busy.order(11))
    last, after = receipt(0, 10, "bank", 9, 10), receipt(0, 11, "bank", 10, 11)
    wanted = [text(last=last, ok="last"), text(ok="submit", receipt=last), wrong_number(11)]
    same("after a kill", told, [stands("ready", 10), *wanted, text(ok="submit", receipt=after)])
    told = two.ask_all(attach(1), LAST, job("submit", "shop", 2, *ONE))
    wanted = [stands("ready", 1), text(last=first, ok="last"), text(ok="submit", receipt=receipt(1, 2, "shop", 1, 6))]
    same("and of the other", told, wanted)
    kill(server)


def try_withdrawn(folder):
    """What was given up stays given up: as a worker's only number, and behind a job."""
    path = os.path.join(folder, "state")
    server = serve(path, "bank", "shop", workers=4, jobs=100, sections=4)
    owner, one, two = (server.session() for _ in range(3))
    two.ask_all(attach(2), job("submit", "bank", 1, *ONE))
    owner.ask_all(attach(0), job("enter", "bank", 1, *ONE))
    for session, worker, number in ((one, 1, 1), (two, 2, 2)):
        session.ask_all(attach(worker), job("submit", "bank", number, *ONE, tries=1))
        same(f"worker {worker} gives its number up", session.ask(WITHDRAW), text(number=number, ok="withdraw"))
    owner.ask(COMMIT)
    busy = Busy(server, 3, "shop")
    wanted = {}
    for turn in ("before", "after one renewal", "after three", "after a kill", "and one more"):
        for session, worker, number in ((one, 1, 1), (two, 2, 2)):
            again = (job("submit", "bank", it, *ONE) for it in (number, number - 1, number + 2))
            told = session.ask_all(LAST, *again, DETACH, attach(worker))
            given_up, stood = text(ok="submit", withdrawn=True), stands("ready", number)
            is_right = told[1] == given_up and told[2:4] == [wrong_number(number + 1)] * 2 and told[5] == stood
            check(f"what worker {worker} gave up, {turn}", is_right, told)
            same(f"and its last, {turn}", told[0], wanted.setdefault(worker, told[0]))
        if turn == "after three":
            kill(server)
            server = serve(path, sections=3)
            one, two = server.session(), server.session()
            told = [one.ask(attach(1)), two.ask(attach(2))]
            same("they are attached again", told, [stands("ready", 1), stands("ready", 2)])
            busy = Busy(server, 3, "shop", busy.made)
        else:
            same("it is renewed", busy.renew(path, 2 if turn == "after one renewal" else 1), [])
    last = header_of(read(path))["last"]
    same("what the header says", last[1:3], [{"withdrawn": True}] * 2)
    told = one.ask(job("submit", "bank", 2, *ONE)), two.ask(job("submit", "bank", 3, *ONE))
    wanted = [receipt(1, 2, "bank", 2, 3), receipt(2, 3, "bank", 3, 4)]
    same("their next jobs", [json.loads(answer).get("receipt") for answer in told], wanted)
    is_run("numbers that were given up", path)
    kill(server)


def fall_behind(server, worker, lock):
    """Has a worker fall on its way out of a lock, with a finished job, and answers its number."""
    for steps in range(6, 80):
        session = server.session()
        number = session.attach(worker)["number"] + 1
        session.ask({"do": "crash_after", "steps": steps})
        fell = "fell" in session.told(**job("submit", lock, number, *ONE))
        if fell and sections_of(session, lock) == number:
            session.close()
            return number
        if fell:
            session.ask_all(attach(worker), {**RESUME, "wait": 10_000})
        session.ask(DETACH)
        session.close()
    raise RuntimeError("it does not fall on its way out")


def sections_of(session, lock):
    return next(row["sections"] for row in session.told(**STATUS)["locks"] if row["name"] == lock)


class Stances:
    """A server with a worker in each stance, and one that is busy."""

    LOCKS = ("bank", "mill", "yard", "shop")

    def __init__(self, folder, name):
        self.path = os.path.join(folder, name)
        self.server = serve(self.path, *self.LOCKS, workers=8, cells=2, jobs=100, sections=5)
        self.sessions = {worker: self.server.session() for worker in (1, 2, 3, 5, 6)}
        ask = {worker: session.ask_all for worker, session in self.sessions.items()}
        ask[1](attach(1), job("submit", "bank", 1, ["add", 0, 4], ["set", 1, 2**64 - 1]), job("enter", "bank", 2, *ONE))
        ask[2](attach(2))
        self.sessions[2].send(line_of(**job("enter", "bank", 1, *ONE, wait=3_600_000)))
        ask[3](attach(3), job("enter", "mill", 1, *ONE))
        ask[5](attach(5), job("submit", "bank", 1, *ONE, tries=1))
        ask[6](attach(6), {"do": "crash_after", "steps": 2})
        for worker in (3, 5):
            self.sessions.pop(worker).close()
        self.fell = fall_behind(self.server, 4, "yard")
        self.busy = Busy(self.server, 0, "shop")

    def wanted(self, of_yard=None):
        """What is shown of all but the busy one. Who fell with a finished job owns its lock up to the first renewal, for
        which it goes out."""
        rows = {"bank": ([4, 2**64 - 1], 1, 1, False), "mill": ([0, 0], 3, 0, False)}
        rows["yard"] = [self.fell, 0], of_yard, self.fell, True
        locks = [lock_status(lock, *row) for lock, row in rows.items()]
        workers = [worker_status(True, "held", 2, lock="bank"), worker_status(True, "climb", 1, lock="bank")]
        workers += [worker_status(False, "held", 1, lock="mill"), worker_status(False, "ready", self.fell)]
        workers += [worker_status(False, "climb", 1, lock="bank"), worker_status(True, "ready", 0)]
        return locks, [*workers, worker_status(False, "ready", 0)]

    def shown(self):
        """What is shown of all but the busy one, once the two that fell last are down or after some seconds."""
        for _ in range(200):
            told = self.busy.session.told(**STATUS)
            if not any(told["workers"][worker]["attached"] for worker in (3, 5)):
                break
            time.sleep(0.03)
        return without_waits(told)

    def waits(self):
        """Which worker waits for which, once worker 2 has climbed or after some seconds."""
        for _ in range(200):
            told = waits_in(self.busy.session.told(**STATUS))
            if 2 in told:
                break
            time.sleep(0.03)
        return told


def waits_in(told):
    return {number: worker["blocked_by"] for number, worker in enumerate(told["workers"]) if "blocked_by" in worker}


def without_waits(told):
    """What is shown of all but the busy one, and since when. The waits between workers are left out: a worker that
    waits has climbed to no node when its epoch begins."""
    others = ("blocked_by", "seconds")
    return told["locks"][:3], [{key: it for key, it in worker.items() if key not in others} for worker in told["workers"][1:]]


def try_stances(folder):
    """Workers in each stance, over ten renewals, and then over a kill too."""
    for name in ("served on", "killed"):
        all_of_them = Stances(folder, name)
        path, busy = all_of_them.path, all_of_them.busy
        shown = all_of_them.shown()
        check(f"{name}: what all are at", shown in (all_of_them.wanted(4), all_of_them.wanted()), shown)
        waits = all_of_them.waits()
        check(f"{name}: the owner keeps at most one waiting that is up and one that is down", waits.items() <= {2: 1, 5: 1}.items(), waits)
        wrong = []
        for _ in range(10):
            wrong += busy.renew(path)
            told = busy.session.told(**STATUS)
            shown = without_waits(told)
            wrong += [(told["epoch"], shown)] * (shown != all_of_them.wanted())
            found = looked(path)
            wrong += [(told, found)] * (without_waits(found) != shown)
            wrong += faults_of(read(path))
        check(f"{name}: it is the same after each of ten renewals", not wrong, wrong[:2])
        is_run(name, path)
        after_stances(name, all_of_them)


def after_stances(name, all_of_them):
    """Each worker goes on from where it was."""
    server, sessions = all_of_them.server, all_of_them.sessions
    life = 1 if name == "served on" else 2  # a renewal does not count in the lives of workers that are attached
    if name == "killed":
        kill(server)
        server = serve(all_of_them.path, sections=7)
        sessions = {worker: server.session() for worker in (1, 2, 6)}
        told = [sessions[worker].ask(attach(worker)) for worker in (1, 2, 6)]
        same("the worker inside is still inside", told, [stands("held", 2), stands("climb", 1), stands("ready", 0)])
        sessions[2].send(line_of(**job("enter", "bank", 1, *ONE, wait=3_600_000)))
    told = sessions[1].ask_all(*(job("enter", "bank", 2, *script) for script in (ONE, [["add", 1, 1]])), WITHDRAW)
    refusals = text(code=17, error="Differs"), text(code=21, error="NotWaiting")
    same(f"{name}: the job of the worker inside", told, [text(life=life, number=2, ok="enter", section=1, stance="held"), *refusals])
    made = receipt(1, 2, "bank", 1, 5)
    same(f"{name}: it commits", sessions[1].ask(COMMIT), text(ok="commit", receipt=made))
    five = server.session()
    same(f"{name}: who fell while it waited", five.ask(attach(5)), stands("climb", 1))
    five.send(line_of(**RESUME, wait=60_000))
    held = json.loads(sessions[2].hear())
    section = held.pop("section")
    same(f"{name}: the waiting worker has the lock", held, {"life": life, "number": 1, "ok": "enter", "stance": "held"})
    told = [sessions[2].told(**COMMIT)["receipt"], json.loads(five.hear())["receipt"]]
    same(f"{name}: the section is the place of its receipt", told[0]["place"], section)
    places = sorted(((it["place"], it["reply"]) for it in told))
    same(f"{name}: and the other", (places, [it["worker"] for it in told]), ([(2, 6), (3, 7)], [2, 5]))
    after_falls(name, all_of_them, server, sessions[6])
    kill(server)
    is_run(f"{name}, at the end", all_of_them.path)


def after_falls(name, all_of_them, server, six):
    """So does each that fell, and one that was never there; `six` is the session of worker 6."""
    three, four, seven = (server.session() for _ in range(3))
    told = three.ask_all(attach(3), COMMIT)
    same(f"{name}: who fell inside", told, [stands("held", 1), text(ok="commit", receipt=receipt(3, 1, "mill", 0, 1))])
    fell = all_of_them.fell
    last = receipt(4, fell, "yard", fell - 1, fell)
    told = four.ask_all(attach(4), LAST, job("submit", "yard", fell, *ONE), job("submit", "yard", fell + 1, *ONE))
    after = receipt(4, fell + 1, "yard", fell, fell + 1)
    wanted = [stands("ready", fell), text(last=last, ok="last"), *(text(ok="submit", receipt=it) for it in (last, after))]
    same(f"{name}: who fell with a finished job", told, wanted)
    if name == "served on":
        told = six.ask_all(job("submit", "bank", 1, *ONE), attach(6))
        same(f"{name}: a crash that was planned", told, [text(fell=True, ok="submit"), stands("ready", 0)])
    told = six.ask_all(LAST, job("submit", "bank", 1))
    wanted = [text(last=None, ok="last"), text(ok="submit", receipt=receipt(6, 1, "bank", 4, 0))]
    same(f"{name}: who had none", [told[0], json.loads(told[1])["receipt"]["place"]], [wanted[0], 4])
    told = seven.ask_all(attach(7), LAST)
    same(f"{name}: the worker that was never there", told, [stands("ready", 0), text(last=None, ok="last")])


def try_freed(folder):
    """A lock whose last worker fell on its way out is had by another once the file was renewed."""
    path = os.path.join(folder, "state")
    server = serve(path, "yard", "shop", workers=3, jobs=100, sections=3)
    made = fall_behind(server, 0, "yard")
    busy = Busy(server, 1, "shop")
    same("it is renewed", busy.renew(path), [])
    other = server.session()
    told = other.ask_all(attach(2), job("submit", "yard", 1, *ONE, wait=10_000))
    same("another has the lock", told[1], text(ok="submit", receipt=receipt(2, 1, "yard", made, made + 1)))
    kill(server)


def try_all_cells(folder):
    """Locks with all their cells, which the keeper sets by more than one job, and places that go on behind its jobs."""
    path, numbers = os.path.join(folder, "state"), random.Random(SEED)
    locks = [f"lock-{number}" for number in range(16)]
    server = serve(path, *locks, workers=2, cells=16, jobs=100, sections=20)
    session = server.session()
    session.ask(attach(0))
    cells, places, wrong = {lock: [0] * 16 for lock in locks}, dict.fromkeys(locks, 0), []
    for number in range(1, 301):
        lock = numbers.choice(locks[:12])  # of some no cell is ever set
        values = [numbers.choice((0, 1, 2**64 - 1, numbers.randrange(2**64))) for _ in range(8)]
        script = [["set", numbers.randrange(16), value] for value in values]
        told = session.told(**job("submit", lock, number, *script)).get("receipt", {})
        for _, cell, value in script:
            cells[lock][cell] = value
        wrong += [(told, places[lock])] * ((told.get("number"), told.get("place")) != (number, places[lock]))
        places[lock] += 1
        found = {row["name"]: (row["cells"], row["sections"]) for row in session.told(**STATUS)["locks"]}
        wrong += [(number, found)] * (found != {lock: (cells[lock], places[lock]) for lock in locks})
    check("cells of 16 locks over 300 jobs, and places", not wrong, wrong[:2])
    check("it was renewed", epoch_of(read(path)) >= 10, epoch_of(read(path)))
    is_run("16 locks", path)
    kill(server)


# ---- the file


def memory_of(server):
    """The memory that the server has, in KiB."""
    with open(f"/proc/{server.program.pid}/status", encoding="utf-8") as status:
        return next(int(line.split()[1]) for line in status if line.startswith("VmRSS"))


def try_small(folder):
    """The file has at most what it begins with, and the lines of this number of jobs; the memory does not grow."""
    path, sections = os.path.join(folder, "state"), 40
    server = serve(path, "bank", workers=2, jobs=10_000, sections=sections)
    busy, sizes, memory, begins, wrong = Busy(server, 0, "bank"), [], [], [], []
    for _ in range(80):
        wrong += busy.renew(path)
        begins.append(len(read(path)))
        memory.append(memory_of(server))
        for _ in range(sections - 2):
            wrong += busy.make()
        sizes.append(len(read(path)))
    check("80 renewals", not wrong, wrong[:2])
    writes = writes_of(read(path))[1:]
    longest = max(len(write.bytes) for write in writes)
    # A job of a session that does nothing else is one write: a line by which it is handed in, and one by which it is done.
    bound = max(begins) + sections * longest
    check(f"a file of {max(sizes)} bytes, which may have {bound}", max(sizes) <= bound, (sizes[-5:], begins[-5:]))
    check("what it begins with grows only by the digits of its numbers", max(begins) <= min(begins) + 200, begins)
    check(f"memory from {memory[9]} to {memory[-1]} KiB", max(memory[10:]) <= memory[9] + 512, memory)
    kill(server)


def try_large(folder):
    """Numbers and places of more than 32 bits: a file that an earlier server left after billions of jobs."""
    path, number, place = os.path.join(folder, "state"), 2**32 - 3, 2**40
    kill(serve(path, "bank", workers=2, jobs=3, sections=1000))
    opening = whole_lines(read(path))[1]
    last = receipt(0, number, "bank", place - 1, 5)
    header = {"epoch": 7, "last": [last, {"withdrawn": True}], "numbers": [number, 2**52], "places": [place]}
    written(path, text(**header, rme="kept", version=1) + b"\n" + opening)
    server = serve(path, sections=1000)
    busy, other = Busy(server, 0, "bank"), server.session()
    same("the last number is told", busy.session.ask(LAST), text(last=last, ok="last"))
    wrong, reply = [], 0
    for _ in range(10):
        number, place, reply = number + 1, place + 1, reply + 1
        last = receipt(0, number, "bank", place - 1, reply)
        told = busy.session.ask_all(*map(busy.order, (number, number, number - 1, number + 2, 2**53, 2**53 + 1)))
        refused = [*[wrong_number(number + 1)] * 3, text(code=1, error="BadLine")]
        wrong += [(number, told)] * (told != [*[text(ok="submit", receipt=last)] * 2, *refused])
    check("numbers and places go on over 2^32", not wrong and number > 2**32, wrong[:2])
    told = other.ask_all(attach(1), job("enter", "bank", 2**52 + 1, *ONE), COMMIT, DETACH)
    inside = text(life=1, number=2**52 + 1, ok="enter", section=place, stance="held")
    ended = text(ok="commit", receipt=receipt(1, 2**52 + 1, "bank", place, reply + 1))
    same("and over 2^52", told, [stands("ready", 2**52), inside, ended, text(ok="detach")])
    locks = [lock_status("bank", [reply + 1], sections=place + 1)]
    workers = [worker_status(True, "ready", number), worker_status(False, "ready", 2**52 + 1)]
    epoch = other.told(**STATUS)["epoch"]
    same("the status", status_bytes(other.ask(STATUS)), text(epoch=epoch, locks=locks, ok="status", workers=workers))
    check("it was renewed", epoch > 9, epoch)
    same("the lives of a file that had none, from 0 on", lives_of(read(path)), [1, 1])
    is_run("large numbers", path)
    kill(server)
    server = serve(path)
    told = server.session().ask_all(attach(0), LAST, busy.order(number), busy.order(number + 1))
    after = text(ok="submit", receipt=receipt(0, number + 1, "bank", place + 1, reply + 2))
    wanted = [stands("ready", number), text(last=last, ok="last"), text(ok="submit", receipt=last), after]
    same("and after a kill", told, wanted)
    kill(server)


def try_few_jobs(folder):
    """A state for less jobs than the keeper needs has as many as that, and is the same for the same words."""
    path = os.path.join(folder, "state")
    for _ in range(2):
        kill(serve(path, "a", "b", "c", workers=1, cells=9, jobs=1))
    opening = json.loads(whole_lines(read(path))[1])
    same("the jobs of its worlds", (opening["workers"], opening["jobs"]), (2, 6))
    server = serve(path)
    session = server.session()
    numbers = range(1, 13)
    told = session.ask_all(attach(0), *(job("submit", "abc"[it % 3], it, ["add", 8, it]) for it in numbers))
    wrong = [answer for answer in told[1:] if "receipt" not in json.loads(answer)]
    same("its worker makes twelve", wrong, [])
    kill(server)


def try_lives(folder):
    """How often each worker was restarted is in the header after each epoch, and goes on over starts of the server."""
    path = os.path.join(folder, "state")
    server = serve(path, "a", workers=3, jobs=4, sections=100)
    for _ in range(3):
        server.session().ask_all(attach(0), DETACH)
    other, busy = server.session(), Busy(server, 2, "a")
    other.ask(attach(1))
    told = header_of(read(path))["lives"], lives_of(read(path))
    same("each attachment is one life", told, ([0, 0, 0], [3, 1, 1]))
    same("it is renewed", busy.renew(path, 2), [])
    told = header_of(read(path))["lives"], lives_of(read(path))
    same("lives are not changed by it", told, ([3, 1, 1], [3, 1, 1]))
    kill(server)
    server = serve(path)
    same("nor by a start", lives_of(read(path)), [3, 1, 1])
    server.session().ask_all(attach(0), DETACH)
    busy = Busy(server, 2, "a", made=busy.made)
    same("it is renewed again", busy.renew(path), [])
    same("they go on", header_of(read(path))["lives"], [4, 1, 2])
    told = server.session().ask_all(*({**attach(1), "after": life} for life in (0, 1)), job("enter", "a", 1, *ONE), COMMIT)
    found = told[:2], json.loads(told[2]).get("life")
    same("and sessions are told them", found, ([text(code=26, error="Overtaken"), stands("ready", 0)], 2))
    is_run("lives", path)
    kill(server)


def try_header(folder):
    """The header of a file that was renewed, with each byte changed: it is read, or refused as line 1."""
    path, numbers = os.path.join(folder, "state"), random.Random(SEED)
    server = serve(path, "a", "b", workers=3, jobs=4, sections=100)
    one, two, busy = server.session(), server.session(), Busy(server, 2, "b")
    one.ask_all(attach(0), job("enter", "a", 1, *ONE))
    two.ask_all(attach(1), job("submit", "a", 1, *ONE, tries=1), WITHDRAW)
    one.ask(COMMIT)
    same("it is renewed", busy.renew(path, 2), [])
    kill(server)
    held = read(path)
    end, damaged = held.index(b"\n"), os.path.join(folder, "damaged")
    wrong, count, refused = [], 0, 0
    for form in (mended, first_version):  # with right sums, and without sums
        old = form(held)
        for at, changed in changes_of(old[: end + 1], numbers):
            changed += old[end + 1 :]
            changed = mended(changed) if form is mended else changed
            ended, wanted = ends_with(look(written(damaged, changed), "--check")), verdicts_on(changed)
            wrong += [(at, changed[: end + 1], ended, wanted)] * (not is_verdict(ended, wanted))
            count, refused = count + 1, refused + (ended[1] != b"yes\n")
    name = f"{count} headers with a byte changed, of which {refused} are refused"
    check(name, not wrong and refused > count // 2, wrong[:2])
    header, rest = json.loads(held[:end]), held[end + 1 :]
    own = header["last"][0]
    for name, changes in {
        "another worker's receipt": {"last": [{**own, "worker": 1}, *header["last"][1:]]},
        "a receipt of another number": {"last": [{**own, "number": 2}, *header["last"][1:]]},
        "a receipt of no lock": {"last": [{**own, "lock": "c"}, *header["last"][1:]]},
        "a receipt, and no number": {"numbers": [0, *header["numbers"][1:]]},
        "a number, and nothing that became of it": {"last": [None, *header["last"][1:]]},
        "a number given up, and none": {"numbers": [1, 0, *header["numbers"][2:]]},
        "the first epoch, with numbers": {"epoch": 0},
        "the first epoch, with places": {"epoch": 0, "last": [None] * 3, "numbers": [0] * 3},
        "too large a place": {"places": [2**53 + 1, 0]},
        "too large a life": {"lives": [2**53 + 1, 0, 0]},
        "lives of one worker less": {"lives": [0, 0]},
        "lives that are no list": {"lives": 1},
        "a life below 0": {"lives": [0, -1, 0]},
        "an invalid number": {"numbers": [1.0, *header["numbers"][1:]]},
    }.items():
        changed = mended(text(**{**header, **changes}) + b"\n" + rest)
        same(f"refused: {name}", ends_with(look(written(damaged, changed), "--check")), (1, b"no 1\n", b""))
        same(f"and the model says so: {name}", verdicts_on(changed), {b"no 1\n"})


def try_owner(folder):
    """The new file has the mode of the old one, and its owner if that is allowed."""
    path = os.path.join(folder, "state")
    server = serve(path, "bank", workers=1, jobs=100, sections=2)
    busy = Busy(server, 0, "bank")
    owns = os.geteuid() == 0
    for mode, owner in ((0o640, (0, 0)), (0o600, (12345, 12346)), (0o666, (0, 7))):
        os.chmod(path, mode)
        if owns:
            os.chown(path, *owner)
        before = os.stat(path)
        same("it is renewed", busy.renew(path), [])
        after = os.stat(path)
        check("by another file", before.st_ino != after.st_ino)
        found = stat.S_IMODE(after.st_mode), after.st_uid, after.st_gid
        same("with its mode and its owner", found, (mode, before.st_uid, before.st_gid))
    same("nothing is beside it", os.listdir(folder), ["state"])
    kill(server)


def make_in_time(busy):
    """Makes a job that is refused until the file is renewed, within some seconds; answers what is wrong."""
    latest = time.monotonic() + 10
    while busy.session.ask(busy.order(busy.number + 1)) == TOO_MANY and time.monotonic() < latest:
        time.sleep(0.1)
    return busy.make()


def try_hindered(folder):
    """A server that can't renew its file goes on with the old one up to its last job, and renews it when it can."""
    path = os.path.join(folder, "state")
    server = serve(path, "bank", workers=2, jobs=2, sections=1000)
    busy, other = Busy(server, 0, "bank"), server.session()
    beside = path + ".renewal"
    os.mkdir(beside)
    same("two jobs", busy.make() + busy.make(), [])
    same("a third one is refused", busy.session.ask(busy.order(3)), TOO_MANY)
    told = busy.session.ask(busy.order(2))
    same("the last one is answered", json.loads(told).get("receipt"), receipt(0, 2, "bank", 1, 2))
    told = other.ask_all(attach(1), job("submit", "bank", 1, *ONE))
    same("others go on", json.loads(told[1]).get("receipt"), receipt(1, 1, "bank", 2, 3))
    busy.made += 1
    os.rmdir(beside)
    same("once it can be renewed jobs go on, within some seconds", make_in_time(busy), [])
    same("in a new epoch", epoch_of(read(path)), 1)
    status, _, told = kill(server)
    same("the server was killed", status, -signal.SIGKILL)
    shown = re.escape(path.encode())
    told = re.findall(rb"^rme: the new state " + shown + rb" can't be put in its place: (.*)$", told, re.M)
    same("it said why it could not", told, [b"what is there was not made by a server"])
    written(beside, b'{"epoch":1,"last":[null')
    server = serve(path)
    same("what a killed server left is removed", os.listdir(folder), ["state"])
    kill(server)
    is_run("a server that was hindered", path)


def try_words(folder):
    """How often a file is renewed may change with each start."""
    path = os.path.join(folder, "state")
    made = 0
    for sections in (1, 2, 1_000_000, 1):
        server = serve(path, "bank", workers=1, jobs=50, sections=sections)
        busy, before = Busy(server, 0, "bank", made), epoch_of(read(path))
        wrong = sum((busy.make() for _ in range(20)), [])
        made, more = busy.made, epoch_of(read(path)) - before
        is_right = abs(more - 20 // sections) <= 1
        check(f"--sections {sections}: {more} renewals in 20 jobs", not wrong and is_right, wrong[:2])
        kill(server)
    is_run("each start another", path)
    for number in ("0", "1000001", "-1", "x", ""):
        ended = ends_with(run(["serve", "--state", path, "--port", "0", "--sections", number]))
        check(f"refused by its form: --sections {number}", (ended[:2], ended[2][:7]) == ((2, b""), b"error: "), ended)
    ended = ends_with(run(["serve", "--workers", 1, "--cells", 1, "--jobs", 1, "--port", 0, "--sections", 5, "bank"]))
    check("refused by its form: --sections and no --state", (ended[:2], ended[2][:7]) == ((2, b""), b"error: "), ended)


# ---- when it is replaced, and by which server


def try_replacing(folder):
    """A new file is with the disk before it has the name, and its folder before anything is answered."""
    if not has_strace():
        skip("when a file is replaced", "there is no strace that may look")
        return
    path, log = os.path.join(folder, "state"), os.path.join(folder, "log")
    traced = "trace=write,writev,sendto,sendmsg,fsync,fdatasync,rename,renameat,renameat2,flock"
    # The tracer is not the parent, so that what is killed is the server.
    words = ["-D", "-f", "-s", "300", "-o", log, "-e", traced, built()]
    words += state_words(path, "bank", port=0, sync="always", jobs=1, sections=1000)
    server = Server(program="strace", words=words)
    session = server.session()
    told = session.ask_all(attach(0), *(job("submit", "bank", number, *ONE) for number in (1, 2, 3, 4)))
    kill(server)
    same("four jobs, a file each", [json.loads(answer)["receipt"]["number"] for answer in told[1:]], [1, 2, 3, 4])
    marks = {"locked": rb"flock\(.*\) *= 0", "renamed": rb"rename\w*\(.*\) *= 0", "answered": rb'\\"receipt'}
    marks["synced"] = rb"sync(\(\d+\)| resumed>\)) *= 0"
    calls = [name for line in lines_traced(log) for name, mark in marks.items() if re.search(mark, line)]
    renames = [at for at, call in enumerate(calls) if call == "renamed"]
    check("it was renewed", len(renames) >= 3, calls)
    wrong = [calls[at - 3 : at + 3] for at in renames if calls[at - 1] != "synced" or calls[at + 1] != "synced"]
    check("each new file is synced before it is renamed, and its folder behind", not wrong, wrong)
    wrong = [calls[at - 4 : at] for at in renames if "locked" not in calls[max(0, at - 4) : at]]
    check("and locked before it has the name", not wrong, wrong)


def try_two_servers(folder):
    """Servers that are started on a file which is replaced all the time: the one that has it keeps it, and the next one
    has what it answered."""
    path, numbers, wrong = os.path.join(folder, "state"), random.Random(SEED), []
    server, made = serve(path, "bank", workers=1, jobs=10, sections=1), 0
    how = {"stdin": subprocess.DEVNULL, "stdout": subprocess.PIPE, "stderr": subprocess.PIPE}
    for _ in range(25):
        busy = Busy(server, 0, "bank", made)
        if busy.number != made:
            wrong.append(("a job is lost", busy.number, made))
        others = [subprocess.Popen([built(), *state_words(path, "bank", port=0)], **how) for _ in range(3)]
        latest = time.monotonic() + 0.1 * numbers.random()
        while time.monotonic() < latest and not wrong:
            wrong += busy.make()
        made = busy.made
        server.program.kill()
        server.end()
        listening = [other for other in others if other.stdout.readline().startswith(b"listening ")]
        for other in others:
            other.kill()
            _, told = other.communicate()
            if other not in listening and (other.returncode, b"a server has it" in told) != (2, True):
                wrong.append((other.returncode, told))
        wrong += [("two servers have it", len(listening))] * (len(listening) > 1)
        server = serve(path, "bank", sections=1)
    name = f"75 servers on a file with {epoch_of(read(path))} renewals, and {made} jobs"
    check(name, not wrong and made > 25, wrong[:2])
    kill(server)
    is_run("many servers", path)


def try_looking(folder):
    """`rme look` at a file that is replaced all the time reads one or another."""
    path, wrong, over = os.path.join(folder, "state"), [], threading.Event()
    server = serve(path, "bank", workers=1, jobs=10, sections=1)
    busy = Busy(server, 0, "bank")

    def keep_busy():
        while not over.is_set() and not wrong:
            wrong.extend(busy.make())

    client = threading.Thread(target=keep_busy)
    client.start()
    last, looks, end = 0, 0, time.monotonic() + 30
    while looks < 60 or last <= 60:
        told, looks = looked(path), looks + 1
        right = isinstance(told, dict) and told["locks"][0]["cells"] == [told["locks"][0]["sections"]]
        if not right or told["workers"][0]["number"] < last or time.monotonic() > end:
            wrong.append((told, last))
            break
        last = told["workers"][0]["number"]
    over.set()
    client.join()
    check(f"looks at a file that was renewed {epoch_of(read(path))} times", not wrong, wrong[:2])
    kill(server)


# ---- storms


def try_storm(folder):
    """Clients whose server renews its file: served by one, and by one that is killed again and again."""
    for name, kills, epochs in (("served by one", 0, EPOCHS), ("killed", KILLS, 0)):
        inner = os.path.join(folder, name.replace(" ", "-"))
        os.mkdir(inner)
        storm = Storm(inner, f"{SEED} {name}", renews=True)
        wrong = storm.run(kills, epochs)
        told = f"{storm.kills} kills, {storm.epoch} renewals, {storm.jobs()} jobs, each once"
        check(f"a server that renews its file, {name}: {told}", not wrong and storm.epoch >= EPOCHS, wrong[:3])
        # A server that is killed while it begins leaves the socket that was to have the name.
        known = ("state", "socket", *storm.unmade)
        beside = [it for it in os.listdir(inner) if it not in known and not it.startswith(".s")]
        same(f"{name}: nothing is beside it", beside, [])


HANDMADE = (try_one_worker, try_withdrawn, try_stances, try_freed, try_all_cells, try_large, try_lives, try_few_jobs)
FILES = (try_small, try_header, try_owner, try_hindered, try_words)


def part():
    note(f"seed {SEED}")
    main_in_folders(*HANDMADE, *FILES, try_replacing, try_two_servers, try_looking, try_storm, minutes=5)
