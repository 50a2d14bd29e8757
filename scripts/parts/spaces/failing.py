"""failing: a space whose file cannot be kept ends by itself, and is opened again by `use` once that can be; a disk that
is full, takes nothing, or takes no name at `create`; and memory that is refused."""

import collections
import json
import os
import shutil
import threading
import time

from lib import kept
from lib.checks import check, main_in_folders, same, skip
from lib.full import allow, limited_for_now, rest_of
from lib.kept import faults_of, looked, read
from lib.orders import COMMIT, LAST, ONE, RESUME, STATUS, attach, job, receipt, stands, text
from lib.programs import REFUSED_GROWTH, built, growth_refuser, has_strace, refusing
from lib.servers import Server, line_of
from lib.spaces import (
    CREATED, PING, PONG, SPACES, USED, create, drop, listed, made, one_job, path_of, refused, serve, session_in, spaces_words, use,
)  # fmt: skip

LOST = "its name is another file's by now, or nobody's"
NO_SPACE, NO_MEMORY = refused(23), refused(20)
ENOUGH = 1 << 20  # bytes of a file
SECONDS = 5  # in which a space ends whose file cannot be kept


class Told:
    """The standard error of a server, as it comes."""

    def __init__(self, server):
        self.text = b""
        threading.Thread(target=self.read, args=(server.program.stderr,), daemon=True).start()

    def read(self, stream):
        while piece := os.read(stream.fileno(), 4096):
            self.text += piece

    def says(self, *words):
        """Whether one line has all these words, within some seconds."""
        latest = time.monotonic() + SECONDS
        while True:
            if any(all(word.encode() in line for word in words) for line in self.text.splitlines()):
                return True
            if time.monotonic() > latest:
                return False
            time.sleep(0.02)


class Neighbour(threading.Thread):
    """A client of another space, whose jobs must be answered all the time: `jobs` were, and `longest` says how late the latest."""

    def __init__(self, server, space):
        super().__init__(daemon=True)
        self.session, self.over = session_in(server, space, attach(0)), threading.Event()
        self.jobs, self.longest, self.wrong = 0, 0.0, []
        self.start()

    def run(self):
        while not self.over.is_set() and not self.wrong:
            began = time.monotonic()
            told = self.session.ask(job("submit", "bank", self.jobs + 1, *ONE))
            self.longest = max(self.longest, time.monotonic() - began)
            if not told.startswith(b'{"ok":"submit","receipt"'):
                self.wrong.append(told)
            self.jobs += 1
            time.sleep(0.002)

    def end(self, name):
        latest = time.monotonic() + SECONDS
        while self.jobs <= 3 and not self.wrong and time.monotonic() < latest:
            time.sleep(0.01)
        self.over.set()
        self.join(SECONDS)
        check(f"{name}: the other space goes on", not self.wrong and self.jobs > 3, (self.wrong, self.jobs))
        check(f"{name}: and none of its jobs was late", self.longest < 2, self.longest)


# ---- a file that is taken away


def remove(path):
    os.rename(path, path + ".kept")  # under a name that no space has


def rename(path):
    os.rename(path, os.path.join(os.path.dirname(path), "..", "moved"))


def replace(path):
    """A copy takes its place."""
    shutil.copyfile(path, path + ".copy")
    os.rename(path, path + ".kept")
    os.rename(path + ".copy", path)


def put_back(path):
    for other in (path + ".kept", os.path.join(os.path.dirname(path), "..", "moved")):
        if os.path.exists(other):
            os.rename(other, path)


def try_taken_away(folder):
    """A space whose file loses its name ends, and no other does, within some seconds, idle or busy; once the file is
    back, `use` opens it."""
    rows = (remove, "idle", "never"), (rename, "busy", "never"), (replace, "idle", "never"), (remove, "busy", "always"), (replace, "busy", "always")
    for way, load, sync in rows:
        name = f"{way.__name__}, {load}, --sync {sync}"
        take_away(name, os.path.join(folder, name.replace(", ", "-"), "spaces"), way, load, sync)


def order_once_more(server):
    """A further session gives an order to space `a`, whose file is away. It is ended, perhaps before its first answer."""
    try:
        rest_of(session_in(server, "a", attach(2)))
    except ConnectionError:
        pass


def take_away(name, own, way, load, sync):
    server = serve(own, sync=sync)
    told, path = Told(server), path_of(own, "a")
    made(server, "a", "b", workers=4)
    other = Neighbour(server, "b")
    inside = session_in(server, "a", attach(0), job("submit", "bank", 1, ["add", 0, 5]), job("enter", "bank", 2, *ONE))
    waiter = session_in(server, "a", attach(1))
    waiter.send(line_of(**job("enter", "bank", 1, *ONE, wait=600_000)))
    silent = session_in(server, "a")
    while silent.told(**STATUS)["workers"][1]["stance"] != "climb":
        pass
    way(path)
    began = time.monotonic()
    if load == "busy":
        order_once_more(server)
    rests = [rest_of(session) for session in (inside, silent)]
    took = time.monotonic() - began
    same(f"{name}: its sessions end", rests, [b"", b""])
    check(f"{name}: within some seconds", took < SECONDS, took)
    check(f"{name}: so does a session that waits", rest_of(waiter) in (b"", text(ok="enter", waiting=True) + b"\n"))
    check(f"{name}: the standard error says why", told.says("a.state", LOST), told.text)
    session = server.session()
    if way is not replace:
        same(f"{name}: it is not used", session.ask_all(use("a"), PING, use("b")), [NO_SPACE, PONG, USED])
    put_back(path)
    told_now = session.ask_all(use("a"), attach(0), LAST, COMMIT)
    wanted = [USED, stands("held", 2), refused(9), text(ok="commit", receipt=receipt(0, 2, "bank", 1, 6))]
    same(f"{name}: once it is back, it is as it was", told_now, wanted)
    same(f"{name}: and goes on", session_in(server, "a", attach(1)).told(**RESUME, wait=10_000).get("receipt"), receipt(1, 1, "bank", 2, 7))
    other.end(name)
    same(f"{name}: all spaces are there", session.ask(SPACES), listed("a", "b"))
    kept.kill(server)
    same(f"{name}: a run", faults_of(read(path)) + faults_of(read(path_of(own, "b"))), [])


def try_bad(folder):
    """A file that was changed while its space was closed: it is refused, the standard error names the line, and nothing is written."""
    server = serve(folder, close_after=1, sync="always")  # so that a change of any write but the last is seen
    told, path = Told(server), path_of(folder, "a")
    made(server, "a", "b")
    for _ in range(5):
        one_job(server, "a")
    session = session_in(server, "b")
    time.sleep(2.5)
    good = read(path)
    changed = good.replace(b'"script":[["add",0,1]]', b'"script":[["add",0,2]]', 1)
    kept.written(path, changed)
    same("it is not used, and its session stays where it was", session.ask_all(use("a"), {"do": "cells", "lock": "bank"}),
         [NO_SPACE, text(cells=[0], ok="cells", settled=True)])
    check("the standard error names file and line", told.says("a.state", "line"), told.text)
    same("nor is it dropped", session.ask(drop("a")), NO_SPACE)
    same("the file stays as it was", read(path), changed)
    kept.written(path, good)
    same("the good one is used", one_job(server, "a"), 6)
    server.kill()


# ---- a disk that is full


def try_full(folder):
    """The file of one space can grow no more: only this space ends. What was answered is kept, and with more room it
    goes on."""
    server = serve(folder, how={"preexec_fn": limited_for_now(ENOUGH)})
    told, path, answered = Told(server), path_of(folder, "a"), 0
    made(server, "a", "b")
    session = session_in(server, "a", attach(0))
    for answered in range(1, 101):
        session.ask(job("submit", "bank", answered, *ONE))
    other = session_in(server, "b", attach(0))
    for turn, room in enumerate((0, 10, 100, 333)):
        allow(server, os.path.getsize(path) + room)
        silent = session_in(server, "a")
        most = answered + 100
        while answered < most and json.loads(session.ask(job("submit", "bank", answered + 1, *ONE)) or b"{}").get("receipt"):
            answered += 1
        same(f"{room} bytes more: its sessions end", (rest_of(session), rest_of(silent)), (b"", b""))
        check(f"{room} bytes more: the standard error says why", told.says("a.state", "File too large"), told.text)
        number = looked(path)["workers"][0]["number"]
        check(f"{room} bytes more: what was answered is in the file", number in (answered, answered + 1), (number, answered))
        same(f"{room} bytes more: the other space goes on", other.told(**job("submit", "bank", turn + 1, *ONE)).get("receipt"),
             receipt(0, turn + 1, "bank", turn, turn + 1))
        session = server.session()
        tried = [session.ask(use("a")) for _ in range(3)]
        check(f"{room} bytes more: it is used once there is room", set(tried) <= {NO_SPACE, USED}, tried)
        session.close()
        allow(server, ENOUGH)
        session = session_in(server, "a")
        stood = session.attach(0)
        check(f"{room} bytes more: with room it is there", stood.get("number") in (answered, answered + 1), stood)
        answered = stood.get("number", 0)
        same(f"{room} bytes more: each job counted once", session.told(do="cells", lock="bank").get("cells"), [answered])
    kept.kill(server)
    same("a run", faults_of(read(path)), [])


def try_full_at_create(folder):
    """A file that cannot be made: 20, nothing is left of it, and the server goes on."""
    server = serve(os.path.join(folder, "first"))
    made(server, "a")
    whole = os.path.getsize(path_of(os.path.join(folder, "first"), "a"))
    server.kill()
    wrong, place = [], os.path.join(folder, "spaces")
    for size in (0, 1, 50, whole // 2, whole - 1):
        server = serve(place, how={"preexec_fn": limited_for_now(size)})
        session = server.session()
        told = session.ask_all(create("a"), SPACES, use("a"), PING)
        left = [name for name in os.listdir(place) if name.endswith(".state")]
        wrong += [(size, told, left)] * ((told, left) != ([NO_MEMORY, listed(), NO_SPACE, PONG], []))
        session.close()
        server.kill()
    same("files that can't be made", wrong, [])
    server = serve(place, how={"preexec_fn": limited_for_now(whole // 2)})
    session = server.session()
    same("none with little room", session.ask(create("a")), NO_MEMORY)
    allow(server, ENOUGH)
    same("and one with more", session.ask_all(create("a"), SPACES, use("a"), attach(0)), [CREATED, listed("a"), USED, stands("ready", 0)])
    server.kill()
    same("nothing else is left", [name for name in os.listdir(place) if "a.state" in name], ["a.state"])


def try_no_sync_at_create(folder):
    """A disk that takes neither the file nor its name: 20, and no space is there, also after a restart."""
    if not has_strace():
        skip("a disk that takes nothing", "there is no strace that may look")
        return
    rows = {
        "the file is not synced": "fdatasync,fsync:error=EIO",
        "it gets no name": "link,linkat,rename,renameat,renameat2:error=ENOSPC",
    }
    for name, fault in rows.items():
        place = os.path.join(folder, name.replace(" ", "-"))
        server = serve(place)
        made(server, "good")
        server.kill()
        calls, _ = fault.split(":")
        log = os.path.join(folder, "log")
        words = ["-D", "-f", "-o", log, "-e", f"trace={calls}", "-e", f"inject={fault}", built()]
        server = Server(program="strace", words=[*words, *spaces_words(place, port=0)])
        session = server.session()
        told = session.ask_all(create("a"), PING)
        same(f"{name}: it is refused", told, [NO_MEMORY, PONG])
        same(f"{name}: it is not there", session.ask_all(use("a"), SPACES), [NO_SPACE, listed("good")])
        kept.kill(server)
        server = serve(place)
        told = server.session().ask_all(SPACES, use("a"), create("a"), use("a"))
        same(f"{name}: nor for the next server", told, [listed("good"), NO_SPACE, CREATED, USED])
        same(f"{name}: which has the other one", one_job(server, "good"), 1)
        server.kill()


# ---- memory that is refused


def conversation(server):
    """A creation, a job in it, and its drop, in a session each; what was answered."""
    told = []
    for orders in ([create("a", workers=2)], [use("a"), attach(0), job("submit", "bank", 1, *ONE)], [drop("a")]):
        try:
            session = server.session()
            for order in orders:
                told.append(json.loads(session.ask(order) or b"{}"))
            session.close()
        except OSError:
            told.append({})
    return told


def refused_growth(folder, shim, number):
    """What became of a server whose growth of this number was refused; nothing if it had fewer."""
    server = serve(folder, how={"env": refusing(shim, number)})
    if not server.port:
        return "did not begin" if REFUSED_GROWTH in server.end()[2] else None
    told = conversation(server)
    latest = time.monotonic() + SECONDS
    is_alive = False
    while not is_alive and time.monotonic() < latest:
        try:
            is_alive = server.session().ask(PING) == PONG
        except OSError:
            time.sleep(0.01)
    status, _, said = kept.kill(server)
    if REFUSED_GROWTH not in said:
        return None
    codes = {it["code"] for it in told if "code" in it} - {9, 20, 23, 19, 16}
    if not is_alive and status not in (4, 5, 7):
        return f"growth {number}: it ended with {status}, {told}, {said}"
    if codes:
        return f"growth {number}: {told}"
    left = [name for name in os.listdir(folder) if name.endswith(".state")]
    wrong = [faults_of(read(os.path.join(folder, name))) for name in left]
    if any(wrong):
        return f"growth {number}: {wrong}"
    if any("receipt" in it for it in told) and left and looked(os.path.join(folder, left[0]))["locks"][0]["cells"] != [1]:
        return f"growth {number}: a job that was answered is not there"
    return "went on" if is_alive else f"ended with status {status}"


def try_growths(folder):
    """Refuses the first, the second, .. growth of memory of a server of spaces, until one meets no refusal."""
    shim = growth_refuser(folder)
    if not shim:
        return
    ends, number = collections.Counter(), 1
    while end := refused_growth(os.path.join(folder, f"growth-{number}"), shim, number):
        ends[end] += 1
        number += 1
    told = ", ".join(f"{count} servers {end}" for end, count in ends.items())
    wrong = [end for end in ends if end.startswith("growth")]
    check("refused growths: " + told, not wrong and ends["went on"], wrong[:3])


def part():
    main_in_folders(try_taken_away, try_bad, try_full, try_full_at_create, try_no_sync_at_create, try_growths, minutes=12)
