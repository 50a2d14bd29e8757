"""Storms over a server of spaces, which is killed again and again and started on the same folder.

`MakerStorm`: clients create, use and drop spaces of their own, and make jobs in them; each knows what must be there. `WideStorm`:
clients make numbered jobs in 50 spaces, and each job counts once.
"""

import collections
import json
import os
import random
import signal
import socket
import subprocess
import threading
import time

from lib.kept import answers_to, faults_of, header_of, look, looked, read, whole_lines
from lib.orders import DETACH, ONE, STATUS, attach, job
from lib.programs import built
from lib.servers import HOST, Server, Session, line_of
from lib.spaces import CREATED, DROPPED, SPACES, USED, create, drop, path_of, refused, spaces_words, use
from lib.storms import free_port
from rme_client import Done, Overtaken, Worker

NO_SPACE, BUSY = refused(23), refused(9)


class Gone(Exception):
    """The connection ended: it is not known whether the last order was obeyed."""


class Wrong(Exception):
    """What was answered cannot be."""


class SpaceStorm:
    """A server of a folder, which is killed again and again, and clients, each a thread that runs `client(number)`."""

    CLIENTS, OPTIONS = 8, {}

    def __init__(self, folder, seed):
        self.seed, self.numbers = seed, random.Random(f"spaces {seed}")
        self.folder, self.port = os.path.join(folder, "spaces"), free_port()
        self.wrong, self.kills, self.over, self.counts = [], 0, threading.Event(), collections.Counter()
        os.mkdir(self.folder)

    def words(self):
        sync = self.numbers.choice(("always", "never", "never"))
        return spaces_words(self.folder, port=self.port, sync=sync, close_after=self.numbers.choice((1, 1, 300)), **self.OPTIONS)

    def done(self):
        """How much the clients have done."""
        return sum(self.counts.values())

    def wait_for(self, count):
        """Waits until the clients have done this amount more, and then for a moment; not longer than some seconds."""
        goal, latest = self.done() + count, time.monotonic() + 3
        while self.done() < goal and time.monotonic() < latest and not self.wrong:
            time.sleep(0.001)
        time.sleep(0.02 * self.numbers.random() ** 2)

    def run(self, kills):
        """Kills this number of servers, and answers what is wrong at the end."""
        clients = [threading.Thread(target=self.guarded, args=(number,), daemon=True) for number in range(self.CLIENTS)]
        for client in clients:
            client.start()
        while self.kills < kills and not self.wrong:
            self.live()
        if not self.wrong:
            server = Server(words=self.words())
            self.wait_for(20)
            self.over.set()
            latest = time.monotonic() + 60
            for client in clients:
                client.join(max(0, latest - time.monotonic()))
            if any(client.is_alive() for client in clients):
                self.wrong.append(("a client has no end", server.first))
            server.program.kill()
            server.end()
            if not self.wrong:
                self.compare()
        self.over.set()
        return self.wrong

    def live(self):
        """Starts a server and kills it: at times while it starts."""
        how = {"stdin": subprocess.DEVNULL, "stdout": subprocess.PIPE, "stderr": subprocess.PIPE}
        server = subprocess.Popen([built(), *self.words()], **how)
        listens = self.numbers.random() < 0.85 and server.stdout.readline()
        if listens == b"":
            self.wrong.append(("a server that does not listen", server.communicate()))
            return
        self.wait_for(self.numbers.randrange(60) if listens else 0)
        way = self.numbers.choice((signal.SIGKILL, signal.SIGKILL, signal.SIGTERM))
        server.send_signal(way)
        _, told = server.communicate()
        if server.returncode != -way or b"fault:" in told:
            self.wrong.append(("a server that ended by itself, or has a fault", server.returncode, told))
        self.kills += 1

    def guarded(self, number):
        try:
            self.client(number)
        except Exception as error:
            self.wrong.append((f"client {number}", repr(error)))

    def left(self):
        """The names of spaces whose files are there."""
        return {name[: -len(".state")] for name in os.listdir(self.folder) if name.endswith(".state")}


class MakerStorm(SpaceStorm):
    """Each client has some names of its own, and knows of each what is there: nothing, or a space with a lock of a name
    that no other had, and this number of jobs. If a server is killed meanwhile, there may be what was before the last
    order, or after it."""

    NAMES = 3

    def __init__(self, folder, seed):
        super().__init__(folder, seed)
        self.there = [{} for _ in range(self.CLIENTS)]  # of each client, of each of its spaces: its lock, and the jobs of worker 0

    def client(self, number):
        Maker(self, number).live()

    def compare(self):
        wanted = {name: found for own in self.there for name, found in own.items()}
        if self.left() != set(wanted):
            self.wrong.append(("the spaces that are left are not those that should be", self.left() ^ set(wanted)))
        for name, (lock, jobs) in wanted.items():
            path = path_of(self.folder, name)
            told = looked(path)
            if not isinstance(told, dict) or (told["locks"][0]["name"], told["locks"][0]["cells"]) != (lock, [jobs]):
                self.wrong.append((name, told, lock, jobs))
            elif faults := faults_of(read(path)):
                self.wrong.append((name, faults))


class Maker:
    """A client of a `MakerStorm`."""

    def __init__(self, storm, number):
        self.storm, self.there = storm, storm.there[number]
        self.names = [f"c{number}-{each}" for each in range(storm.NAMES)]
        self.numbers, self.made, self.session = random.Random(f"{storm.seed} maker {number}"), 0, None

    def live(self):
        while not self.storm.over.is_set() and not self.storm.wrong:
            name = self.numbers.choice(self.names)
            acts = (self.work, self.work, self.work, self.drop, self.look) if name in self.there else (self.create, self.create, self.look)
            self.numbers.choice(acts)(name)
        self.close()

    # -- a session

    def ask(self, order):
        try:
            if self.session is None:
                self.session = Session(self.connected())
            self.session.send(line_of(**order))
            told = self.session.hear()
        except OSError:
            told = b""
        if not told.endswith(b"\n"):
            self.close()
            raise Gone
        return told.rstrip(b"\n")

    def connected(self):
        connection = socket.create_connection((HOST, self.storm.port), 30)
        connection.setsockopt(socket.IPPROTO_TCP, socket.TCP_NODELAY, 1)
        return connection

    def close(self):
        session, self.session = self.session, None
        if session is not None:
            session.close()

    def insist(self, order):
        """The answer, from one server or a later one."""
        while True:
            try:
                return self.ask(order)
            except Gone:
                if self.storm.wrong:
                    raise Wrong("the storm is over") from None
                time.sleep(0.005)

    def must(self, told, *wanted):
        if told not in wanted:
            raise Wrong(f"{told!r} in place of {wanted!r}")

    # -- what it does

    def create(self, name):
        self.made += 1
        lock = f"i{self.made}"
        told = self.insist(create(name, lock, workers=2))  # the same call again succeeds
        self.must(told, CREATED)
        self.there[name] = lock, 0
        self.storm.counts["created"] += 1

    def work(self, name):
        """Some jobs in the space: each counts once, even if its line is sent again."""
        lock, jobs = self.there[name]
        for _ in range(self.numbers.randrange(1, 6)):
            reply = None
            while reply is None:
                try:
                    reply = self.one_job(name, lock, jobs + 1)
                except Gone:
                    time.sleep(0.005)
                    if self.storm.wrong:
                        return
            if reply != jobs + 1:
                raise Wrong(f"job {jobs + 1} of {name} replied {reply}")
            jobs += 1
            self.there[name] = lock, jobs
            self.storm.counts["jobs"] += 1
        try:
            self.ask(DETACH)
        except Gone:
            pass

    def one_job(self, name, lock, number):
        """The reply of the job of this number of worker 0; `None` if a session that is gone still has the worker."""
        told = self.ask(use(name))
        if told != BUSY:  # it has the worker already
            self.must(told, USED)
            stood = json.loads(self.ask(attach(0)))
            if stood.get("code") == 18:
                time.sleep(0.002)
                return None
            if stood.get("number") not in (number - 1, number):
                raise Wrong(f"{name} stands at {stood}, and job {number} is next")
        order = job(self.numbers.choice(("submit", "enter")), lock, number, *ONE)
        told = json.loads(self.ask(order))
        if told.get("stance") == "held":
            told = json.loads(self.ask({"do": "commit"}))
        if "receipt" not in told:
            raise Wrong(f"{name}: {order} was answered {told}")
        return told["receipt"]["reply"]

    def drop(self, name):
        """Drops the space. If the answer was lost, it may be gone by the next one."""
        self.close()  # so that it does not use the space itself
        told, wanted = None, [DROPPED]
        while told not in (DROPPED, NO_SPACE):
            try:
                told = self.ask(drop(name))
                self.must(told, BUSY, *wanted)  # busy while the end of its own last session was not seen yet
            except Gone:
                wanted = [DROPPED, NO_SPACE]
            if self.storm.wrong:
                return
            time.sleep(0 if told in wanted else 0.003)
        del self.there[name]
        self.storm.counts["dropped"] += 1
        self.must(self.insist(use(name)), NO_SPACE)

    def look(self, name):
        """Its spaces are listed, and no other of its names is."""
        told = json.loads(self.insist({**SPACES, "after": self.names[0][:-1]}))
        found = [it for it in told["spaces"] if it in self.names]
        if not told["more"] and sorted(found) != sorted(self.there):
            raise Wrong(f"{found} are listed in place of {sorted(self.there)}")
        self.must(self.insist(use(name)), USED if name in self.there else NO_SPACE)
        if name in self.there:
            status = json.loads(self.insist(STATUS)) if self.session else {}
            lock, jobs = self.there[name]
            if "locks" in status and (status["locks"][0]["name"], status["locks"][0]["cells"]) != (lock, [jobs]):
                raise Wrong(f"{name} has {status['locks']} in place of {lock} and {jobs} jobs")
        self.storm.counts["looks"] += 1


class WideStorm(SpaceStorm):
    """Clients of the package, with numbered jobs of a worker each in all of 50 spaces; nobody else may be inside meanwhile."""

    SPACES, WORKERS = 50, 3
    CLIENTS = 12
    OPTIONS = {"sections": 40}

    def __init__(self, folder, seed):
        super().__init__(folder, seed)
        self.names = [f"s{number:02}" for number in range(self.SPACES)]
        self.receipts = {(name, worker): [] for name in self.names for worker in range(self.WORKERS)}  # with the amounts of the jobs
        self.inside = {}
        server = Server(words=self.words())
        session = server.session()
        for name in self.names:
            if session.ask(create(name, "bank", workers=self.WORKERS, cells=2)) != CREATED:
                self.wrong.append((name, "it is not created"))
        server.program.kill()
        server.end()

    def client(self, number):
        """Goes from space to space, to those of its own with one worker, and makes some jobs in each."""
        numbers, own = random.Random(f"{self.seed} wide {number}"), self.names[number // self.WORKERS :: self.CLIENTS // self.WORKERS]
        while not self.over.is_set() and not self.wrong:
            name, worker = numbers.choice(own), number % self.WORKERS
            with Worker(HOST, self.port, worker, space=name) as at:
                for _ in range(numbers.randrange(1, 8)):
                    amount, done = numbers.randrange(10**6), self.receipts[name, worker]
                    receipt = self.job(at, name, [["add", 1, 1], ["add", 0, amount]], len(done) + 1, numbers.random() < 0.4)
                    done.append((receipt, amount))
                    self.counts["jobs"] += 1

    def job(self, at, name, script, number, is_entered):
        while is_entered:
            try:
                with at.inside("bank", script, number) as held:
                    if self.inside.setdefault(name, at.worker) != at.worker:
                        self.wrong.append(f"worker {at.worker} is inside {name} beside worker {self.inside[name]}")
                    time.sleep(0.0005)
                    del self.inside[name]
                return held.receipt
            except Done as done:
                return done.receipt
            except Overtaken as overtaken:  # the answer to its own coming back was lost
                if overtaken.found is not None:
                    raise
        return at.submit("bank", script, number)

    def compare(self):
        for name in self.names:
            path = path_of(self.folder, name)
            held = read(path)
            self.wrong += [(name, fault) for fault in faults_of(held)]
            self.counts["renewals"] += header_of(held)["epoch"]
            if not look(path, "--check").stdout.startswith(b"yes"):
                self.wrong.append((name, look(path, "--check")))
            self.compare_space(name, held)

    def compare_space(self, name, held):
        """The receipts are the lock's whole history: each place once, each reply the sum up to there, and the file's last entries."""
        header, *lines = whole_lines(held)
        before = json.loads(header)["places"][0]
        rows = [(receipt, amount, worker) for worker in range(self.WORKERS) for receipt, amount in self.receipts[name, worker]]
        total = 0
        for place, (receipt, amount, worker) in enumerate(sorted(rows, key=lambda row: row[0]["place"])):
            total += amount
            if (receipt["place"], receipt["reply"], receipt["worker"], receipt["lock"]) != (place, total, worker, "bank"):
                self.wrong.append((name, "a receipt that does not follow those before", receipt, place, total))
        for worker in range(self.WORKERS):
            numbers = [receipt["number"] for receipt, _ in self.receipts[name, worker]]
            if numbers != list(range(1, len(numbers) + 1)):
                self.wrong.append((name, worker, "numbers that are not in order", numbers[-5:]))
        entries = [it for it in answers_to([*lines, line_of(do="history")])[-1]["entries"] if it["worker"] < self.WORKERS]
        places = [it["place"] + before for it in entries]
        status = looked(path_of(self.folder, name))
        if places != list(range(len(rows) - len(places), len(rows))) or status["locks"][0]["cells"] != [total, len(rows)]:
            self.wrong.append((name, "its file has not counted each job once", status["locks"], total, len(rows), places[:3]))
