"""Storms: clients of a server that keeps its state, which is killed again and again and started on the same file."""

import json
import os
import random
import signal
import socket
import subprocess
import sys
import threading
import time

from lib.kept import UNSEALED, answers_to, epoch_of, faults_of, kill, look, looked, read, state_words, status_in, whole_lines
from lib.orders import without_seconds
from lib.programs import TOP, built
from lib.servers import HOST, Server, line_of
from lib.sums import whole, without_room

sys.path.insert(0, os.path.join(TOP, "clients", "python"))
from rme_client import Done, Observer, Overtaken, Worker  # noqa: E402


def free_port():
    """A port that nobody listens on, below those that connections are given: a client that waits for its server on one
    of these may be connected with itself."""
    while True:
        port = random.randrange(20_000, 32_000)
        with socket.socket() as tried:
            try:
                tried.bind((HOST, port))
                return port
            except OSError:
                pass


class Storm:
    """Clients with numbered jobs, and their server, which is killed again and again and started on the same file.

    Each job adds 1 to the second cell of a lock, and an amount to the first. Some are entered and committed, and nobody
    else may be inside meanwhile. Half of the clients come by the port, and half by the socket. In a storm that renews the
    file of the state has few jobs of each worker, and few of all.
    """

    WORKERS, LOCKS = 8, ("bank", "shop")

    def __init__(self, folder, seed, renews=False):
        self.seed, self.numbers, self.renews = seed, random.Random(seed), renews
        self.state, self.socket = os.path.join(folder, "state"), os.path.join(folder, "socket")
        self.port = free_port()
        self.receipts = [[] for _ in range(self.WORKERS)]  # of each client, with the lock and the amount of its job
        self.inside = {}
        self.kept = b""  # the whole writes of the file when a server was killed last
        self.unmade = []  # what servers left that were killed while they made the file
        self.wrong, self.kills, self.torn, self.epoch, self.over = [], 0, 0, 0, threading.Event()

    def words(self):
        """When the disk has the lines may change with each start, and after how many jobs the file is renewed."""
        options = {"workers": self.WORKERS, "cells": 2, "port": self.port, "socket": self.socket}
        if self.renews:
            options.update(jobs=20, sections=self.numbers.choice((1, 3, 10, 40)))
        return state_words(self.state, *self.LOCKS, sync=self.numbers.choice(("always", "never", "never")), **options)

    def run(self, kills, epochs=0):
        """Kills this number of servers, has the last one renew the file up to an epoch, and answers what is wrong at
        the end."""
        clients = [threading.Thread(target=self.client, args=(worker,), daemon=True) for worker in range(self.WORKERS)]
        for client in clients:
            client.start()
        while self.kills < kills and not self.wrong:
            self.live()
        if not self.wrong:
            self.end(clients, epochs)
        return self.wrong

    def end(self, clients, epochs):
        """The last server, with which each client finishes."""
        server = Server(words=self.words())
        time.sleep(0.3)
        self.wait_for_epoch(epochs)
        self.over.set()
        latest = time.monotonic() + 60
        for client in clients:
            client.join(max(0, latest - time.monotonic()))
        if any(client.is_alive() for client in clients):
            self.wrong.append(("a client has no end", server.first))
        else:
            self.compare(self.status())
        kill(server)

    def wait_for_epoch(self, epoch):
        """Waits until the file was renewed this number of times, and looks at it meanwhile."""
        latest = time.monotonic() + 120
        while epoch_of(held := read(self.state)) < epoch and time.monotonic() < latest and not self.wrong:
            self.wrong += faults_of(held)

    def status(self):
        """What all are at once the server has seen the end of each client."""
        for _ in range(1000):
            status = Observer(HOST, self.port).status()
            if not any(worker["attached"] for worker in status["workers"]):
                break
            time.sleep(0.01)
        return without_seconds(status)

    # -- the server

    def live(self):
        """Starts a server and kills it: at times while it starts, and most often when some more jobs were answered."""
        how = {"stdin": subprocess.DEVNULL, "stdout": subprocess.PIPE, "stderr": subprocess.PIPE}
        server = subprocess.Popen([built(), *self.words()], **how)
        listens = self.numbers.random() < 0.75 and server.stdout.readline()
        if listens == b"":
            self.wrong.append(("a server that does not listen", server.communicate()))
            return
        self.wait_for_jobs(self.numbers.randrange(100) if listens else 0)
        # Meanwhile the server writes, so that the time of a look must not make the next one longer.
        # The last write may be half there.
        if listens and len(self.kept) < 200_000 and not (ran := look(self.state, "--check")).stdout.startswith(b"yes"):
            self.wrong.append(("look at a file that grows", ran))
        way = self.numbers.choice((signal.SIGKILL, signal.SIGKILL, signal.SIGKILL, signal.SIGTERM))
        server.send_signal(way)
        _, told = server.communicate()
        if server.returncode != -way:
            self.wrong.append(("a server that ended by itself", server.returncode, told))
        self.kills += 1
        self.look_at_file()

    def wait_for_jobs(self, count):
        """Waits for this number of receipts more, and then for a moment. A client that found no server may come only
        after a second."""
        goal, latest = self.jobs() + count, time.monotonic() + 3
        while self.jobs() < goal and time.monotonic() < latest:
            time.sleep(0.0005)
        time.sleep(0.02 * self.numbers.random() ** 2)

    def look_at_file(self):
        """What was in the file stays there until it is renewed. Then bytes of a write that was not finished are appended, or
        none."""
        answered = [len(receipts) for receipts in self.receipts]
        if not self.kept:
            folder, name = os.path.split(self.state)
            self.unmade = [it for it in os.listdir(folder) if it.startswith(f"{name}.") and it.endswith(".new")]
        if not os.path.exists(self.state):  # it was killed before it had made the file
            return
        held = read(self.state)
        is_renewed = self.kept and epoch_of(held) > epoch_of(self.kept)
        if not is_renewed and not held.startswith(self.kept):
            self.wrong.append("a line that was kept is not there any more")
        self.kept = whole(held)
        self.torn += len(self.kept) < len(without_room(held))
        if self.renews:
            self.look_at_numbers(answered)
        if self.numbers.random() < 0.5:
            with open(self.state, "ab") as file:
                file.write(self.numbers.choice(UNSEALED))
            self.torn += 1

    def look_at_numbers(self, answered):
        """What was answered is in the file, whose lines are a run."""
        self.wrong += faults_of(self.kept)
        told = looked(self.state)
        numbers = [worker["number"] for worker in told["workers"]] if isinstance(told, dict) else told
        if not isinstance(told, dict) or any(number < count for number, count in zip(numbers, answered)):
            self.wrong.append(("a job that was answered is not in the file", numbers, answered))

    # -- the clients

    def client(self, worker):
        """Makes jobs of one worker until all is over."""
        numbers = random.Random(f"{self.seed} {worker}")
        try:
            with Worker(HOST, self.port, worker, socket_path=self.socket if worker % 2 else "") as own:
                while not self.over.is_set():
                    lock, amount = numbers.choice(self.LOCKS), numbers.randrange(10**6)
                    receipt = self.job(own, lock, [["add", 1, 1], ["add", 0, amount]], numbers.random() < 0.4)
                    self.receipts[worker].append((receipt, lock, amount))
                    time.sleep(0.004 * numbers.random())
                    if numbers.random() < 0.05:
                        own.close()  # its worker falls, and is attached again
        except Exception as error:
            self.wrong.append((f"client {worker}", repr(error)))

    def job(self, own, lock, script, is_entered):
        """The receipt of the client's next job."""
        number = len(self.receipts[own.worker]) + 1
        while is_entered:
            try:
                return self.entered(own, lock, script, number)
            except Done as done:
                return done.receipt
            except Overtaken as overtaken:  # the answer to its own coming back was lost
                if overtaken.found is not None:
                    raise
        return own.submit(lock, script, number)

    def entered(self, own, lock, script, number):
        with own.inside(lock, script, number) as held:
            if self.inside.setdefault(lock, own.worker) != own.worker:
                self.wrong.append(f"worker {own.worker} is inside {lock} beside worker {self.inside[lock]}")
            time.sleep(0.0005)
            del self.inside[lock]
        if held.section not in (None, held.receipt["place"]):
            self.wrong.append(f"worker {own.worker} was told section {held.section}: {held.receipt}")
        return held.receipt

    # -- at the end

    def compare(self, status):
        """Each job counted once: by its receipt, by the history of the file's lines, and by the cells."""
        held = read(self.state)
        header, *lines = whole_lines(held)
        header = json.loads(header)
        self.epoch = header["epoch"]
        self.wrong += faults_of(held)
        if not {**status, "ok": "status"} == looked(self.state) == status_in(held):
            self.wrong.append(("status, look and run differ", status, looked(self.state), status_in(held)))
        history = self.history_of(header, lines)
        for worker, receipts in enumerate(self.receipts):
            own, before = [receipt for receipt, _, _ in receipts], header["numbers"][worker]
            entries = [entry for entry in history if entry["worker"] == worker]
            if own[before:] != entries or [receipt["number"] for receipt in own] != list(range(1, len(own) + 1)):
                self.wrong.append((f"the receipts of client {worker} are not its entries", own[-2:], entries[-2:]))
            last = header["last"][worker]
            if last != (own[before - 1] if before else None):
                self.wrong.append((f"the header has another receipt of client {worker}", last, own[before - 1 : before]))
        for place, lock in enumerate(status["locks"]):
            self.compare_lock(lock, history, header["places"][place])

    def history_of(self, header, lines):
        """The history of the file's lines as clients know it: without the keeper's, and behind that of earlier epochs."""
        history = [entry for entry in answers_to([*lines, line_of(do="history")])[-1]["entries"]]
        places = dict(zip(self.LOCKS, header["places"]))
        own = [entry for entry in history if entry["worker"] < self.WORKERS]
        for entry in own:
            del entry["script"]
            entry["number"] += header["numbers"][entry["worker"]]
            entry["place"] += places[entry["lock"]]
        return own

    def compare_lock(self, status, history, before):
        """The receipts are the lock's whole history: each place once, and each reply the sum up to there."""
        jobs = [job for receipts in self.receipts for job in receipts if job[1] == status["name"]]
        total = 0
        for place, (receipt, lock, amount) in enumerate(sorted(jobs, key=lambda job: job[0]["place"])):
            total += amount
            if (receipt["lock"], receipt["place"], receipt["reply"]) != (lock, place, total):
                self.wrong.append(("a receipt that does not follow those before", receipt, place, total))
        places = [entry["place"] for entry in history if entry["lock"] == status["name"]]
        count = len(jobs)
        told = places, status["cells"], status["sections"]
        if told != (list(range(count - len(places), count)), [total, count], count) or (self.epoch == 0 and before):
            self.wrong.append(("a lock that has not counted each job once", status, total, count))

    def jobs(self):
        return sum(map(len, self.receipts))
