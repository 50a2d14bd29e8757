"""Storms of job runners: several workers make jobs of a server that keeps its state; both are killed and started again, and the
connections between them are cut."""

import os
import random
import socket
import subprocess
import threading
import time

from lib import clients  # noqa: F401  for the path of rme_client
from lib.checks import check, same
from lib.kept import kill, serve
from lib.peers import Peer
from lib.servers import HOST, RESET

from rme_client import Observer

LOCK, WORKERS, COUNT = "bank", 4, 60
SERVER_KILLS, RUNNER_KILLS = 8, 4
FURTHEST = 3_000  # bytes after which a connection is cut
MOST = 2**64
SECONDS = 600


def amount(worker, number):
    """What the job runners of all clients add to cell 0 with the job of this number."""
    return (1 << 62) + 1000 * number + worker


def free_port(numbers):
    """A port that is free and that the system gives to no connection by itself: below those of its own range."""
    while True:
        port = numbers.randrange(20_000, 32_000)
        with socket.socket() as one:
            try:
                one.bind((HOST, port))
                return port
            except OSError:
                continue


def cutting(port, numbers):
    """A peer that passes bytes on between clients and this port, up to some number of them one way or the other, and then ends
    both connections: by a close or by a reset."""

    def serve(_, client, __, ___):
        with socket.create_connection((HOST, port), 10) as inner:
            inner.settimeout(None)
            back = threading.Thread(target=pump, args=(inner, client, numbers.randrange(1, FURTHEST)), daemon=True)
            back.start()
            pump(client, inner, numbers.randrange(1, FURTHEST))
            back.join()
            if numbers.random() < 0.5:
                for end in (client, inner):
                    end.setsockopt(socket.SOL_SOCKET, socket.SO_LINGER, RESET)

    return Peer(serve)


def pump(giver, taker, most):
    """Passes at most this number of bytes one way, and ends both ways then."""
    try:
        while most and (held := giver.recv(min(4096, most))):
            taker.sendall(held)
            most -= len(held)
    except OSError:
        pass
    for end in (giver, taker):
        try:
            end.shutdown(socket.SHUT_RDWR)
        except OSError:
            pass


class Storm:
    """Job runners, each a command with the workers that it has, and the receipts that they print."""

    def __init__(self, folder, commands, seed):
        self.numbers, self.commands = random.Random(seed), commands
        self.path, self.port = os.path.join(folder, "state"), free_port(self.numbers)
        self.between = cutting(self.port, self.numbers)
        self.receipts, self.wrong, self.heard = {}, [], threading.Condition()
        self.running, self.hearing = {}, []

    def serve(self):
        """Starts the server at its port, which may not be free yet."""
        latest = time.monotonic() + 30
        while True:
            server = serve(self.path, LOCK, workers=WORKERS, cells=2, port=self.port)
            if server.port or time.monotonic() > latest:
                return server
            time.sleep(0.2)

    def start(self, at):
        words = [str(word) for word in self.commands[at](self.between.port)]
        program = subprocess.Popen(words, stdin=subprocess.DEVNULL, stdout=subprocess.PIPE)
        self.running[at] = program
        self.hearing.append(threading.Thread(target=self.hear, args=(program,), daemon=True))
        self.hearing[-1].start()

    def hear(self, program):
        """Takes the receipts of one runner, up to its end."""
        with program.stdout:
            for line in program.stdout:
                if line.endswith(b"\n"):  # else it was killed
                    self.take(*map(int, line.split()))

    def take(self, worker, number, place, reply):
        with self.heard:
            if self.receipts.setdefault((worker, number), (place, reply)) != (place, reply):
                self.wrong.append(("another receipt of the same job", worker, number, place, reply))
            self.heard.notify_all()

    def run(self):
        """Lets them work, and kills the server and the runners at random numbers of receipts."""
        total = WORKERS * COUNT
        marks = sorted(self.numbers.sample(range(4, total - 4), SERVER_KILLS + RUNNER_KILLS))
        of_runners = set(self.numbers.sample(marks, RUNNER_KILLS))
        server, latest = self.serve(), time.monotonic() + SECONDS
        for at in range(len(self.commands)):
            self.start(at)
        for mark in marks:
            if not self.wait(lambda: len(self.receipts) >= mark, latest):
                break
            if mark in of_runners:
                at = self.numbers.randrange(len(self.commands))
                self.running[at].kill()
                self.running[at].wait()
                self.start(at)
            else:
                kill(server)
                time.sleep(0.05 * self.numbers.random())
                server = self.serve()
        self.wait(lambda: all(it.poll() is not None for it in self.running.values()), latest)
        self.end()
        return server

    def wait(self, is_there, latest):
        """Whether it comes before a time, and before something is wrong."""
        with self.heard:
            while not is_there():
                if self.wrong or time.monotonic() > latest:
                    return False
                self.heard.wait(0.2)
        return True

    def end(self):
        for at, program in self.running.items():
            if program.poll() is None:
                self.wrong.append(("no end of a runner", at))
                program.kill()
            elif program.returncode:
                self.wrong.append(("a runner ended with", at, program.returncode))
            program.wait()
        for thread in self.hearing:
            thread.join()
        self.between.close()


def try_storm(name, folder, commands, seed=None):
    """A storm of these runners: each command takes the port. All jobs count once, as they were acknowledged."""
    seed = random.randrange(10**6) if seed is None else seed
    storm = Storm(folder, commands, seed)
    server = storm.run()
    told = f"{name}, seed {seed}, {storm.between.connections} connections"
    is_well = not storm.wrong and storm.between.connections > 20
    check(f"{told}: the runners end", is_well, f"{storm.wrong[:3]}, {len(storm.receipts)} receipts")
    made = [(worker, number) for worker in range(WORKERS) for number in range(1, COUNT + 1)]
    same(f"{name}: a receipt of each job", sorted(storm.receipts), made)
    wanted = [(place, place + 1) for place in range(len(made))]
    same(f"{name}: each at a place of its own, and counted once", sorted(storm.receipts.values()), wanted)
    observer = Observer(HOST, server.port)
    cells = [sum(amount(*job) for job in storm.receipts) % MOST, len(storm.receipts)]
    same(f"{name}: the cells are what was acknowledged", observer.cells(LOCK), {"cells": cells, "settled": True})
    status = observer.status()
    found = [(it["stance"], it["number"]) for it in status["workers"]], status["locks"][0]["sections"]
    same(f"{name}: nothing is pending", found, ([("ready", COUNT)] * WORKERS, len(made)))
    kill(server)
