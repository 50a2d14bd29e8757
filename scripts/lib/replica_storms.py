"""Storms over servers of a log in a cluster of three nodes: servers are killed, stopped by a signal and cut off from the cluster,
and nodes are killed and stopped, under clients with numbered jobs. Each job counts once."""

import collections
import contextlib
import os
import random
import signal
import threading
import time

from lib.clusters import Cluster
from lib.gateways import Gateway, asked_twice, delayed, doubled, each_third, halved, unanswered, unsent, whole
from lib.kept import written
from lib.orders import without_seconds
from lib.replicas import Replica, lines_in, status_in
from lib.servers import HOST
from lib.storms import Storm, free_port
from rme_client import Observer, Worker

QUIET, PATIENCE = 1, 8  # seconds
MANNERS = (whole, whole, delayed(0.05), asked_twice, *map(each_third, (unanswered, unsent, halved, doubled)))


class Place:
    """Where a server runs, one after another, with gateways of its own to all nodes."""

    def __init__(self, cluster):
        self.port = free_port()
        self.gateways = [Gateway(node.port) for node in cluster.nodes]
        self.engines = ",".join(gateway.engine for gateway in self.gateways)
        self.server = None


class ReplicaStorm(Storm):
    """The clients are those of `Storm`, and know the addresses of all servers."""

    SERVERS = 2

    def __init__(self, folder, seed):
        super().__init__(folder, seed, renews=True)
        self.cluster = Cluster(os.path.join(folder, "three"))
        self.places = [Place(self.cluster) for _ in range(self.SERVERS)]
        self.counts = collections.Counter()
        self.least = None  # when all is over, the highest term that was seen

    # -- the servers

    def start(self, place, *flags):
        options = {"workers": self.WORKERS, "cells": 2, "jobs": 20, "sections": self.numbers.choice((5, 40, 400))}
        place.server = Replica(place.engines, *self.LOCKS, flags=flags, port=place.port, quiet=QUIET, patience=PATIENCE, **options)

    def restart(self, place):
        """A server that ended by itself may do so only as one that has lost its log, or as a standby without a cluster; the
        next one begins."""
        if place.server.program.poll() is None:
            return
        status, told = place.server.end()
        if status not in (4, -signal.SIGKILL) and not (status in (3, 6) and not place.server.leads(0)):
            self.wrong.append(("a server that ended by itself", status, told))
        self.counts["ends"] += status != -signal.SIGKILL
        self.start(place)

    def run(self, acts):
        """Does this number of acts, and answers what is wrong at the end."""
        try:
            for place in self.places:
                self.start(place)
            clients = [threading.Thread(target=self.client, args=(worker,), daemon=True) for worker in range(self.WORKERS)]
            for client in clients:
                client.start()
            while self.kills < acts and not self.wrong:
                self.act()
                self.kills += 1
                self.go_on()
            if not self.wrong:
                self.end(clients)
        finally:
            self.over.set()
            self.close()
        return self.wrong

    def act(self):
        """One thing that goes wrong, for a while, and is mended; or a server that is killed."""
        place, node = self.numbers.choice(self.places), self.numbers.choice(self.cluster.nodes)
        act = self.numbers.choice((self.fall, self.fall, self.pause, self.cut_off, self.lose, self.take, self.kill_node, self.stop_node))
        self.counts[act.__name__] += 1
        act(place, node)

    def go_on(self):
        """Waits for some jobs more, which some server must answer."""
        for place in self.places:
            self.restart(place)
        goal, latest = self.jobs() + self.numbers.randrange(1, 40), time.monotonic() + 30
        while self.jobs() < goal and not self.wrong:
            for place in self.places:
                self.restart(place)
            if time.monotonic() > latest:
                said = [(place.server.printed(), place.server.told()[-300:]) for place in self.places]
                self.wrong.append(("no job in half a minute", self.counts, said))
            time.sleep(0.002)

    def moment(self, most):
        time.sleep(most * self.numbers.random() ** 2)

    def fall(self, place, _node):
        place.server.send_signal(signal.SIGKILL)
        self.moment(0.3)

    def pause(self, place, _node):
        place.server.stop()
        self.moment(4)
        place.server.go_on()

    def cut_off(self, place, _node):
        for gateway in place.gateways:
            gateway.freeze()
        self.moment(4)
        for gateway in place.gateways:
            gateway.thaw()

    def lose(self, place, _node):
        for gateway in place.gateways:
            gateway.manner = self.numbers.choice(MANNERS)
        self.moment(2)

    def take(self, place, _node):
        place.server.send_signal(signal.SIGKILL)
        place.server.end()
        self.start(place, "--take")

    def kill_node(self, _place, node):
        node.kill()
        self.moment(2)
        self.cluster.start(node)
        self.cluster.until_ready()

    def stop_node(self, _place, node):
        node.stop()
        self.moment(2)
        node.go_on()
        self.cluster.until_ready()

    # -- the clients

    def client(self, worker):
        """Makes jobs of one worker until all is over."""
        numbers = random.Random(f"{self.seed} {worker}")
        ports = [place.port for place in self.places]
        first, *further = ports[worker % len(ports) :] + ports[: worker % len(ports)]
        try:
            with Worker(HOST, first, worker, further=[(HOST, port) for port in further], timeout=5) as own:
                while not self.over.is_set():
                    lock, amount = numbers.choice(self.LOCKS), numbers.randrange(10**6)
                    receipt = self.job(own, lock, [["add", 1, 1], ["add", 0, amount]], numbers.random() < 0.4)
                    self.receipts[worker].append((receipt, lock, amount))
                    time.sleep(0.02 * numbers.random())
        except Exception as error:
            if not self.over.is_set() or "Unreachable" not in repr(error):
                self.wrong.append((f"client {worker}", repr(error)))

    # -- at the end

    def end(self, clients):
        """All is mended, and each client finishes."""
        for place in self.places:
            for gateway in place.gateways:
                gateway.manner = whole
        self.go_on()
        self.over.set()
        latest = time.monotonic() + 60
        for client in clients:
            client.join(max(0, latest - time.monotonic()))
        if any(client.is_alive() for client in clients):
            self.wrong.append(("a client has no end", [place.server.printed() for place in self.places]))
            return
        status = self.status()
        if {**status, "ok": "status"} != status_in(self.cluster.engines):
            self.wrong.append(("status and look differ", status, status_in(self.cluster.engines)))
        held = lines_in(self.cluster.engines)
        if held != self.cluster.log():
            self.wrong.append(("the lines of look are not the records", held[-200:]))
        written(self.state, held)
        self.compare(status)
        self.counts["terms"], self.counts["renewals"] = self.cluster.head()["term"], self.epoch

    def status(self):
        """What all are at once the leader has seen the end of each client."""
        leader = next(place.port for place in self.places if place.server.leads(0) and place.server.program.poll() is None)
        for _ in range(1000):
            status = Observer(HOST, leader).status()
            if not any(worker["attached"] for worker in status["workers"]):
                break
            time.sleep(0.01)
        return without_seconds(status)

    def close(self):
        for place in self.places:
            with contextlib.suppress(AttributeError):
                place.server.kill()
            for gateway in place.gateways:
                gateway.close()
                gateway.thaw()
        self.cluster.end()
