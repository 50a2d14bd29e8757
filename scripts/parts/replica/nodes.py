"""Nodes that end, stop and come back under a server, a cluster that is full, users, and a cluster that begins with a snapshot."""

import os
import threading
import time

from lib.checks import check, same
from lib.clusters import Cluster, main_with_etcd
from lib.gateways import Gateway
from lib.orders import ONE, STATUS, attach, job, receipt, text
from lib.replicas import Replica, Worker, log_faults, looked, status_in
from lib.servers import line_of

SIZES = {"workers": 4, "cells": 1, "jobs": 4000}


class Client(threading.Thread):
    """Makes jobs of one worker until it is told to end; the longest time between two answers is kept."""

    def __init__(self, server, number, lock):
        super().__init__(daemon=True)
        self.server, self.worker = server, Worker(number, lock)
        self.over, self.longest = threading.Event(), 0.0
        self.start()

    def run(self):
        session = self.server.session()
        session.attach(self.worker.number)
        latest = time.monotonic()
        while not self.over.is_set():
            if not self.worker.is_answered(session):
                self.worker.wrong.append(("no answer to job", self.worker.answered + 1))
                break
            now = time.monotonic()
            self.longest, latest = max(self.longest, now - latest), now
        session.close()

    def made(self, count, seconds=20):
        """Whether this number of further jobs is answered."""
        goal, latest = self.worker.answered + count, time.monotonic() + seconds
        while self.worker.answered < goal and time.monotonic() < latest:
            time.sleep(0.01)
        return self.worker.answered >= goal

    def end(self):
        self.over.set()
        self.join(30)


def try_one_by_one(folder):
    """Each node is killed, and then stopped by a signal for a while, one after another, under a server that makes jobs."""
    with Cluster(os.path.join(folder, "three")) as cluster, Replica(cluster.engines, "bank", "shop", **SIZES) as server:
        check("it leads", server.leads(), server.told())
        clients = [Client(server, number, lock) for number, lock in enumerate(("bank", "shop"))]
        for node in sorted(cluster.nodes, key=lambda node: node.is_leader()):
            what = f"a node that {'leads' if node.is_leader() else 'follows'}"
            node.kill()
            check(f"jobs without {what}", all(client.made(20) for client in clients), server.told())
            cluster.start(node)
            cluster.until_ready()
        leader = cluster.leader()
        leader.stop()
        check("jobs while the leader is stopped", all(client.made(20) for client in clients), server.told())
        leader.go_on()
        check("and after it", all(client.made(20) for client in clients), server.told())
        for client in clients:
            client.end()
        same("each is answered as it should be", [client.worker.wrong for client in clients], [[], []])
        made = [client.worker.answered for client in clients]
        stood = server.session().told(**STATUS)
        same("the cells are the jobs", [lock["cells"] for lock in stood["locks"]], [[count] for count in made])
        longest = max(client.longest for client in clients)
        check(f"{sum(made)} jobs; the longest time without one: {longest:.1f} seconds", longest < 6, longest)
        server.kill()
        same("the log", log_faults(cluster), [])


def try_two_down(folder):
    """Two of three nodes are not there: orders wait, and after the server's patience it ends. When they are back, all is there."""
    patience = 6
    with Cluster(os.path.join(folder, "three")) as cluster:
        with Replica(cluster.engines, patience=patience, **SIZES) as server:
            worker = Worker()
            check("a job", server.leads() and worker.work(server), server.told())
            session, watcher = server.session(), server.session()
            session.attach(0)
            two_down(cluster)
            session.send(line_of(**job("submit", "bank", 2, *ONE)))
            watcher.send(line_of(**STATUS))
            time.sleep(1)
            two_back(cluster)
            same("a job that waited is answered", session.hear(), text(ok="submit", receipt=receipt(0, 2, "bank", 1, 2)) + b"\n")
            check("so is a look", b'"ok":"status"' in watcher.hear())
            two_down(cluster)
            began = time.monotonic()
            session.send(line_of(**job("submit", "bank", 3, *ONE)))
            watcher.send(line_of(**STATUS))
            status, told = server.end()
            took = time.monotonic() - began
            same("after its patience the server ends", status, 4)
            check("not long after", took < patience + 3, took)
            check("and says why", b"fault: " in told, told)
            same("nothing is answered", (session.hear(), watcher.hear()), (b"", b""))
            two_back(cluster)
        worker.answered = 2
        with Replica(cluster.engines, quiet=1, patience=30, **SIZES) as server:
            check("the next one goes on", server.leads() and worker.work(server, 2), server.told())
        same("each is answered as it should be", worker.wrong, [])
        same("the log", log_faults(cluster), [])


def try_none(folder):
    """No node is there, so that each refuses connections at once: orders wait as long as for nodes that are silent."""
    patience = 6
    with Cluster(os.path.join(folder, "three")) as cluster:
        with Replica(cluster.engines, patience=patience, **SIZES) as server:
            worker = Worker()
            check("a job", server.leads() and worker.work(server), server.told())
            session = server.session()
            session.attach(0)
            all_down(cluster)
            session.send(line_of(**job("submit", "bank", 2, *ONE)))
            time.sleep(patience / 2)
            all_back(cluster)
            same("a job that waited is answered", session.hear(), text(ok="submit", receipt=receipt(0, 2, "bank", 1, 2)) + b"\n")
            all_down(cluster)
            began = time.monotonic()
            session.send(line_of(**job("submit", "bank", 3, *ONE)))
            same("after its patience the server ends", server.end()[0], 4)
            took = time.monotonic() - began
            check(f"after {took:.1f} of {patience} seconds", patience - 2 < took < patience + 3, took)
            same("nothing is answered", session.hear(), b"")


def all_down(cluster):
    for node in cluster.nodes:
        node.kill()


def all_back(cluster):
    for node in cluster.nodes:
        cluster.start(node)
    cluster.until_ready()


def two_down(cluster):
    for node in cluster.nodes[1:]:
        node.kill()


def two_back(cluster):
    for node in cluster.nodes[1:]:
        cluster.start(node)
    cluster.until_ready()


def try_not_there(folder):
    """Servers and `rme look` of a cluster that does not answer, and of a port at which nobody listens."""
    with Cluster(os.path.join(folder, "one"), 1) as cluster:
        node, began = cluster.nodes[0], time.monotonic()
        node.stop()
        with Replica(cluster.engines, patience=2, **SIZES) as server:
            check("a server ends", server.end()[0] in (3, 6), server.end())
            check("after its patience", 1 < time.monotonic() - began < 6, time.monotonic() - began)
        check("so does a look", looked(cluster.engines, patience=2).returncode != 0)
        node.go_on()
        node.kill()
        with Replica(cluster.engines, patience=2, **SIZES) as server:
            status, told = server.end()
            same("nobody listens", status, 6)
            check("it says so", b"fault: " in told, told)


def try_full(folder):
    """A cluster has no room: the server ends at once, and the next one goes on when its operator has made room."""
    with Cluster(os.path.join(folder, "one"), 1, ("--quota-backend-bytes", "300000")) as cluster:
        with Replica(cluster.engines, **SIZES) as server:
            worker = Worker()
            check("it leads", server.leads(), server.told())
            while worker.answered < 3000 and worker.work(server, 50):
                pass
            status, told = server.end(5)
            same("it ends", status, 4)
            check("it says that there is no room", b"no room" in told, told)
        check(f"after {worker.answered} jobs", worker.answered > 20)
        same("what was answered is there", status_in(cluster.engines)["workers"][0]["number"] - worker.answered in (0, 1), True)
        make_room(cluster)
        with Replica(cluster.engines, flags=["--take"], sections=10, **SIZES) as server:
            goes_on = server.leads() and worker.work(server, 3)
            check("the next one goes on", goes_on, goes_on or (server.end(5), worker.wrong))
        same("each is answered as it should be", worker.wrong, [])
        same("the log", log_faults(cluster), [])


def make_room(cluster):
    """What an operator does: forgets earlier revisions, gives their room back, and ends the alarm."""
    revision = cluster.ask("/v3/maintenance/status", {})["header"]["revision"]
    for words in (("compact", revision), ("defrag",), ("alarm", "disarm")):
        cluster.control(*words)


def try_users(folder):
    """A cluster whose users have passwords: a server with the right one, also after the nodes have forgotten who logged in."""
    with Cluster(os.path.join(folder, "one"), 1) as cluster:
        cluster.add_users("owner's", rme="right")
        cluster.control("user", "add", "other:right")
        files = {}
        for password in ("right", "wrong"):
            files[password] = os.path.join(folder, password)
            with open(files[password], "w", encoding="utf-8") as file:
                file.write(password + "\n")
            os.chmod(files[password], 0o600)
        right = {"user": "rme", "password_file": files["right"]}
        for what, login in {
            "no user": {},
            "a wrong password": {"user": "rme", "password_file": files["wrong"]},
            "a user that is not there": {"user": "nobody", "password_file": files["right"]},
            "a user who may not": {"user": "other", "password_file": files["right"]},
        }.items():
            with Replica(cluster.engines, patience=8, **login, **SIZES) as server:
                status, told = server.end(6)
                same(f"{what}: it ends at once", status, 2)
                check("and says why", b"fault: " in told and server.printed() == [], (told, server.printed()))
            check("so does a look", looked(cluster.engines, patience=8, **login).returncode != 0)
        worker = Worker()
        with Replica(cluster.engines, **right, **SIZES) as server:
            check("with the right one it leads", server.leads() and worker.work(server, 2), server.told())
            cluster.nodes[0].kill()
            cluster.start(cluster.nodes[0])
            cluster.until_ready()
            check("it logs in again", worker.work(server, 2), server.told())
        same("a look", status_in(cluster.engines, **right)["workers"][0]["number"], 4)
        same("each is answered as it should be", worker.wrong, [])
        same("the log", log_faults(cluster, **right), [])


def try_snapshot(folder):
    """A cluster that begins with a snapshot of another has the jobs up to that. A leader of the other one adds nothing to it."""
    with Cluster(os.path.join(folder, "one"), 1) as cluster, Gateway(cluster.nodes[0].port) as gateway:
        with Replica(gateway.engine, **SIZES) as old:
            worker = Worker()
            check("jobs", old.leads() and worker.work(old, 5), old.told())
            path = cluster.snapshot(os.path.join(folder, "snapshot"))
            check("more jobs", worker.work(old, 5), old.told())
            with Cluster(os.path.join(folder, "two"), 1, snapshot=path) as other:
                held = other.log()
                gateway.node_port = other.nodes[0].port
                cluster.end()
                session = old.session()
                session.send(line_of(**attach(1)))
                same("the leader answers nothing", session.hear(), b"")
                same("and ends", old.end()[0], 4)
                same("it has added nothing", other.log(), held)
                same("the jobs before the snapshot are there", status_in(other.engines)["workers"][0]["number"], 5)
                worker.answered = 5
                with Replica(other.engines, flags=["--take"], **SIZES) as new:
                    check("a server goes on with them", new.leads() and worker.work(new, 2), new.told())
                same("each is answered as it should be", worker.wrong, [])
                same("the log", log_faults(other), [])


def part():
    groups = try_one_by_one, try_two_down, try_none, try_not_there, try_full, try_users, try_snapshot
    main_with_etcd(*groups, minutes=2)
