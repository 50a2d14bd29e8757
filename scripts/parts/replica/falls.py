"""Servers that are killed at each request to the cluster, before the node has it or after the node did what it says: while they
create a log, claim one, append to it, and make a checkpoint. The next server goes on, and each job counts once."""

import os
import signal
import subprocess

from lib.checks import check, same
from lib.clusters import Cluster, main_with_etcd
from lib.gateways import Gateway
from lib.kept import kill, looked, serve
from lib.orders import ONE, attach, job
from lib.programs import built, run
from lib.replicas import Replica, Worker, log_faults, status_in

SIZES = {"workers": 2, "cells": 1, "jobs": 40}
MOST = 60  # requests of a life


class Fall:
    """A manner of a gateway: at the request of this number the server is killed."""

    def __init__(self, number, is_done):
        self.number, self.is_done, self.count, self.server = number, is_done, 0, None

    def __call__(self, _number, request, answer):
        self.count += 1
        if self.count != self.number:
            return answer(request)
        told = answer(request) if self.is_done else b""
        self.server.send_signal(signal.SIGKILL)
        return told

    def has_come(self):
        return self.count >= self.number


def live(cluster, worker, fall, **options):
    """A server that falls while a worker makes jobs, and one that goes on: what is wrong."""
    options = {**SIZES, "flags": ["--take"], **options}
    with Gateway(cluster.nodes[0].port, fall) as gateway:
        gateway.freeze()  # until it is known whom to kill
        with Replica(gateway.engine, **options) as fall.server:
            gateway.thaw()
            if fall.server.leads():
                worker.work(fall.server, 7)
            if fall.has_come() and (ended := fall.server.end())[0] != -signal.SIGKILL:
                return [("the server ended by itself", ended)]
    with Replica(cluster.engines, **options) as server:
        if not server.leads():
            return [("the next server does not lead", server.kill())]
        if not worker.work(server, 5):  # with a checkpoint, if one is due: so the log stays short
            return [("the next server does not answer", server.kill())]
    return worker.wrong


def sweep(cluster, name, worker_of, **options):
    """Falls at each request of a life, up to one that has no more."""
    count, wrong = 0, []
    for number in range(1, MOST):
        for is_done in (False, True):
            at, log = Fall(number, is_done), options.get("log") or f"bank-{number}-{int(is_done)}"
            wrong += [(number, is_done, it) for it in live(cluster, worker_of(log), at, **{**options, "log": log})]
            count += at.has_come()
        if wrong or not at.has_come():
            break
    check(f"{name}: {count} falls, each job once", not wrong and 2 < count < 2 * (MOST - 1), wrong[:2])


def try_creating(folder):
    """Each life begins a log of its own."""
    with Cluster(os.path.join(folder, "one"), 1) as cluster:
        sweep(cluster, "a log that is created", lambda _: Worker(), sections=1000)


def try_going_on(folder):
    """All lives are of one log, with a checkpoint after every fourth job."""
    with Cluster(os.path.join(folder, "one"), 1) as cluster:
        worker = Worker()
        sweep(cluster, "a log with checkpoints", lambda _: worker, log="bank", sections=4)
        same("its records", log_faults(cluster), [])
        same("no records of another epoch are left", list(cluster.epochs()), [cluster.head()["epoch"]])
        check("there were checkpoints", cluster.head()["epoch"] > 10, cluster.head())


def try_moving(folder):
    """`rme move` of a file that is killed at each request: no server begins with what it left, unless all of it was made; and the
    same move again goes on."""
    path, wrong, count = os.path.join(folder, "bank.state"), [], 0
    server = serve(path, "bank", **SIZES)
    one = server.session()
    one.ask_all(attach(0), *(job("submit", "bank", number, *ONE) for number in range(1, 8)))
    kill(server)
    with Cluster(os.path.join(folder, "one"), 1) as cluster:
        for number in range(1, MOST):
            for is_done in (False, True):
                fall, log = Fall(number, is_done), f"bank-{number}-{int(is_done)}"
                moved_in_two(cluster, path, log, fall, wrong)
                count += fall.has_come()
            if wrong or not fall.has_come():
                break
    check(f"a file that is moved: {count} falls", not wrong and count > 2, wrong[:2])


def moved_in_two(cluster, path, log, fall, wrong):
    """A move that falls, and the same again."""
    with Gateway(cluster.nodes[0].port, fall) as gateway:
        gateway.freeze()
        fall.server = subprocess.Popen([built(), "move", path, f"etcd:{log}", "--engine", gateway.engine], stdout=subprocess.DEVNULL)
        gateway.thaw()
        fall.server.wait(20)
    before = status_in(cluster.engines, log=log)
    again = run(["move", path, f"etcd:{log}", "--engine", cluster.engines])
    if again.returncode != (2 if isinstance(before, dict) else 0):
        wrong.append((log, before, again))
    if looked(path) != status_in(cluster.engines, log=log):
        wrong.append((log, "the log is not the file", status_in(cluster.engines, log=log)))


def part():
    main_with_etcd(try_creating, try_going_on, try_moving, minutes=3)
