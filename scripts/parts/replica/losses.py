"""A gateway between a server and its cluster that loses, delays and doubles requests and answers, or sends what is no answer. No
job is lost, none counts twice, and the server goes on."""

import os

from lib.checks import check, same
from lib.clusters import Cluster, main_with_etcd
from lib.gateways import GARBAGE, Gateway, answering, asked_twice, delayed, doubled, each_third, halved, unanswered, unsent, whole
from lib.replicas import Replica, Worker, log_faults

SIZES = {"workers": 2, "cells": 1, "jobs": 60, "sections": 25, "patience": 20}
MANNERS = {
    "each third answer is lost": (each_third(unanswered), 40),
    "each third request is lost": (each_third(unsent), 40),
    "half of each third answer comes": (each_third(halved), 40),
    "each third answer comes twice": (each_third(doubled), 40),
    "each third request comes twice": (each_third(asked_twice), 40),
    "all requests come twice": (asked_twice, 20),
    "all come late": (delayed(0.1), 10),
}


def through(folder, name, manners):
    """Has a server make jobs through a gateway of each of these manners in turn."""
    with Cluster(os.path.join(folder, "one"), 1) as cluster, Gateway(cluster.nodes[0].port) as gateway:
        with Replica(gateway.engine, **SIZES) as server:
            worker = Worker()
            check(f"{name}: it leads", server.leads(), server.told())
            for what, (manner, count) in manners.items():
                gateway.manner, before = manner, worker.answered
                worker.work(server, count)
                gateway.manner = whole
                same(f"{what}: {count} jobs", worker.answered - before, count)
                if server.program.poll() is not None:
                    break
            same("each is answered as it should be", worker.wrong, [])
            check("the server goes on", worker.work(server), server.kill())
        same("the log", log_faults(cluster), [])
        return worker.answered


def try_losses(folder):
    through(folder, "losses", MANNERS)


def try_garbage(folder):
    """What no node answers comes in place of each third answer, with and without the node having done what it was asked."""
    manners = {}
    for what, held in GARBAGE.items():
        for is_asked in (True, False):
            manners[f"{what}, {'' if is_asked else 'not '}done"] = each_third(answering(held, is_asked)), 4
    through(folder, "garbage", manners)


def try_starts(folder):
    """Servers that begin, and take over from each other, through gateways that lose something."""
    with Cluster(os.path.join(folder, "one"), 1) as cluster, Gateway(cluster.nodes[0].port) as gateway:
        worker = Worker()
        for what, (manner, _) in MANNERS.items():
            gateway.manner = manner
            with Replica(gateway.engine, flags=["--take"], **SIZES) as server:
                check(f"{what}: it leads", server.leads(), server.told())
                check("a job", worker.work(server, 2), server.told())
            gateway.manner = whole
        same("each is answered as it should be", worker.wrong, [])
        same("the log", log_faults(cluster), [])


def part():
    main_with_etcd(try_losses, try_garbage, try_starts, minutes=2)
