"""hand: a first log by hand, `rme look` and `rme move` of logs, and words that are refused."""

import os
import re
import time

from lib.checks import check, same
from lib.clusters import Cluster, main_with_etcd
from lib.kept import end_of, faults_of, kill, look, looked, read, serve
from lib.orders import COMMIT, ONE, STATUS, attach, job, receipt, stands, text, without_seconds
from lib.programs import ends_with, run
from lib.replicas import LOG, Replica, Worker, lines_in, log_faults, split_leader, status_in
from lib.replicas import looked as looked_log

SIZES = {"workers": 2, "cells": 2, "jobs": 10}
LEADER = rb"leader (\S+) term (\d+) seq (\d+) (changed (\d+\.\d) s ago|quiet)"


def leader_in(engines):
    """The line about the leader, as `rme look` prints it: the address, the term, and the number of records."""
    told = looked_log(engines).stdout
    found = re.search(rb"^%s$" % LEADER, told, re.M)
    return (found[1].decode(), int(found[2]), int(found[3])) if found else told


# ---- a first log


def try_first(folder):
    """A server creates the log; it is killed while one is inside; the server behind it goes on."""
    with Cluster(os.path.join(folder, "three")) as cluster:
        first = Replica(cluster.engines, "bank", "shop", quiet=1, **SIZES)
        check("it leads", first.leads(), first.told())
        same("it prints its port", first.printed(), [b"listening %d\n" % first.port])
        session = first.session()
        told = session.ask_all(attach(0), job("submit", "bank", 1, ["add", 0, 5]), job("enter", "shop", 2, *ONE))
        wanted = stands("ready", 0), text(ok="submit", receipt=receipt(0, 1, "bank", 0, 5))
        same("a job, and one that is inside", told[:2], list(wanted))
        check("inside", b'"stance":"held"' in told[2], told)
        shown = first.session().told(**STATUS)
        same("the members of status", list(shown), ["epoch", "leader", "locks", "ok", "term", "workers"])
        status, leader = split_leader(shown)
        same("it is in the log", status_in(cluster.engines), without_seconds(status))
        same("status names the leader", leader, (first.address, 1))
        asked = run(["ask", "--port", str(first.port), "status"]).stdout
        same("so does ask", asked.split(b"\n")[:2], [b"leader %s term 1" % first.address.encode(), b""])
        same("so says the head", {key: cluster.head()[key] for key in ("addr", "epoch", "term")}, {"addr": first.address, "epoch": 0, "term": 1})
        same("look names the leader", leader_in(cluster.engines), (first.address, 1, cluster.head()["seq"]))
        second = Replica(cluster.engines, "bank", "shop", quiet=1, **SIZES)
        check("another one stands by", second.stands_by(), second.told())
        same("and says so", second.printed(), [b"standby behind %s\n" % first.address.encode()])
        first.kill()
        check("it takes over", second.leads(), second.told())
        session = second.session()
        same("status names another leader", split_leader(session.told(**STATUS))[1], (second.address, 2))
        same("the worker is inside", session.ask(attach(0)), stands("held", 2))
        same("and commits", session.ask(COMMIT), text(ok="commit", receipt=receipt(0, 2, "shop", 0, 1)))
        same("look names another leader", leader_in(cluster.engines)[:2], (second.address, 2))
        second.kill()
        replayed(cluster)


def replayed(cluster):
    """The lines of the log are a state file, and a run."""
    same("the log", log_faults(cluster), [])
    held = lines_in(cluster.engines)
    lines = held[held.index(b"\n") + 1 :]
    ran = run(["run", "--transcript"], lines)
    same("its lines are a run", (ran.returncode, run(["check"], ran.stdout).stdout), (0, b"yes\n"))
    same("look says so", ends_with(looked_log(cluster.engines, "--check")), (0, b"yes\n", b""))


def try_without_locks(folder):
    """Words that the log has need not be said again; others are refused, and change nothing."""
    with Cluster(os.path.join(folder, "one"), 1) as cluster:
        with Replica(cluster.engines, "bank", "shop", **SIZES) as server:
            check("it leads", server.leads(), server.told())
        held = cluster.log()
        for what, locks, sizes in (
            ("another lock", ("mill",), {}),
            ("fewer workers", ("bank", "shop"), {"workers": 1}),
            ("fewer cells", ("bank", "shop"), {"cells": 1}),
        ):
            with Replica(cluster.engines, *locks, flags=["--take"], **sizes) as server:
                status, told = server.end()
                same(f"{what}: status 2", status, 2)
                check("it says why", told != b"" and server.printed() == [], (told, server.printed()))
        same("nothing has changed", cluster.log(), held)
        with Replica(cluster.engines, "bank", "shop", "mill", flags=["--take"], workers=3, cells=2) as server:
            check("a log grows", server.leads(), server.told())
            told = server.session().told(**STATUS)
            same("workers and locks", (len(told["workers"]), [lock["name"] for lock in told["locks"]]), (3, ["bank", "shop", "mill"]))
        same("the log", log_faults(cluster), [])


def try_words(_folder):
    """Options that are missing, contradict each other or have a bad value are refused: status 2, and the option is named."""
    place, name = ["--state", f"etcd:{LOG}"], ["--name", "a:1"]
    engine, more = ["--engine", "127.0.0.1:1"], ["--port", "0", "bank"]
    for words, named in (
        ([*place, *name, *more], b"--engine"),
        ([*place, *engine, *more], b"--name"),
        (["--state", "etcd:", *engine, *name, *more], b"etcd:"),
        (["--state", "etcd:A", *engine, *name, *more], b"etcd:"),
        (["--state", "etcd:" + 65 * "a", *engine, *name, *more], b"etcd:"),
        (["--state", "bank.state", *engine, *more], b"--engine"),
        (["--state", "bank.state", *name, *more], b"--name"),
        ([*place, *engine, *name, "--sync", "always", *more], b"--sync"),
        ([*place, *engine, *name, "--sync", "never", *more], b"--sync"),
        ([*place, *engine, *name, "--user", "rme", *more], b"--user needs --password-file"),
        ([*place, *engine, *name, "--password-file", "f", *more], b"--password-file needs --user"),
        ([*place, *engine, *name, "--patience", "0", *more], b"--patience"),
        ([*place, *engine, *name, "--quiet", "none", *more], b"--quiet"),
        ([*place, "--engine", "127.0.0.1", *name, *more], b"--engine"),
        ([*place, "--engine", "127.0.0.1:99999", *name, *more], b"--engine"),
        ([*place, "--engine", "127.0.0.1:1,", *name, *more], b"--engine"),
    ):
        is_refused("serve", words, named)
    for command, words in ("look", [f"etcd:{LOG}"]), ("move", ["bank.state", f"etcd:{LOG}"]):
        for more, named in (
            ([], b"--engine"),
            ([*engine, "--user", "rme"], b"--user needs --password-file"),
            ([*engine, "--password-file", "f"], b"--password-file needs --user"),
            ([*engine, *name], b"--name"),
        ):
            is_refused(command, [*words, *more], named)


def is_refused(command, words, named):
    status, printed, told = end_of([command, *words])
    same(f"status 2: {command} {' '.join(words)[:80]}", (status, printed), (2, b""))
    check(f"it names {named.decode()}", named in told, told)


def try_damage(folder):
    """A head or a record that another program has changed or removed: a start is refused, and changes nothing."""
    with Cluster(os.path.join(folder, "one"), 1) as cluster:
        with Replica(cluster.engines, **SIZES) as server:
            worker = Worker()
            check("jobs", server.leads() and worker.work(server, 3), server.told())
        begin = b"rme/%s/" % LOG.encode()
        good = cluster.pairs(begin, begin[:-1] + b"0")
        head = begin + b"head"
        records = sorted(key for key in good if key.startswith(begin + b"e/"))
        first, middle = records[0], records[len(records) // 2]
        changed = good[middle].replace(b'"worker":0', b'"worker":1')
        seq = b'"seq":%d' % len(records)
        for what, key, value in (
            ("a record is missing", middle, None),
            ("the first one is missing", first, None),
            ("a record has changed", middle, changed),
            ("two records have changed places", middle, good[records[1]]),
            ("a record is empty", middle, b""),
            ("a record is no text", middle, bytes(range(256))),
            ("the head is no text", head, bytes(range(256))),
            ("the head is another program's", head, b'{"version":1}'),
            ("the head has another version", head, good[head].replace(b'"version":1', b'"version":2')),
            ("the head names one record more", head, good[head].replace(seq, b'"seq":%d' % (len(records) + 1))),
            ("the head names 2^64 - 1 records", head, good[head].replace(seq, b'"seq":%d' % (2**64 - 1))),
        ):
            cluster.put(key, value) if value is not None else cluster.drop(key)
            held = cluster.pairs(begin, begin[:-1] + b"0")
            with Replica(cluster.engines, flags=["--take"], patience=1) as server:
                status, told = server.end()
                check(f"{what}: status 2 or 3", status in (2, 3) and server.printed() == [], (status, server.printed()))
                check("it says why", b"fault: " in told, told)
            check("so does a look", looked_log(cluster.engines, patience=1).returncode in (2, 3))
            same("nothing has changed", cluster.pairs(begin, begin[:-1] + b"0"), held)
            cluster.put(key, good[key])
        with Replica(cluster.engines, flags=["--take"]) as server:
            check("all is as it was: a server goes on", server.leads() and worker.work(server), server.told())
        same("each is answered as it should be", worker.wrong, [])


# ---- rme look and rme move


def try_look(folder):
    """Of a log that is not there, and of one with a job, in all forms."""
    with Cluster(os.path.join(folder, "one"), 1) as cluster:
        ran = looked_log(cluster.engines)
        check("there is no log", ran.returncode == 2 and ran.stdout == b"" and ran.stderr, ran)
        with Replica(cluster.engines, **SIZES) as server:
            worker = Worker()
            check("a job", server.leads() and worker.work(server), server.told())
            told = looked_log(cluster.engines).stdout
            if b" quiet\n" in told:  # the next beat comes up to two seconds after a change
                told = looked_log(cluster.engines).stdout
            check("the leader's line", re.search(rb"^leader \S+ term 1 seq \d+ changed \d+\.\d s ago$", told, re.M), told)
        path = os.path.join(folder, "copy")
        with open(path, "wb") as file:
            file.write(lines_in(cluster.engines))
        same("the lines are a state file", looked(path), status_in(cluster.engines))
        without = re.sub(rb"\A%s\n+" % LEADER, b"", looked_log(cluster.engines).stdout)
        same("the tables are those of the file", without, look(path).stdout)
        time.sleep(1.6)
        check("nobody leads", b" quiet\n" in looked_log(cluster.engines).stdout, looked_log(cluster.engines).stdout)


def move(cluster, *words):
    return run(["move", *words, "--engine", cluster.engines])


def try_move(folder):
    """A state file becomes a log, and a log a file; what is there already is left as it is."""
    path, back = os.path.join(folder, "bank.state"), os.path.join(folder, "back.state")
    server = serve(path, "bank", sync="always", **SIZES)
    session = server.session()
    session.ask_all(attach(0), *(job("submit", "bank", number, ["add", 0, 1]) for number in (1, 2, 3)))
    with Cluster(os.path.join(folder, "one"), 1) as cluster:
        check("a file that a server has is not moved", move(cluster, path, f"etcd:{LOG}").returncode != 0 and cluster.head() is None)
        kill(server)
        held = read(path)
        ran = move(cluster, path, f"etcd:{LOG}")
        same("it is moved", ran.returncode, 0)
        same("the log is the file", (status_in(cluster.engines), read(path)), (looked(path), held))
        check("once", move(cluster, path, f"etcd:{LOG}").returncode == 2)
        worker = Worker()
        worker.answered = 3
        with Replica(cluster.engines, quiet=1) as server:
            check("a server leads it", server.leads() and worker.work(server, 2), server.told())
            ran = move(cluster, f"etcd:{LOG}", back)
            check("a log that a server has is not moved", ran.returncode == 2 and not os.path.exists(back), ran)
        time.sleep(3.2)
        ran = move(cluster, f"etcd:{LOG}", back)
        same("it is moved back", (ran.returncode, ran.stderr), (0, b""))
        same("the file is the log", looked(back), status_in(cluster.engines))
        check("once", move(cluster, f"etcd:{LOG}", back).returncode == 2)
        same("its lines are a run", faults_of(read(back)), [])
        server = serve(back)
        same("and a server has it", server.session().attach(0)["number"], 5)
        kill(server)
        same("each is answered as it should be", worker.wrong, [])


def part():
    main_with_etcd(try_first, try_without_locks, try_words, try_damage, try_look, try_move, minutes=2)
