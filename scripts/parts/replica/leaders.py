"""Who leads a log. A server that stands by takes over when the leader is quiet; of servers that begin at once one leads. A leader
that is stopped by a signal, or cut off from the cluster, while another takes over, answers nothing afterwards."""

import os
import statistics
import subprocess
import sys
import threading
import time

from lib.asks import ask, ports_of
from lib.checks import check, same
from lib.clusters import Cluster, main_with_etcd
from lib.gateways import Gateway
from lib.holds import environment
from lib.orders import LAST, ONE, STATUS, attach, job
from lib.programs import built
from lib.replicas import Replica, Worker, log_faults, looked, split_leader, status_in
from lib.servers import line_of

QUIET, SLACK = 1, 1.5  # seconds
SIZES = {"workers": 8, "cells": 1, "jobs": 400, "quiet": QUIET}


# ---- taking over


def try_taking_over(folder):
    """Ten times a leader is killed, and the server behind it goes on."""
    with Cluster(os.path.join(folder, "three")) as cluster:
        worker, times, leader = Worker(), [], Replica(cluster.engines, **SIZES)
        check("the first one leads", leader.leads(), leader.told())
        for _ in range(10):
            standby = Replica(cluster.engines, **SIZES)
            same("it stands by", standby.stands_by() and standby.printed(), [b"standby behind %s\n" % leader.address.encode()])
            check("jobs are made", worker.work(leader, 5))
            time.sleep(0.3)
            check("it does not lead meanwhile", len(standby.printed()) == 1 and is_refused(standby), standby.printed())
            killed = time.monotonic()
            leader.kill()
            if not check("it leads", at := standby.leads(), (standby.told(), standby.printed())):
                break
            times.append(at - killed)
            leader = standby
        check("the jobs go on", worker.work(leader) and not worker.wrong, worker.wrong)
        told = f"{statistics.median(times):.2f} of {', '.join(f'{it:.2f}' for it in sorted(times))}"
        check(f"the median of the seconds: {told}", statistics.median(times) <= QUIET + SLACK, told)
        same("each take-over is a term", cluster.head()["term"], 11)
        leader.kill()
        same("the log", log_faults(cluster), [])


def is_refused(server):
    try:
        server.connect().close()
        return False
    except ConnectionRefusedError:
        return True


def try_idle(folder):
    """A leader without clients: those who stand by see that it runs, and so does `rme look`."""
    with Cluster(os.path.join(folder, "one"), 1) as cluster, Replica(cluster.engines, **SIZES) as leader:
        check("it leads", leader.leads(), leader.told())
        with Replica(cluster.engines, **SIZES) as one, Replica(cluster.engines, **SIZES) as two:
            check("two stand by", one.stands_by() and two.stands_by(), (one.told(), two.told()))
            seen = []
            for _ in range(8):
                seen.append(looked(cluster.engines).stdout.split(b" term 1 ")[0])
                time.sleep(0.3)
            same("a look says who leads", seen, [b"leader %s" % leader.address.encode()] * 8)
            same("nobody takes over", (cluster.head()["term"], len(one.printed()), len(two.printed())), (1, 1, 1))


def try_at_once(folder):
    """Two servers begin at the same time, with no log, and with one that nobody leads."""
    with Cluster(os.path.join(folder, "one"), 1) as cluster:
        for number in range(4):
            log = f"bank-{number // 2}"
            servers = [Replica(cluster.engines, log=log, **SIZES) for _ in range(2)]
            begun = [server.when(rb"(standby|listening).*\n") for server in servers]
            check(f"{log}: both say what they are", all(begun), [server.told() for server in servers])
            until_one_leads(servers)
            time.sleep(0.3)
            leading = [server for server in servers if server.leads(0)]
            check("one leads", len(leading) == 1, [server.printed() for server in servers])
            others = [server.printed()[-1] for server in servers if server not in leading]
            check("the other stands by", others and others[0].startswith(b"standby behind "), others)
            for server in servers:
                server.kill()


def until_one_leads(servers):
    latest = time.monotonic() + QUIET + 5
    while not any(server.leads(0) for server in servers) and time.monotonic() < latest:
        time.sleep(0.02)


def try_take(folder):
    """A server with `--take` leads at once; the other one ends, also where nobody asks it anything."""
    with Cluster(os.path.join(folder, "one"), 1) as cluster, Replica(cluster.engines, **SIZES) as old:
        worker = Worker()
        check("the first one leads", old.leads() and worker.work(old, 3), old.told())
        with Replica(cluster.engines, flags=["--take"], **SIZES) as new:
            check("the second one leads", at := new.leads(), new.told())
            check("at once", at and at - new.began < QUIET, at and at - new.began)
            status, told = old.end()
            same("the first one has ended", status, 4)
            check("and says why", new.address.encode() in told, told)
            check("the jobs go on", worker.work(new) and not worker.wrong, worker.wrong)
            leader = split_leader(new.session().told(**STATUS))[1]
            same("status names the second one", leader, (new.address, cluster.head()["term"]))
            check("in a later term", leader[1] > 1, leader)


def try_take_busy(folder):
    """The same while two clients make jobs without a pause: each goes on at the new one, and each job counts once."""
    with Cluster(os.path.join(folder, "three")) as cluster, Replica(cluster.engines, *LOCKS, **SIZES) as old:
        check("the first one leads", old.leads(), old.told())
        workers = [Worker(number, lock) for number, lock in enumerate(LOCKS)]
        busy = [threading.Thread(target=worker.work, args=(old, 10**6), daemon=True) for worker in workers]
        for client in busy:
            client.start()
        time.sleep(0.5)
        with Replica(cluster.engines, *LOCKS, flags=["--take"], **SIZES) as new:
            check("the second one leads", new.leads(), (new.told(), new.printed()))
            same("the first one has ended", old.end()[0], 4)
            for client in busy:
                client.join(10)
            check("the jobs go on", all(worker.work(new, 3) for worker in workers), new.told())
        same("each is answered as it should be", [worker.wrong for worker in workers], [[], []])
        same("the log", log_faults(cluster), [])


# ---- programs that have the addresses of both servers


def began(words):
    return subprocess.Popen(words, env=environment(), stdin=subprocess.DEVNULL, stdout=subprocess.PIPE, stderr=subprocess.PIPE, text=True)


def ended(program):
    """How a program ends: its status, and what it writes up to then."""
    told, why = program.communicate(timeout=30)
    return program.returncode, told, why


def try_programs(folder):
    """The leader is killed under a command of `rme-hold`, and under `rme ask top`: both go on at the next one."""
    over = os.path.join(folder, "over")
    runs = f"echo inside; until [ -e {over} ]; do sleep 0.02; done; echo over"
    with Cluster(os.path.join(folder, "one"), 1) as cluster, Replica(cluster.engines, **SIZES) as old:
        check("the first one leads", old.leads(), old.told())
        with Replica(cluster.engines, **SIZES) as new:
            check("the other stands by", new.stands_by(), new.told())
            both = ports_of((new, old))
            hold = began([sys.executable, "-m", "rme_hold", "--port", both, "--worker", "0", "bank", "--", "sh", "-c", runs])
            same("a command is inside", hold.stdout.readline(), "inside\n")
            same("rme ask says so", ask((new, old), "owner", "bank"), (0, "LOCK  OWNER\nbank  0\n", ""))
            top = began([built(), "ask", "--port", both, "top", "--json", "--count", "3"])
            check("top shows it", '"owner":0' in top.stdout.readline())
            old.kill()
            check("the other leads", new.leads(), new.told())
            status, told, why = ended(top)
            same("top goes on", (status, told.count('"owner":0'), why), (0, 2, ""))
            same("so does rme ask", ask((new, old), "owner", "bank"), (0, "LOCK  OWNER\nbank  0\n", ""))
            time.sleep(1)  # rme-hold has made its connection again
            with open(over, "x", encoding="utf-8"):
                pass
            same("and the command", ended(hold), (0, "over\n", ""))
            same("it counted once", ask((new, old), "cells", "bank"), (0, "LOCK  CELLS\nbank  0\n", ""))
            same("as job 1", new.session().attach(0)["number"], 1)
    same("no server", ask((new, old), "ping")[:2], (6, ""))


# ---- a leader that another has taken the place of


LOCKS = ("bank", "shop")


class Asked:
    """Sessions of a leader, with orders that are sent when it can answer nothing any more."""

    def __init__(self, server):
        self.server = server
        done, inside, waiting = (self.session_of(worker) for worker in range(3))
        told = [done.told(**job("submit", "bank", 1, *ONE)), inside.told(**job("enter", "shop", 1, *ONE))]
        told.append(waiting.told(**job("submit", "shop", 1, *ONE, tries=3)))
        check("all is ready", [set(it) & {"receipt", "stance", "waiting"} for it in told] == [{"receipt"}, {"stance"}, {"waiting"}], told)
        self.rows = {
            "a receipt again": (done, job("submit", "bank", 1, *ONE)),
            "a coming back": (inside, job("enter", "shop", 1, *ONE)),
            "a pending job": (waiting, {"do": "pending"}),
            "a new job": (self.session_of(3), job("submit", "bank", 1, *ONE)),
            "a wrong number": (self.session_of(4), job("submit", "bank", 9, *ONE)),
            "no lock": (self.session_of(5), job("submit", "mill", 1, *ONE)),
            "the last receipt": (self.session_of(6), LAST),
            "a look at all": (server.session(), STATUS),
            "an owner": (server.session(), {"do": "owner", "lock": "shop"}),
            "cells": (server.session(), {"do": "cells", "lock": "bank"}),
            "a new session": (server.session(), attach(7)),
            "a taken worker": (server.session(), attach(0)),
        }

    def session_of(self, worker):
        session = self.server.session()
        session.attach(worker)
        return session

    def send(self):
        for session, order in self.rows.values():
            session.send(line_of(**order))

    def heard(self):
        """What was answered, by what was asked."""
        return {name: told for name, (session, _) in self.rows.items() if (told := rest_of(session))}


def rest_of(session):
    """What comes up to the end of a connection."""
    try:
        return session.hang_up()
    except OSError:
        return b""


def fence(cluster, old, leave, come_back):
    """Has a leader be away while another takes over, and come back with orders to answer, if it comes back."""
    check("the first one leads", old.leads(), old.told())
    with Replica(cluster.engines, *LOCKS, **SIZES) as new:
        check("the other stands by", new.stands_by(), new.told())
        asked = Asked(old)
        leave()
        left = time.monotonic()
        asked.send()
        check("the other takes over", at := new.leads(), new.told())
        check("in time", at and at - left <= QUIET + 2, at and at - left)
        made = Worker(7)
        made.work(new)  # it has made something since
        come_back()
        same("nothing is answered by the first one", asked.heard(), {})
        status, told = old.end()
        same("which ends", status, 4)
        check("and says why", b"fault: " in told, told)
        stood = new.session().told(do="status")
        numbers = [worker["number"] for worker in stood["workers"]]
        same("what it had answered before is there, and no more", numbers, [1, 1, 1, 0, 0, 0, 0, 1])
        same("who was inside is inside", (stood["locks"][1]["owner"], stood["locks"][0]["cells"]), (1, [2]))
        same("it is in the log", status_in(cluster.engines)["workers"][0]["number"], 1)
    same("the log", log_faults(cluster), [])


def try_stopped(folder):
    """The leader is stopped by a signal, and goes on when another leads."""
    with Cluster(os.path.join(folder, "three")) as cluster, Replica(cluster.engines, *LOCKS, **SIZES) as old:
        fence(cluster, old, old.stop, old.go_on)


def try_cut_off(folder):
    """Nothing passes between the leader and the cluster until another leads. Then what it has sent passes too."""
    with Cluster(os.path.join(folder, "one"), 1) as cluster, Gateway(cluster.nodes[0].port) as gateway:
        with Replica(gateway.engine, *LOCKS, patience=20, **SIZES) as old:
            fence(cluster, old, gateway.freeze, gateway.thaw)


def try_never_back(folder):
    """The same, and nothing ever passes: the leader ends when its patience does."""
    with Cluster(os.path.join(folder, "one"), 1) as cluster, Gateway(cluster.nodes[0].port) as gateway:
        with Replica(gateway.engine, *LOCKS, patience=4, **SIZES) as old:
            fence(cluster, old, gateway.freeze, lambda: None)


def part():
    groups = (
        try_taking_over, try_idle, try_at_once, try_take, try_take_busy, try_programs, try_stopped, try_cut_off, try_never_back,
    )  # fmt: skip
    main_with_etcd(*groups, minutes=3)
