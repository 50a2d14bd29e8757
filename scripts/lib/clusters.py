"""Clusters of etcd on loopback, for checks: each node is a process with a folder and ports of its own.

A node ends with the script, whatever ends that: so nodes are started by the main thread only. What is asked of a cluster goes
by the JSON gateway of its nodes."""

import atexit
import base64
import http.client
import json
import os
import shutil
import signal
import subprocess
import time

from lib.checks import Stop, end, main_in_folders, skip
from lib.servers import HOST
from lib.storms import free_port

SECONDS = 60  # within which a cluster takes writes
# Half of etcd's own times, so that an election takes a second and not two; and no setting of the environment.
TIMES = ("--heartbeat-interval", "50", "--election-timeout", "500")
ENVIRONMENT = {name: value for name, value in os.environ.items() if not name.startswith("ETCD")}


def main_with_etcd(*groups, minutes):
    """Makes groups of checks as `main_in_folders` does, if etcd is there."""
    if missing := next((name for name in ("etcd", "etcdctl", "setpriv") if not shutil.which(name)), None):
        skip("logs in a cluster", f"there is no {missing}")
        end()
    main_in_folders(*groups, minutes=minutes)


def text64(held):
    return base64.b64encode(held).decode()


def asked(port, path, body, token=None, seconds=2):
    """The answer of one node to a request: the status of HTTP, and the object. `OSError` if none comes."""
    connection = http.client.HTTPConnection(HOST, port, timeout=seconds)
    try:
        headers = {"Authorization": token} if token else {}
        connection.request("POST", path, json.dumps(body), headers)
        answer = connection.getresponse()
        return answer.status, json.loads(answer.read())
    except (http.client.HTTPException, ValueError) as error:
        raise OSError(f"no answer of HTTP: {error!r}") from error
    finally:
        connection.close()


class Node:
    """A node, which runs, or is stopped by a signal, or does not run."""

    def __init__(self, folder, number, *options):
        self.name, self.options = f"node{number}", options
        self.folder = os.path.join(folder, self.name)
        self.port, self.peer_port = free_port(), free_port()
        self.process = None
        atexit.register(self.kill)

    @property
    def engine(self):
        return f"{HOST}:{self.port}"

    @property
    def peer(self):
        return f"http://{HOST}:{self.peer_port}"

    @property
    def is_up(self):
        return self.process is not None and self.process.poll() is None

    def start(self, members, token):
        client = f"http://{self.engine}"
        words = ["setpriv", "--pdeathsig", "KILL", "etcd", "--name", self.name, "--data-dir", self.folder, *TIMES]
        words += ["--listen-client-urls", client, "--advertise-client-urls", client, "--listen-peer-urls", self.peer]
        words += ["--initial-advertise-peer-urls", self.peer, "--initial-cluster", members, "--initial-cluster-token", token]
        with open(self.folder + ".log", "ab") as log:
            how = {"stdin": subprocess.DEVNULL, "stdout": log, "stderr": log, "env": ENVIRONMENT}
            self.process = subprocess.Popen([*words, *self.options], **how)

    def kill(self):
        """Kills it. What it has written stays."""
        if self.is_up:
            self.process.kill()
            self.process.wait()

    def stop(self):
        """Has it do nothing, with all its connections open, until `go_on`."""
        self.process.send_signal(signal.SIGSTOP)

    def go_on(self):
        self.process.send_signal(signal.SIGCONT)

    def ask(self, path, body, token=None, seconds=2):
        return asked(self.port, path, body, token, seconds)

    def is_leader(self):
        """Whether it says that it leads the cluster."""
        try:
            status, told = self.ask("/v3/maintenance/status", {})
        except OSError:
            return False
        return status == 200 and told.get("leader") == told["header"]["member_id"]


class Cluster:
    """A cluster of nodes, which all run at the beginning, and are killed at the end of the block."""

    def __init__(self, folder, nodes=3, options=(), snapshot=None):
        """`options` are further words of each node. With `snapshot` a cluster of one node begins with this file of another."""
        os.makedirs(folder, exist_ok=True)
        self.folder, self.token = folder, os.path.basename(folder)
        self.nodes = [Node(folder, number, *options) for number in range(nodes)]
        self.members = ",".join(f"{node.name}={node.peer}" for node in self.nodes)
        self.user = None  # the name and the password of who may do all, once there are users
        if snapshot:
            self.restore(snapshot)
        for node in self.nodes:
            self.start(node)
        self.until_ready()

    def __enter__(self):
        return self

    def __exit__(self, *_):
        self.end()

    def end(self):
        for node in self.nodes:
            node.kill()

    @property
    def engines(self):
        """The nodes as `--engine` has them."""
        return ",".join(node.engine for node in self.nodes)

    def start(self, node):
        node.start(self.members, self.token)

    def until_ready(self, nodes=None):
        """Waits until each of these nodes, or of all that run, answers what the whole cluster agrees on."""
        latest = time.monotonic() + SECONDS
        for node in nodes or [node for node in self.nodes if node.is_up]:
            while not self.is_ready(node):
                if not node.is_up or time.monotonic() > latest:
                    raise Stop(f"{node.name} is not ready: {self.last_words(node)}")
                time.sleep(0.02)

    def is_ready(self, node):
        try:
            return node.ask("/v3/kv/range", {"key": text64(b"ready")}, self.login(node))[0] == 200
        except OSError:
            return False

    def last_words(self, node):
        with open(node.folder + ".log", encoding="utf-8", errors="replace") as log:
            return log.read()[-400:]

    def login(self, node):
        """A token of this node, if there are users."""
        if not self.user:
            return None
        name, password = self.user
        return node.ask("/v3/auth/authenticate", {"name": name, "password": password})[1].get("token")

    def leader(self):
        """The node that leads, once there is one."""
        latest = time.monotonic() + SECONDS
        while time.monotonic() < latest:
            for node in self.nodes:
                if node.is_up and node.is_leader():
                    return node
            time.sleep(0.02)
        raise Stop("no node of the cluster leads it")

    def follower(self):
        """A node that runs and does not lead."""
        leader = self.leader()
        return next(node for node in self.nodes if node.is_up and node is not leader)

    # -- what lies in it

    def ask(self, path, body):
        """The answer of the first node that gives one."""
        for node in self.nodes:
            if node.is_up:
                status, told = node.ask(path, body, self.login(node), 10)
                if status == 200:
                    return told
        raise Stop(f"the cluster answers {status}: {told}")

    def pairs(self, first, last=None, limit=0):
        """The keys from the first up to the last, with their values; or this one, if it is there."""
        body = {"key": text64(first), "limit": limit, **({"range_end": text64(last)} if last else {})}
        decoded = ((base64.b64decode(it["key"]), base64.b64decode(it.get("value", ""))) for it in self.ask("/v3/kv/range", body).get("kvs", ()))
        return dict(decoded)

    def put(self, key, value):
        self.ask("/v3/kv/put", {"key": text64(key), "value": text64(value)})

    def drop(self, key):
        self.ask("/v3/kv/deleterange", {"key": text64(key)})

    def head(self, name="bank"):
        """The head of a log as an object, or None if there is no such log."""
        key = b"rme/%s/head" % name.encode()
        held = self.pairs(key).get(key)
        return held and json.loads(held)

    def log(self, name="bank"):
        """The bytes of a log: its records that the head names, joined."""
        head = self.head(name)
        key = b"rme/%s/e/%016x/" % (name.encode(), head["epoch"])
        records = [(key + b"%016x" % number) for number in range(head["seq"])]
        held = self.pairs(key, key[:-1] + b"0")
        return b"".join(held[record] for record in records)

    def epochs(self, name="bank"):
        """The epochs of which records are there, and how many there are of each."""
        begin = b"rme/%s/e/" % name.encode()
        counts = {}
        for key in self.pairs(begin, begin[:-1] + b"0"):
            epoch = int(key[len(begin) : len(begin) + 16], 16)
            counts[epoch] = counts.get(epoch, 0) + 1
        return counts

    # -- its operator

    def control(self, *words, node=None):
        """A run of `etcdctl` for the cluster or for one node, which must end well."""
        login = ["--user", ":".join(self.user)] if self.user else []
        endpoints = node.engine if node else self.engines
        controlled(*words, "--endpoints", endpoints, "--command-timeout", "10s", *login)

    def add_users(self, root, **users):
        """Adds a user who may do all, with this password, and users who may read and write what lies below rme/."""
        self.control("user", "add", f"root:{root}")
        self.control("user", "grant-role", "root", "root")
        self.control("role", "add", "rme")
        self.control("role", "grant-permission", "rme", "--prefix=true", "readwrite", "rme/")
        for name, password in users.items():
            self.control("user", "add", f"{name}:{password}")
            self.control("user", "grant-role", name, "rme")
        self.control("auth", "enable")
        self.user = "root", root

    def snapshot(self, path):
        """Writes what lies in the cluster into a file, and answers its path."""
        self.control("snapshot", "save", path, node=next(node for node in self.nodes if node.is_up))
        return path

    def restore(self, snapshot):
        """Puts a file of another cluster into the folder of each node, before they start."""
        for node in self.nodes:
            members = ["--initial-cluster", self.members, "--initial-cluster-token", self.token]
            place = ["--name", node.name, "--data-dir", node.folder, "--initial-advertise-peer-urls", node.peer]
            controlled("snapshot", "restore", snapshot, *place, *members)


def controlled(*words):
    """Runs `etcdctl`, which must end well."""
    environment = {**ENVIRONMENT, "ETCDCTL_API": "3"}
    ran = subprocess.run(["etcdctl", *words], env=environment, stdin=subprocess.DEVNULL, capture_output=True, timeout=30)
    if ran.returncode != 0:
        raise Stop(f"etcdctl {words[0]} {words[1]}: {ran.stderr.decode(errors='replace')[-300:]}")
