"""What bench/growth measures of a server with spaces, with keys, and with a log in a cluster.

Each call answers the seconds and the bytes of one run of a size."""

import hashlib
import os
import shutil
import subprocess
import sys
import time

from lib.clusters import Cluster

TEMPLATE = "template"
SPACES = (1, 10, 100, 1_000, 10_000)
KEYS = (1, 10, 100, 1_000)
LINES = (100, 1_000, 10_000, 100_000, 1_000_000)


class Tenants:
    """The rows of bench/growth that have a folder of spaces, a file of keys, or a cluster, which ends with the block."""

    def __init__(self, growth, memory_of):
        self.growth, self.memory_of = growth, memory_of
        self.spaces = growth.path("spaces")
        self.cluster, self.held = None, 0  # once there is one, and of how many lines its log is

    def __enter__(self):
        return self

    def __exit__(self, *_):
        if self.cluster:
            self.cluster.end()

    def rows(self):
        """The name of each row, its items, their numbers, and the call that measures one."""
        yield "spaces, start", "spaces", SPACES, self.spaces_start
        yield "spaces, open", "spaces", SPACES, self.spaces_open
        yield "keys", "keys", KEYS, self.keys_hello
        if shutil.which("etcd"):
            yield "cluster, start", "lines", LINES, self.cluster_start

    def left_out(self):
        return [] if shutil.which("etcd") else ["a log in a cluster: etcd is not there (scripts/set-up)"]

    # -- spaces

    def folder_of(self, size):
        """Has the folder of spaces hold this number of them, each new, with one lock."""
        shutil.rmtree(self.spaces, ignore_errors=True)
        os.mkdir(self.spaces)
        with self.growth.served("--spaces", self.spaces, "--port", 0, names=()) as server, server.connect() as session:
            server.ask(session, b'{"do":"create","locks":["bank"],"space":"%s"}\n' % TEMPLATE.encode(), b'"ok":"create"')
        first = os.path.join(self.spaces, f"{TEMPLATE}.state")
        for number in range(size):
            shutil.copy(first, os.path.join(self.spaces, f"space-{number}.state"))
        os.remove(first)

    def served_spaces(self):
        return self.growth.served("--spaces", self.spaces, "--port", 0, names=())

    def spaces_start(self, size):
        self.folder_of(size)
        with self.served_spaces() as server:
            return server.started, self.memory_of(server.program)

    def spaces_open(self, size):
        """One session uses each space in turn, and makes a job there."""
        self.folder_of(size)
        with self.served_spaces() as server, server.connect() as session:
            began = time.monotonic()
            for number in range(size):
                server.ask(session, b'{"do":"use","space":"space-%d"}\n' % number, b'"ok":"use"')
                server.ask(session, b'{"do":"attach","worker":0}\n', b'"stance":"ready"')
                server.ask(session, b'{"do":"submit","lock":"bank","number":1,"script":[["add",0,1]]}\n', b'"receipt"')
                server.ask(session, b'{"do":"detach"}\n', b'"ok":"detach"')
            return time.monotonic() - began, self.memory_of(server.program)

    # -- keys

    def keys_hello(self, size):
        """A server with this number of keys. A session of each key says its secret, and looks at the lock."""
        path, state = self.growth.path("keys"), self.growth.path("state")
        secrets = [f"secret-{number}".encode() for number in range(size)]
        with open(path, "w", encoding="ascii", opener=lambda name, flags: os.open(name, flags, 0o600)) as file:
            file.writelines(f"key-{number} {hashlib.sha256(secret).hexdigest()} *\n" for number, secret in enumerate(secrets))
        with self.growth.served("--state", state, "--port", 0, "--keys", path) as server:
            began = time.monotonic()
            for number, secret in enumerate(secrets):
                with server.connect() as session:
                    server.ask(session, b'{"do":"hello","secret":"%s"}\n' % secret, b'{"name":"key-%d","ok":"hello"}' % number)
                    server.ask(session, b'{"do":"owner","lock":"bank"}\n', b'{"ok":"owner","owner":null}')
            figures = time.monotonic() - began, self.memory_of(server.program)
        os.remove(state)
        return figures

    # -- a log in a cluster

    def cluster_start(self, size):
        """A start on a log of this number of lines, which lies in a cluster of one node of etcd."""
        log = f"log-{size}"
        if not self.cluster:
            self.cluster = Cluster(self.growth.path("cluster"), 1, ("--quota-backend-bytes", "4000000000", "--unsafe-no-fsync"))
        if self.held != size:
            self.move(log, size)
            self.held = size
        place = "--state", f"etcd:{log}", "--engine", self.cluster.engines, "--name", "127.0.0.1:1", "--take"
        with self.growth.served(*place, "--port", 0, "--jobs", 1_000_000, "--sections", 1_000_000) as server:
            return server.started, self.memory_of(server.program)

    def move(self, log, size):
        path = self.growth.state_of(size)
        words = [self.growth.program, "move", path, f"etcd:{log}", "--engine", self.cluster.engines]
        ran = subprocess.run(words, stdin=subprocess.DEVNULL, capture_output=True, text=True)
        os.remove(path)
        if ran.returncode != 0:
            sys.exit(f"FAIL rme move: status {ran.returncode}: {ran.stderr}")
