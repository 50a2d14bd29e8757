"""rme-hold, and the ways in which it gets a worker: a server without a state, one with a state, and a file."""

import functools
import importlib
import os
import socket
import subprocess
import sys
import threading
import time

from lib.clients import serve as serve_without_state
from lib.processes import has, shared
from lib.programs import TOP
from lib.servers import HOST, Server

HOLD = os.path.join(TOP, "clients", "hold")
SHARED = os.path.join(TOP, "clients", "processes")


class Way:
    """A place of the words of a lock `bank` and a lock `shop`, for four workers; `words` are those of rme-hold. If `ports` are
    set, they are tried in place of that of the server."""

    def __init__(self, name, folder):
        self.name, self.folder, self.server, self.door, self.ports = name, folder, None, None, None
        self.path = os.path.join(folder, f"{name}.words")
        if name == "file":
            shared().create(self.path, ["bank", "shop"], workers=4)
        else:
            self.start()

    def start(self, port=0):
        if self.name == "state":
            names = [] if os.path.exists(self.path) else ["--workers", "4", "bank", "shop"]
            self.server = Server(words=["serve", "--state", self.path, "--port", str(port), *names])
        else:
            self.server = serve_without_state(port=port, workers=4, locks=("bank", "shop"), jobs=100_000)

    @property
    def words(self):
        if self.name == "file":
            return ["--file", self.path]
        return ["--port", ",".join(map(str, self.ports or [(self.door or self.server).port]))]

    def words_for(self, *words, worker=0):
        """The words of rme-hold, for this worker or for any."""
        who = ["--any"] if worker is None else ["--worker", str(worker)]
        return [*self.words, *who, *words]

    def command(self, *words, worker=0):
        return [sys.executable, "-m", "rme_hold", *self.words_for(*words, worker=worker)]

    def hold(self, *words, worker=0, **how):
        """Runs rme-hold to its end: its status, and what it and its command wrote."""
        ran = subprocess.run(self.command(*words, worker=worker), env=environment(), capture_output=True, text=True, timeout=60, **how)
        return ran.returncode, ran.stdout, ran.stderr

    def begin(self, *words, worker=0, **how):
        """Starts rme-hold; what its command writes can be read."""
        return subprocess.Popen(self.command(*words, worker=worker), env=environment(), stdout=subprocess.PIPE, text=True, **how)

    def end(self):
        if self.server is not None:
            self.server.kill()


class Door:
    """Stands between clients and a server, and passes on all that they send, except for the connections that it must
    break."""

    def __init__(self, port):
        self.server_port, self.is_shut, self.open, self.refused = port, False, [], 0
        self.listener = socket.create_server((HOST, 0), backlog=64)
        self.port = self.listener.getsockname()[1]
        threading.Thread(target=self.accept, daemon=True).start()

    def accept(self):
        while True:
            try:
                client, _ = self.listener.accept()
                if self.is_shut:
                    self.refused += 1
                    client.close()
                    continue
                inner = socket.create_connection((HOST, self.server_port))
            except OSError:
                return
            self.open += [client, inner]
            for way in (client, inner), (inner, client):
                threading.Thread(target=self.pass_on, args=way, daemon=True).start()

    @staticmethod
    def pass_on(giver, taker):
        try:
            while held := giver.recv(4096):
                taker.sendall(held)
            taker.shutdown(socket.SHUT_RDWR)
        except OSError:
            pass

    def cut(self):
        """Breaks all connections."""
        for each in self.open:
            try:
                each.shutdown(socket.SHUT_RDWR)
            except OSError:
                pass
        self.open = []

    def close(self):
        self.listener.close()
        self.cut()


def fork_hold(words):
    """Starts rme-hold as a copy of this process, which has its modules already; its process. It writes nowhere."""
    hold = hold_of_this_process()
    process = os.fork()
    if process:
        return process
    status = 70
    try:
        nothing = os.open(os.devnull, os.O_RDWR)
        for stream in range(3):
            os.dup2(nothing, stream)
        os.closerange(3, nothing + 1024)
        status = hold(words)
    except SystemExit as end:
        status = end.code
    finally:
        os._exit(status)


@functools.lru_cache(maxsize=None)
def hold_of_this_process():
    """The main function of rme-hold, with all modules that it imports."""
    sys.path[:0] = [HOLD, SHARED]
    if "file" in ways():
        importlib.import_module("rme_shared")
    return importlib.import_module("rme_hold.main").main


def environment():
    return {**os.environ, "PYTHONPATH": os.pathsep.join((HOLD, SHARED))}


def ways():
    """The ways that can be tried here."""
    return ["plain", "state", *(["file"] if has("cc") else [])]


def until(holds, seconds=20):
    """Waits until something holds, and answers whether it did."""
    ends = time.monotonic() + seconds
    while not holds():
        if time.monotonic() > ends:
            return False
        time.sleep(0.01)
    return True
