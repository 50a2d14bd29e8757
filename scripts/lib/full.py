"""Servers that keep their state in a file which can grow no more, and that end by themselves then."""

import json
import os
import resource
import signal
import subprocess
import threading
import time

from lib.kept import kill, without_count
from lib.servers import line_of

SECONDS = 5  # in which such a server ends


def ignore_limit():
    """A write beyond what a file of this process may have fails, and that is all."""
    signal.signal(signal.SIGXFSZ, signal.SIG_IGN)


def limited(size):
    """No file of this process has more bytes; a write beyond them fails."""

    def limit():
        ignore_limit()
        resource.setrlimit(resource.RLIMIT_FSIZE, (size, size))

    return limit


def limited_for_now(size):
    """The same, but the limit may be raised again, by `allow`."""

    def limit():
        ignore_limit()
        resource.setrlimit(resource.RLIMIT_FSIZE, (size, resource.getrlimit(resource.RLIMIT_FSIZE)[1]))

    return limit


def allow(server, size):
    """From now on each file of a server whose limit may be raised may have this number of bytes."""
    resource.prlimit(server.program.pid, resource.RLIMIT_FSIZE, (size, resource.getrlimit(resource.RLIMIT_FSIZE)[1]))


def allow_more(server, path, room):
    """From now on the file of a server may have this number of bytes more."""
    size = os.path.getsize(path) + room
    resource.prlimit(server.program.pid, resource.RLIMIT_FSIZE, (size, size))


def told_of(path, why="File too large (os error 27)"):
    """What the standard error has of a file that can't be written."""
    return f"fault: the state {path} can't be written: {why}\n".encode()


def own_end(server):
    """How a server ended by itself, as `Server.end` says it, but for the count of lines."""
    try:
        server.program.wait(SECONDS)
    except subprocess.TimeoutExpired:
        return "no end by itself", *kill(server)
    status, rest, told = server.end()
    return status, rest, without_count(told)


def rest_of(session):
    """What a client is still told up to the end of its connection, which may be reset if it has sent more."""
    try:
        return session.lines.read()
    except ConnectionResetError:
        return b""


def jobs_until_none(session, worker, lock, most=100_000):
    """Attaches a worker and makes jobs that add 1, until one is not answered: the numbers that were."""
    numbers = []
    try:
        number = json.loads(session.ask({"do": "attach", "worker": worker}) or b"{}").get("number")
        while number is not None and len(numbers) < most:
            number += 1
            order = {"do": "submit", "lock": lock, "number": number, "script": [["add", 0, 1]], "wait": 60_000}
            session.send(line_of(**order))
            answer = session.hear()
            if not answer:
                break
            numbers.append(json.loads(answer)["receipt"]["number"])
    except OSError:  # the connection was reset
        pass
    session.close()
    return numbers


def load_until_full(server, path, lock, workers, after, room):
    """Clients with jobs, of which every second one comes by the socket, until the file of their server has this number
    of bytes more than it has after some time: how the server ended, and for each client the numbers that were
    answered."""
    numbers = [[] for _ in range(workers)]

    def client(worker):
        session = server.session_at_socket() if worker % 2 else server.session()
        numbers[worker] = jobs_until_none(session, worker, lock)

    clients = [threading.Thread(target=client, args=(worker,), daemon=True) for worker in range(workers)]
    for each in clients:
        each.start()
    time.sleep(after)
    allow_more(server, path, room)
    ended = own_end(server)
    for each in clients:
        each.join(SECONDS)
    return ended, numbers
