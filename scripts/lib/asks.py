"""`rme ask`, and the two servers that it is tried with; a stand-in for a server, which gives set answers."""

import os
import re
import socket
import threading

from lib import programs
from lib.clients import serve as serve_without_state
from lib.servers import HOST, Server

LOCKS = ("bank", "shop")
WORKERS = 3


def with_state(folder, *words, port=0):
    """A server with a state of this folder, for three workers and two locks; further words after `rme serve`."""
    path = os.path.join(folder, "bank.state")
    names = () if os.path.exists(path) else ("--workers", str(WORKERS), "--cells", "2", *LOCKS)
    return Server(words=["serve", "--state", path, "--port", str(port), *words, *names])


def without_state():
    return serve_without_state(workers=WORKERS, locks=LOCKS, jobs=1000)


def ports_of(server):
    """The value of `--port` for a server, for the port of one, or for several of these."""
    if isinstance(server, (list, tuple)):
        return ",".join(map(ports_of, server))
    return str(server if isinstance(server, int) else server.port)


def ask(server, *words, **how):
    """Runs `rme ask` to its end: its status, and what it wrote to the standard output and to the standard error."""
    ran = programs.run(["ask", "--port", ports_of(server), *words], **how)
    return ran.returncode, ran.stdout.decode(), ran.stderr.decode()


def still(told):
    """Tables whose times are written as `-`: they are not compared."""
    return re.sub(r"(?<= )(\d+[smhd])+(?= )", lambda time: "-".ljust(len(time[0])), told)


def enter(server, worker, lock="bank", number=1, **more):
    """A session whose worker has entered a lock, or waits for it; and the answer."""
    session = server.session()
    session.attach(worker)
    return session, session.told(do="enter", lock=lock, number=number, script=[["add", 0, 5]], **more)


def leave(session):
    """Ends a session that has a worker. The server has seen its end when this returns, so that another can have the worker."""
    session.told(do="detach")
    session.close()


def leave_inside(server, worker, lock="bank", number=1):
    """Leaves a worker inside a lock, with no session that has it."""
    session, told = enter(server, worker, lock, number)
    leave(session)
    return told


class StandIn:
    """A server of one connection, which answers each line by the next of these answers, and then ends."""

    def __init__(self, *answers):
        self.listening = socket.create_server((HOST, 0))
        self.port = self.listening.getsockname()[1]
        self.heard = []
        self.thread = threading.Thread(target=self.serve, args=(answers,), daemon=True)
        self.thread.start()

    def serve(self, answers):
        connection, _ = self.listening.accept()
        with connection, connection.makefile("rb") as lines:
            for answer in answers:
                self.heard.append(lines.readline())
                connection.sendall(answer)

    def end(self):
        """The lines that were heard."""
        self.thread.join(20)
        self.listening.close()
        return self.heard


def free_port():
    """A port on which nobody listens."""
    with socket.create_server((HOST, 0)) as listening:
        return listening.getsockname()[1]
