"""Faulty peers of a client: some answer anything, and some pass on only a part of what they get."""

import json
import socket
import threading

from lib.servers import HOST

READY = b'{"number":0,"ok":"attach","stance":"ready"}\n'


class Peer:
    """Listens. Each connection, counted from 0, is served by a function in a thread, and then closed."""

    def __init__(self, serve):
        self.serve, self.connections, self.lines = serve, 0, []
        self.listener = socket.create_server((HOST, 0), backlog=64)
        self.port = self.listener.getsockname()[1]
        threading.Thread(target=self.accept, daemon=True).start()

    def accept(self):
        while True:
            try:
                connection, _ = self.listener.accept()
            except OSError:
                return
            self.connections += 1
            threading.Thread(target=self.attend, args=(connection, self.connections - 1), daemon=True).start()

    def attend(self, connection, number):
        with connection, connection.makefile("rb") as lines:
            try:
                self.serve(self, connection, lines, number)
            except OSError:
                pass

    def hear(self, lines):
        """The next order, or `None` at the end of the connection."""
        line = lines.readline()
        self.lines.append(line)
        return json.loads(line) if line else None

    def close(self):
        self.listener.close()


def answering(*answers):
    """A peer that answers the orders of each connection by these answers, one by one, and then answers no more. An
    answer may be a function of the connection."""

    def serve(peer, connection, lines, _):
        for answer in answers:
            if peer.hear(lines) is None:
                return
            if callable(answer):
                answer(connection)
            else:
                connection.sendall(answer)
        while peer.hear(lines):
            pass

    return Peer(serve)


def between(server, passes):
    """A peer that passes lines and answers on between clients and a server.

    `passes(number, order, answer)` is called for each order of the connection of this number: before the order is sent
    on, with `None` for its answer, and again before the answer is passed on, with the answer's bytes. It returns the
    bytes that are sent on in their place, or `None` to end the connection.
    """

    def serve(peer, connection, lines, number):
        with server.connect() as inner, inner.makefile("rb") as answers:
            while order := peer.hear(lines):
                sent = passes(number, order, None)
                if sent is None:
                    return
                inner.sendall(peer.lines[-1])
                told = answers.readline()
                passed = passes(number, order, told)
                connection.sendall(passed or b"")
                if passed != told or not told:
                    return

    return Peer(serve)
