#!/usr/bin/env python3
"""stand_in.py [FILE]: plays the server's side of the conversations of FILE, for the tests of clients.

It prints one line, a JSON object with the ports of each conversation by its name: `{"a job":[4711],..}`, one for each
address. Each conversation is played once. For a line `NAME` on the standard input it prints `ok` if all of that
conversation was played, or else what was not played, or what came in its place. It ends with the standard input.
The README beside it says what FILE has.
"""

import json
import os
import socket
import sys
import threading

HOST = "127.0.0.1"
FILE = os.path.join(os.path.dirname(os.path.realpath(__file__)), "conversations.jsonl")
ANY = "*"
PROBES = {"ping": b'{"ok":"ping"}\n', "last": b'{"code":9,"error":"Busy"}\n'}
"""The answers to lines by which a client may check that its session lives, if the conversation does not have them."""


def read(path):
    """The conversations of a file: of each, what its first line says, and the steps that follow it."""
    found = []
    with open(path, encoding="utf-8") as file:
        for step in (json.loads(line) for line in file if line.strip()):
            if "conversation" in step:
                found.append((step, []))
            else:
                found[-1][1].append(step)
    return found


def connections_of(steps):
    """The connections of a conversation: of each, its address, and its lines with their answers."""
    found = []
    for step in steps:
        if "connect" in step:
            found.append((step["connect"], []))
        elif "line" in step:
            found[-1][1].append(step)
    return found


def answer_of(exchange):
    """The bytes that answer a line."""
    if "answer" in exchange:
        return json.dumps(exchange["answer"], separators=(",", ":")).encode() + b"\n"
    return exchange.get("text", exchange.get("piece", "")).encode()


def is_wanted(order, wanted):
    """Whether an order has these members; `wait` may be any number, and may be left out, or be `tries`."""
    if wanted.get("wait") == ANY:
        given = order.get("wait", order.get("tries", 0))
        if not isinstance(given, int) or isinstance(given, bool) or not 0 <= given <= 3_600_000:
            return False
        order, wanted = ({name: it for name, it in each.items() if name not in ("wait", "tries")} for each in (order, wanted))
    return repr(sorted(order.items())) == repr(sorted(wanted.items()))  # true is not 1, nor 1.0


class Conversation:
    """One conversation: its connections, each at one of its ports, and what went wrong first."""

    def __init__(self, told, steps):
        self.connections = connections_of(steps)
        self.next, self.left = 0, sum(len(lines) for _, lines in self.connections)
        self.wrong, self.lock = None, threading.Lock()
        self.listeners = [self.listen(at) for at in range(told.get("addresses", 1))]
        self.ports = [it.getsockname()[1] for it in self.listeners]

    def listen(self, at):
        """A port at which this conversation's connections to this address are accepted; without such connections nobody
        listens there."""
        listener, count = socket.socket(), [place for place, _ in self.connections].count(at)
        listener.bind((HOST, 0))
        if count:
            listener.listen(8)
            threading.Thread(target=self.accept, args=(listener, at, count), daemon=True).start()
        return listener

    def accept(self, listener, at, count):
        for left in range(count, 0, -1):
            connection, _ = listener.accept()
            if left == 1:
                listener.close()
            with self.lock:
                number, self.next = self.next, self.next + 1
            threading.Thread(target=self.attend, args=(connection, number, at), daemon=True).start()

    def attend(self, connection, number, at):
        place, exchanges = self.connections[number]
        if place != at:
            self.fail(f"connection {number} came to address {at}")
        with connection, connection.makefile("rb") as lines:
            try:
                self.play(connection, lines, exchanges)
                connection.shutdown(socket.SHUT_RDWR)
            except OSError:
                pass

    def play(self, connection, lines, exchanges):
        """Answers the lines of one connection, until an exchange says that it ends, or the client ends it."""
        for exchange in exchanges:
            if not self.hear(connection, lines, exchange["line"]):
                return
            with self.lock:
                self.left -= 1
            connection.sendall(answer_of(exchange))
            if exchange.get("cut"):
                return
        self.hear(connection, lines, None)

    def hear(self, connection, lines, wanted):
        """Whether the next line is the one that is wanted. A line that only asks whether the session lives is answered
        before it."""
        while line := lines.readline():
            try:
                order = json.loads(line)
                if wanted is not None and line.endswith(b"\n") and is_wanted(order, wanted):
                    return True
                probe = PROBES.get(order["do"]) if len(order) == 1 else None
            except (ValueError, KeyError, TypeError, AttributeError):
                probe = None
            if probe is None:
                self.fail(f"{line.decode(errors='replace').strip()} came in place of {json.dumps(wanted)}")
                return False
            connection.sendall(probe)
        return False

    def fail(self, why):
        with self.lock:
            self.wrong = self.wrong or why

    def verdict(self):
        with self.lock:
            return self.wrong or (f"{self.left} lines did not come" if self.left else "ok")


def main():
    told = read(sys.argv[1] if len(sys.argv) > 1 else FILE)
    conversations = {it["conversation"]: Conversation(it, steps) for it, steps in told}
    print(json.dumps({name: it.ports for name, it in conversations.items()}), flush=True)
    for line in sys.stdin:
        name = line.rstrip("\n")
        print(conversations[name].verdict() if name in conversations else "there is no such conversation", flush=True)


if __name__ == "__main__":
    main()
