"""`rme serve` in a process of its own, and the other side of its sessions."""

import atexit
import json
import re
import socket
import struct
import subprocess
import threading
import time

from lib.programs import built

HOST = "127.0.0.1"
SMALL = {"workers": 2, "cells": 2, "jobs": 10, "port": 0, "connections": 1}
RESET = struct.pack("ii", 1, 0)


def line_of(**order):
    """The bytes of an order's line."""
    return json.dumps(order).encode() + b"\n"


def words_of(locks=("bank",), without=None, **changed):
    """The words after `rme`, with these options, as `at_once` for `--at-once`, in place of those of a small server."""
    options = {**SMALL, **changed}
    kept = {name.replace("_", "-"): str(value) for name, value in options.items() if name != without}
    given = [word for name, value in kept.items() for word in ("--" + name, value)]
    return ["serve", *given, *locks]


class Server:
    """A server that is listening. One that is not ended is killed when the script ends."""

    def __init__(self, locks=("bank",), how=(), program=None, words=None, **options):
        """Takes the names of the locks and options, or all words after `rme`; and further arguments of Popen."""
        words = words or words_of(locks, **options)
        how = {"stdin": subprocess.DEVNULL, "stdout": subprocess.PIPE, "stderr": subprocess.PIPE, **dict(how)}
        self.program = subprocess.Popen([program or built(), *words], **how)
        atexit.register(self.program.kill)
        self.first = self.program.stdout.readline()
        found = re.fullmatch(rb"listening (\d+)\n", self.first)
        self.port = int(found.group(1)) if found else None
        self.path = words[words.index("--socket") + 1] if "--socket" in words else None
        # The line of the port comes first, and that of the HTTP port last.
        self.second = self.program.stdout.readline() if self.port and self.path else b""
        self.last = self.program.stdout.readline() if self.first and "--http" in words else b""
        found = re.fullmatch(rb"http (\d+)\n", self.last)
        self.http = int(found.group(1)) if found else None
        # Without a number it serves until it is killed.
        self.connections = self.left = int(words[words.index("--connections") + 1]) if "--connections" in words else 0
        self.counting = threading.Lock()

    def connect(self, room=None):
        """A connection without a Session, which counts as one of those that the server takes; with room for this number
        of bytes that were not read yet, if that is said."""
        with self.counting:
            self.left -= 1
        connection = socket.socket()
        if room:
            connection.setsockopt(socket.SOL_SOCKET, socket.SO_RCVBUF, room)
        connection.settimeout(60)
        connection.connect((HOST, self.port))
        connection.setsockopt(socket.IPPROTO_TCP, socket.TCP_NODELAY, 1)
        return connection

    def session(self):
        return Session(self.connect())

    def session_at_socket(self):
        with self.counting:
            self.left -= 1
        connection = socket.socket(socket.AF_UNIX)
        connection.settimeout(60)
        connection.connect(self.path)
        return Session(connection)

    def most_memory(self):
        """The peak of the server's memory so far, in KiB."""
        with open(f"/proc/{self.program.pid}/status", encoding="utf-8") as status:
            return next(int(line.split()[1]) for line in status if line.startswith("VmHWM"))

    def kill(self):
        """Ends it by a signal, and answers as `end` does."""
        self.program.terminate()
        return self.end()

    def end(self):
        """The status, and what was written after the first line to the standard output and to the standard error."""
        try:
            rest, told = self.program.communicate(timeout=60)
        except subprocess.TimeoutExpired:
            self.program.kill()
            rest, told = self.program.communicate()
            return "no end", rest, told
        return self.program.returncode, rest, told

    def use_up(self):
        """Uses up the connections that are left, and ends as `end` does."""
        while self.left > 0:
            self.connect().close()
        # A connection that was reset while it waited to be accepted may not have counted.
        for _ in range(20):
            try:
                self.program.wait(2)
                break
            except subprocess.TimeoutExpired:
                try:
                    self.connect().close()
                except ConnectionRefusedError:  # it has accepted its last connection, and is about to end
                    break
        return self.end()


class Session:
    """A session's other side: orders are sent one by one or together, and answers are read as bytes."""

    def __init__(self, connection):
        self.connection = connection
        self.lines = connection.makefile("rb")

    def send(self, text):
        """Sends bytes as they are."""
        self.connection.sendall(text)

    def hear(self):
        """The next answer's line, or nothing at the end of the connection."""
        return self.lines.readline()

    def hang_up(self):
        """Ends this side of the connection, and returns the further answers up to the session's end."""
        self.connection.shutdown(socket.SHUT_WR)
        rest = self.lines.read()
        self.close()
        return rest

    def ask(self, order):
        """The answer's line without its newline. Without one, the connection is at its end."""
        self.send(line_of(**order))
        return self.hear().rstrip(b"\n")

    def ask_all(self, *orders):
        return [self.ask(order) for order in orders]

    def told(self, **order):
        """The answer as an object."""
        return json.loads(self.ask(order))

    def attach(self, worker):
        """The answer, once the worker's last session has ended, for which it waits half a minute at most."""
        latest = time.monotonic() + 30
        while (answer := self.told(do="attach", worker=worker)).get("code") == 18 and time.monotonic() < latest:
            time.sleep(0.01)
        return answer

    def say(self, *orders):
        """The answers to these orders up to the end of the connection, with no further line."""
        self.send(b"".join(line_of(**order) for order in orders))
        return self.hang_up().splitlines()

    def close(self):
        self.lines.close()
        self.connection.close()

    def reset(self):
        self.lines.close()
        reset(self.connection)


def reset(connection):
    """Closes a connection by a reset: bytes that were not sent yet are discarded."""
    connection.setsockopt(socket.SOL_SOCKET, socket.SO_LINGER, RESET)
    connection.close()
