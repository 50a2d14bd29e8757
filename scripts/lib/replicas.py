"""Servers of a log in a cluster: `rme serve --state etcd:NAME`, and `rme look` of such a log."""

import atexit
import json
import os
import re
import signal
import socket
import subprocess
import threading
import time

from lib.kept import faults_of, look
from lib.orders import job, receipt, text
from lib.programs import built
from lib.servers import HOST, Session
from lib.storms import free_port

LOG = "bank"  # the name of the log
SECONDS = 20  # within which a server does what it should


def place_words(engines, log=LOG, **options):
    """Where a log lies, with options as `password_file` for `--password-file`."""
    given = [word for name, value in options.items() for word in ("--" + name.replace("_", "-"), str(value))]
    return [f"etcd:{log}", "--engine", engines, *given]


def looked(engines, *words, **options):
    """A run of `rme look` of the log."""
    return look(*place_words(engines, **options), *words)


def status_in(engines, **options):
    """The answer to `status` of the log, as `rme look` has it; or how that ended."""
    ran = looked(engines, "--json", **options)
    return json.loads(ran.stdout) if ran.returncode == 0 else (ran.returncode, ran.stderr)


def split_leader(status):
    """A server's status without who leads its log, and that: the address, and the term."""
    others = {name: value for name, value in status.items() if name not in ("leader", "term")}
    return others, (status.get("leader"), status.get("term"))


def lines_in(engines, **options):
    """The log as the bytes of a state file; or how `rme look` ended."""
    ran = looked(engines, "--lines", **options)
    return ran.stdout if ran.returncode == 0 else (ran.returncode, ran.stderr)


class Replica:
    """A server, which leads its log or stands by. What it prints is kept with the time at which it came."""

    def __init__(self, engines, *locks, flags=(), port=None, **options):
        """Begins with these locks, the name of the log as `log`, options as `quiet` for `--quiet`, and further words; without a
        port at one that is free."""
        self.port = port or free_port()
        self.address = f"{HOST}:{self.port}"
        options = {"name": self.address, "port": self.port, **options}
        words = ["serve", "--state", *place_words(engines, **options), *flags, *(locks or ("bank",))]
        how = {"stdin": subprocess.DEVNULL, "stdout": subprocess.PIPE, "stderr": subprocess.PIPE}
        self.began = time.monotonic()
        self.program = subprocess.Popen([built(), *words], **how)
        atexit.register(self.program.kill)
        self.lines, self.said, self.more = [], [], threading.Condition()
        pairs = (self.program.stdout, self.lines), (self.program.stderr, self.said)
        self.readers = [threading.Thread(target=self.read, args=pair, daemon=True) for pair in pairs]
        for reader in self.readers:
            reader.start()

    def read(self, stream, lines):
        for line in stream:
            with self.more:
                lines.append((time.monotonic(), line))
                self.more.notify_all()
        with self.more:
            self.more.notify_all()

    def printed(self):
        return [line for _, line in self.lines]

    def told(self):
        """The standard error so far."""
        return b"".join(line for _, line in self.said)

    def when(self, form, seconds=SECONDS):
        """The time at which a line of this form was printed; None if none comes."""
        latest = time.monotonic() + seconds
        with self.more:
            while True:
                found = next((at for at, line in self.lines if re.fullmatch(form, line)), None)
                if found or time.monotonic() >= latest or not self.is_running():
                    return found
                self.more.wait(min(0.2, latest - time.monotonic()))

    def is_running(self):
        return any(reader.is_alive() for reader in self.readers)

    def leads(self, seconds=SECONDS):
        """When it began to listen, as which it leads; None if it does not."""
        return self.when(rb"listening %d\n" % self.port, seconds)

    def stands_by(self, seconds=SECONDS):
        """When it said that it stands by."""
        return self.when(rb"standby behind \S+\n", seconds)

    def connect(self):
        connection = socket.create_connection((HOST, self.port), 60)
        connection.setsockopt(socket.IPPROTO_TCP, socket.TCP_NODELAY, 1)
        return connection

    def session(self):
        return Session(self.connect())

    def send_signal(self, number):
        self.program.send_signal(number)

    def stop(self):
        """Has it do nothing, with all its connections open, until `go_on`."""
        self.send_signal(signal.SIGSTOP)
        until_stopped(self.program.pid)

    def go_on(self):
        self.send_signal(signal.SIGCONT)

    def kill(self):
        self.program.kill()
        return self.end()

    def end(self, seconds=SECONDS):
        """Its status and its standard error, once it ended by itself; `no end` if it does not within this time."""
        try:
            status = self.program.wait(seconds)
        except subprocess.TimeoutExpired:
            self.program.kill()
            self.program.wait()
            status = "no end"
        for reader in self.readers:
            reader.join(5)
        return status, self.told()

    def __enter__(self):
        return self

    def __exit__(self, *_):
        self.kill()


def until_stopped(process):
    """Waits until no thread of a process runs any more, so that what comes from now on is not seen by it."""
    tasks = f"/proc/{process}/task"
    latest = time.monotonic() + SECONDS
    while any(state_of(f"{tasks}/{task}/stat") not in "Tt" for task in os.listdir(tasks)) and time.monotonic() < latest:
        time.sleep(0.001)


def state_of(path):
    """The state of a thread, as the kernel has it; stopped if there is no such thread any more."""
    try:
        with open(path, encoding="utf-8", errors="replace") as file:
            return file.read().rpartition(")")[2].split()[0]
    except OSError:
        return "T"


class Worker:
    """One worker over many servers. Its job n adds 1 to the cell of a lock that no other worker uses, so that its receipt is
    known. What is wrong with an answer is kept."""

    def __init__(self, number=0, lock="bank"):
        self.number, self.lock = number, lock
        self.answered, self.wrong = 0, []  # the number of the last job that was answered

    def work(self, server, count=1):
        """Makes this number of jobs, beginning with the one that was not answered. Answers whether the server did."""
        try:
            session = server.session()
            stood = session.attach(self.number)
            if stood.get("number") not in (self.answered, self.answered + 1):
                self.wrong.append((f"the answer to attach after job {self.answered}", stood))
            told = all(self.is_answered(session) for _ in range(count))
            session.close()
        except (OSError, ValueError):
            return False
        return told

    def is_answered(self, session):
        wanted = self.answered + 1
        told = session.ask(job("submit", self.lock, wanted, ["add", 0, 1]))
        if told == b"":
            return False
        if told != text(ok="submit", receipt=receipt(self.number, wanted, self.lock, wanted - 1, wanted)):
            self.wrong.append((f"the answer to job {wanted}", told))
        self.answered = wanted
        return True


def log_faults(cluster, log=LOG, **options):
    """What is wrong with a log: its records are the lines that `rme look` prints, and those a run that the machine has."""
    held, told = cluster.log(log), lines_in(cluster.engines, log=log, **options)
    if held != told:
        return [("the records, and the lines of look", len(held), told[-200:])]
    return faults_of(held)
