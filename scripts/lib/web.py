"""Requests to the HTTP port of a server, and the metrics that it tells."""

import collections
import re
import socket
import time

from lib.servers import HOST

Answer = collections.namedtuple("Answer", "status fields content")

# The families of each server, those of a server that keeps states, and those of one state.
OF_SESSIONS = {
    "rme_sessions_open": "gauge",
    "rme_sessions_total": "counter",
    "rme_sessions_waiting": "gauge",
    "rme_orders_total": "counter",
    "rme_refusals_total": "counter",
    "rme_order_seconds": "histogram",
}
OF_LOGS = {
    "rme_log_write_seconds": "histogram",
    "rme_checkpoints_total": "counter",
    "rme_checkpoint_seconds_total": "counter",
}
OF_STATE = {
    "rme_jobs_finished_total": "counter",
    "rme_jobs_withdrawn_total": "counter",
    "rme_state_bytes": "gauge",
    "rme_epoch": "gauge",
    "rme_workers": "gauge",
    "rme_owners_down": "gauge",
}

HEAD = re.compile(r"# (HELP|TYPE) (\w+) (.+)")
SAMPLE = re.compile(r'(\w+)(?:\{(\w+)="([^"\\\n]*)"\})? ([0-9.eE+-]+)')


# ---- requests


def request(path="/", method="GET", host=HOST, fields=()):
    """The bytes of a request; without a host it has no field for it."""
    lines = [f"{method} {path} HTTP/1.1", *([f"Host: {host}"] if host is not None else []), *fields]
    return ("\r\n".join(lines) + "\r\n\r\n").encode()


def connect(port):
    return socket.create_connection((HOST, port), timeout=60)


def rest_of(connection):
    """All bytes up to the end of a connection, also if it is reset."""
    held = b""
    while True:
        try:
            got = connection.recv(65536)
        except ConnectionError:
            return held
        if not got:
            return held
        held += got


def answer_of(held):
    """The answer that some bytes are: its status, its fields by their names in small letters, and its content. `None` if
    they are none."""
    front, end, content = held.partition(b"\r\n\r\n")
    first, *lines = front.decode().split("\r\n")
    found = re.fullmatch(r"HTTP/1\.1 (\d{3}) [\w ]+", first)
    if not end or not found:
        return None
    fields = {name.lower(): value for name, value in (line.split(": ", 1) for line in lines)}
    return Answer(int(found[1]), fields, content)


def sent(port, held):
    """The answer to these bytes, in a connection of their own; `None` if there is none."""
    with connect(port) as connection:
        try:
            connection.sendall(held)
        except ConnectionError:
            pass
        return answer_of(rest_of(connection))


def asked(port, path="/", method="GET", host=HOST, fields=()):
    return sent(port, request(path, method, host, fields))


def status_to(port, path="/", method="GET", host=HOST, fields=()):
    """The status of an answer; `None` if there is none."""
    answer = asked(port, path, method, host, fields)
    return answer and answer.status


# ---- metrics


class Metrics:
    """The samples of a text, and the types of its families."""

    def __init__(self, text):
        self.text, self.types, self.samples, self.faults = text, {}, collections.defaultdict(dict), []
        family, wanted = None, "HELP"
        for line in text.splitlines():
            head, sample = HEAD.fullmatch(line), SAMPLE.fullmatch(line)
            if head and head[1] == wanted == "HELP" and head[2] not in self.types:
                family, wanted = head[2], "TYPE"
            elif head and head[1] == wanted == "TYPE" and head[2] == family:
                self.types[family], wanted = head[3], "HELP"
            elif sample and wanted == "HELP" and sample[1] in self.names_of(family) and sample[3] not in self.samples[sample[1]]:
                self.samples[sample[1]][sample[3]] = float(sample[4])
            else:
                self.faults.append(line)
        if not text.endswith("\n") or wanted != "HELP":
            self.faults.append("its end")
        self.faults += [name for name, kind in self.types.items() if kind == "histogram" and not self.is_histogram(name)]

    def names_of(self, family):
        """The names that samples of a family have."""
        ends = ("_bucket", "_sum", "_count") if self.types.get(family) == "histogram" else ("",)
        return [f"{family}{end}" for end in ends]

    def is_histogram(self, name):
        """Whether counts rise with their bounds, and the last bound is above all times."""
        buckets = self.samples[f"{name}_bucket"]
        bounds, counts = [float(bound) for bound in buckets], list(buckets.values())
        rises = bounds == sorted(set(bounds)) and counts == sorted(counts)
        return rises and bounds[-1:] == [float("inf")] and counts[-1] == self.one(f"{name}_count")

    def one(self, name):
        """The value of the one sample of this name that has no label; `None` if there is none."""
        return self.samples.get(name, {}).get(None)

    def counts(self, name):
        """The values of the samples of this name that are not 0, by their labels."""
        return {label: int(value) for label, value in self.samples.get(name, {}).items() if value}


def metrics_of(port, space=None):
    answer = asked(port, "/metrics" + (f"?space={space}" if space else ""))
    if not answer or answer.status != 200:
        raise AssertionError(f"no metrics: {answer}")
    return Metrics(answer.content.decode())


def comes(find, wanted, seconds=20):
    """What is found once it is what is wanted, or at the end of the time."""
    end = time.monotonic() + seconds
    while (found := find()) != wanted and time.monotonic() < end:
        time.sleep(0.05)
    return found
