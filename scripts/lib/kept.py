"""Servers that keep their state in a file, and the contents of such a file by `rme run` and by `rme look`."""

import collections
import json
import re
import subprocess
import time

from lib import sums
from lib.programs import ends_with, run
from lib.servers import Server, line_of

LOCKS = ("bank", "shop")

# What may follow the last newline of a file if its server was killed: a start cuts all of it off.
TORN = (b"{", b'{"do":"crash","worker":0}', b'{"do":"walk","max":1', b"\0" * 4096, b"x" * 70_000, bytes(range(11, 256)))
# What may follow the last sum line.
CRASH = b'{"do":"crash","worker":0}\n'
UNSEALED = (*TORN, CRASH, CRASH + b'{"kept":1,"seq":', b'{"kept":1,"seq":9,"sum":"00000000"}\n')


def state_words(path, *locks, **options):
    """The words after `rme` for a server that keeps this file, with these options, as `at_once` for `--at-once`."""
    given = [word for name, value in options.items() for word in ("--" + name.replace("_", "-"), str(value))]
    return ["serve", "--state", path, *given, *locks]


def serve(path, *locks, how=(), **options):
    """A server that keeps this file, on a port that is free if no place is said."""
    if not {"port", "socket"} & set(options):
        options["port"] = 0
    return Server(words=state_words(path, *locks, **options), how=how)


def end_of(words, **how):
    """How a run that must not serve ends, in the form of `ends_with`."""
    try:
        return ends_with(run(words, stdin=subprocess.DEVNULL, timeout=10, **how))
    except subprocess.TimeoutExpired as late:
        return "no end", late.stdout or b"", late.stderr or b""


def until_waiting(session, worker):
    """The status of all, once this worker waits."""
    for _ in range(1000):
        told = session.told(do="status")
        if told["workers"][worker]["stance"] == "climb":
            break
        time.sleep(0.01)
    return told


def kill(server):
    """Kills a server as the kernel does that has no memory left, and answers how it ended."""
    server.program.kill()
    return server.end()


def read(path):
    with open(path, "rb") as file:
        return file.read()


def log_of(path):
    """The bytes of a file without the room at its end, which a server makes that waits for the disk."""
    return sums.without_room(read(path))


def written(path, held):
    with open(path, "wb") as file:
        file.write(held)
    return path


CUT_OFF = rb"rme: \d+ bytes at the end of .* were never known to be with the disk, and are cut off\n"


def without_count(told):
    """The standard error after the lines that tell how many lines were read, and how many bytes are cut off."""
    return re.sub(rb"\A(rme: \d+ lines are read\n|rme: \d+ lines read in \d+ ms\n|%s)*" % CUT_OFF, b"", told)


def bad_state(path, held, line):
    """The message of a start that refuses a file with these bytes at this line: because of the sums, or of the line."""
    is_changed = sums.is_sealed(held) and sums.start_of(held).changed
    why = f"what was written up to line {line} has changed since" if is_changed else f"line {line}"
    return f"fault: bad state\n  {path}: {why}\n".encode()


# ---- the contents of a file


def whole_lines(held):
    """The lines that a start takes of a file's bytes, each with its newline, without sum lines."""
    return [line + b"\n" for line in sums.payload_of(held).split(b"\n")[:-1]]


def answers_to(lines):
    """What `rme run` answers to these lines."""
    return [json.loads(line) for line in run(["run"], b"".join(lines)).stdout.splitlines()]


class Told:
    """The state of one worker after the lines of a file."""

    def __init__(self):
        self.is_up, self.number, self.handed, self.is_pending = True, 0, None, False

    def hear(self, order, answer):
        """An order of the worker, and what `rme run` answers to it."""
        if order["do"] in ("crash", "restart"):
            self.is_up = order["do"] == "restart"
        elif order["do"] == "submit":
            self.handed = order["lock"]
        for kind, *told in answer.get("notes", ()):
            if kind == "asked":
                self.number, self.is_pending = told[0], True
            elif kind in ("finished", "withdrew"):
                self.is_pending = False

    def status(self, number, owners, others):
        """The worker of this number, if the locks have these owners, and these workers wait for those."""
        status = {"attached": self.is_up, "number": self.number, "stance": "ready"}
        if number in others:
            status["blocked_by"] = others[number]
        if self.is_pending:
            status["lock"] = self.handed
            status["stance"] = "held" if owners[self.handed] == number else "climb"
        return status


def blocked_in(image):
    """Which worker waits for which in a world, by the words of its image: for each worker with a pending job, the
    worker whose path has the node above the levels that the first one holds, and that holds its own path up to
    there."""
    workers, locks, cells = int.from_bytes(image[5:7], "big"), image[7], image[8]
    leaves = max(2, 1 << (workers - 1).bit_length())
    size = leaves + 2 + 2 * cells
    count = 31 * workers + locks * size
    words = [int.from_bytes(image[at : at + 8], "big") for at in range(13, 13 + 8 * count, 8)]
    waits = {}
    for worker in range(workers):
        begun, done, *_, lock = words[31 * worker : 31 * worker + 6]
        if done < begun:
            nodes = words[31 * workers + lock * size :][: leaves - 1]
            paths = [held_path(leaves + other, nodes) for other in range(workers)]
            levels = paths[worker].count(True)
            above = (leaves + worker) >> (levels + 1)
            there = [other for other in range(workers) if above and (leaves + other) >> (levels + 1) == above]
            waits.update({worker: other for other in there if all(paths[other][: levels + 1])})
    return waits


def held_path(leaf, nodes):
    """Whether the path from this leaf is held up to each of its nodes, from the leaf upward."""
    path, is_held = [], True
    while leaf > 1:
        is_held = is_held and nodes[leaf // 2 - 1] == 1 + leaf % 2
        path.append(is_held)
        leaf //= 2
    return path


def status_of(lines, header=None):
    """The answer to `status` after this header, or after a first one, and the lines of a file: by what `rme run`
    answers to these lines, and to look-ups after them."""
    opening = json.loads(lines[0])
    header = header or first_header(opening)
    locks = opening["locks"]
    looks = [line_of(do=look, lock=lock) for look in ("owner", "cells") for lock in locks]
    answers = answers_to([*lines, *looks, line_of(do="history"), line_of(do="save")])
    *looked, history, saved = answers[len(lines) :]
    others = blocked_in(bytes.fromhex(saved["image"]))
    owners = {lock: answer["owner"] for lock, answer in zip(locks, looked)}
    sections = collections.Counter(entry["lock"] for entry in history["entries"])
    workers = [Told() for _ in range(opening["workers"])]
    for line, answer in zip(lines[1:], answers[1:]):
        order = json.loads(line)
        workers[order["worker"]].hear(order, answer)
    rows = [{"cells": answer["cells"], "settled": answer["settled"]} for answer in looked[len(locks) :]]
    status = {
        "epoch": header["epoch"],
        "locks": [
            {**row, "name": lock, "owner": owners[lock], "sections": sections[lock] + before}
            for lock, row, before in zip(locks, rows, header["places"])
        ],
        "ok": "status",
        "workers": [worker.status(number, owners, others) for number, worker in enumerate(workers[:-1])],  # without the keeper
    }
    for worker, before in zip(status["workers"], header["numbers"]):
        worker["number"] += before
    return status


def status_in(held):
    """The answer to `status` after a file's bytes."""
    header, *lines = whole_lines(held)
    return status_of(lines, json.loads(header))


def first_header(opening):
    """The members of the header of a new file whose next line is this one."""
    clients = opening["workers"] - 1
    lists = {"last": [None] * clients, "lives": [0] * clients, "numbers": [0] * clients}
    return {"epoch": 0, **lists, "places": [0] * len(opening["locks"])}


def header_of(held):
    """The first line of a file."""
    return json.loads(held[: held.index(b"\n")])


def epoch_of(held):
    """How often a file was renewed."""
    return header_of(held)["epoch"]


def lives_of(held):
    """How often each worker was restarted, by the header and the lines after it."""
    header, *lines = map(json.loads, whole_lines(held))
    lives = header.get("lives", [0] * len(header["numbers"]))
    for line in lines:
        if line["do"] == "restart":
            lives[line["worker"]] += 1
    return lives


def look(path, *words):
    """A run of `rme look`."""
    return run(["look", *words, path])


def looked(path):
    """The answer to `status` that `rme look` gives; or how it ended, if it gives none."""
    ran = look(path, "--json")
    return json.loads(ran.stdout) if ran.returncode == 0 else (ran.returncode, ran.stderr)


def faults_of(held):
    """What is wrong with a file's bytes as lines of `rme run`: lines that are refused, or a run that the machine cannot
    make."""
    lines = b"".join(whole_lines(held)[1:])
    answers = run(["run"], lines).stdout.splitlines()
    refused = [(number, answer) for number, answer in enumerate(answers, 2) if b'"code"' in answer]
    verdict = run(["check"], run(["run", "--transcript"], lines).stdout).stdout
    return [*refused[:3], *([] if verdict == b"yes\n" else [verdict])]
