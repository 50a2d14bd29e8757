"""Transcripts: of each row of commands, and with each line left out, doubled, or changed for its neighbour.

`rme run --transcript` writes a transcript of each row of examples/ and rows/ whose lines are commands, and `rme check` must
say yes to it. Of each such transcript each line is left out, doubled, or changed for the next one, and `rme check` must say
what the abstract machine says: here that is a model of its own in a hundred lines, from the table of docs/model.md, and
for the example `re-entry` the verdicts that were worked out by hand."""

import json

from lib.checks import check, main, note, same
from lib.programs import ends_with, run
from rows.reading import plain_rows

WORD = 2**64

# The lines of `re-entry`: 1 open, 2 submit 0, 3 asked, 4 entered, 5 crash, 6 submit 1, 7 asked, 8 blocked,
# 9 restart, 10 reentered, 11 finished, 12 left, 13 entered, 14 finished, 15 left.
BY_HAND = {
    "left out": "bad 1,no 2,no 3,no 9,no 8,no 6,no 7,yes,no 9,no 10,no 11,no 12,no 13,no 14,yes",
    "doubled": "bad 2,no 3,no 4,no 5,no 6,no 7,no 8,yes,no 10,no 11,no 12,no 13,no 14,no 15,no 16",
    "swapped": "bad 1,no 2,no 3,no 5,yes,no 6,no 7,yes,no 9,no 10,no 11,no 12,no 13,no 14",
}


def reply_of(script, row):
    """Runs a script on a row of cells, in place; the reply is the last operation's value."""
    value = 0
    for kind, cell, *more in script:
        if kind == "get":
            value = row[cell]
        elif kind == "set":
            value = row[cell] = more[0]
        elif kind == "add":
            value = row[cell] = (row[cell] + more[0]) % WORD
        elif kind == "copy":
            value = row[more[0]] = row[cell]
        else:
            value = row[cell]
            row[cell], row[more[0]] = row[more[0]], row[cell]
    return value


class Worker:
    def __init__(self):
        self.up, self.entered, self.asked = True, False, 0
        self.stance, self.job = "idle", None


class Machine:
    """The abstract machine: a lock is free or one worker's, any waiting worker may take it, a crash releases nothing."""

    def __init__(self, opening):
        self.jobs, self.cells, self.locks = opening["jobs"], opening["cells"], opening["locks"]
        self.owner = dict.fromkeys(self.locks)
        self.rows = {lock: [0] * self.cells for lock in self.locks}
        self.places = dict.fromkeys(self.locks, 0)
        self.workers = [Worker() for _ in range(opening["workers"])]

    def takes(self, event):
        if event["worker"] >= len(self.workers):
            return False
        me = self.workers[event["worker"]]
        return getattr(self, event["do"])(me, event)

    def fits(self, script):
        """Whether the cells of a script are there: each operand but the value of a set or an add."""
        cells = [cell for kind, *given in script for cell in (given if kind in ("copy", "swap") else given[:1])]
        return len(script) <= 8 and all(cell < self.cells for cell in cells)

    def submit(self, me, event):
        if not me.up or me.stance != "idle" or event["number"] != me.asked + 1 or me.asked >= self.jobs:
            return False
        if not self.fits(event["script"]):
            return False
        me.stance, me.job = "handed", (event["lock"], event["script"])
        return True

    def crash(self, me, _event):
        if not me.up:
            return False
        me.up = me.entered = False
        if me.stance == "handed":
            me.stance = "idle"
        return True

    def restart(self, me, _event):
        was, me.up = me.up, True
        return not was

    def withdraw(self, me, _event):
        return me.up and me.stance == "waiting"

    def note(self, me, event):
        kind, *told = event["note"]
        return me.up and getattr(self, kind)(me, event["worker"], told)

    def quiet(self, _me, _worker, _told):
        return True

    ready = quiet

    def blocked(self, me, _worker, _told):
        return me.stance == "waiting"

    def asked(self, me, _worker, told):
        if me.stance != "handed" or told != [me.asked + 1]:
            return False
        me.asked, me.stance = told[0], "waiting"
        return True

    def withdrew(self, me, _worker, told):
        if me.stance != "waiting" or told != [me.asked]:
            return False
        me.stance = "idle"
        return True

    def entered(self, me, worker, told):
        if me.stance != "waiting" or told != [me.job[0]] or self.owner[me.job[0]] is not None:
            return False
        self.owner[me.job[0]] = worker
        me.stance, me.entered = "inside", True
        return True

    def reentered(self, me, _worker, told):
        if me.entered or me.stance not in ("inside", "finished") or told != [me.job[0]]:
            return False
        me.entered = True
        return True

    def finished(self, me, _worker, told):
        if not me.entered or me.stance != "inside":
            return False
        lock, script = me.job
        row = list(self.rows[lock])
        if told != [lock, me.asked, self.places[lock], reply_of(script, row)]:
            return False
        self.rows[lock] = row
        self.places[lock] += 1
        me.stance = "finished"
        return True

    def left(self, me, _worker, told):
        if not me.entered or me.stance != "finished" or told != [me.job[0]]:
            return False
        self.owner[me.job[0]] = None
        me.stance, me.entered = "idle", False
        return True


def verdict_of(lines):
    """What the model says of a transcript whose lines are all openings or event lines."""
    events = [json.loads(line) for line in lines]
    if not events or events[0]["do"] != "open":
        return "bad 1"
    machine = Machine(events[0])
    for number, event in enumerate(events[1:], 2):
        if event["do"] == "open":
            return f"bad {number}"
        if not machine.takes(event):
            return f"no {number}"
    return "yes"


def turned(lines):
    """Each way in which one line is left out, doubled, or changed for the next, with its name."""
    for at in range(len(lines)):
        yield "left out", at, lines[:at] + lines[at + 1 :]
    for at in range(len(lines)):
        yield "doubled", at, lines[: at + 1] + lines[at:]
    for at in range(len(lines) - 1):
        yield "swapped", at, lines[:at] + [lines[at + 1], lines[at]] + lines[at + 2 :]


def try_lines(name, lines):
    """What `rme check` says of these lines, with the status that goes with it, which must be what the model says."""
    wanted = verdict_of(lines)
    ended = ends_with(run(["check"], b"".join(lines)))
    holds = ended == (0 if wanted == "yes" else 1, f"{wanted}\n".encode(), b"")
    check(name, holds, f"{ended} in place of {wanted}", quiet=True)
    return ended[1].decode().rstrip("\n")


def try_row(name, given):
    ended = run(["run", "--transcript"], given)
    check(f"{name}, its transcript", (ended.returncode, ended.stderr) == (0, b""), ended, quiet=True)
    lines = ended.stdout.splitlines(keepends=True)
    if lines:
        check(f"{name}, whole", try_lines(f"{name}, whole", lines) == "yes", "it is not yes", quiet=True)
    found = {}
    for how, at, other in turned(lines):
        found.setdefault(how, []).append(try_lines(f"{name}, line {at + 1} {how}", other))
    if name == "examples/re-entry":
        for how, wanted in BY_HAND.items():
            same(f"{name}, {how}: what was worked out by hand", found[how], wanted.split(","))
    said_yes = sum(verdict == "yes" for verdicts in found.values() for verdict in verdicts)
    note(f"{name}: {len(lines)} lines, and {said_yes} other transcripts of them that are yes")


def try_rows():
    for name, given in plain_rows():
        try_row(name, given)


def part():
    main(try_rows)
