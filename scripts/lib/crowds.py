"""Crowds: many client processes of few workers, which take them from each other, are silent too long, and are killed."""

import collections
import json
import os
import random
import signal
import subprocess
import sys
import time

from lib.crowd_member import LOCKS, SLOTS
from lib.kept import answers_to, kill, read, serve, whole_lines, written
from lib.programs import SCRIPTS
from lib.servers import line_of

MEMBER = os.path.join(SCRIPTS, "lib", "crowd_member.py")
WORKERS, IDLE = 3, 2
KILLED = -signal.SIGKILL, -signal.SIGALRM


class Crowd:
    """Nine clients of three workers, and what they did: `counts` by kind, and `wrong`."""

    def __init__(self, folder, seed):
        self.folder, self.numbers, self.seeds = folder, random.Random(seed), seed * 1000
        self.state = os.path.join(folder, "state")
        self.server = serve(self.state, *LOCKS, workers=WORKERS, cells=2, jobs=100_000, idle=IDLE)
        self.wrong, self.kills, self.counts = [], 0, collections.Counter()

    def start(self, worker, slot):
        self.seeds += 1
        words = [sys.executable, MEMBER, self.folder, *map(str, (self.server.port, worker, slot, self.seeds))]
        return subprocess.Popen(words, stdin=subprocess.DEVNULL)

    def run(self, seconds, kinds=()):
        """Lets the clients work and kills them for this time, has them end, and answers what is wrong. On a machine that is
        slow or busy it lets them work on, for three times as long at most, until they did each of these kinds."""
        running = {(worker, slot): self.start(worker, slot) for worker in range(WORKERS) for slot in range(SLOTS)}
        began, is_over = time.monotonic(), False
        latest = began + seconds
        while running and not self.wrong:
            time.sleep(0.01)
            if not is_over and time.monotonic() >= latest:
                if latest < began + 3 * seconds and not set(kinds) <= self.kinds():
                    latest += 5
                    continue
                is_over = True
                written(os.path.join(self.folder, "stop"), b"")
            if not is_over and self.numbers.random() < 0.03:
                running[self.numbers.choice(list(running))].kill()
            if time.monotonic() > latest + 60:
                self.wrong.append(("no end of the clients", list(running)))
            self.go_on(running)
        for client in running.values():
            client.kill()
            client.wait()
        if not self.wrong:
            self.compare()
        kill(self.server)
        return self.wrong

    def go_on(self, running):
        """Starts the clients again that were killed, so that none leaves a job."""
        for place, client in list(running.items()):
            status = client.poll()
            if status in KILLED:
                self.kills += 1
                running[place] = self.start(*place)
            elif status is not None:
                del running[place]
                if status:
                    self.wrong.append(("a client ended with", status, self.logged()[-1:]))

    def kinds(self):
        """What the clients did so far, of whatever kind."""
        lines = self.logged()
        return {line["did"] for line in lines} | {"again" for line in lines if line.get("again")}

    def logged(self):
        return [json.loads(line) for line in whole_lines(read(os.path.join(self.folder, "log")))]

    def compare(self):
        """What the clients were answered, and what their blocks wrote, beside the history in the server's file."""
        _, *lines = whole_lines(read(self.state))
        entries = [entry for entry in answers_to([*lines, line_of(do="history")])[-1]["entries"] if entry["worker"] < WORKERS]
        made = {(entry["worker"], entry["number"]): entry for entry in entries}
        seen = set()
        for line in self.logged():
            self.counts[line["did"]] += 1
            self.counts["again"] += line.get("again", False)
            if line["did"] == "wrong" or (line["did"] == "withdraw" and line["left"] is not None):
                self.wrong.append(line)
            elif "made" in line:
                self.compare_receipt(line, made, seen)
        status = json.loads(self.server.session().ask({"do": "status"}))
        for lock in status["locks"]:
            self.compare_lock(lock, [entry for entry in entries if entry["lock"] == lock["name"]])

    def compare_receipt(self, line, made, seen):
        """A receipt is of a job that counted, which has the amount of the call that it answers, and answers no other."""
        name = line["made"]["worker"], line["made"]["number"]
        entry = made.get(name)
        told = None if entry is None else {key: value for key, value in entry.items() if key != "script"}
        is_own = line["amount"] in (None, entry and entry["script"][-1][2])
        if told != line["made"] or not is_own or name in seen or line["worker"] != name[0]:
            self.wrong.append(("a receipt that is not the call's", line, entry, name in seen))
        seen.add(name)

    def compare_lock(self, lock, entries):
        """The cells are the fold of the jobs; each that has a block had it run once, in the jobs' order."""
        entries.sort(key=lambda entry: entry["place"])
        total = sum(entry["script"][-1][2] for entry in entries)
        blocks = [entry for entry in entries if len(entry["script"]) == 2]
        if (lock["cells"], [entry["place"] for entry in entries]) != ([total, len(blocks)], list(range(len(entries)))):
            self.wrong.append(("cells that are not the fold of the jobs", lock, total, len(blocks), len(entries)))
        wanted = [f"{entry['worker']} {entry['number']}" for entry in blocks]
        found = read(os.path.join(self.folder, lock["name"])).decode().splitlines()
        if found != wanted:
            place = next((at for at, (one, two) in enumerate(zip(found, wanted)) if one != two), min(len(found), len(wanted)))
            near = slice(place, place + 3)
            self.wrong.append(("a block that was skipped, or run twice", place, found[near], wanted[near]))
        self.counts["jobs"] += len(entries)
