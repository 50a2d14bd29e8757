"""beside [SEED]: servers with a state beside servers without one.

The rows of sessions, and clients that say the same to a server with a state and to one without it, for which a restart is
the end of all sessions; and to one that renews its file all the time.
"""

import json
import os
import random
import sys

from lib.checks import check, main_in_folders, note, same
from lib.kept import LOCKS, faults_of, kill, looked, read, serve, status_in, status_of, whole_lines, written
from lib.orders import RESUME, STATUS, attach, job, without_seconds
from lib.servers import Server
from lib.sums import resealed
from rows.reading import Serve, all_rows, asks, cuts_of, items_of, of_cut, text_of
from rows.sessions import turns_of, words_of

SEED = int(sys.argv[1]) if len(sys.argv) > 1 else random.randrange(10**6)
NOT_ATTACHED = b'{"code":19,"error":"NotAttached"}'


# ---- beside a server without a state


def heard(path, words, turns):
    """What the clients of a row are answered by a server that keeps its state."""
    server = Server(words=["serve", "--state", path, *words, "--port", "0"])
    clients = {number: server.session() for number in range(1, max(client for client, _ in turns) + 1)}
    answers = []
    for client, line in turns:
        if line is None:
            answers.append(clients.pop(client).hang_up())
        else:
            clients[client].send(line)
            answers.append(clients[client].hear())
    answers += [client.hang_up() for client in clients.values()]
    kill(server)
    return b"".join(answers)


def with_large_numbers(items, wanted):
    """The answers to a row's lines at a server that takes numbers over 2^32: a session without a worker is told so."""
    large = [b'"number":4294967296,' in line for line in text_of(items).splitlines()]
    return [NOT_ATTACHED if is_large else answer for is_large, answer in zip(large, wanted)] if any(large) else wanted


def try_rows(folder):
    """The rows of sessions. Left out are those with a planned crash and more than one worker: with the keeper the trees
    of their locks are higher, and have more steps. What comes once all jobs are used up is left out too: they never are."""
    made = 0
    for row in all_rows():
        if not asks(row, Serve):
            continue
        if b'"crash_after"' in text_of(row.items) and "--workers 1 " not in " ".join(words_of(row)):
            continue
        answers = items_of(row.files[".answers.jsonl"])
        for cut in cuts_of(row.items, answers):
            path = os.path.join(folder, f"row-{made}")
            found = heard(path, words_of(row), turns_of(of_cut(row.items, cut))).splitlines()
            wanted = [line for line in text_of(of_cut(answers, cut)).splitlines() if line.startswith(b"{")]
            wanted = with_large_numbers(of_cut(row.items, cut), wanted)
            count = next((at for at, line in enumerate(wanted) if b'"code":14,' in line), len(found))
            check(f"{row.name}, cut {cut}", found[:count] == wanted[:count], (found, wanted), quiet=True)
            check(f"{row.name}, cut {cut}: its file", not faults_of(read(path)), faults_of(read(path)), quiet=True)
            made += 1
    check(f"{made} rows of sessions, by a server with a state", made > 5)


class Talk:
    """What clients say who know where their workers stand, and sometimes do not care."""

    OFTEN = {"submit": 8, "enter": 8, "commit": 6, "resume": 3, "withdraw": 2, "crash_after": 4, "attach": 2}

    def __init__(self, numbers):
        self.numbers = numbers
        self.next, self.jobs = {}, {}  # of each client that has a worker the next number; its last job
        self.workers = {}  # of each client that has one its worker

    def script(self):
        draw = self.numbers.randrange
        cells = 2 + (draw(20) == 0)  # at times one more than there are
        two = (cells, cells)
        kinds = [("get", cells), ("set", cells, 2**64), ("add", cells, 100), ("copy", *two), ("swap", *two)]
        operations = [self.numbers.choice(kinds) for _ in range(draw(4) if draw(30) else 9)]
        return [[kind, *map(draw, most)] for kind, *most in operations]

    def order(self, client):
        """The next order of this client."""
        numbers = self.numbers
        do = numbers.choices(*zip(*{**self.OFTEN, "last": 1, "detach": 1, "none": 1}.items()))[0]
        if do == "attach" or (client not in self.next and numbers.random() < 0.8):
            asked = attach(numbers.randrange(4))  # there are three
            return {**asked, "after": numbers.randrange(60)} if numbers.random() < 0.2 else asked
        if do in ("submit", "enter"):
            return {**self.job(client), "do": do, "tries": numbers.randrange(1, 4)}
        if do == "resume":
            return {**RESUME, "tries": numbers.randrange(1, 4)}
        return {"do": do, "steps": numbers.randrange(40)} if do == "crash_after" else {"do": do}

    def job(self, client):
        """The client's last job once more, or another one."""
        numbers = self.numbers
        if client not in self.jobs or numbers.random() < 0.6:
            number = self.next.get(client, 1) + numbers.choices((0, -1, 1), (16, 3, 1))[0]
            lock = numbers.choices((*LOCKS, "mill"), (10, 10, 1))[0]
            self.jobs[client] = job("", lock, max(number, 0), *self.script())
        return self.jobs[client]

    def hear(self, client, order, answer):
        """What the client learns of its worker."""
        told = json.loads(answer)
        if told.get("ok") == "attach":
            self.workers[client] = order["worker"]
        if "fell" in told or told.get("ok") == "detach":
            self.next.pop(client, None)
            self.workers.pop(client, None)
        elif "expected" in told:
            self.next[client] = told["expected"]
        elif told.get("ok") == "attach":
            self.next[client] = told["number"] + (told["stance"] == "ready")
        elif told.get("ok") == "withdraw":
            self.next[client] = told["number"] + 1
        elif "receipt" in told:
            self.next[client] = told["receipt"]["number"] + 1


class CalmTalk(Talk):
    """The orders if the file is renewed: at most one worker waits for a lock, and no crash is planned. How far a worker
    that waits has climbed, and which of two that wait was first, is not shown, and may change with a renewal."""

    OFTEN = {**Talk.OFTEN, "crash_after": 0, "detach": 3}

    def order(self, client):
        order = super().order(client)
        return order if order["do"] not in ("submit", "enter") or self.may_wait(client, order) else {"do": "last"}

    def may_wait(self, client, order):
        """Whether nobody waits for the lock of an order, as far as this client's worker is not who does."""
        own, lock = self.workers.get(client), order["lock"]
        workers = enumerate(self.look()["workers"])
        return not any(it["stance"] == "climb" and it["lock"] == lock and number != own for number, it in workers)


def try_beside(folder):
    """Four clients say the same to a server with three workers, and to one that has a keeper beside them, so that the
    trees of both are alike. It is killed again and again, which is for the other the end of all sessions."""
    beside(folder, "beside", Talk, {}, 12)
    held = read(os.path.join(folder, "beside"))
    lines, wrong, numbers = whole_lines(held), [], random.Random(SEED)
    front = os.path.join(folder, "front")
    for count in sorted(numbers.sample(range(2, len(lines) + 1), 40)):
        written(front, resealed(b"".join(lines[:count])))
        wrong += [(count, looked(front))] * (looked(front) != status_of(lines[1:count]))
    check(f"look at fronts of its {len(lines)} lines, beside `rme run`", not wrong, wrong[:2])


def try_renewed_beside(folder):
    """The same with one that renews its file, for this number of jobs of all, or of a worker."""
    for sections, jobs in ((1, 100_000), (7, 100_000), (1000, 1), (1000, 4)):
        name = f"beside-{sections}-{jobs}"
        beside(folder, name, CalmTalk, {"sections": sections, "jobs": jobs}, 4)
        epoch = looked(os.path.join(folder, name))["epoch"]
        check(f"--sections {sections} --jobs {jobs}: it was renewed {epoch} times", epoch > 3)


def beside(folder, name, talks, more, lives):
    """Orders over this number of lives, to a server without a state and to one that has a state, and these options
    too."""
    numbers, path = random.Random(f"{SEED} {name}"), os.path.join(folder, name)
    options = {"workers": 3, "cells": 2, "jobs": 100_000}
    plain = Server(LOCKS, without="connections", **options)
    wrong, orders = [], 0
    for _ in range(lives):
        server, talk = serve(path, *LOCKS, **{**options, **more}), talks(numbers)
        sides = [[side.session() for _ in range(4)] for side in (plain, server)]
        onlooker = server.session()
        talk.look = lambda: onlooker.told(**STATUS)
        for worker in range(3):  # the plain server has seen the end of a session once its worker can be attached
            told = [(side[0].attach(worker), side[0].told(do="detach")) for side in sides]
            wrong += [("attach", told)] * (told[0] != told[1])
        for _ in range(150):
            client = numbers.randrange(4)
            order = talk.order(client)
            told = [side[client].ask(order) for side in sides]
            talk.hear(client, order, told[0])
            wrong += [(order, told)] * (told[0] != told[1])
            orders += 1
        for session in sides[0]:
            session.close()
        before = without_seconds(json.loads(sides[1][0].ask(STATUS)))
        kill(server)
        wrong += [("status", before, looked(path))] * (before != looked(path))
        wrong += [("run", status_in(read(path)))] * (before != status_in(read(path)))
    check(f"{name}: {orders} orders over {lives} lives are answered alike", not wrong, wrong[:3])
    same(f"{name}: and are a run that the machine has", faults_of(read(path)), [])
    plain.kill()


def part():
    note(f"seed {SEED}")
    main_in_folders(try_rows, try_beside, try_renewed_beside, minutes=5)
