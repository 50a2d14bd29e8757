"""The package of clients/python, servers for its checks, and what its calls end with."""

import os
import sys
import threading

from lib.checks import same
from lib.programs import TOP
from lib.servers import Server

CLIENTS = os.path.join(TOP, "clients", "python")
sys.path.insert(0, CLIENTS)
from rme_client import Done, Refused, Worker  # noqa: E402, F401

JOBS = 300


def job(number, amount):
    return {"do": "submit", "lock": "bank", "number": number, "script": [["add", 0, amount]]}


def receipt(worker, number, place, reply, lock="bank"):
    return {"lock": lock, "number": number, "place": place, "reply": reply, "worker": worker}


def refusal_of(call):
    """The answer by which a call was refused, or what it answered."""
    try:
        return call()
    except Refused as refused:
        return refused.answer


def raised(call, *attributes):
    """The name of the exception that a call raises, and these attributes of it; or what it answered."""
    try:
        return call()
    except Exception as error:
        return (type(error).__name__, *(getattr(error, name, None) for name in attributes))


def inside(worker, amount, number=None, block=lambda: None, lock="bank", wait=None):
    """The job's number and receipt, after a block; if it was done already, only its receipt."""
    try:
        with worker.inside(lock, [["add", 0, amount]], number, **({} if wait is None else {"wait": wait})) as held:
            block()
        return held.number, held.receipt
    except Done as done:
        return done.receipt


def entered(worker, amount, lock="bank"):
    """The number of the job for which a block is run, whether it was pending before, and its receipt."""
    with worker.inside(lock, [["add", 0, amount]]) as held:
        pass
    return held.number, getattr(held, "again", None), held.receipt


def in_time(call, seconds=10):
    """What a call answers within this number of seconds, or "no end"."""
    told = ["no end"]
    thread = threading.Thread(target=lambda: told.append(call()), daemon=True)
    thread.start()
    thread.join(seconds)
    return told[-1]


def serve(port=0, workers=2, locks=("bank",), jobs=JOBS, **options):
    """A server that serves until it is killed; options as `at_once` for `--at-once`."""
    options = {"workers": workers, "cells": 1, "jobs": jobs, "port": port, **options}
    given = [word for name, value in options.items() for word in ("--" + name.replace("_", "-"), str(value))]
    return Server(words=["serve", *given, *locks])


def leave(server, steps, worker=0, number=1, order=None):
    """A session of another client, whose worker falls after this number of own steps of a job. Without another order
    the job adds 5 to `bank`'s cell."""
    session = server.session()
    session.attach(worker)
    session.told(do="crash_after", steps=steps)
    told = session.told(**(order or job(number, 5)))
    session.close()
    same(f"a job that fell after {steps} steps", told, {"fell": True, "ok": "submit"})


def by_another(server, *orders, worker=0):
    """The answers to another client, which takes the worker as soon as no other client has it, and leaves."""
    session = server.session()
    session.attach(worker)
    told = [session.told(**order) for order in orders]
    session.close()
    return told


def keeps_out(server, number, lock="bank"):
    """Whether worker 1 waits for a lock that worker 0 has. Its job is given up."""
    told, _ = by_another(server, dict(do="enter", lock=lock, number=number, script=[], tries=3), {"do": "withdraw"}, worker=1)
    return told == {"ok": "enter", "waiting": True}
