"""The conversations of clients/conversations, and the clients of clients/python in them."""

import asyncio
import concurrent.futures
import json
import os
import re
import subprocess
import sys
import time

from lib.checks import check
from lib.clients import CLIENTS
from lib.servers import HOST

import rme_client
from rme_client import AsyncObserver, AsyncSpaces, AsyncWorker, Observer, Spaces, Worker

PLACE = os.path.join(os.path.dirname(CLIENTS), "conversations")
STAND_IN = os.path.join(PLACE, "stand_in.py")
sys.path.insert(0, PLACE)
from stand_in import FILE, read  # noqa: E402

AT_ONCE = 8
LATEST = 60.0  # how many seconds a client tries to get a session, if the conversation does not say it


class Block(Exception):
    """A block that fails."""


class StandIn:
    """The other side of all conversations."""

    def __enter__(self):
        words = [sys.executable, STAND_IN]
        self.program = subprocess.Popen(words, stdin=subprocess.PIPE, stdout=subprocess.PIPE, text=True)
        self.ports = json.loads(self.program.stdout.readline())
        return self

    def __exit__(self, *_):
        self.program.stdin.close()
        self.program.wait(60)
        self.program.stdout.close()

    def verdict(self, name):
        print(name, file=self.program.stdin, flush=True)
        return self.program.stdout.readline().rstrip("\n")


class Clients:
    """The clients of one conversation, as its first line has them: a worker, an observer and an administrator."""

    def __init__(self, told, ports, kinds):
        first, *more = ((HOST, port) for port in ports)
        given = {name: told[name] for name in ("secret",) if name in told}
        space = {"space": told["space"]} if "space" in told else {}
        own = {name: told[name] for name in ("label", "take") if name in told}
        worker, observer, spaces = kinds
        latest = told.get("connect_timeout", LATEST)
        number = told.get("worker", 0)
        self.worker = worker(*first, number, connect_timeout=latest, further=more, **given, **space, **own)
        self.observer = observer(*first, further=more, **given, **space)
        self.spaces = spaces(*first, further=more, **given)

    def call(self, call):
        """The result of a call other than `inside`, or what is awaited for it."""
        name, words = call["call"], {name: it for name, it in call.items() if name not in ("call", "fails")}
        if name in ("create", "drop"):
            return getattr(self.spaces, name)(**words)
        if name == "spaces":
            return self.spaces.names(**words)
        return getattr(self.observer if name in ("status", "owner", "cells") else self.worker, name)(**words)


def words_of(call):
    return {name: it for name, it in call.items() if name not in ("call", "fails")}


def told_of(held):
    return {name: getattr(held, name) for name in ("again", "life", "number", "section")}


def error_of(error, wanted):
    """An exception, by the members that the conversation names."""
    members = {name: getattr(error, name, None) for name in wanted if name not in ("error", "expected")}
    if "expected" in wanted:
        members["expected"] = error.answer.get("expected")
    return {"raises": {"error": type(error).__name__, **members}}


def calls_of(steps):
    """The calls and pauses of a conversation: each with what it begins with inside, and its result."""
    found = []
    for step in steps:
        if "call" in step or "pause" in step:
            found.append((step, {}))
        elif "held" in step or "returns" in step or "raises" in step:
            found[-1][1].update(step)
    return found


def blocked(clients, call, found):
    """The result of a block."""
    with clients.worker.inside(**words_of(call)) as held:
        found["held"] = told_of(held)
        if call.get("fails"):
            raise Block
    return held.receipt


async def awaited_block(clients, call, found):
    async with clients.worker.inside(**words_of(call)) as held:
        found["held"] = told_of(held)
        if call.get("fails"):
            raise Block
    return held.receipt


def play(told, steps, ports):
    """What is wrong in a conversation of the clients whose calls block, or None."""
    clients = Clients(told, ports, (Worker, Observer, Spaces))
    with clients.worker:
        for call, wanted in calls_of(steps):
            if "pause" in call:
                time.sleep(call["pause"])
                continue
            found = {}
            try:
                answer = blocked(clients, call, found) if call["call"] == "inside" else clients.call(call)
                found["returns"] = answer
            except (Block, rme_client.RmeError) as error:
                found.update(error_of(error, wanted.get("raises", {})))
            if not is_same(found, wanted):
                return f"{call}: {found} in place of {wanted}"
    return None


async def play_awaited(told, steps, ports):
    """The same of the clients whose calls are awaited."""
    clients = Clients(told, ports, (AsyncWorker, AsyncObserver, AsyncSpaces))
    async with clients.worker:
        for call, wanted in calls_of(steps):
            if "pause" in call:
                await asyncio.sleep(call["pause"])
                continue
            found = {}
            try:
                own = awaited_block(clients, call, found) if call["call"] == "inside" else clients.call(call)
                found["returns"] = await own
            except (Block, rme_client.RmeError) as error:
                found.update(error_of(error, wanted.get("raises", {})))
            if not is_same(found, wanted):
                return f"{call}: {found} in place of {wanted}"
    return None


def is_same(found, wanted):
    """Whether two values are the same as JSON: true is not 1."""
    return json.dumps(found, sort_keys=True) == json.dumps(wanted, sort_keys=True)


def try_blocking():
    """All conversations with the clients whose calls block."""
    conversations = read(FILE)
    with StandIn() as peer, concurrent.futures.ThreadPoolExecutor(AT_ONCE) as pool:
        made = [pool.submit(play, told, steps, peer.ports[told["conversation"]]) for told, steps in conversations]
        for (told, _), one in zip(conversations, made):
            tell("", peer, told["conversation"], one.result())


def try_awaited():
    """All conversations with the clients for asyncio, in one event loop."""
    conversations = read(FILE)
    with StandIn() as peer:
        for (told, _), wrong in zip(conversations, asyncio.run(all_awaited(conversations, peer.ports))):
            tell("asyncio: ", peer, told["conversation"], wrong)


async def all_awaited(conversations, ports):
    room = asyncio.Semaphore(AT_ONCE)

    async def one(told, steps):
        async with room:
            return await play_awaited(told, steps, ports[told["conversation"]])

    return await asyncio.gather(*(one(told, steps) for told, steps in conversations))


def tell(kind, peer, name, wrong):
    verdict = peer.verdict(name)
    check(kind + name, wrong is None and verdict == "ok", f"{wrong}; the stand-in: {verdict}", quiet=True)


def told_of_tests(name, ran):
    """A check that the tests of another client ended well, with all conversations."""
    found = re.search(r"(\d+) conversations, (\d+) wrong", ran.stdout)
    counts = tuple(map(int, found.groups())) if found else None
    well = ran.returncode == 0 and counts == (len(read(FILE)), 0)
    check(f"{name}: {counts and counts[0]} conversations", well, f"status {ran.returncode}: {ran.stdout[-3000:]}")
