"""allowed: what a key allows. Keys of some workers, of none and of all; `any` and `take`; and everything else is as at a server
without keys, to the byte."""

import json
import os

from lib import kept
from lib.checks import check, main_in_folders, same
from lib.keys import BAD_LINE, KINDS, REFUSED, begun, greeting, hello, key_line, lines_of, put_keys, serve
from lib.orders import attach, job, stands

READY = stands("ready", 0)
TAKEN, NO_WORKER, OVERTAKEN = (
    json.dumps({"code": code, "error": error}, separators=(",", ":")).encode()
    for code, error in ((18, "Taken"), (6, "NoWorker"), (26, "Overtaken"))
)
NOT_ATTACHED = b'{"code":19,"error":"NotAttached"}'
DETACHED, PONG = b'{"ok":"detach"}', b'{"ok":"ping"}'
DETACH, PING = {"do": "detach"}, {"do": "ping"}
LOOKS = {"do": "owner", "lock": "bank"}, {"do": "cells", "lock": "bank"}, {"do": "status"}
LOOKED = b'{"ok":"owner","owner":null}', b'{"cells":[0],"ok":"cells","settled":true}'
NO_SUCH = {"do": "attach", "worker": 9}

# The name of each key, which is its secret too, and its workers.
KEYS = {"all": "*", "some": "0-1,3", "one": "2", "none": "-", "first": "0-2", "each": "0-3", "more": "0-255", "listed": "3,2,1,0"}


def each_kind(folder, checks):
    for kind in KINDS:
        place = os.path.join(folder, kind)
        os.mkdir(place)
        server = serve(kind, place, keys_in(place))
        checks(kind, server)
        server.kill()


def keys_in(folder):
    return put_keys(os.path.join(folder, "keys"), *(key_line(name, name, words) for name, words in KEYS.items()))


def try_workers(folder):
    """Each worker of the server, and some that it does not have, by each key."""

    def checks(kind, server):
        allowed = {"all": range(2**32), "some": (0, 1, 3), "one": (2,), "none": (), "first": range(3), "each": range(4),
                   "more": range(256), "listed": range(4)}
        for name, workers in allowed.items():
            session = begun(server, name)
            for worker in (*range(4), 4, 9, 254, 255, 256, 2**32 - 1):
                told = session.ask(attach(worker))
                if worker in workers:
                    same(f"{kind}: key {name}, worker {worker}", told, READY if worker < 4 else NO_WORKER)
                else:
                    same(f"{kind}: key {name}, not worker {worker}", told, REFUSED)
                if told == READY:
                    same(f"{kind}: key {name}, worker {worker} is let go", session.ask(DETACH), DETACHED)
            session.close()
        session = begun(server, "some")
        told = session.ask_all(attach(0), attach(2), PING, DETACH, attach(2), attach(1))
        same(f"{kind}: one that has a worker asks for another", told, [READY, REFUSED, PONG, DETACHED, REFUSED, READY])
        session.ask(DETACH)
        told = session.ask_all(attach(2, **{"as": "host7"}), attach(2, after=0), attach(2, take=True))
        same(f"{kind}: with further keys", told, [REFUSED] * 3)
        session.close()

    each_kind(folder, checks)


def try_most(folder):
    """A server without a state may have 256 workers: `*` and `0-255` allow each of them."""
    server = serve("plain", folder, keys_in(folder), workers=256)
    for name in ("all", "more"):
        session = begun(server, name)
        told = session.ask_all(attach(255), DETACH, {"do": "attach", "any": "ready"})
        same(f"key {name}: the last of 256 workers, and any", (told[0], json.loads(told[2]).get("worker")), (READY, 0))
        session.ask(DETACH)
        session.close()
    session = begun(server, "each")
    same("a key to 4 of 256", session.ask_all(attach(3), DETACH, {"do": "attach", "any": "ready"}), [READY, DETACHED, REFUSED])
    session.close()
    server.kill()


def try_none(folder):
    """A key without workers: look-ups and nothing else."""

    def checks(kind, server):
        session = begun(server, "none")
        told = session.ask_all(PING, attach(0), {"do": "attach", "any": "ready"}, PING)
        same(f"{kind}: it may not attach", told, [PONG, REFUSED, REFUSED, PONG])
        told = session.ask_all(job("submit", "bank", 1), {"do": "commit"}, {"do": "last"}, {"do": "pending"}, DETACH)
        same(f"{kind}: and so has no worker", told, [NOT_ATTACHED] * 5)
        told = session.ask_all(*LOOKS)
        if kind == "state":
            same(f"{kind}: owner and cells", tuple(told[:2]), LOOKED)
            check(f"{kind}: status", json.loads(told[2]).get("ok") == "status", told[2])
        else:
            same(f"{kind}: a server without a state has no look-ups", told, [BAD_LINE] * 3)
        session.close()

    each_kind(folder, checks)


def try_any(folder):
    """A worker of the server's choice is for keys that allow each of its workers."""

    def checks(kind, server):
        for name in KEYS:
            session = begun(server, name)
            is_allowed = name in ("all", "each", "more", "listed")
            found = json.loads(session.ask({"do": "attach", "any": "ready"}))
            wanted = {"number": 0, "ok": "attach", "stance": "ready", "worker": 0} if is_allowed else json.loads(REFUSED)
            same(f"{kind}: key {name}, any that is ready", found, wanted)
            session.ask(DETACH)
            told = session.ask({"do": "attach", "any": "pending"})
            same(f"{kind}: key {name}, any with a job", told, TAKEN if is_allowed else REFUSED)
            session.close()
        session, others = begun(server, "all"), begun(server, "some")
        others.ask(attach(0))
        found = session.told(do="attach", any="ready")
        same(f"{kind}: the lowest that is free", found.get("worker"), 1)
        session.close()
        others.close()

    each_kind(folder, checks)


def try_take(folder):
    """A take-over asks for the worker too: one that is not allowed ends nobody's session."""

    def checks(kind, server):
        first, second, other = begun(server, "all"), begun(server, "all"), begun(server, "some")
        same(f"{kind}: two workers", [first.ask(attach(2)), second.ask(attach(0))], [READY, READY])
        same(f"{kind}: one that it may not have", other.ask(attach(2, take=True)), REFUSED)
        same(f"{kind}: its session goes on", first.ask_all(PING, {"do": "last"})[0], PONG)
        same(f"{kind}: one that it may have", other.ask_all(attach(0), attach(0, take=True)), [TAKEN, READY])
        same(f"{kind}: that session is ended", second.hear(), b"")
        nobody = begun(server, "none")
        same(f"{kind}: a key of no workers", nobody.ask_all(attach(0, take=True), attach(2, take=True)), [REFUSED] * 2)
        same(f"{kind}: both go on", [first.ask(PING), other.ask(PING)], [PONG, PONG])
        stranger = server.session()
        same(f"{kind}: nor before the secret", stranger.ask(attach(2, take=True)), REFUSED)
        same(f"{kind}: it goes on", first.ask(PING), PONG)
        for session in (first, second, other, nobody, stranger):
            session.close()

    each_kind(folder, checks)


# A conversation with each order, refused and not.
TALK = [
    attach(0), attach(0), job("submit", "bank", 1, ["add", 0, 5]), job("submit", "bank", 1, ["add", 0, 5]), job("submit", "bank", 9),
    job("submit", "yard", 2), job("submit", "bank", 2, ["add", 7, 1]), job("enter", "bank", 2, ["add", 0, 1]), {"do": "pending"},
    {"do": "last"}, {"do": "resume"}, {"do": "last"}, job("enter", "bank", 3), {"do": "withdraw"}, {"do": "commit"}, {"do": "commit"},
    {"do": "crash_after", "steps": 9}, job("submit", "bank", 4, ["mul", 0, 3]), attach(0), {"do": "resume"}, DETACH, DETACH,
    attach(0, after=99), attach(0, after=0), attach(9), attach(0, **{"as": "host7:cron"}), PING, {"do": "no such"},
    b"no line\n", b"\n", b" " * 70_000 + b"\n", b'{"do":"owner","lock":"bank"}\n', b'{"do":"cells","lock":"bank"}\n', DETACH,
]  # fmt: skip
ANY = [{"do": "attach", "any": "ready"}, {"do": "attach", "any": "ready"}, DETACH, {"do": "attach", "any": "pending"}]
# Attachments that are no orders: they name no worker.
NO_ATTACH = [
    {"do": "attach"}, {"do": "attach", "any": "none"}, {"do": "attach", "worker": "0"}, {"do": "attach", "worker": -1},
    {"do": "attach", "worker": 0, "more": 1}, {"do": "attach", "worker": 2, "more": 1}, {"do": "attach", "any": "ready", "after": 0},
]  # fmt: skip


def talk(kind, folder, name, orders):
    """What is answered to these orders by a key to all workers, to worker 0 or to none, or by a server without keys."""
    place = os.path.join(folder, f"{kind}-{name}")
    os.mkdir(place)
    words = {"all": "*", "zero": "0", "none": "-"}
    keys = put_keys(os.path.join(place, "keys"), *(key_line(each, each, word) for each, word in words.items()))
    server = serve(kind, place, keys if name else None)
    session = server.session()
    if name:
        same(f"{kind}, {name}: the secret", session.ask(hello(name)), greeting(name))
    told = []
    for order in orders:
        session.send(lines_of(order))
        told.append(session.hear())
    session.close()
    server.kill()
    return told


def try_same(folder):
    """With a key to all workers each answer is that of a server without keys; with a key to worker 0 each but those to
    attachments of other workers. An attachment that is no order is answered as without keys too, whatever the key is."""
    for kind in KINDS:
        whole = [*TALK, *ANY, *NO_ATTACH]
        wanted = talk(kind, folder, None, whole)
        same(f"{kind}: with a key to all workers", talk(kind, folder, "all", whole), wanted)
        expected = [REFUSED + b"\n" if order == NO_SUCH else told for order, told in zip(TALK, wanted)]
        same(f"{kind}: with a key to worker 0", talk(kind, folder, "zero", TALK), expected)
        found = talk(kind, folder, "none", NO_ATTACH)
        wrong = [(order, told) for order, told in zip(NO_ATTACH, found) if told != BAD_LINE + b"\n"]
        same(f"{kind}: attachments that are no orders, with a key to no worker", wrong, [])


def try_restart(folder):
    """A server with a state is killed while a worker is inside, and started again with keys: what is pending is found by a
    key to its worker, and by no other. What was refused left nothing in the state."""
    keys = keys_in(folder)
    server = serve("state", folder, keys)
    session = begun(server, "some")
    session.ask(attach(0))
    same("worker 0 is inside", session.told(**job("enter", "bank", 1, ["add", 0, 5])).get("stance"), "held")
    path = os.path.join(folder, "keys.state")
    before = kept.read(path)
    strangers = [begun(server, "one"), begun(server, "none"), server.session()]
    for stranger in strangers:
        same("another key", stranger.ask_all(attach(0), attach(0, take=True), job("submit", "bank", 1), {"do": "commit"})[0], REFUSED)
        stranger.close()
    same("the state is as it was", kept.read(path), before)
    kept.kill(server)
    session.close()
    server = serve("state", folder, keys)
    same("a key to another worker", begun(server, "one").ask(attach(0)), REFUSED)
    session = begun(server, "some")
    same("a key to it", session.ask(attach(0)), stands("held", 1))
    same("its job counts", session.told(do="commit").get("receipt", {}).get("reply"), 5)
    session.close()
    server.kill()
    server = serve("state", folder, keys, workers=5)
    told = [begun(server, name).ask({"do": "attach", "any": "ready"}) for name in ("each", "listed", "more")]
    same("once it has grown, keys to its first workers are no keys to all", told[:2], [REFUSED] * 2)
    same("one to more is", json.loads(told[2]).get("worker"), 0)
    server.kill()


def part():
    main_in_folders(try_workers, try_most, try_none, try_any, try_take, try_same, try_restart, minutes=8)
