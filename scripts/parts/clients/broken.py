"""The package of clients/python against peers that are no good server, or none at all.

Peers that answer garbage, another service's lines, answers to other orders, lines without an end, and one byte now and then;
that never answer, cut, close, and are full. A server whose connection is cut behind each byte of the orders and of the
answers in turn: each job counts once. A connection to itself. Look-ups get the same care.
"""

import faulthandler
import pickle
import socket
import time

from lib.checks import check, main, same
from lib.clients import in_time, raised, receipt, serve
from lib.orders import text
from lib.peers import READY, Peer, answering
from lib.servers import HOST, reset

import rme_client
from rme_client import Observer, Worker

BUSY = b'{"code":9,"error":"Busy"}\n'
DEEP = 50_000
SCRIPT = [["add", 0, 5]]


def of_job(**changed):
    """An answer to `submit` with the receipt of job 1, changed so."""
    return text(ok="submit", receipt={**receipt(0, 1, 0, 5), **changed}) + b"\n"


# No answers to any order, whose first line is answered so.
GARBAGE = {
    "another service": b"HTTP/1.1 400 Bad Request\r\nConnection: close\r\n\r\n",
    "another service, without a newline": b"220 mail",
    "bytes": b"\x00\xff\xfe\n",
    "no UTF-8": b'{"ok":"\xff"}\n',
    "half an object": b'{"ok":\n',
    "a number": b"5\n",
    "a list": b"[]\n",
    "an empty object": b"{}\n",
    "an empty line": b"\n",
    "a deep list": b"[" * DEEP + b"\n",
    "a deep object": b'{"ok":' * DEEP + b"0" + b"}" * DEEP + b"\n",
    "an answer to another order": b'{"ok":"detach"}\n',
    "no text": b'{"ok":5}\n',
    "a refusal without a name": b'{"code":16}\n',
    "a refusal whose code is a text": b'{"code":"16","error":"WrongNumber"}\n',
    "a refusal whose code is true": b'{"code":true,"error":"WrongNumber"}\n',
}

NO_ATTACH = {
    "no number": b'{"ok":"attach","stance":"ready"}\n',
    "no stance": b'{"number":0,"ok":"attach"}\n',
    "another stance": b'{"number":0,"ok":"attach","stance":"up"}\n',
    "a stance that is a list": b'{"number":0,"ok":"attach","stance":[]}\n',
    **{
        f"the number {number}": b'{"number":%s,"ok":"attach","stance":"ready"}\n' % number
        for number in (b"-1", b"1.5", b"true", b"null", b'"1"', b"NaN", b"18446744073709551616")
    },
    "a number of 5,000 digits": b'{"number":%s,"ok":"attach","stance":"ready"}\n' % (b"9" * 5000),
    "two answers": READY + b'{"ok":"detach"}\n',
}

NO_SUBMIT = {
    "no receipt": b'{"ok":"submit"}\n',
    "the receipt null": b'{"ok":"submit","receipt":null}\n',
    "a receipt that is true": b'{"ok":"submit","receipt":true}\n',
    "two outcomes": b'{"ok":"submit","receipt":%s,"waiting":true}\n' % text(**receipt(0, 1, 0, 5)),
    "waiting, but false": b'{"ok":"submit","waiting":false}\n',
    "fell, but 1": b'{"fell":1,"ok":"submit"}\n',
    "held": b'{"number":1,"ok":"submit","stance":"held"}\n',
    "another number": of_job(number=2),
    "another worker": of_job(worker=1),
    "a place that is a text": of_job(place="0"),
    "a reply below 0": of_job(reply=-1),
    "a reply of 65 bits": of_job(reply=2**64),
    "a lock that is a number": of_job(lock=0),
}


def told_by(answers, call, **options):
    """The result of a call of a worker, if each connection gets these answers, and how many connections there were."""
    peer = answering(*answers)
    worker = Worker(HOST, peer.port, 0, **options)
    told = in_time(lambda: raised(lambda: call(worker), "line"), 15)
    peer.close()
    return told, peer.connections


def submit(worker):
    return worker.submit("bank", SCRIPT)


def is_error(told, answer):
    """Whether it is a `ProtocolError` with the bytes of this answer, or their beginning."""
    kind, line = told if isinstance(told, tuple) and len(told) == 2 else (told, None)
    return kind == "ProtocolError" and bool(line) and answer.startswith(line)


def try_garbage():
    for name, answer in {**GARBAGE, **NO_ATTACH}.items():
        told, connections = told_by([answer], submit)
        check(f"attach: {name}", is_error(told, answer) and connections == 1, str(told)[:300])
    for name, answer in {**GARBAGE, **NO_SUBMIT}.items():
        told, connections = told_by([READY, answer], submit)
        check(f"submit: {name}", is_error(told, answer) and connections == 1, str(told)[:300])


def try_other_orders():
    """Answers to the other orders, which are about another number, or none."""
    held = b'{"number":1,"ok":"attach","stance":"held"}\n'
    climb = held.replace(b"held", b"climb")
    rows = {
        "enter": (READY, b'{"life":1,"number":2,"ok":"enter","section":0,"stance":"held"}\n', lambda it: it.inside("bank", SCRIPT).__enter__()),
        "enter, another stance": (READY, b'{"life":1,"number":1,"ok":"enter","section":0,"stance":"climb"}\n', lambda it: block(it)),
        "enter, without a section": (READY, b'{"life":1,"number":1,"ok":"enter","stance":"held"}\n', lambda it: block(it)),
        "enter, no life": (READY, b'{"life":-1,"number":1,"ok":"enter","section":0,"stance":"held"}\n', lambda it: block(it)),
        "commit": (held, b'{"ok":"commit","waiting":true}\n', lambda it: block(it, held_first=True)),
        "resume": (held, b'{"ok":"resume","receipt":%s}\n' % text(**receipt(0, 2, 0, 5)), lambda it: it.finish()),
        "withdraw": (climb, b'{"number":2,"ok":"withdraw"}\n', lambda it: it.withdraw()),
        "last": (READY, b'{"ok":"last"}\n', lambda it: it.last()),
        "last, of another number": (READY, b'{"last":%s,"ok":"last"}\n' % text(**receipt(0, 7, 0, 5)), lambda it: it.last()),
    }
    for name, (first, answer, call) in rows.items():
        answers = [first, b'{"life":1,"number":1,"ok":"enter","section":0,"stance":"held"}\n', answer] if name == "commit" else [first, answer]
        told, _ = told_by(answers, call)
        check(name, is_error(told, answer), told)


def block(worker, held_first=False):
    with worker.inside("bank", SCRIPT) as held:
        assert held_first
    return held


def try_no_end():
    """A line that has no end: its bytes are not kept without limit."""

    def flooding(sent):
        def flood(connection):
            connection.sendall(b'{"ok":"')
            while True:
                connection.sendall(b"x" * 65_536)
                sent.append(1)

        return flood

    for name, before in (("attach", []), ("submit", [READY])):
        sent = []
        answers, call = [*before, flooding(sent)], submit
        told, _ = told_by(answers, call)
        same(f"{name}: a line without an end", (told[0], 100_000 < len(told[1]) < 1_000_000), ("ProtocolError", True))
        check(f"{name}: which was not read for long", len(sent) < 200, len(sent))


def drip(answer, seconds):
    """Sends an answer byte by byte."""

    def send(connection):
        for place in range(len(answer)):
            connection.sendall(answer[place : place + 1])
            time.sleep(seconds)

    return send


def try_slow():
    """Bytes that come now and then: `timeout` is for the whole answer."""
    for name, answers in (
        ("a byte now and then", [drip(READY, 0.2)]),
        ("a byte now and then, later", [READY, drip(of_job(), 0.2)]),
        ("no answer", [lambda _: time.sleep(30)]),
    ):
        peer = answering(*answers)
        worker, began = Worker(HOST, peer.port, 0, timeout=0.6, connect_timeout=1.5), time.monotonic()
        if answers[0] != READY:
            told = in_time(lambda: raised(lambda: submit(worker), "number"))
            same(name, told, ("Unreachable", None))
        else:
            told = in_time(lambda: raised(lambda: submit(worker)), 2.5)
            check(name, told == "no end" and peer.connections >= 2, (told, peer.connections))
        check(f"{name}: in time", 1 < time.monotonic() - began < 4, time.monotonic() - began)
        peer.close()
    told, connections = told_by([drip(READY, 0.003), drip(of_job(), 0.003)], submit, timeout=5)
    same("a byte at a time, in time", (told, connections), (receipt(0, 1, 0, 5), 1))
    peer = answering(b'{"ok":"owner",', lambda _: None)
    told = in_time(lambda: raised(lambda: Observer(HOST, peer.port, timeout=0.5).owner("bank")))
    same("a look-up without an end", told, ("Unreachable",))
    peer.close()


def try_closed():
    """Peers that close or reset what they accept, and ones that are full, before a server is there."""

    def good(peer, connection, lines):
        for answer in (READY, of_job()):
            peer.hear(lines)
            connection.sendall(answer)
        peer.hear(lines)

    ways = {
        "closed at once": lambda peer, connection, lines: None,
        "closed behind the order": lambda peer, connection, lines: peer.hear(lines),
        "reset": lambda peer, connection, lines: reset(connection.dup()),
        "cut in the answer": lambda peer, connection, lines: (peer.hear(lines), connection.sendall(READY[:20])),
        "full": lambda peer, connection, lines: connection.sendall(BUSY),
        "full, behind the order": lambda peer, connection, lines: (peer.hear(lines), connection.sendall(BUSY)),
    }
    for name, way in ways.items():

        def serve_some(peer, connection, lines, number):
            (way if number < 3 else good)(peer, connection, lines)

        for limit, wanted in ((None, receipt(0, 1, 0, 5)), (0, ("Unreachable",))):
            peer = Peer(serve_some)
            told = in_time(lambda: raised(lambda: submit(Worker(HOST, peer.port, 0, connect_timeout=limit))))
            same(f"{name}, {'one try' if limit == 0 else 'three times'}", told, wanted)
            peer.close()


def try_itself():
    """A port of the system's own range on which nobody listens may be given to the connection itself."""
    connect, itself = socket.create_connection, []

    def connect_to_itself(address, timeout):
        made = socket.socket()
        made.bind((HOST, 0))
        made.settimeout(timeout)
        made.connect(made.getsockname())
        itself.append(made)
        return made

    socket.create_connection = connect_to_itself
    try:
        told = in_time(lambda: raised(lambda: submit(Worker(HOST, 7000, 0, connect_timeout=0)), "reason"))
        check("a connection to itself", told[0] == "Unreachable" and "itself" in str(told[1]), told)
        told = in_time(lambda: raised(lambda: Observer(HOST, 7000).status(), "reason"))
        check("a look-up over one", told[0] == "Unreachable" and "itself" in str(told[1]), told)
    finally:
        socket.create_connection = connect
    check("it is closed", all(each.fileno() == -1 for each in itself), itself)


def try_observer():
    status = {"epoch": 0, "locks": [], "ok": "status", "workers": []}
    lock = {"cells": [0], "name": "bank", "owner": None, "sections": 0, "settled": True}
    worker = {"attached": True, "number": 0, "stance": "ready"}
    wrong = {
        "no epoch": {**status, "epoch": None},
        "no locks": {**status, "locks": {}},
        "a lock without a name": {**status, "locks": [{**lock, "name": 5}]},
        "a lock whose cells are texts": {**status, "locks": [{**lock, "cells": ["0"]}]},
        "a lock whose owner is a text": {**status, "locks": [{**lock, "owner": "0"}]},
        "a malformed worker": {**status, "workers": [5]},
        "a worker of no stance": {**status, "workers": [{**worker, "stance": 5}]},
        "a worker of another stance": {**status, "workers": [{**worker, "stance": "up"}]},
    }
    rows = [(name, text(**answer) + b"\n", lambda it: it.status()) for name, answer in wrong.items()]
    rows += [(name, answer, lambda it: it.status()) for name, answer in GARBAGE.items()]
    rows += [("no owner", b'{"ok":"owner"}\n', lambda it: it.owner("bank"))]
    rows += [("an owner that is a text", b'{"ok":"owner","owner":"0"}\n', lambda it: it.owner("bank"))]
    rows += [("no cells", b'{"ok":"cells","settled":true}\n', lambda it: it.cells("bank"))]
    rows += [("cells below 0", b'{"cells":[-1],"ok":"cells","settled":true}\n', lambda it: it.cells("bank"))]
    for name, answer, call in rows:
        peer = answering(answer)
        told = in_time(lambda: raised(lambda: call(Observer(HOST, peer.port)), "line"))
        check(f"look-up: {name}", is_error(told, answer), str(told)[:300])
        peer.close()
    peer = answering(BUSY)
    same("look-up: a full server", raised(lambda: Observer(HOST, peer.port).status()), ("Unreachable",))
    peer.close()
    good = {**status, "locks": [lock, {**lock, "owner": 255}], "workers": [worker, {**worker, "lock": "bank"}]}
    peer = answering(text(**good) + b"\n")
    told = Observer(HOST, peer.port).status()
    same("look-up: a good one", {**told, "ok": "status"}, good)
    peer.close()


def try_exceptions():
    """Each exception of the package is an `RmeError`, says something, and can be handed to another process."""
    made = receipt(0, 1, 0, 5)
    words = {
        "Blocked": ("bank", 1),
        "Done": (made,),
        "Forked": (),
        "InUse": (),
        "Overtaken": (1, 2, made),
        "Pending": ("bank", 1, "climb"),
        "ProtocolError": (b"HTTP/1.1", "it begins no object"),
        "Refused": ({"code": 16, "error": "WrongNumber", "expected": 2},),
        "Unreachable": ("nobody listens", 1),
    }
    kinds = {name: kind for name, kind in vars(rme_client).items() if isinstance(kind, type) and issubclass(kind, Exception)}
    same("all exceptions", sorted(kinds), sorted([*words, "RmeError"]))
    for name, given in words.items():
        error = kinds[name](*given)
        copy = pickle.loads(pickle.dumps(error))
        same(f"a copy of {name}", (type(copy), str(copy), vars(copy)), (type(error), str(error), vars(error)))
        check(f"{name} is an RmeError that says something", isinstance(error, rme_client.RmeError) and len(str(error)) > 20)
        check(f"{name} says when it comes", bool(kinds[name].__doc__), name)


# ---- connections that are cut behind each byte


def cut_behind(server, count, is_answer):
    """A peer that passes the bytes of its first connection on up to this count of those of the orders, or of the answers,
    and ends both sides then; and all of later connections."""

    def serve_one(peer, connection, lines, number):
        with server.connect() as inner:
            left = [None if number or is_answer else count, None if number or not is_answer else count]
            connection.settimeout(0.005)
            inner.settimeout(0.005)
            while not (pump(connection, inner, left, 0) or pump(inner, connection, left, 1)):
                pass

    return Peer(serve_one)


def pump(giver, taker, left, way):
    """Passes what there is on. Whether that was the end."""
    try:
        held = giver.recv(4096 if left[way] is None else min(4096, left[way]))
    except socket.timeout:
        return False
    taker.sendall(held)
    if left[way] is not None:
        left[way] -= len(held)
    return not held or left[way] == 0


def try_cut_at_each_byte():
    """A job, and a block, each cut behind each byte of their orders, and of their answers, in turn."""
    server = serve(jobs=100_000)
    count, blocks, wrong = 0, [], []
    for is_answer in (False, True):
        for cut in range(1, 130 if is_answer else 330, 1 if is_answer else 3):
            peer = cut_behind(server, cut, is_answer)
            with Worker(HOST, peer.port, 0) as worker:
                call = submit if cut % 2 else (lambda it: block_of(it, blocks))
                told = in_time(lambda: raised(lambda: call(worker)), 10)
            peer.close()
            count += 1
            if told != receipt(0, count, count - 1, 5 * count):
                wrong.append((is_answer, cut, count, told))
                count = told["number"] if isinstance(told, dict) else count
    same(f"{count} jobs, each cut at another byte, count once", wrong[:3], [])
    check("their blocks were run once each", len(blocks) == len(set(blocks)) > 50, len(blocks))
    server.kill()


def block_of(worker, blocks):
    with worker.inside("bank", SCRIPT) as held:
        blocks.append(held.number)
    return held.receipt


PEERS = try_garbage, try_other_orders, try_no_end, try_slow, try_closed, try_itself, try_observer


def part():
    faulthandler.dump_traceback_later(300, exit=True)  # no end: it shows where each thread is
    main(*PEERS, try_exceptions, try_cut_at_each_byte)
