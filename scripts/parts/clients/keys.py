"""keys: clients of servers with keys. Each connection begins with the secret, also one that is made again; a secret that is wrong,
or whose key does not allow the worker, is an exception and is not tried again."""

import logging
import os
import socket
import time

from lib.checks import check, main_in_folders, same
from lib.clients import in_time, raised, receipt
from lib.clients import serve as serve_without_keys
from lib.keys import KINDS, key_line, put, put_keys, serve
from lib.peers import READY, Peer, answering
from lib.servers import HOST

from rme_client import Observer, Worker  # noqa: E402

NOT_ALLOWED = ("Refused", 25)
GREETED = b'{"name":"ops","ok":"hello"}\n'
BUSY = b'{"code":9,"error":"Busy"}\n'


def keyed(kind, folder, *lines):
    """A server whose keys are `ops`, for all workers, and `one`, for worker 1, and these."""
    place = os.path.join(folder, kind)
    os.makedirs(place, exist_ok=True)
    keys = put_keys(os.path.join(place, "keys"), key_line("ops", "apple"), key_line("one", "banana", "1"), *lines)
    return serve(kind, place, keys, "--socket", os.path.join(place, "socket")), keys


def cut(worker):
    """Breaks the worker's connection."""
    with socket.socket(fileno=os.dup(worker.fileno())) as connection:
        connection.shutdown(socket.SHUT_RDWR)


def try_right(folder):
    """A secret, and a file that has it."""
    files = {"a line": b"apple\n", "no newline": b"apple", "CRLF": b"apple\r\n", "spaces": b" \tapple \n", "two lines": b"apple\nbanana\n"}
    for kind in KINDS:
        server, _ = keyed(kind, folder)
        number = 0
        with Worker(HOST, server.port, 0, secret="apple") as worker:
            number += 1
            same(f"{kind}: a job", worker.submit("bank", [["add", 0, 1]]), receipt(0, number, number - 1, number))
        for name, held in files.items():
            path = put(os.path.join(folder, "secret"), held)
            number += 1
            with Worker(HOST, server.port, 0, key_file=path) as worker:
                made = worker.submit("bank", [["add", 0, 1]])
            same(f"{kind}: a file with {name}", made, receipt(0, number, number - 1, number))
        with Worker(HOST, 1, 1, socket_path=server.path, secret="banana") as worker:
            with worker.inside("bank", []) as held:
                pass
            same(f"{kind}: a block, over a Unix socket", held.receipt["place"], number)
        if kind == "state":
            observer = Observer(HOST, server.port, secret="banana")
            same("look-ups", (observer.owner("bank"), observer.cells("bank")["cells"]), (None, [number]))
            observer = Observer(HOST, 1, socket_path=server.path, key_file=path)
            same("look-ups over a Unix socket", len(observer.status()["workers"]), 4)
        server.kill()


def try_refused(folder):
    """No secret, a wrong one, and a worker that the key does not allow: each is an exception at once, and not tried again."""
    for kind in KINDS:
        server, _ = keyed(kind, folder)
        rows = {
            "no secret": ({}, 0),
            "a wrong secret": ({"secret": "melon"}, 1),
            "an empty one": ({"secret": ""}, 1),
            "an empty file": ({"key_file": put(os.path.join(folder, "empty"), b"")}, 1),
            "another worker": ({"secret": "banana"}, 0),
            "a wrong secret, tried once": ({"secret": "melon", "connect_timeout": 0}, 1),
            "a wrong secret, with a short time for answers": ({"secret": "melon", "timeout": 0.2}, 1),
        }
        for name, (how, least) in rows.items():
            worker, began = Worker(HOST, server.port, 0, **how), time.monotonic()
            told = in_time(lambda: raised(lambda: worker.submit("bank", []), "code"))
            same(f"{kind}: {name}", told, NOT_ALLOWED)
            check(f"{kind}: {name} is not tried again", least <= time.monotonic() - began < least + 5)
            worker.close()
        same(f"{kind}: its own worker", raised(Worker(HOST, server.port, 1, secret="banana").last, "code"), None)
        if kind == "state":
            same("a look-up without a secret", raised(lambda: Observer(HOST, server.port).status(), "code"), NOT_ALLOWED)
            same("with a wrong one", raised(lambda: Observer(HOST, server.port, secret="x").status(), "code"), NOT_ALLOWED)
        server.kill()
    server = serve_without_keys()
    told = raised(Worker(HOST, server.port, 0, secret="apple").last, "code")
    same("a server without keys takes no secret", told, ("Refused", 1))
    server.kill()


def try_again(folder):
    """A connection that breaks is made again with the secret, between two calls and in a block."""
    for kind in KINDS:
        server, keys = keyed(kind, folder)
        path = put(os.path.join(folder, "secret"), b"apple\n")
        with Worker(HOST, server.port, 0, key_file=path) as worker:
            worker.submit("bank", [["add", 0, 1]])
            cut(worker)
            same(f"{kind}: between two calls", worker.submit("bank", [["add", 0, 1]]), receipt(0, 2, 1, 2))
            with worker.inside("bank", [["add", 0, 1]]) as held:
                cut(worker)
            same(f"{kind}: in a block", held.receipt, receipt(0, 3, 2, 3))
            # The key gets another secret, and the client's file has it.
            put_keys(keys, key_line("ops", "cherry"))
            put(path, b"cherry\n")
            cut(worker)
            same(f"{kind}: with another secret by then", worker.submit("bank", [["add", 0, 1]]), receipt(0, 4, 3, 4))
            # The key is gone while the worker is inside: its job is pending until there is one again.
            told = raised(lambda: block_without_key(worker, keys), "code")
            same(f"{kind}: a key that is gone", told, NOT_ALLOWED)
            put_keys(keys, key_line("ops", "cherry"))
            same(f"{kind}: once it is back", worker.pending()["stance"], "held")
            same(f"{kind}: its job counts once", worker.finish(), receipt(0, 5, 4, 5))
        server.kill()


def block_without_key(worker, keys):
    with worker.inside("bank", [["add", 0, 1]]):
        put_keys(keys, key_line("other", "pear"))
        cut(worker)


def try_lines(_folder):
    """What is sent first on each connection, and malformed answers."""
    peer = answering(GREETED, READY, lambda connection: connection.close())
    worker = Worker(HOST, peer.port, 0, secret='ap"ple\u00e9', connect_timeout=0)
    in_time(lambda: raised(worker.last), 3)
    peer.close()
    lines = [line for line in peer.lines if line]
    wanted = [b'{"do": "hello", "secret": "ap\\"ple\\u00e9"}\n', b'{"do": "attach", "worker": 0}\n', b'{"do": "last"}\n']
    check("each connection begins with the secret", lines[:3] == wanted and lines[3:6] in ([], wanted), lines)
    rows = {
        "no JSON": (b"hello\n", "ProtocolError"),
        "another's answer": (READY, "ProtocolError"),
        "a refusal without a number": (b'{"error":"NotAllowed"}\n', "ProtocolError"),
        "a server that is full": (BUSY, "Unreachable"),
        "no key for it": (b'{"code":25,"error":"NotAllowed"}\n', "Refused"),
    }
    for name, (answer, wanted) in rows.items():
        peer = answering(answer)
        worker = Worker(HOST, peer.port, 0, secret="apple", connect_timeout=0.3)
        same(f"answered by {name}", in_time(lambda: raised(worker.last)), (wanted,))
        told = in_time(lambda: raised(lambda: Observer(HOST, peer.port, secret="apple").owner("bank")))
        same(f"a look-up, answered by {name}", told, (wanted,))
        peer.close()

    def room_later(peer, connection, lines, number):
        for answer in [BUSY] if number < 3 else [GREETED, READY, b'{"last":null,"ok":"last"}\n']:
            peer.hear(lines)
            connection.sendall(answer)

    peer = Peer(room_later)
    worker = Worker(HOST, peer.port, 0, secret="apple")
    same("a server that has room later", in_time(worker.last), None)
    peer.close()


def try_arguments(folder):
    """What is no secret, before anything is connected to."""
    gone = os.path.join(folder, "gone")
    same("both", raised(lambda: Worker(HOST, 1, 0, secret="a", key_file="b")), ("ValueError",))
    same("both, for look-ups", raised(lambda: Observer(HOST, 1, secret="a", key_file="b")), ("ValueError",))
    same("no such file", raised(Worker(HOST, 1, 0, key_file=gone).last), ("FileNotFoundError",))
    same("no such file, for look-ups", raised(Observer(HOST, 1, key_file=gone).status), ("FileNotFoundError",))
    path = put(os.path.join(folder, "bytes"), b"\xff\xfe")
    same("a file that is no text", raised(Worker(HOST, 1, 0, key_file=path).last), ("UnicodeDecodeError",))
    server, _ = keyed("plain", folder)
    worker = Worker(HOST, server.port, 0, key_file=gone)
    raised(worker.last)
    put(gone, b"apple\n")
    same("once the file is there", worker.last(), None)
    worker.close()
    server.kill()


def try_nowhere(folder):
    """The secret stands in no text of an exception, of an object, or of the log."""
    told = []

    class Handler(logging.Handler):
        def emit(self, record):
            told.append(record.getMessage())

    log, handler = logging.getLogger("rme_client"), Handler()
    log.addHandler(handler)
    log.setLevel(logging.DEBUG)
    server, keys = keyed("plain", folder)
    for secret in ("apple", "melon-secret"):
        with Worker(HOST, server.port, 0, secret=secret) as worker:
            try:
                worker.last()
                cut(worker)
                worker.last()
            except Exception as error:
                told += [str(error), repr(error)]
            told += [str(worker), repr(worker)]
    log.removeHandler(handler)
    server.kill()
    check("the log has sessions", any("attached" in text for text in told), told)
    check("no secret is in a text", not any("apple" in text or "melon" in text for text in told), told)


def part():
    main_in_folders(try_right, try_refused, try_again, try_lines, try_arguments, try_nowhere, minutes=4)
