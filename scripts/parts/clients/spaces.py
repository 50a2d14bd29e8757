"""spaces: clients of servers of spaces. Each connection uses its space, also one that is made again; a space that is not there is an
exception and is not tried again; and spaces are created, listed and dropped."""

import os
import socket
import threading
import time

from lib import kept
from lib.checks import check, main_in_folders, same
from lib.clients import in_time, raised, receipt, refusal_of
from lib.clients import serve as serve_without_spaces
from lib.keys import key_line, put, put_keys
from lib.peers import READY, Peer, answering
from lib.servers import HOST
from lib.spaces import made, path_of, serve

from rme_client import Observer, Spaces, Worker  # noqa: E402

USED, PONG = b'{"ok":"use"}\n', b'{"ok":"ping"}\n'
BUSY, NO_SPACE = b'{"code":9,"error":"Busy"}\n', b'{"code":23,"error":"NoSpace"}\n'


def cut(worker):
    """Breaks the worker's connection."""
    with socket.socket(fileno=os.dup(worker.fileno())) as connection:
        connection.shutdown(socket.SHUT_RDWR)


def try_jobs(folder):
    """Workers of two spaces with the same names, over TCP and over a Unix socket, and look-ups."""
    server = serve(os.path.join(folder, "spaces"), port=0, socket=os.path.join(folder, "socket"))
    made(server, "a", "b", workers=2)
    with Worker(HOST, server.port, 0, space="a") as one, Worker(HOST, 1, 0, socket_path=server.path, space="b") as other:
        with one.inside("bank", [["add", 0, 5]]) as held:
            same("a job of another space meanwhile", other.submit("bank", [["add", 0, 7]]), receipt(0, 1, 0, 7))
        same("a block", held.receipt, receipt(0, 1, 0, 5))
        same("the next numbers", (one.next_number(), other.next_number()), (2, 2))
    for where in ({"host": HOST, "port": server.port}, {"host": "", "port": 0, "socket_path": server.path}):
        observers = [Observer(**where, space=space) for space in ("a", "b")]
        same("cells", [it.cells("bank")["cells"] for it in observers], [[5], [7]])
        same("owners", [it.owner("bank") for it in observers], [None, None])
        same("status", [len(it.status()["workers"]) for it in observers], [2, 2])
    server.kill()


def try_again(folder):
    """A connection that breaks is made again in the space: between two calls, in a block, and if the server is killed
    meanwhile."""
    server = serve(folder)
    made(server, "a", "b")
    with Worker(HOST, server.port, 0, space="a") as worker:
        worker.submit("bank", [["add", 0, 1]])
        cut(worker)
        same("between two calls", worker.submit("bank", [["add", 0, 1]]), receipt(0, 2, 1, 2))
        with worker.inside("bank", [["add", 0, 1]]) as held:
            cut(worker)
        same("in a block", held.receipt, receipt(0, 3, 2, 3))
        port = server.port
        with worker.inside("bank", [["add", 0, 1]]) as held:
            kept.kill(server)
            server = serve(folder, port=port)
        same("in a block, and the server was killed", held.receipt, receipt(0, 4, 3, 4))
        kept.kill(server)
        later = threading.Timer(0.5, lambda: servers.append(serve(folder, port=port)))
        servers = []
        later.start()
        same("between two calls, by a server that is started later", in_time(lambda: worker.submit("bank", [["add", 0, 1]])), receipt(0, 5, 4, 5))
        later.join()
    same("the other space has no job", Observer(HOST, port, space="b").cells("bank")["cells"], [0])
    servers[0].kill()


def try_gone(folder):
    """A space that is not there, or is dropped or taken away meanwhile: `Refused` at once. Once it is back the next call goes on."""
    server, path = serve(folder), path_of(folder, "a")
    began = time.monotonic()
    worker = Worker(HOST, server.port, 0, space="a")
    same("not there", raised(lambda: worker.submit("bank", []), "code"), ("Refused", 23))
    same("no name", raised(Worker(HOST, server.port, 0, space="A").last, "code"), ("Refused", 5))
    same("an empty one", raised(Worker(HOST, server.port, 0, space="").last, "code"), ("Refused", 5))
    same("no space", raised(Worker(HOST, server.port, 0).last, "code"), ("Refused", 23))
    same("look-ups", [raised(Observer(HOST, server.port, space=it).status, "code") for it in ("a", None)], [("Refused", 23)] * 2)
    check("it is not tried again", time.monotonic() - began < 5)
    made(server, "a")
    same("once it is there", worker.submit("bank", [["add", 0, 1]])["number"], 1)
    told = raised(lambda: block_without_file(worker, path), "code")
    same("taken away in a block", told, ("Refused", 23))
    os.rename(path + ".kept", path)
    same("once it is back it is inside still", worker.pending()["stance"], "held")
    same("and its job counts once", worker.finish(), receipt(0, 2, 1, 2))
    worker.close()
    check("dropped", eventually(lambda: raised(lambda: Spaces(HOST, server.port).drop("a"))))
    same("it is not there any more", raised(worker.last, "code"), ("Refused", 23))
    server.kill()
    plain = serve_without_spaces()
    same("a server without spaces", raised(Worker(HOST, plain.port, 0, space="a").last, "code"), ("Refused", 1))
    same("nor does it create one", raised(lambda: Spaces(HOST, plain.port).create("a", ["bank"]), "code"), ("Refused", 1))
    plain.kill()


def block_without_file(worker, path):
    with worker.inside("bank", [["add", 0, 1]]):
        os.rename(path, path + ".kept")
        deadline = time.monotonic() + 10
        while worker._session.connection.is_quiet() and time.monotonic() < deadline:  # until the space has ended
            time.sleep(0.02)


def eventually(call):
    """Whether a call answers None within ten seconds."""
    latest = time.monotonic() + 10
    while (told := call()) is not None and time.monotonic() < latest:
        time.sleep(0.02)
    return told is None


def try_spaces(folder):
    """Creations, lists of many pages, and drops."""
    server = serve(os.path.join(folder, "spaces"), port=0, socket=os.path.join(folder, "socket"))
    spaces = Spaces(HOST, server.port)
    same("none", spaces.names(), [])
    same("one, and once more", (spaces.create("a", ["bank", "shop"], 3, 2), spaces.create("a", ["bank", "shop"], 3, 2)), (None, None))
    same("another of its name", raised(lambda: spaces.create("a", ["bank"]), "code"), ("Refused", 24))
    same("with no lock", raised(lambda: spaces.create("b", []), "code"), ("Refused", 5))
    same("with no name", raised(lambda: spaces.create("", ["bank"]), "code"), ("Refused", 5))
    spaces.create("b", ("bank",))
    same("by a Unix socket", Spaces("", 0, socket_path=server.path).names(), ["a", "b"])
    same("what they have", [len(Observer(HOST, server.port, space=it).status()["workers"]) for it in ("a", "b")], [3, 8])
    with Worker(HOST, server.port, 0, space="a") as worker:
        worker.submit("shop", [])
        same("one that is used", refusal_of(lambda: spaces.drop("a")), {"code": 9, "error": "Busy"})
    check("then it is dropped", eventually(lambda: raised(lambda: spaces.drop("a"))))
    same("and once more", refusal_of(lambda: spaces.drop("a")), {"code": 23, "error": "NoSpace"})
    server.kill()
    place = os.path.join(folder, "spaces")
    names = [f"n{number:04}" for number in range(2345)]
    held = kept.read(path_of(place, "b"))
    for name in names:
        kept.written(path_of(place, name), held)
    server = serve(place)
    spaces = Spaces(HOST, server.port)
    same("three pages", spaces.names() == ["b", *names], True)
    same("those behind one", spaces.names("n1999") == names[2000:], True)
    same("behind the last", spaces.names("n2344"), [])
    server.kill()


def try_keys(folder):
    """With keys: the secret comes before the space."""
    place = os.path.join(folder, "spaces")
    keys = put_keys(os.path.join(folder, "keys"), key_line("admin", "apple", "*", "+*"), key_line("one", "banana", "*", "a"))
    server = serve(place, keys=keys)
    path = put(os.path.join(folder, "secret"), b"apple\n")
    spaces = Spaces(HOST, server.port, key_file=path)
    spaces.create("a", ["bank"])
    spaces.create("b", ["bank"])
    same("by a key to it", Worker(HOST, server.port, 0, space="a", secret="banana").submit("bank", [["add", 0, 5]]), receipt(0, 1, 0, 5))
    rows = {
        "another space": lambda: Worker(HOST, server.port, 0, space="b", secret="banana").last(),
        "without a secret": lambda: Worker(HOST, server.port, 0, space="a").last(),
        "a look-up of another": lambda: Observer(HOST, server.port, space="b", secret="banana").status(),
        "a creation": lambda: Spaces(HOST, server.port, secret="banana").create("c", ["bank"]),
        "a drop": lambda: Spaces(HOST, server.port, secret="banana").drop("a"),
        "a creation without a secret": lambda: Spaces(HOST, server.port).create("c", ["bank"]),
        "a list without a secret": lambda: Spaces(HOST, server.port).names(),
    }
    for name, call in rows.items():
        same(name, in_time(lambda: raised(call, "code")), ("Refused", 25))
    same("a look-up", Observer(HOST, server.port, space="a", secret="banana").cells("bank")["cells"], [5])
    same("nothing was made or dropped", spaces.names(), ["a", "b"])
    same("no such file", raised(Spaces(HOST, server.port, key_file=os.path.join(folder, "gone")).names), ("FileNotFoundError",))
    same("both", raised(lambda: Spaces(HOST, server.port, secret="a", key_file="b")), ("ValueError",))
    server.kill()


def try_lines(_folder):
    """What is sent first on each connection, and malformed answers."""
    peer = answering(USED, READY, lambda connection: connection.close())
    in_time(lambda: raised(Worker(HOST, peer.port, 0, space="a", connect_timeout=0).last), 3)
    peer.close()
    lines = [line for line in peer.lines if line]
    wanted = [b'{"do": "use", "space": "a"}\n', b'{"do": "attach", "worker": 0}\n', b'{"do": "last"}\n']
    check("each connection uses the space", lines[:3] == wanted and lines[3:6] in ([], wanted), lines)
    peer = answering(b'{"name":"ops","ok":"hello"}\n', USED, READY, lambda connection: connection.close())
    in_time(lambda: raised(Worker(HOST, peer.port, 0, space="a", secret="apple", connect_timeout=0).last), 3)
    peer.close()
    same("behind the secret", [line for line in peer.lines if line][:2], [b'{"do": "hello", "secret": "apple"}\n', wanted[0]])
    rows = {
        "no JSON": (b"use\n", "ProtocolError"),
        "another's answer": (READY, "ProtocolError"),
        "a server that is full": (BUSY, "Unreachable"),
        "no such space": (NO_SPACE, "Refused"),
        "no memory": (b'{"code":20,"error":"NoMemory"}\n', "Refused"),
    }
    for name, (answer, wanted) in rows.items():
        peer = answering(answer)
        worker = Worker(HOST, peer.port, 0, space="a", connect_timeout=0.3)
        same(f"answered by {name}", in_time(lambda: raised(worker.last)), (wanted,))
        told = in_time(lambda: raised(lambda: Observer(HOST, peer.port, space="a").owner("bank")))
        same(f"a look-up, answered by {name}", told, (wanted,))
        peer.close()
    pages = {
        "no list": b'{"more":false,"ok":"spaces"}\n',
        "malformed names": b'{"more":false,"ok":"spaces","spaces":[1]}\n',
        "no word of more": b'{"ok":"spaces","spaces":["a"]}\n',
        "more behind nothing": b'{"more":true,"ok":"spaces","spaces":[]}\n',
        "names that are not in order": b'{"more":false,"ok":"spaces","spaces":["b","a"]}\n',
        "a name twice": b'{"more":false,"ok":"spaces","spaces":["a","a"]}\n',
        "the same page again": b'{"more":true,"ok":"spaces","spaces":["a"]}\n',
    }
    for name, page in pages.items():
        peer = answering(PONG, page)
        same(f"a list with {name}", in_time(lambda: raised(Spaces(HOST, peer.port).names)), ("ProtocolError",))
        peer.close()
    for name, call in {"a drop": lambda it: it.drop("a"), "a creation": lambda it: it.create("a", ["bank"]), "a list": lambda it: it.names()}.items():
        peer = answering(BUSY)
        same(f"{name}, at a server that is full", in_time(lambda: raised(lambda: call(Spaces(HOST, peer.port)))), ("Unreachable",))
        peer.close()
        peer = answering(PONG, BUSY)
        same(f"{name}, of a space that is used", in_time(lambda: raised(lambda: call(Spaces(HOST, peer.port)), "code")), ("Refused", 9))
        peer.close()
        peer = answering(PONG, lambda connection: connection.shutdown(socket.SHUT_RDWR))
        same(f"{name}, whose answer is lost", in_time(lambda: raised(lambda: call(Spaces(HOST, peer.port)))), ("Unreachable",))
        peer.close()

    def room_later(peer, connection, lines, number):
        for answer in [BUSY] if number < 3 else [USED, READY, b'{"last":null,"ok":"last"}\n']:
            peer.hear(lines)
            connection.sendall(answer)

    peer = Peer(room_later)
    same("a server that has room later", in_time(Worker(HOST, peer.port, 0, space="a").last), None)
    peer.close()


def part():
    main_in_folders(try_jobs, try_again, try_gone, try_spaces, try_keys, try_lines, minutes=3)
