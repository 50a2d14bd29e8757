"""No server, servers that end in the middle, and malformed answers: each is reported, and nothing is made up."""

import os
import socket
import subprocess
import time

from lib.asks import StandIn, ask, enter, free_port, leave, with_state
from lib.checks import check, main_in_folders, same
from lib.programs import built, ends_with, run
from lib.servers import HOST, Server, words_of

ATTACH = b'{"number":1,"ok":"attach","stance":"held"}\n'
PENDING = b'{"lock":"bank","number":1,"ok":"pending","script":[],"stance":"held"}\n'


def try_no_server(folder):
    port = free_port()
    status, told, why = ask(port, "ping")
    known = why.startswith(f"fault: no server at port {port}: ") and "rme serve --state FILE LOCK" in why
    check("nobody listens", (status, told) == (6, "") and known, (status, told, why))
    path = f"{folder}/no-socket"
    status, told, why = ends_with(run(["ask", "--socket", path, "ping"]))
    check("no such socket", (status, told) == (6, b"") and f"no server at {path}: ".encode() in why, (status, told, why))
    status, _, why = ends_with(run(["ask", "--socket", f"{folder}/a\x1bb", "ping"]))
    check("a path that steers no terminal", status == 6 and b"\x1b" not in why, why)
    status, _, why = ends_with(run(["ask", "--socket", "x" * 200, "ping"]))
    check("a path that is too long", status == 6 and why, why)


def try_several(folder):
    """Of several servers the first that answers is asked. If none does, the standard error says why of each."""
    path = os.path.join(folder, "socket")
    server, dead = with_state(folder, "--socket", path), free_port()
    free = "LOCK  OWNER\nbank  nobody\n"
    for name, ports in {"the second one": (dead, server), "the first one": (server, dead), "the last one": (dead, dead, server)}.items():
        same(f"{name} is there", ask(ports, "owner", "bank"), (0, free, ""))
    words = [word for place in (f"{folder}/no-socket", path) for word in ("--socket", place)]
    same("sockets", ends_with(run(["ask", *words, "owner", "bank"])), (0, free.encode(), b""))
    full = Server(words=words_of(without="connections", at_once=1))
    first = full.session()
    first.attach(0)
    same("one that has no room", ask((full, server), "owner", "bank"), (0, free, ""))
    status, told, why = ask((dead, full), "owner", "bank")
    known = f"\n  port {dead}: " in why and f"\n  port {full.port}: " in why
    check("nor is there another", (status, told) == (6, "") and known, (status, told, why))
    first.close()
    full.kill()
    other = StandIn(b"HTTP/1.1 400 Bad Request\n")
    same("another program", ask((other, server), "owner", "bank"), (0, free, ""))
    other.end()
    with socket.create_server((HOST, 0)) as silent:  # a connection is made, and nothing is answered
        began = time.monotonic()
        same("one that answers nothing", ask((silent.getsockname()[1], server), "owner", "bank"), (0, free, ""))
        check("for half of ten seconds", 4 < time.monotonic() - began < 9, time.monotonic() - began)
    server.kill()


def try_none(folder):
    ports = free_port(), free_port()
    status, told, why = ask(ports, "ping")
    known = all(f"\n  port {port}: " in why for port in ports) and "rme serve --state FILE LOCK" in why
    check("no port", (status, told) == (6, "") and why.startswith("fault: no server lets this client in\n") and known, (status, told, why))
    words = [word for name in ("no-socket", "a\x1bb") for word in ("--socket", os.path.join(folder, name))]
    status, told, why = ends_with(run(["ask", *words, "ping"]))
    known = f"\n  {folder}/no-socket: ".encode() in why and b"\\u{1b}b: " in why
    check("no socket", (status, told) == (6, b"") and known and b"\x1b" not in why, (status, told, why))


def try_ping(_folder):
    """Each of several servers is sent a ping, and whatever it answers but 9, it is asked."""
    for name, answer in {"a ping": b'{"ok":"ping"}\n', "a refusal": b'{"code":25,"error":"NotAllowed"}\n'}.items():
        server = StandIn(answer, b'{"ok":"owner","owner":0}\n')
        told = ask((free_port(), server), "owner", "bank")
        same(f"{name}: what is sent", server.end(), [b'{"do":"ping"}\n', b'{"do":"owner","lock":"bank"}\n'])
        same(f"{name}: what is told", told, (0, "LOCK  OWNER\nbank  0\n", ""))


def try_full(_folder):
    """A server that has no room for the session."""
    server = Server(words=words_of(without="connections", at_once=1))
    first = server.session()
    first.attach(0)
    status, told, why = ask(server, "ping")
    check("no room", (status, told) == (1, "") and "9 Busy" in why or "ended the session" in why or "is gone" in why, why)
    first.close()
    server.kill()


def try_killed(folder):
    """The server is killed while a job waits."""
    server = with_state(folder)
    owner, _ = enter(server, 0)
    waits, _ = enter(server, 1, tries=3)
    leave(waits)
    words = [built(), "ask", "--port", str(server.port), "finish", "1"]
    with subprocess.Popen(words, stdout=subprocess.PIPE, stderr=subprocess.PIPE, text=True) as waiting:
        waiting.stdout.readline()
        server.program.kill()
        _, why = waiting.communicate(timeout=20)
    check("it says that the server is gone", waiting.returncode == 1 and why.startswith("rme: the "), (waiting.returncode, why))
    owner.close()


def try_answers(_folder):
    """Malformed answers, at each place."""
    rows = {
        "no JSON": (["ping"], [b"HTTP/1.1 400 Bad Request\n"], "no JSON"),
        "no text": (["ping"], [b'{"ok":"\xff"}\n'], "no JSON"),
        "nothing": (["ping"], [b""], "ended the session"),
        "half an answer": (["ping"], [b'{"ok":"pi'], "no JSON"),
        "a list": (["ping"], [b"[]\n"], "no `ok`"),
        "another's answer": (["ping"], [b'{"ok":"last"}\n'], "another request"),
        "a refusal without a number": (["ping"], [b'{"error":"Idle"}\n'], "no `code`"),
        "a long answer": (["ping"], [b" " * 70_000 + b"\n"], "65,536"),
        "an owner of another type": (["owner", "bank"], [b'{"ok":"owner","owner":"0"}\n'], "no `owner`"),
        "no owner": (["owner", "bank"], [b'{"ok":"owner"}\n'], "no `owner`"),
        "cells that are no numbers": (["cells", "bank"], [b'{"cells":[-1],"ok":"cells","settled":true}\n'], "no `cells`"),
        "a status without workers": (["status"], [b'{"epoch":0,"locks":[],"ok":"status"}\n'], "no `workers`"),
        "a lock without a name": (["status"], [b'{"epoch":0,"locks":[{}],"ok":"status","workers":[]}\n'], "no `name`"),
        "a name that steers": (
            ["status"],
            [b'{"epoch":0,"locks":[{"cells":[],"name":"\\u001b[2J","owner":null,"sections":0,"settled":true}],"ok":"status","workers":[]}\n'],
            "no `name`",
        ),
        "an unknown stance": (["finish", "0"], [b'{"number":1,"ok":"attach","stance":"up"}\n'], "no `stance`"),
        "no job": (["finish", "0"], [ATTACH, b'{"ok":"pending"}\n'], "no `lock`"),
        "no outcome": (["finish", "0"], [ATTACH, PENDING, b'{"ok":"resume"}\n'], "no `"),
        "no receipt": (["finish", "0"], [ATTACH, PENDING, b'{"ok":"resume","receipt":{"lock":"bank"}}\n'], "no `number`"),
    }
    for name, (words, answers, wanted) in rows.items():
        server = StandIn(*answers)
        status, told, why = ask(server, *words)
        server.end()
        check(name, status == 1 and why.startswith("rme: ") and wanted in why and "\x1b" not in told + why, (status, told, why))


def try_requests(_folder):
    """The lines that are sent."""
    server = StandIn(ATTACH, PENDING, b'{"ok":"resume","waiting":true}\n', b'{"code":1,"error":"BadLine"}\n', b'{"ok":"detach"}\n')
    status, _, why = ask(server, "finish", "7", "--take", "--wait", "2")
    lines = [
        b'{"do":"attach","take":true,"worker":7}\n',
        b'{"do":"pending"}\n',
        b'{"do":"resume","wait":2000}\n',
        b'{"do":"owner","lock":"bank"}\n',
        b'{"do":"detach"}\n',
    ]
    same("what finish sends", (status, server.end()), (1, lines))
    same("and says", why, "rme: job 1 of worker 7 still waits for lock bank\n")
    server = StandIn(b'{"code":99,"error":"New\\u001bName"}\n')
    status, _, why = ask(server, "ping")
    server.end()
    check("a refusal of a later server", status == 1 and why.startswith("rme: refused: 99 New") and "\x1b" not in why, why)


def part():
    groups = try_no_server, try_several, try_none, try_ping, try_full, try_killed, try_answers, try_requests
    main_in_folders(*groups, minutes=4)
