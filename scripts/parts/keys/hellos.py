"""hellos: how a session begins. The right secret, wrong ones, lines before it and behind it, over both servers, TCP and a Unix
socket; secrets and names of all bytes; and no secret stands in what the server writes."""

import json
import os
import threading
import time

from lib.checks import check, main_in_folders, same
from lib.kept import without_count
from lib.keys import (
    BAD_LINE, KINDS, LOCKS, REFUSED, begun, greeting, hello, key_line, lines_of, put, put_keys, rest_of, serve,
)  # fmt: skip
from lib.servers import line_of

PAUSE = 1.0  # seconds before the answer to a wrong secret
ATTACH = {"do": "attach", "worker": 0}
READY = b'{"number":0,"ok":"attach","stance":"ready"}'
JOB = {"do": "submit", "lock": "bank", "number": 1, "script": [["add", 0, 5]]}

# Lines that are no hello with a secret. Each is refused, and the session goes on.
STRANGE = {
    "an order": line_of(**ATTACH),
    "a look-up": line_of(do="status"),
    "a ping": line_of(do="ping"),
    "a bad line": b"no line\n",
    "an empty line": b"\n",
    "bytes that are no text": b"\xff\xfe\x00\n",
    "a line that is too long": b" " * 70_000 + b"\n",
    "a hello that is too long": b'{"do":"hello","secret":"' + b"a" * 70_000 + b'"}\n',
    "no secret": line_of(do="hello"),
    "a secret that is no text": line_of(do="hello", secret=7),
    "null": line_of(do="hello", secret=None),
    "a further key": line_of(do="hello", secret="apple", worker=0),
    "another word": line_of(do="Hello", secret="apple"),
    "half a line of JSON": b'{"do":"hello","secret":"apple"\n',
    "a list": b'["hello","apple"]\n',
    "half a pair of surrogates": b'{"do":"hello","secret":"\\ud800"}\n',
}
RIGHT = {
    "as it is": line_of(**hello("apple")),
    "in another order": b'{"secret":"apple","do":"hello"}\n',
    "with spaces": b' { "do" : "hello" , "secret" : "apple" } \n',
    "with escapes": b'{"do":"\\u0068ello","secret":"\\u0061pple"}\n',
    "with a carriage return": b'{"do":"hello","secret":"apple"}\r\n',
}
WRONG = {
    "another": "melon",
    "none": "",
    "a capital": "Apple",
    "a part": "appl",
    "more": "apples",
    "a space before": " apple",
    "a space behind": "apple ",
    "a zero behind": "apple\0",
    "its digest": "3a7bd3e2360a3d29eea436fcfb7e44c735d117c42d1c1835420b6b9942dd4f1b",
    "the key's name": "runner-a",
    "a long one": "a" * 60_000,
}


def each_way(folder, checks):
    """Makes the checks on each server, over TCP and over a Unix socket: by its name, the server, and how a session of it is had."""
    for kind in KINDS:
        place = os.path.join(folder, kind)
        os.mkdir(place)
        keys = put_keys(os.path.join(place, "keys"), key_line("runner-a", "apple"), key_line("runner-b", "banana", "1"))
        server = serve(kind, place, keys, "--socket", os.path.join(place, "socket"))
        checks(f"{kind}, TCP", server, server.session)
        checks(f"{kind}, a socket", server, server.session_at_socket)
        same(f"{kind}: nothing is on the standard error", without_count(server.kill()[2]), b"")


def try_right(folder):
    def checks(name, _server, begin):
        for how, line in RIGHT.items():
            session = begin()
            session.send(line)
            same(f"{name}: the secret, {how}", session.hear().rstrip(b"\n"), greeting("runner-a"))
            same(f"{name}: then it is as any session", session.ask_all({"do": "ping"}, {"do": "last"})[0], b'{"ok":"ping"}')
            session.close()
        session = begin()
        same(f"{name}: another key", session.ask(hello("banana")), greeting("runner-b"))
        session.close()

    each_way(folder, checks)


def try_late(folder):
    """Lines before the secret are refused and change nothing; then the secret is taken."""

    def checks(name, _server, begin):
        session = begin()
        for what, line in STRANGE.items():
            session.send(line)
            same(f"{name}: before the secret, {what}", session.hear().rstrip(b"\n"), REFUSED)
        same(f"{name}: then the secret", session.ask(hello("apple")), greeting("runner-a"))
        same(f"{name}: and the worker is as it was", session.ask(ATTACH), READY)
        session.ask({"do": "detach"})
        session.close()
        session = begin()
        lines = lines_of(*STRANGE.values(), hello("apple"), {"do": "ping"})
        threading.Thread(target=session.send, args=(lines,), daemon=True).start()
        told = [session.hear().rstrip(b"\n") for _ in range(len(STRANGE) + 2)]
        same(f"{name}: all together", told, [REFUSED] * len(STRANGE) + [greeting("runner-a"), b'{"ok":"ping"}'])
        session.close()
        session = begin()
        same(f"{name}: only lines that are refused, and the end", session.say(ATTACH, JOB), [REFUSED] * 2)

    each_way(folder, checks)


def try_repeated(folder):
    """Once the session has a key, a hello is no order, whatever its secret is, and takes no time."""

    def checks(name, _server, begin):
        session = begin()
        session.ask(hello("banana"))
        began = time.monotonic()
        for what, secret in {"the same secret": "banana", "another key's": "apple", "a wrong one": "melon"}.items():
            same(f"{name}: once more, {what}", session.ask(hello(secret)), BAD_LINE)
        check(f"{name}: at once", time.monotonic() - began < PAUSE)
        same(f"{name}: it keeps its key", session.ask_all(ATTACH, {"do": "ping"}), [REFUSED, b'{"ok":"ping"}'])
        session.close()

    each_way(folder, checks)


def try_wrong(folder):
    """Each wrong secret is refused after a second, and ends the session: no line behind it is answered or obeyed."""

    def checks(name, server, begin):
        found = {}

        def one(what, secret):
            session = begin()
            began = time.monotonic()
            session.send(lines_of({"do": "ping"}, hello(secret), hello("apple"), ATTACH, JOB))
            told = session.hear(), session.hear()
            took = time.monotonic() - began
            found[what] = told, rest_of(session), took
            session.close()

        threads = [threading.Thread(target=one, args=row) for row in WRONG.items()]
        for thread in threads:
            thread.start()
        for thread in threads:
            thread.join()
        for what in WRONG:
            told, rest, took = found.get(what, ((), b"", 0))
            same(f"{name}: a wrong secret, {what}", (told, rest), ((REFUSED + b"\n",) * 2, b""))
            check(f"{name}: it takes a second", PAUSE <= took < 30, took)
        session = begin()
        began = time.monotonic()
        session.send(line_of(**hello("melon")))
        same(f"{name}: nothing is answered at once", before(session, 0.8), b"")
        same(f"{name}: then it is refused", session.hear(), REFUSED + b"\n")
        check(f"{name}: after a second", time.monotonic() - began >= PAUSE)
        same(f"{name}: and the server ends the session", rest_of(session), b"")
        session.close()
        session = begin()
        same(f"{name}: also of a client that says nothing more", session.say(hello("melon"), {"do": "ping"}), [REFUSED])
        gone = begin()
        gone.send(line_of(**hello("melon")))
        gone.close()
        session = begun(server, "apple")
        same(f"{name}: nothing of it was obeyed", session.ask_all(ATTACH, {"do": "last"}), [READY, b'{"last":null,"ok":"last"}'])
        session.ask({"do": "detach"})
        session.close()

    each_way(folder, checks)


def before(session, seconds):
    """What is answered within this number of seconds."""
    session.connection.settimeout(seconds)
    try:
        return session.connection.recv(1)
    except TimeoutError:
        return b""
    finally:
        session.connection.settimeout(60)


def try_limits(folder):
    """Sessions without a key are sessions: they count, and silent ones are ended."""
    keys = put_keys(os.path.join(folder, "keys"), key_line("runner-a", "apple"))
    for kind in KINDS:
        server = serve(kind, folder, keys, "--at-once", "1", "--idle", "2")
        first = server.session()
        same(f"{kind}: a stranger", first.ask(ATTACH), REFUSED)
        second = server.session()
        same(f"{kind}: no room for another", second.hear(), b'{"code":9,"error":"Busy"}\n')
        second.close()
        began = time.monotonic()
        told = first.hear()
        check(f"{kind}: a silent stranger is ended", not told and 1 < time.monotonic() - began < 30, told)
        first.close()
        third = server.session()
        same(f"{kind}: then there is room", third.ask(hello("apple")), greeting("runner-a"))
        third.close()
        server.kill()
        server = serve(kind, folder, keys, "--idle", "1")
        session = server.session()
        told = session.ask(hello("melon")), session.hear()
        same(f"{kind}: with --idle 1 a wrong secret is answered too", told, (REFUSED, b""))
        session.close()
        server.kill()


def try_secrets(folder):
    """Secrets of all bytes below 128, and of letters of two, three and four bytes: each has its own key."""
    secrets = [chr(code) for code in range(128)] + ["\u00e9", "\u20ac", "\U0001f511", "\U0010ffff", "\ufeff", "e\u0301", "a" * 10_000]
    keys = put_keys(os.path.join(folder, "keys"), *(key_line(f"n{at}", secret) for at, secret in enumerate(secrets)))
    for kind in KINDS:
        server = serve(kind, folder, keys)
        wrong = []
        for at, secret in enumerate(secrets):
            for order in (line_of(**hello(secret)), json.dumps(hello(secret), ensure_ascii=False).encode() + b"\n"):
                session = server.session()
                session.send(order)
                told = session.hear().rstrip(b"\n")
                session.close()
                wrong += [] if told == greeting(f"n{at}") else [(secret[:9], told)]
        same(f"{kind}: {len(secrets)} secrets, as JSON with and without escapes", wrong, [])
        server.kill()


def try_names(folder):
    """Names of all bytes that a name can have: the answer is one line of JSON, and has the name."""
    letters = [chr(code) for code in range(128) if chr(code) not in " \t\n#"]
    names = [f"a{letter}b" for letter in letters] + letters[33:] + ["\u00e9", "\u20ac", "\U0001f511", "\u2028", "n" * 10_000]
    names = list(dict.fromkeys(names))
    lines = "".join(key_line(name, f"secret {at}") + "\n" for at, name in enumerate(names)).encode()
    keys = put(os.path.join(folder, "keys"), lines)
    for kind in KINDS:
        server = serve(kind, folder, keys)
        wrong = []
        for at, name in enumerate(names):
            session = server.session()
            told = session.ask(hello(f"secret {at}"))
            session.close()
            wrong += [] if is_greeting(told, name) else [(name[:9], told)]
        same(f"{kind}: {len(names)} names", wrong, [])
        server.kill()


def is_greeting(line, name):
    try:
        return json.loads(line) == {"name": name, "ok": "hello"}
    except ValueError:
        return False


def try_nowhere(folder):
    """No secret, right or wrong, stands on the standard error, in the log, or in the state."""
    secrets = "right-apple-secret", "wrong-melon-secret", "half-pear-secret"
    keys = put_keys(os.path.join(folder, "keys"), key_line("runner-a", secrets[0]))
    for kind in KINDS:
        server = serve(kind, folder, keys, "--log", "--why")
        session = server.session()
        for order in (hello(secrets[2])["secret"].encode() + b"\n", line_of(do="hello", secret=secrets[2], more=1),
                      line_of(do="hello", secret=[secrets[2]]), f'{{"do":"hello","secret":"{secrets[2]}\n'.encode()):
            session.send(order)
            session.hear()
        same(f"{kind}: the secret is taken", session.ask(hello(secrets[0])), greeting("runner-a"))
        session.ask_all(ATTACH, JOB, hello(secrets[0]), hello(secrets[1]), {"do": "detach"})
        session.close()
        session = server.session()
        same(f"{kind}: a wrong one", session.ask(hello(secrets[1])), REFUSED)
        session.close()
        _, told, said = server.kill()
        check(f"{kind}: the log tells of the worker", b"attached worker 0" in said, said)
        check(f"{kind}: no secret is in the log", not any(secret.encode() in told + said for secret in secrets), said)
        same(f"{kind}: --why has no word about a hello that was taken", [line for line in said.splitlines() if b'"hello" of "do"' in line
                                                                        and b"line 5:" in line], [])
    with open(os.path.join(folder, "keys.state"), "rb") as file:
        held = file.read()
    check("nor in the state", LOCKS[0].encode() in held and not any(secret.encode() in held for secret in secrets))


def part():
    main_in_folders(
        try_right, try_late, try_repeated, try_wrong, try_limits, try_secrets, try_names, try_nowhere, minutes=8
    )
