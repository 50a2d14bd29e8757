"""What is answered over HTTP by all three servers: the values of metrics after known orders, refusals by their names, and
`promtool check metrics` of each text; which requests are refused, and how; that a slow client is ended after ten seconds,
that there are at most 32 connections, and that `/healthz` says when an event could not be logged. No secret is asked for
at a server with keys."""

import collections
import json
import os
import re
import select
import shutil
import socket
import subprocess
import time

from lib import keys, spaces
from lib.checks import check, main_in_folders, same, skip
from lib.kept import end_of, serve, state_words
from lib.orders import COMMIT, DETACH, LAST, RESUME, STATUS, WITHDRAW, attach, job, without_seconds
from lib.programs import TOP
from lib.servers import HOST, Server, line_of, words_of
from lib.web import OF_LOGS, OF_SESSIONS, OF_STATE, asked, comes, connect, metrics_of, request, rest_of, sent, status_to

PING, OWNER, CELLS = {"do": "ping"}, {"do": "owner", "lock": "bank"}, {"do": "cells", "lock": "bank"}
FIVE = ["add", 0, 5]


class Heard:
    """Sessions whose answers are counted: by the kind of the order, and by the name of the refusal."""

    def __init__(self, server):
        self.server, self.orders, self.refusals = server, collections.Counter(), collections.Counter()

    def session(self):
        return self.server.session()

    def note(self, answer):
        told = json.loads(answer)
        (self.refusals if "error" in told else self.orders)[told.get("error") or told["ok"]] += 1
        return told

    def ask(self, session, *orders):
        """The last answer of these orders; one that is bytes is sent as it is."""
        for order in orders:
            session.send(order if isinstance(order, bytes) else line_of(**order))
            told = self.note(session.hear())
        return told

    def compare(self, name):
        """The server counted what was heard, and the time of each line."""
        told = metrics_of(self.server.http)
        same(f"{name}: orders by their kind", told.counts("rme_orders_total"), dict(self.orders))
        same(f"{name}: refusals by their name", told.counts("rme_refusals_total"), dict(self.refusals))
        lines = self.orders.total() + self.refusals.total()
        same(f"{name}: a time for each line", told.one("rme_order_seconds_count"), lines)
        return told


def sessions_at(server):
    """The sessions of a server: open, and begun."""
    told = metrics_of(server.http)
    return told.one("rme_sessions_open"), told.one("rme_sessions_total")


def finds(server, name, space=None):
    return lambda: metrics_of(server.http, space).one(name)


def judge(name, told, *families):
    """A text has these families with their types, in the right form."""
    same(f"{name}: the families", told.types, {family: kind for part in families for family, kind in part.items()})
    same(f"{name}: the form", told.faults, [])
    if shutil.which("promtool"):
        ran = subprocess.run(["promtool", "check", "metrics"], input=told.text, capture_output=True, text=True)
        same(f"{name}: promtool check metrics", (ran.returncode, ran.stdout + ran.stderr), (0, ""))


# ---- values


def try_examples(_):
    """The rules and the dashboard of examples/ ask for families that there are."""
    folder = os.path.join(TOP, "examples", "prometheus")
    known = {name for family in {**OF_SESSIONS, **OF_LOGS, **OF_STATE} for name in (family, *(f"{family}{end}" for end in ("_bucket", "_sum", "_count")))}
    for name in ("alerts.yml", "dashboard.json"):
        with open(os.path.join(folder, name), encoding="utf-8") as file:
            text = file.read()
        asks = set(re.findall(r"\brme_\w+", text))
        check(f"{name} asks for families that there are", asks and asks <= known, asks - known)
    with open(os.path.join(folder, "dashboard.json"), encoding="utf-8") as file:
        same("the dashboard has six panels", len(json.load(file)["panels"]), 6)
    if not shutil.which("promtool"):
        skip("promtool", "there is no promtool, which checks metrics and rules")
        return
    ran = subprocess.run(["promtool", "check", "rules", os.path.join(folder, "alerts.yml")], capture_output=True, text=True)
    same("promtool check rules", ran.returncode, 0)


def try_state(folder):
    path = os.path.join(folder, "bank.state")
    server = serve(path, "bank", "shop", workers=4, http=0)
    first = metrics_of(server.http)
    judge("a state", first, OF_SESSIONS, OF_LOGS, OF_STATE)
    same("no sessions at first", sessions_at(server), (0, 0))
    same("all workers are ready", first.counts("rme_workers"), {"ready": 4})
    names = ("rme_sessions_waiting", "rme_jobs_withdrawn_total", "rme_owners_down", "rme_epoch", "rme_checkpoints_total")
    same("nothing else happened", [first.one(name) for name in names], [0] * len(names))
    heard = Heard(server)
    heard.compare("before any line")
    one, other = heard.session(), heard.session()
    heard.ask(one, LAST, attach(0), job("submit", "bank", 1, FIVE), job("submit", "bank", 1, FIVE), PING, PING, LAST)
    heard.ask(one, STATUS, OWNER, CELLS, DETACH, attach(0))
    told = heard.compare("some orders")
    same("one job counts, though it was sent twice", told.counts("rme_jobs_finished_total"), {"bank": 1})
    check("its write was timed", told.one("rme_log_write_seconds_count") > first.one("rme_log_write_seconds_count"))
    same("the bytes of the file", told.one("rme_state_bytes"), os.path.getsize(path))
    heard.ask(one, b"nonsense\n", b" " * 70_000 + b"\n", job("submit", "bank", 9, FIVE), job("submit", "none", 2, FIVE))
    heard.ask(one, job("submit", "bank", 2, *[FIVE] * 9), job("submit", "bank", 2, ["add", 7, 1]), attach(1), RESUME)
    heard.ask(other, attach(0), attach(9), {"do": "attach", "worker": 1, "after": 0}, WITHDRAW)
    names = {"NotAttached", "BadLine", "LineTooLong", "WrongNumber", "NoLock", "BadScript", "NoCell", "Busy", "Idle", "Taken", "NoWorker"}
    check("each was refused in its way", names <= set(heard.refusals), heard.refusals)
    heard.compare("refused lines")
    same("two sessions", sessions_at(server), (2, 2))
    one.close()
    other.close()
    same("none is open", comes(lambda: sessions_at(server), (0, 2)), (0, 2))
    server.kill()


def try_waits(folder):
    """Workers by their stance, sessions that wait, jobs that were withdrawn, and an owner that is down."""
    server = serve(os.path.join(folder, "bank.state"), "bank", "shop", workers=4, http=0)
    heard = Heard(server)
    owner, waits = heard.session(), heard.session()
    heard.ask(owner, attach(0), job("enter", "bank", 1, FIVE))
    heard.ask(waits, attach(1), job("submit", "bank", 1, FIVE, tries=3))
    told = heard.compare("one is inside, one waits")
    same("the workers by their stance", told.counts("rme_workers"), {"ready": 2, "climb": 1, "held": 1})
    same("its session waits for no answer", told.one("rme_sessions_waiting"), 0)
    heard.ask(waits, WITHDRAW)
    same("a job that was withdrawn", finds(server, "rme_jobs_withdrawn_total")(), 1)
    waits.send(line_of(**job("submit", "bank", 2, FIVE, wait=60_000)))
    same("a session that waits for its answer", comes(finds(server, "rme_sessions_waiting"), 1), 1)
    time.sleep(0.6)
    heard.ask(owner, COMMIT)
    heard.note(waits.hear())
    told = heard.compare("it has its answer")
    same("no session waits", told.one("rme_sessions_waiting"), 0)
    same("both jobs", told.counts("rme_jobs_finished_total"), {"bank": 2})
    buckets = told.samples["rme_order_seconds_bucket"]
    check("one order took over half a second", buckets["+Inf"] - buckets["0.5"] >= 1, buckets)
    check("the sum has its time", told.one("rme_order_seconds_sum") > 0.6, told.one("rme_order_seconds_sum"))
    heard.ask(owner, job("enter", "shop", 2, FIVE))
    same("an owner that lives", finds(server, "rme_owners_down")(), 0)
    owner.reset()
    same("an owner that is down", comes(finds(server, "rme_owners_down"), 1), 1)
    again = heard.session()
    again.attach(0)
    same("it is back", finds(server, "rme_owners_down")(), 0)
    heard.ask(again, COMMIT)
    told = metrics_of(server.http)
    same("its job is finished", told.counts("rme_jobs_finished_total"), {"bank": 2, "shop": 1})
    same("one was withdrawn", told.one("rme_jobs_withdrawn_total"), 1)
    server.kill()


def try_epochs(folder):
    """Checkpoints are those of this server; jobs, withdrawals and epochs are those of the state."""
    path = os.path.join(folder, "bank.state")
    server = serve(path, "bank", workers=2, sections=5, http=0)
    session = server.session()
    session.ask(attach(0))
    for number in range(1, 13):
        session.ask(job("submit", "bank", number, FIVE))
    epoch = session.told(**STATUS)["epoch"]
    told = metrics_of(server.http)
    check("there were checkpoints", epoch > 0, epoch)
    same("epoch and checkpoints", (told.one("rme_epoch"), told.one("rme_checkpoints_total")), (epoch, epoch))
    check("their time", told.one("rme_checkpoint_seconds_total") > 0, told.text)
    same("the jobs", (told.counts("rme_jobs_finished_total"), told.one("rme_jobs_withdrawn_total")), ({"bank": 12}, 0))
    server.kill()
    server = serve(path, http=0)
    told = metrics_of(server.http)
    names = ("rme_epoch", "rme_checkpoints_total", "rme_checkpoint_seconds_total", "rme_sessions_total", "rme_order_seconds_count")
    same("after a start", [told.one(name) for name in names], [epoch, 0, 0, 0, 0])
    same("the jobs of the state", told.counts("rme_jobs_finished_total"), {"bank": 12})
    server.kill()


def try_plain(_):
    """A server without a state."""
    server = Server(("bank",), http=0, connections=2)
    judge("without a state", metrics_of(server.http), OF_SESSIONS)
    paths = ("/healthz", "/status", "/", "/status?space=bank", "/metrics?space=bank")
    same("what it shows", [status_to(server.http, path) for path in paths], [200, 404, 404, 404, 404])
    heard = Heard(server)
    session = heard.session()
    heard.ask(session, attach(0), job("submit", "bank", 1, FIVE), job("enter", "bank", 2, FIVE), COMMIT, LAST, OWNER, PING)
    heard.compare("without a state")
    same("one session", sessions_at(server), (1, 1))
    session.close()
    ended = server.use_up()
    same("it ends by itself", ended, (0, b"lock bank cells 10 0 entries 2\n", ended[2]))


# ---- spaces and keys


def try_spaces(folder):
    place = os.path.join(folder, "spaces")
    server = spaces.serve(place, http=0)
    heard = Heard(server)
    one, other = heard.session(), heard.session()
    heard.ask(one, OWNER, spaces.create("a", "bank", "shop", workers=3), spaces.create("b"), spaces.use("none"), spaces.use("a"))
    heard.ask(one, attach(0), job("submit", "shop", 1, FIVE), spaces.SPACES, PING)
    heard.ask(other, spaces.use("b"), attach(0), job("enter", "bank", 1, FIVE))
    told = heard.compare("spaces")
    judge("a server of spaces", told, OF_SESSIONS, OF_LOGS)
    same("a session is one, in whatever space", sessions_at(server), (2, 2))
    check("writes to all logs", told.one("rme_log_write_seconds_count") > 0)
    of_a, of_b = metrics_of(server.http, "a"), metrics_of(server.http, "b")
    judge("a space", of_a, OF_STATE)
    same("the jobs of a", of_a.counts("rme_jobs_finished_total"), {"shop": 1})
    same("the workers of a", of_a.counts("rme_workers"), {"ready": 3})
    same("the bytes of a", of_a.one("rme_state_bytes"), os.path.getsize(spaces.path_of(place, "a")))
    same("the workers of b", of_b.counts("rme_workers"), {"ready": 7, "held": 1})
    other.reset()
    same("the dead owner of b", comes(finds(server, "rme_owners_down", "b"), 1), 1)
    same("no owner of a", finds(server, "rme_owners_down", "a")(), 0)
    answer = asked(server.http, "/status?space=a")
    same("the status of a", without_seconds(json.loads(answer.content)), without_seconds(one.told(**STATUS)))
    one.close()
    same("no session is open", comes(lambda: sessions_at(server), (0, 2)), (0, 2))
    server.kill()
    try_names(place)


def try_names(place):
    """A space that no session uses is opened; what is no space is not found, and nothing is made."""
    before = sorted(os.listdir(place))
    server = spaces.serve(place, http=0)
    told = json.loads(asked(server.http, "/status?space=b").content)
    same("a space that was closed", told["locks"][0]["owner"], 0)
    for name in ("none", "A", "", "..", "a/b", "a.state", "%61", "x" * 65, "a&b", "a+b"):
        found = [status_to(server.http, f"{path}?space={name}") for path in ("/status", "/metrics")]
        same(f"the space {name!r}", found, [404, 404])
    found = [status_to(server.http, path) for path in ("/status", "/", "/?space=a", "/healthz", "/metrics")]
    same("without a name", found, [404, 200, 200, 200, 200])
    same("nothing was made", sorted(os.listdir(place)), before)
    session = server.session()
    find = lambda: session.ask(spaces.drop("a"))  # noqa: E731
    same("a space that was shown can be dropped", comes(find, spaces.DROPPED, 5), spaces.DROPPED)
    same("then it is gone", status_to(server.http, "/status?space=a"), 404)
    session.close()
    server.kill()


def try_keys(folder):
    """A server with keys asks for no secret over HTTP."""
    path = keys.put_keys(os.path.join(folder, "keys"), keys.key_line("runner", "melon"))
    server = keys.serve("state", folder, path, "--http", "0")
    heard = Heard(server)
    session = heard.session()
    heard.ask(session, PING, keys.hello("melon"), attach(0), PING)
    told = heard.compare("with keys")
    same("a line without a key, and the secret", (told.counts("rme_refusals_total"), heard.orders["hello"]), ({"NotAllowed": 1}, 1))
    found = [status_to(server.http, path) for path in ("/", "/status", "/metrics", "/healthz")]
    same("without a secret", found, [200] * 4)
    session.close()
    server.kill()


# ---- requests


def try_requests(folder):
    server = serve(os.path.join(folder, "bank.state"), "bank", http=0)
    port = server.http
    kinds = {"/metrics": "text/plain; version=0.0.4; charset=utf-8", "/status": "application/json",
             "/healthz": "text/plain; charset=utf-8", "/": "text/html; charset=utf-8"}  # fmt: skip
    for path, kind in kinds.items():
        answer, head = asked(port, path), asked(port, path, "HEAD")
        fields = answer.fields
        same(f"GET {path}", (answer.status, fields["content-type"], fields["content-length"]), (200, kind, str(len(answer.content))))
        wanted = ("no-store", "nosniff", "close")
        same(f"{path}: its fields", tuple(fields[name] for name in ("cache-control", "x-content-type-options", "connection")), wanted)
        check(f"{path}: its policy", fields["content-security-policy"].startswith("default-src 'none'"), fields)
        same(f"HEAD {path}", (head.status, head.fields["content-type"], head.content), (200, kind, b""))
    same("HEAD tells the length", asked(port, "/", "HEAD").fields["content-length"], str(len(asked(port, "/").content)))
    for method in ("POST", "PUT", "DELETE", "OPTIONS", "TRACE", "get"):
        answer = asked(port, "/status", method)
        same(f"{method} is refused", (answer.status, answer.fields.get("allow")), (405, "GET, HEAD"))
    for path in ("/nothing", "/metrics/", "/Status", "//", "/status?space=bank", "/metrics?space=bank"):
        same(f"{path} is not there", status_to(port, path), 404)
    same("a query that names no space", status_to(port, "/status?"), 200)
    wrong = (line_of(**PING) + b"\r\n", b"GET / HTTP/9.9\r\n\r\n", b"\0\r\n\r\n")
    same("what is no request", [(told := sent(port, held)) and told.status for held in wrong], [400] * 3)
    with connect(port) as connection:
        connection.sendall(request("/healthz") * 2)
        same("one request a connection", rest_of(connection).count(b"HTTP/1.1 "), 1)
    session = server.session()
    same("sessions go on", session.told(**PING), {"ok": "ping"})
    server.kill()


def try_hosts(folder):
    """A request is answered only if it names this machine."""
    server = serve(os.path.join(folder, "bank.state"), "bank", http=0)
    port = server.http
    for host in ("127.0.0.1", f"127.0.0.1:{port}", "localhost", "LocalHost:1", "[::1]", "[::1]:9464"):
        same(f"the host {host}", status_to(port, "/status", host=host), 200)
    others = (None, "", "example.com", f"example.com:{port}", "127.0.0.1.example.com", "localhost.example.com", "127.0.0.2",
              "127.0.0.1:x", "::1", "[::1", "localhost@example.com")  # fmt: skip
    for host in others:
        answer = asked(port, "/status", host=host)
        check(f"the host {host!r} is refused", answer and answer.status == 403 and b"locks" not in answer.content, answer)
    for path in ("/", "/metrics", "/healthz", "/nothing"):
        same(f"{path} of another host", status_to(port, path, host="example.com"), 403)
    same("two hosts, of which one is another", status_to(port, "/status", fields=["Host: example.com"]), 403)
    answer = asked(port, "/status", "HEAD", host="example.com")
    same("HEAD of another host", (answer.status, answer.content), (403, b""))
    same("another method of another host", status_to(port, "/status", "POST", host="example.com"), 403)
    server.kill()


def try_sizes(folder):
    """Heads of 8,192 bytes and of 64 fields are taken, and none beyond."""
    server = serve(os.path.join(folder, "bank.state"), "bank", http=0)
    port = server.http
    room = 8192 - len(request("/healthz", fields=["X: "]))
    found = [status_to(port, "/healthz", fields=["X: " + "x" * (room + more)]) for more in (-1, 0, 1, 1000, 100_000)]
    same("heads of about 8,192 bytes", found, [200, 200, 431, 431, 431])
    same("a target that is too long", status_to(port, "/" + "x" * 9000), 431)
    found = [status_to(port, "/healthz", fields=[f"X-{number}: 1" for number in range(count)]) for count in (63, 64, 200)]
    same("heads of 64 fields, 65 and more", found, [200, 431, 431])
    with connect(port) as connection:
        for piece in (b"GET /hea", b"lthz HTTP/1.1\r\nHo", b"st: localhost\r\n", b"\r", b"\n"):
            connection.sendall(piece)
            time.sleep(0.05)
        check("a head in pieces", rest_of(connection).startswith(b"HTTP/1.1 200 OK\r\n"))
    server.kill()


def try_slow(folder):
    """Clients that do not get on are ended after ten seconds, and keep no other waiting."""
    server = serve(os.path.join(folder, "bank.state"), "bank", http=0)
    began, ended = time.monotonic(), {}
    clients = {name: connect(server.http) for name in ("nothing", "half a head", "a byte now and then", "an answered one")}
    clients["half a head"].sendall(b"GET / HTTP/1.1\r\nHost: localhost\r\n")
    same("another is answered", status_to(server.http, "/healthz"), 200)
    check("at once", time.monotonic() - began < 5)
    held = request("/healthz")
    while clients and time.monotonic() - began < 30:
        if drips := clients.get("a byte now and then"):
            try:
                drips.sendall(b"x")
            except ConnectionError:
                pass
        if held and time.monotonic() - began > 1:
            clients["an answered one"].sendall(held)
            held = b""
        for client in select.select(list(clients.values()), [], [], 0.3)[0]:
            name = next(it for it, other in clients.items() if other is client)
            try:
                got = client.recv(65536)
            except ConnectionError:
                got = b""
            if not got:
                ended[name] = time.monotonic() - began
                clients.pop(name).close()
    check("one whose request came late is answered", 0.5 < ended.pop("an answered one", 0) < 9)
    for name in ("nothing", "half a head", "a byte now and then"):
        check(f"one that sends {name} is ended after ten seconds", 9 < ended.get(name, 0) < 20, ended)
    server.kill()


def try_many(folder):
    """There are at most 32 connections; a further one is closed, and sessions go on."""
    server = serve(os.path.join(folder, "bank.state"), "bank", http=0)
    clients = [connect(server.http) for _ in range(32)]
    with connect(server.http) as further:
        further.settimeout(5)
        try:
            told = rest_of(further)
        except TimeoutError:
            told = "it stays open"
        same("one more is closed", told, b"")
    session = server.session()
    same("sessions go on", session.told(**PING), {"ok": "ping"})
    clients.pop().close()
    same("when one has ended there is room", comes(lambda: status_to(server.http, "/healthz"), 200, 5), 200)
    clients[0].sendall(request("/healthz"))
    check("those that were first are served", rest_of(clients[0]).startswith(b"HTTP/1.1 200 OK\r\n"))
    for client in clients:
        client.close()
    server.kill()


def try_unhealthy(folder):
    """Once the file has lost its name nothing can be logged, and a connection that is open yet learns of it."""
    path = os.path.join(folder, "bank.state")
    server = serve(path, "bank", http=0)
    with connect(server.http) as connection:
        same("it is well", status_to(server.http, "/healthz"), 200)  # and the connection before was accepted
        os.rename(path, path + ".moved")
        refuses = lambda: socket.socket().connect_ex((HOST, server.port)) != 0  # noqa: E731
        check("it takes no sessions", comes(refuses, True, 8))
        connection.sendall(request("/healthz"))
        told = rest_of(connection)
        check("it is not well", told.startswith(b"HTTP/1.1 503 Service Unavailable\r\n"), told)
    same("the server ends", server.end()[0], 4)


# ---- ports


def try_ports(folder):
    """A port that is taken ends a start as one of sessions does, and no file is made."""
    path, place = os.path.join(folder, "bank.state"), os.path.join(folder, "spaces")
    os.mkdir(place)
    with socket.socket() as taken:
        taken.bind((HOST, 0))
        taken.listen()
        port = taken.getsockname()[1]
        wanted = (6, b"", f"fault: socket failed\n  port {port}: Address already in use (os error 98)\n".encode())
        same("with a state", end_of(state_words(path, "bank", port=0, http=port)), wanted)
        same("no file was made", os.path.exists(path), False)
        same("with spaces", end_of(spaces.spaces_words(place, port=0, http=port)), wanted)
        same("without a state", end_of(words_of(http=port)), wanted)
    for word in ("65536", "-1", "http", ""):
        same(f"--http {word!r}", end_of(state_words(path, "bank", port=0, http=word))[0], 2)
    server = serve(path, "bank", http=0, port=0, socket=os.path.join(folder, "socket"))
    same("the lines of a start", (bool(server.port), server.second, bool(server.http)), (True, f"listening {folder}/socket\n".encode(), True))
    with socket.socket() as other:
        check("it listens on 127.0.0.1 only", other.connect_ex(("127.0.0.2", server.http)) != 0)
    server.kill()
    server = serve(path, "bank", http=server.http)
    same("the port is free again", bool(server.http), True)
    server.kill()


def part():
    values = (try_examples, try_state, try_waits, try_epochs, try_plain, try_spaces, try_keys)
    requests = (try_requests, try_hosts, try_sizes, try_slow, try_many, try_unhealthy, try_ports)
    main_in_folders(*values, *requests, minutes=5)
