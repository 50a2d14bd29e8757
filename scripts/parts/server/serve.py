"""Runs `rme serve` with clients over TCP and over Unix sockets, and looks at its output, its log, its statuses and its texts.

Whole runs with answers worked out by hand, the example of its help, words that are refused, ports that are taken, sockets
and threads that are refused, clients that go away, outputs that are closed, full or broken, a signal, and memory that is
refused.
"""

import collections
import os
import re
import resource
import shutil
import signal
import socket
import stat
import subprocess
import tempfile
import threading
import time

from lib import programs
from lib.checks import check, fail, main, same, skip
from lib.programs import REFUSED_GROWTH, built, growth_refuser, refusing
from lib.servers import HOST, SMALL, Server, Session, line_of, words_of

BAD = b"fault: bad arguments\n"

ATTACH = {"do": "attach", "worker": 0}
JOB = {"do": "submit", "lock": "bank", "number": 1, "script": [["add", 0, 5]]}
ATTACHED = b'{"number":0,"ok":"attach","stance":"ready"}'
RECEIPT = b'{"lock":"bank","number":1,"place":0,"reply":5,"worker":0}'
RECEIVED = b'{"ok":"submit","receipt":' + RECEIPT + b"}"
TAKEN = b'{"code":18,"error":"Taken"}'
MADE = b"lock bank cells 5 0 entries 1\n"
UNMADE = b"lock bank cells 0 0 entries 0\n"
SERVED = b"[INFO  rme] served 1\n"
BUSY = b'{"code":9,"error":"Busy"}'
THREADLESS = b"rme: a connection is closed, since it can't have a thread\n"
LINES = [ATTACH, JOB, JOB, {"do": "last"}, {"do": "detach"}]
ANSWERS = [ATTACHED, RECEIVED, RECEIVED, b'{"last":' + RECEIPT + b',"ok":"last"}', b'{"ok":"detach"}']


def run(given, **more):
    """A run that must end by itself."""
    return programs.run(given, stdin=subprocess.DEVNULL, **more)


# ---- whole runs


def try_one_client():
    server = Server()
    check("listening, at once", server.port is not None, server.first)
    client = server.session()
    told = client.ask_all(*LINES)
    client.close()
    check("a job, asked for twice and made once", told == ANSWERS, told)
    ended = server.end()
    check("the closing line and the log", ended == (0, MADE, SERVED), ended)


def attached_again(client):
    """The answer of an attach that a worker's last session, which is at its end, may still be in the way of."""
    for _ in range(1200):
        told = client.ask(ATTACH)
        if told != TAKEN:
            break
        time.sleep(0.05)
    return told


def try_two_clients():
    """One client is silent while the other goes on; then it goes away with its worker."""
    server = Server(("bank", "shop"), connections=2)
    silent, other = server.session(), server.session()
    told = [silent.ask(ATTACH)] + other.ask_all(ATTACH, {"do": "attach", "worker": 1}, JOB)
    wanted = [ATTACHED, TAKEN, ATTACHED, RECEIVED.replace(b'"worker":0', b'"worker":1')]
    check("a silent client holds only its own worker", told == wanted, told)
    silent.close()
    other.ask({"do": "detach"})
    told = [attached_again(other), other.ask({**JOB, "lock": "shop", "script": [["set", 1, 7]]})]
    other.close()
    wanted = [ATTACHED, RECEIVED.replace(b'"bank"', b'"shop"').replace(b'"reply":5', b'"reply":7')]
    check("a client that went away gave its worker back", told == wanted, told)
    ended = server.end()
    lines = b"lock bank cells 5 0 entries 1\nlock shop cells 0 7 entries 1\n"
    check("a closing line for each lock, in their order", ended == (0, lines, b"[INFO  rme] served 2\n"), ended)


def try_crash():
    """Of the job's 28 steps, 6 of Post, 1 of Enter, 18 of the section and 3 of Exit, 20 are made, and then it falls."""
    server = Server()
    client = server.session()
    told = client.ask_all(ATTACH, {"do": "crash_after", "steps": 20}, JOB, ATTACH, {"do": "resume"}, JOB)
    client.close()
    wanted = [ATTACHED, b'{"ok":"crash_after"}', b'{"fell":true,"ok":"submit"}',
        b'{"number":1,"ok":"attach","stance":"held"}', RECEIVED.replace(b"submit", b"resume"), RECEIVED]
    check("a planned crash inside the section", told == wanted, told)
    ended = server.end()
    check("the job counts once", ended == (0, MADE, SERVED), ended)


def try_unsettled():
    """A worker that falls in its section and does not come back keeps its lock, and the run says this of no other
    worker."""
    server = Server(("bank", "shop"))
    client = server.session()
    told = client.ask_all(ATTACH, {"do": "crash_after", "steps": 20}, JOB)
    client.close()
    check("a crash that nobody comes back from", told == [ATTACHED, b'{"ok":"crash_after"}', b'{"fell":true,"ok":"submit"}'], told)
    ended = server.end()
    lines = b"lock bank cells 5 0 entries 0\nlock shop cells 0 0 entries 0\n"
    remark = b"rme: lock bank is not settled: worker 0 is inside\n"
    check("a lock that is not settled", ended == (0, lines, SERVED + remark), ended)


def try_no_lines():
    """Clients that say nothing, or are gone at once, are served too."""
    server = Server(connections=3)
    for _ in range(3):
        server.session().close()
    ended = server.end()
    check("clients without a line", ended == (0, UNMADE, b"[INFO  rme] served 3\n"), ended)


def try_help(folder):
    """The example of the help, run as it stands with the program on the path, prints what stands below it."""
    os.symlink(built(), os.path.join(folder, "rme"))
    text = run(["serve", "--help"]).stdout.decode()
    parts = text.split("A server and a client, for bash:\n\n")[-1].split("\n\n")
    environment = {**os.environ, "PATH": folder + os.pathsep + os.environ["PATH"]}
    ran = subprocess.run(["bash", "-c", parts[0]], stdin=subprocess.DEVNULL, capture_output=True, text=True, timeout=60,
        env=environment)
    wanted = "".join(line.strip() + "\n" for line in parts[1].splitlines())
    holds = "entries 1\n" in wanted and (ran.returncode, ran.stdout, ran.stderr) == (0, wanted, "[INFO  rme] served 1\n")
    check("the example of the help", holds, ran)
    for word in ("attach", "submit", "enter", "commit", "resume", "withdraw", "last", "crash_after", "detach"):
        if f'{{"do":"{word}"' not in text:
            check(f"the help has {word}", False)
    check("the help has each order, SIGTERM and each status", "SIGTERM" in text and all(f" {n} " in text for n in (1, 2, 4, 5, 6, 7)), text)


# ---- words that are refused


def refused(given, name):
    ran = run(given)
    check("refused by its form: " + name, (ran.returncode, ran.stdout, ran.stderr.startswith(b"error: ")) == (2, b"", True), ran)


def try_words():
    for option in set(SMALL) - {"connections"}:  # a port, since there is no socket
        refused(words_of(without=option), "no --" + option)
    refused(words_of(locks=()), "no lock")
    for option in ("workers", "cells", "jobs", "connections", "at_once", "idle", "port"):
        for value in ("", "x", "-1", "1.5", "4294967296"):
            refused(words_of(**{option: value}), f"--{option} '{value}'")
    refused(words_of(port=65536), "--port 65536")
    for option in ("connections", "at_once", "idle"):
        for value in (0, 1_000_001):
            refused(words_of(**{option: value}), f"--{option} {value}")
    refused(words_of() + ["--loud"], "--loud")


def try_spaces_words():
    """The words that the server refuses beside `--spaces`, and those that it takes only with `--spaces` or `--state`."""
    spaces = ["serve", "--spaces", "nowhere"]
    beside = {"--state": "file", "--workers": 2, "--cells": 1, "--jobs": 1, "--connections": 1}
    for words in ([option, str(value)] for option, value in beside.items()):
        refused([*spaces, *words], f"--spaces beside {words[0]}")
    refused([*spaces, "bank"], "--spaces beside a lock")
    for value in ("", "0", "x", "1000001"):
        refused([*spaces, "--close-after", value], f"--close-after '{value}'")
    state = ["serve", "--state", "nowhere", "bank"]
    for words in ([*state, "--close-after", "5"], [*words_of(), "--close-after", "5"]):
        ran = run(words)
        told = b"error: --close-after is an option of --spaces\n"
        check(f"refused: {' '.join(words)}", (ran.returncode, ran.stderr.startswith(told)) == (2, True), ran)
    for words in (["--sync", "always"], ["--waiting", "keep"], ["--sections", "5"]):
        ran = run([*words_of(), *words])
        told = b"error: --sync, --waiting and --sections are options of --state and --spaces\n"
        check(f"refused without a state: {words[0]}", (ran.returncode, ran.stderr.startswith(told)) == (2, True), ran)


def bad(why, locks=("bank",), **options):
    ran = run(words_of(locks, **options))
    told = BAD + f"  {why}\n".encode()
    check(f"bad arguments: {why!r}", (ran.returncode, ran.stdout, ran.stderr) == (2, b"", told), ran)


def try_arguments():
    """Each refused argument is named below the fault, with the reason."""
    for option, most in {"workers": 256, "cells": 16, "jobs": 1_000_000}.items():
        for value in (0, most + 1, 4_294_967_295):
            bad(f"--{option} {value}: it is 1 to {most}", **{option: value})
    for name in ("", "Bank", "b" * 33, "the bank", "bank,shop", "Bänk"):
        bad(f"the lock {name}: a name has 1 to 32 of a-z 0-9 _ and -", locks=("shop", name))
    bad("the lock \\u{1b}[2J: a name has 1 to 32 of a-z 0-9 _ and -", locks=("\x1b[2J",))
    bad("the lock bank: each name stands once", locks=("bank", "shop", "bank"))
    bad("17 locks: a service has 1 to 16", locks=tuple("abcdefghijklmnopq"))


def try_limits():
    """The greatest numbers that are accepted, but for memory's sake not all in one run."""
    for options in ({"workers": 256}, {"cells": 16}, {"jobs": 1_000_000, "workers": 1}, {"workers": 1, "cells": 1, "jobs": 1}):
        server = Server(**options)
        server.session().close()
        line = b"lock bank cells" + b" 0" * int(options.get("cells", 2)) + b" entries 0\n"
        ended = server.end()
        check(f"accepted: {options}", ended[:2] == (0, line), ended)
    names = tuple("abcdefghijklmno") + ("0123456789_-" + "z" * 20,)
    server = Server(names)
    server.session().close()
    ended = server.end()
    check("accepted: 16 locks", ended[1].split(b"\n")[:-1] == [f"lock {name} cells 0 0 entries 0".encode() for name in names], ended)


# ---- sockets and threads


def try_ports():
    with socket.socket() as taken:
        taken.bind(("127.0.0.1", 0))
        taken.listen()
        port = taken.getsockname()[1]
        ran = run(words_of(port=port))
        told = f"fault: socket failed\n  port {port}: Address already in use (os error 98)\n".encode()
        check("a port in use", (ran.returncode, ran.stdout, ran.stderr) == (6, b"", told), ran)
    server = Server(port=port)
    check("a port that is free", server.port == port, server.first)
    server.session().close()
    ended = server.end()
    check("a run on it", ended[0] == 0, ended)


def try_unix_alone(folder):
    """A server with no port: the file of its socket is there for only its user, and is gone after it."""
    path = os.path.join(folder, "alone")
    server = Server(without="port", socket=path, how={"umask": 0})
    same("the socket's line", server.first, f"listening {path}\n".encode())
    mode = os.lstat(path).st_mode
    same("a socket for only its user", (stat.S_ISSOCK(mode), stat.S_IMODE(mode)), (True, 0o600))
    same("and nothing beside it", [name for name in os.listdir(folder) if name.startswith(".s")], [])
    client = server.session_at_socket()
    same("a session over it", client.ask_all(*LINES), ANSWERS)
    try:
        server.session_at_socket().close()
        fail("a connection after the last")
    except ConnectionRefusedError:
        pass
    client.close()
    same("it ends as ever", server.end(), (0, MADE, SERVED))
    same("its file is gone", os.path.lexists(path), False)


def try_unix_and_port(folder):
    """The port and the socket share workers, connections and sessions; whichever has the last connection, both are closed."""
    path = os.path.join(folder, "both")
    server = Server(socket=path, connections=3, at_once=2)
    same("the port's line and then the socket's", (server.port is not None, server.second), (True, f"listening {path}\n".encode()))
    one, two = server.session(), server.session_at_socket()
    same("one worker, one session", [one.ask(ATTACH), two.ask(ATTACH)], [ATTACHED, TAKEN])
    three = server.session_at_socket()
    same("a session more than may be", three.hear().rstrip(b"\n"), BUSY)
    for reach in (lambda: socket.create_connection((HOST, server.port), timeout=60), server.session_at_socket):
        try:
            reach().close()
            fail("a connection after the last of both")
        except ConnectionRefusedError:
            pass
    same("the sessions go on", [one.ask(JOB), two.ask(ATTACH)], [RECEIVED, TAKEN])
    for client in (one, two, three):
        client.close()
    same("both end as ever", server.end(), (0, MADE, b"[INFO  rme] served 3\n"))
    for reach in (Server.session, Server.session_at_socket):
        server = Server(socket=path)
        reach(server).close()
        same("the other has nobody and wakes up", server.end(), (0, UNMADE, SERVED))


def try_unix_again(folder):
    """The socket of a server that was killed is replaced; that of a living one, and whatever else is there, is refused."""
    path = os.path.join(folder, "again")
    server = Server(without="port", socket=path)
    server.program.kill()
    server.end()
    same("a killed server leaves its file", os.path.lexists(path), True)
    living = Server(without="port", socket=path, connections=2)
    same("it is replaced", living.first, f"listening {path}\n".encode())
    bad(f"--socket {path}: a server listens on it", socket=path)
    client = living.session_at_socket()
    same("the living one goes on", client.ask_all(*LINES), ANSWERS)
    client.close()
    # The other server's look was its other connection.
    same("and ends as ever", living.end(), (0, MADE, b"[INFO  rme] served 2\n"))
    there = {name: os.path.join(folder, name) for name in ("file", "folder", "pipe", "link", "lost")}
    with open(there["file"], "wb") as file:
        file.write(b"mine")
    os.mkdir(there["folder"])
    os.mkfifo(there["pipe"])
    os.symlink(there["file"], there["link"])
    os.symlink(os.path.join(folder, "nothing"), there["lost"])
    found = {name: os.lstat(path) for name, path in there.items()}
    for name, path in there.items():
        bad(f"--socket {path}: it is there, and is no socket", socket=path)
        same(f"the {name} is as it was", os.lstat(path)[:7], found[name][:7])
    bad("--socket names no file: its value is empty", socket="")
    for path, why in {
        os.path.join(folder, "nowhere", "s"): "No such file or directory (os error 2)",
        os.path.join(folder, "s" * 108): "path must be shorter than SUN_LEN",
    }.items():
        ran = run(words_of(socket=path))
        same(f"a socket that can't be: {why}", (ran.returncode, ran.stdout, ran.stderr), (6, b"", f"fault: socket failed\n  {path}: {why}\n".encode()))


def try_no_socket():
    """There is room for the standard streams, the listener, what closes it, the standard error once more, and one connection:
    the second is accepted once the first has ended, and until then the server says that it can't be, once in some seconds."""
    server = Server(connections=2)
    resource.prlimit(server.program.pid, resource.RLIMIT_NOFILE, (7, 7))
    client = server.session()
    told = [client.ask(ATTACH)]
    second = server.session()
    time.sleep(0.5)
    told += [server.program.poll(), client.ask(JOB)]
    client.close()
    told += [attached_again(second).replace(b'"number":1', b'"number":0'), second.ask(JOB)]
    second.close()
    check("sessions go on after one could not be accepted", told == [ATTACHED, None, RECEIVED, ATTACHED, RECEIVED], told)
    status, rest, told = server.end()
    refusal = rb"rme: a connection can't be accepted: Too many open files \(os error 24\)( \(\d+ times\))?\n"
    fault = f"fault: socket failed\n  port {server.port}: a connection could not be accepted\n".encode()
    wanted = b"[INFO  rme] served 2\n" + fault
    others, count = re.subn(refusal, b"", told)
    holds = (status, rest, others) == (6, MADE, wanted) and 0 < count < 5
    check("a connection that can't be accepted is told of", holds, (status, rest, told))


def try_at_once():
    """One session at a time: a further one is refused and closed, and another is served once the first has ended."""
    server = Server(without="connections", at_once=1)
    first = server.session()
    told = [first.ask(ATTACH)]
    second = server.session()
    told += [second.hear().rstrip(b"\n"), second.hear(), first.ask(JOB)]
    second.close()
    first.close()
    check("a session more than may be", told == [ATTACHED, BUSY, b"", RECEIVED], told)
    for _ in range(600):
        later = server.session()
        try:
            answer = later.ask(JOB)
        except OSError:
            answer = BUSY
        later.close()
        if answer not in (BUSY, b""):
            break
        time.sleep(0.05)
    check("a session in its place", answer == b'{"code":19,"error":"NotAttached"}', answer)
    ended = server.kill()
    check("sessions that were turned away are nothing to tell of", ended == (-signal.SIGTERM, b"", b""), ended)


def try_idle():
    """A session that says nothing for a second ends, and its worker is free."""
    server = Server(connections=2, idle=1)
    silent, other = server.session(), server.session()
    told = [silent.ask(ATTACH)]
    for _ in range(20):
        time.sleep(0.2)
        told.append(other.ask(ATTACH))
        if told[-1] != TAKEN:
            break
    told.append(silent.hear())
    check("a silent session ends, and one that speaks goes on", told == [ATTACHED] + [TAKEN] * (len(told) - 3) + [ATTACHED, b""], told)
    silent.close()
    other.close()
    ended = server.end()
    check("after silence it ends as ever", ended == (0, UNMADE, b"[INFO  rme] served 2\n"), ended)


def flood(client, taken):
    """Sends orders without reading an answer, until the connection breaks or a minute is over. When the last of them were taken
    is put into a list: from then on all buffers are full."""
    client.connection.settimeout(1)
    orders, latest = line_of(do="last") * 1000, time.monotonic() + 60
    while time.monotonic() < latest:
        try:
            client.connection.send(orders)
            taken[:] = [time.monotonic()]
        except TimeoutError:
            pass
        except OSError:
            break


def try_deaf():
    """A client that takes no answers: its session ends some 10 seconds after all buffers are full, and its worker is free."""
    server = Server(connections=2)
    deaf, other, taken = Session(server.connect(room=4096)), server.session(), []
    told = [deaf.ask(ATTACH), other.ask(ATTACH)]
    flooding = threading.Thread(target=flood, args=(deaf, taken))
    flooding.start()
    told.append(attached_again(other))
    took = time.monotonic() - max(taken, default=0)
    flooding.join()
    deaf.close()
    check("a client that takes no answers loses its worker", told == [ATTACHED, TAKEN, ATTACHED], told)
    # A write that took some bytes may end by its limit too: so a session ended after twice as long.
    check(f"{took:.1f} seconds after its buffers are full", 8.5 < took < 18.5, took)
    other.close()
    ended = server.end()
    check("after it the server ends as ever", ended == (0, UNMADE, b"[INFO  rme] served 2\n"), ended)


def try_last_accepted():
    """Nobody connects in vain: the port is closed as soon as the last connection was taken."""
    server = Server()
    client = server.session()
    told = [client.ask(ATTACH)]
    try:
        socket.create_connection((HOST, server.port), timeout=60).close()
        told.append("connected")
    except ConnectionRefusedError:
        told.append("refused")
    told.append(client.ask(JOB))
    client.close()
    check("no connection after the last", told == [ATTACHED, "refused", RECEIVED], told)
    ended = server.end()
    check("the last session goes on", ended == (0, MADE, SERVED), ended)


def try_endless():
    """Without a number of connections it serves until it is killed."""
    server = Server(without="connections")
    told = []
    for _ in range(50):
        client = server.session()
        told.append(attached_again(client))
        client.close()
    check("fifty connections, one after another", told == [ATTACHED] * 50, told)
    ended = server.kill()
    check("and only a signal ends it", ended == (-signal.SIGTERM, b"", b""), ended)


def no_threads():
    """No process or thread more than there is. Root may always have more, so this is nobody's process."""
    if os.geteuid() == 0:
        os.setgroups([])
        os.setgid(65534)
        os.setuid(65534)
    resource.setrlimit(resource.RLIMIT_NPROC, (1, 1))


def try_no_thread(folder):
    """A copy of the program, since nobody may not be let into the folders above it."""
    copied = os.path.join(folder, "program")
    shutil.copy(built(), copied)
    os.chmod(folder, 0o755)
    os.chmod(copied, 0o755)
    try:
        server = Server(program=copied, how={"preexec_fn": no_threads})
    except OSError as error:
        skip("no thread for a connection", error)
        return
    client = server.session()
    end = client.hear()
    client.close()
    status, rest, told = server.end()
    wanted = (7, b"", UNMADE, THREADLESS + SERVED + b"fault: no thread\n")
    check("no thread for a connection, which is closed", (status, end, rest, told) == wanted, (status, end, rest, told))


def try_signal():
    server = Server()
    client = server.session()
    client.ask(ATTACH)
    server.program.send_signal(signal.SIGTERM)
    ended = server.end()
    client.close()
    check("SIGTERM ends it at once, with no closing lines", ended == (-signal.SIGTERM, b"", b""), ended)


# ---- outputs that fail


def try_outputs():
    unwritten = b"fault: write failed\n"
    with open("/dev/full", "wb") as full:
        ran = run(words_of(), stdout=full)
    check("a full output", (ran.returncode, ran.stderr) == (4, unwritten), ran)
    ran = run(words_of(), stdout=None, preexec_fn=lambda: os.close(1))
    check("a closed output", (ran.returncode, ran.stderr) == (4, unwritten), ran)
    server = Server()
    server.program.stdout.close()
    server.session().close()
    told = server.program.stderr.read()
    ended = (server.program.wait(timeout=60), told)
    check("an output that broke after the first line", ended == (4, SERVED + unwritten), ended)


def try_errors():
    """The record of the log is lost if it can't be written, and nothing else is."""
    with open("/dev/full", "wb") as full:
        server = Server(how={"stderr": full})
        server.session().close()
        ended = server.end()
    check("a full standard error", ended[:2] == (0, UNMADE), ended)
    server = Server(how={"stderr": None, "preexec_fn": lambda: os.close(2)})
    server.session().close()
    ended = server.end()
    check("a closed standard error", ended[:2] == (0, UNMADE), ended)


# ---- memory that is refused


def refused_end(shim, number):
    """How a run ended whose growth of this number was refused: in one of the ways that are good, in another, or, if it
    had fewer growths, not at all. A session that ends early has answered a front of its lines, and may have made its job."""
    server = Server(how={"env": refusing(shim, number)})
    answers = []
    try:
        # If a growth is refused after the port was told, the server may be gone before it is reached.
        if server.port:
            client = server.session()
            answers = client.say(*LINES)
            client.close()
    except OSError:
        pass
    status, rest, told = server.end()
    if REFUSED_GROWTH not in told:
        return None
    end = status, rest, told.replace(REFUSED_GROWTH, b"")
    if answers == ANSWERS[: len(answers)]:
        if end == (0, MADE, SERVED):
            return "served as ever" if answers == ANSWERS else "ended only the session"
        if end == (0, UNMADE, SERVED) and len(answers) < 2:
            return "ended only the session"
        if end == (7, UNMADE, THREADLESS + SERVED + b"fault: no thread\n") and not answers:
            return "ended with status 7"
        if end == (5, b"", b"fault: no memory\n"):
            return "ended with status 5"
    return f"growth {number}: {end}, {answers}"


def try_growths(folder):
    """Refuses the first, the second, .. growth of memory of a run with one client, until a run meets no refusal."""
    shim = growth_refuser(folder)
    if not shim:
        return
    ends, number = collections.Counter(), 1
    while end := refused_end(shim, number):
        ends[end] += 1
        number += 1
    told = ", ".join(f"{count} runs {end}" for end, count in ends.items())
    wrong = [end for end in ends if end.startswith("growth")]
    check("refused growths: " + told, not wrong and ends["ended with status 5"] and ends["ended only the session"], wrong)


FOLDER = tempfile.TemporaryDirectory()


def with_folder(part):
    """A part of the script that is given the folder in which all parts work."""

    def call():
        part(FOLDER.name)

    call.__name__ = part.__name__
    return call


WHOLE = [try_one_client, try_two_clients, try_crash, try_unsettled, try_no_lines]
WHOLE += [try_words, try_spaces_words, try_arguments, try_limits, try_ports]
DOORS = [try_at_once, try_idle, try_deaf, try_last_accepted, try_endless]
FAILING = [try_no_socket, try_signal, try_outputs, try_errors]

# ---- inside: enter, one's own work, commit


def enter(amount, **more):
    return {"do": "enter", "lock": "bank", "number": 1, "script": [["add", 0, amount]], **more}


HELD = b'{"life":1,"number":1,"ok":"enter","section":0,"stance":"held"}'
STILL_HELD = {"number": 1, "ok": "attach", "stance": "held"}
WAITS = b'{"ok":"enter","waiting":true}'
NOT_INSIDE = b'{"code":22,"error":"NotInside"}'
COMMITTED = b'{"ok":"commit","receipt":' + RECEIPT + b"}"
SECOND = b'{"ok":"resume","receipt":{"lock":"bank","number":1,"place":1,"reply":6,"worker":1}}'


def try_inside():
    """One worker is inside; the other waits, and cannot commit."""
    server = Server(connections=2)
    one, two = server.session(), server.session()
    same("one is inside", one.ask_all(ATTACH, enter(5)), [ATTACHED, HELD])
    same("the other waits", two.ask_all({**ATTACH, "worker": 1}, enter(1, tries=3), {"do": "commit"}), [ATTACHED, WAITS, NOT_INSIDE])
    same("it commits", one.ask({"do": "commit"}), COMMITTED)
    same("the other is next", two.ask({"do": "resume"}), SECOND)
    one.close()
    two.close()
    server.end()


def try_inside_and_cut():
    """The connection of the one that is inside ends: its worker stays the owner, and whoever takes it commits."""
    server = Server(connections=3)
    one, two, three = server.session(), server.session(), server.session()
    same("inside, and cut", one.ask_all(ATTACH, enter(5)), [ATTACHED, HELD])
    one.close()
    same("nobody else is inside", two.ask_all({**ATTACH, "worker": 1}, enter(1, tries=3)), [ATTACHED, WAITS])
    same("its worker is inside still", three.attach(0), STILL_HELD)
    same("and commits", three.ask({"do": "commit"}), COMMITTED)
    same("the other is next", two.ask({"do": "resume"}), SECOND)
    two.close()
    three.close()
    server.end()


def try_inside_again():
    """Each order in each stance of one that enters."""
    server = Server()
    told = server.session().say(
        ATTACH, enter(5), enter(5), enter(6), {"do": "withdraw"}, {"do": "last"}, {"do": "commit"}, {"do": "commit"},
        {**enter(5), "script": []})
    refused = [b'{"code":17,"error":"Differs"}', b'{"code":21,"error":"NotWaiting"}', BUSY]
    again = b'{"ok":"enter","receipt":' + RECEIPT + b"}"
    same("inside again", told, [ATTACHED, HELD, HELD, *refused, COMMITTED, b'{"code":10,"error":"Idle"}', again])
    server.end()


def try_inside_and_planned():
    """A planned crash comes with the first step of the section, and the commit after it counts."""
    server = Server()
    told = server.session().say(
        ATTACH, {"do": "crash_after", "steps": 7}, enter(5), {"do": "commit"}, ATTACH, {"do": "commit"})
    held = b'{"number":1,"ok":"attach","stance":"held"}'
    wanted = [ATTACHED, b'{"ok":"crash_after"}', HELD, b'{"fell":true,"ok":"commit"}', held, COMMITTED]
    same("inside, and planned", told, wanted)
    server.end()


INSIDE = (try_inside, try_inside_and_cut, try_inside_again, try_inside_and_planned)

UNIX = (try_unix_alone, try_unix_and_port, try_unix_again)


def part():
    main(*WHOLE, *INSIDE, *DOORS, *FAILING, *map(with_folder, (*UNIX, try_help, try_no_thread, try_growths)))
