"""full [SEED]: what can't be kept, on a full disk, on one that takes nothing, and without memory: the server ends."""

import collections
import json
import os
import random
import sys
import time

from lib.checks import check, main_in_folders, note, same, skip
from lib.full import SECONDS, allow_more, ignore_limit, jobs_until_none, limited, load_until_full, own_end, rest_of
from lib.full import told_of
from lib.kept import end_of, faults_of, kill, looked, read, serve, state_words, until_waiting, without_count
from lib.orders import COMMIT, LAST, ONE, RESUME, STATUS, attach, job, receipt, stands, text
from lib.programs import REFUSED_GROWTH, built, growth_refuser, has_strace, refusing
from lib.servers import Server, Session, line_of

SEED = int(sys.argv[1]) if len(sys.argv) > 1 else random.randrange(10**6)


# ---- what can't be kept


def fill(path, size):
    """A server whose file may have this number of bytes, and a client with jobs until it has no answer: how the server
    ended, and the numbers that were answered."""
    server, numbers = serve(path, how={"preexec_fn": limited(size)}), []
    if server.port:
        numbers = jobs_until_none(server.session(), 0, "bank", most=100)
    return own_end(server), numbers


def try_full(folder):
    """A file that can grow no more, at many lengths of its lines: the server ends, what was answered is kept, and the
    next one goes on."""
    path, wrong, made = os.path.join(folder, "full"), [], 0
    kill(serve(path, "bank", workers=2))
    for room in [*range(0, 120, 7), *range(120, 400, 23)]:
        ended, numbers = fill(path, len(read(path)) + room)
        if ended != (4, b"", told_of(path)):
            wrong.append((room, ended))
        # What was not answered may be kept too, but only of one job.
        if numbers != list(range(made + 1, made + len(numbers) + 1)):
            wrong.append((room, made, numbers))
        told = looked(path)
        if told["workers"][0]["number"] - len(numbers) - made not in (0, 1):
            wrong.append((room, made, len(numbers), told))
        server = serve(path)
        session = server.session()
        stood = session.told(**attach(0))
        is_next = stood["number"] == made + len(numbers)  # else one was kept that was not answered
        answer = session.told(**job("submit", "bank", stood["number"] + is_next, *ONE))
        made = answer["receipt"]["reply"]
        if (answer["receipt"]["number"], session.told(do="cells", lock="bank")["cells"]) != (made, [made]):
            wrong.append((room, stood, answer))
        kill(server)
    check(f"files that were full, and {made} jobs that counted once", not wrong and made > 30, wrong[:3])
    same("they are a run that the machine has", faults_of(read(path)), [])
    new = os.path.join(folder, "full-at-once")
    ended = end_of(state_words(new, "bank", port=0), preexec_fn=limited(100))
    same("a file that can't be made", ended, (4, b"", told_of(new)))
    same("and nothing is left of it", [name for name in os.listdir(folder) if name.startswith("full-at-once")], [])


def places_of(path):
    """How a server can be reached: by a port, by a socket beside its file, or by both."""
    where = path + ".socket"
    return {"the port": {"port": 0}, "the socket": {"socket": where}, "both": {"port": 0, "socket": where}}


def sessions_of(server, count):
    """Sessions in turn by all places of a server."""
    doors = [server.session] * (server.port is not None) + [server.session_at_socket] * (server.path is not None)
    return [doors[number % len(doors)]() for number in range(count)]


def try_ending(folder):
    """A server whose file can grow no more ends, whatever its clients are at, and the next one goes on."""
    for place in places_of(""):
        for room in (0, 10):
            for name, breaks in {"the end of a session": Session.close, "an order": submit_at_once}.items():
                path = os.path.join(folder, f"{place} {room} {name}".replace(" ", "-"))
                wrong = wrong_at_end(path, places_of(path)[place], room, breaks)
                check(f"it ends: {place}, {room} bytes more, {name}", not wrong, wrong)


def submit_at_once(session):
    """An order whose lines are to be kept at once, since it makes one try."""
    session.send(line_of(**job("submit", "bank", 1, *ONE, tries=1)))


def wrong_at_end(path, places, room, breaks):
    """What is wrong if one is inside, one waits for its lock, one waits and has sent more, and two say nothing, as
    lines of somebody can't be kept."""
    server = serve(path, "bank", workers=4, how={"preexec_fn": ignore_limit}, **places)
    holder, waiter, hasty, looker, silent, breaker = sessions_of(server, 6)
    holder.ask_all(attach(0), job("enter", "bank", 1, *ONE))
    for worker, session in ((1, waiter), (2, hasty)):
        session.ask(attach(worker))
        session.send(line_of(**job("enter", "bank", 1, *ONE, wait=60_000)))
        until_waiting(looker, worker)
    hasty.send(line_of(**LAST))
    breaker.ask(attach(3))
    before, held = looked(path), read(path)
    allow_more(server, path, room)
    began = time.monotonic()
    breaks(breaker)
    told = [rest_of(session) for session in (holder, waiter, hasty, looker, silent)]
    ended, took, now = own_end(server), time.monotonic() - began, read(path)
    found = {
        "somebody is answered": any(told),
        "how it ends": ended != (4, b"", told_of(path)) and ended,
        "how late": took > SECONDS and took,
        "another file": not (now.startswith(held) and len(now) <= len(held) + room),
        "another state": looked(path) != before,
        "its socket is there": os.path.lexists(path + ".socket"),
        "the next one": wrong_after_end(path, places),
        "a run that no machine has": faults_of(read(path)),
    }
    return {name: why for name, why in found.items() if why}


def wrong_after_end(path, places):
    """What the next server answers of the worker inside, of two that waited and of one that was ready, if that is
    wrong."""
    server = serve(path, **places)
    sessions = sessions_of(server, 4)
    told = [session.ask(attach(worker)) for worker, session in enumerate(sessions)] + [sessions[0].ask(COMMIT)]
    wanted = [stands(*stance) for stance in (("held", 1), ("climb", 1), ("climb", 1), ("ready", 0))]
    wanted.append(text(ok="commit", receipt=receipt(0, 1, "bank", 0, 1)))
    replies = sorted(sessions[worker].told(**RESUME, wait=10_000)["receipt"]["reply"] for worker in (1, 2))
    kill(server)
    return (told, replies) != (wanted, [2, 3]) and (told, replies)


def try_full_under_load(folder):
    """Clients with jobs, during which the server's disk becomes full: each job that was answered is kept."""
    path, wrong, numbers, last, count = os.path.join(folder, "load"), [], random.Random(SEED), [0] * 6, 0
    for turn in range(6):
        sync, after, room = ("never", "always")[turn % 2], numbers.random() * 0.4, numbers.randrange(2000)
        how = {"preexec_fn": ignore_limit}
        server = serve(path, "bank", workers=6, port=0, socket=path + ".socket", sync=sync, how=how)
        ended, answered = load_until_full(server, path, "bank", 6, after, room)
        told, jobs = looked(path), 0
        for worker, row in enumerate(told["workers"]):
            first = row["number"] if not answered[worker] else answered[worker][0]
            last[worker] = max([last[worker], *answered[worker]])
            in_order = answered[worker] == list(range(first, first + len(answered[worker])))
            if not in_order or row["number"] - last[worker] not in (0, 1):
                wrong.append((turn, worker, row, answered[worker][-3:], last))
            last[worker] = row["number"]
            jobs += row["number"] - (row["stance"] != "ready")
            count += len(answered[worker])
        if ended != (4, b"", told_of(path)) or told["locks"][0]["cells"] != [jobs]:
            wrong.append((turn, ended, told, jobs))
    check(f"full disks under load, {count} jobs that were answered", not wrong and count > 50, wrong[:3])
    same("they are a run that the machine has", faults_of(read(path)), [])


def try_no_sync(folder):
    """A disk that does not take what was written: it is not answered, and the server ends."""
    if not has_strace():
        skip("a disk that takes nothing", "there is no strace that may look")
        return
    path = os.path.join(folder, "unsynced")
    traced = ["-e", "trace=fdatasync", "-e", "inject=fdatasync:error=EIO:when=4+"]
    words = ["-D", "-f", "-o", path + ".log", *traced, built(), *state_words(path, "bank", port=0, sync="always")]
    server = Server(program="strace", words=words)
    numbers = jobs_until_none(server.session(), 0, "bank", most=100)
    same("a disk that takes nothing", own_end(server), (4, b"", told_of(path, "Input/output error (os error 5)")))
    told = looked(path)["workers"][0]["number"]
    check("what was answered is kept", 0 < len(numbers) <= told <= len(numbers) + 1, (numbers, told))


def is_there(server):
    """Whether a server still answers, once it has seen the ends of all sessions that had workers."""
    for _ in range(2):  # the growth may be refused to one session that asks
        try:
            session = server.session()
            while told := session.ask(STATUS):
                if not any(worker["attached"] for worker in json.loads(told)["workers"]):
                    session.close()
                    return True
            session.close()
        except OSError:  # it was reset, or nobody listens any more
            pass
    return False


def refused_end(path, shim, number):
    """How a server ended, or that it goes on, whose growth of this number was refused, with clients that attach a worker,
    make a job and go away; nothing, if it had fewer growths."""
    server = serve(path, "bank", workers=2, how={"env": refusing(shim, number)})
    jobs, goes_on = 0, bool(server.port)
    for worker in (0, 1):
        if goes_on:
            jobs += len(jobs_until_none(server.session(), worker, "bank", most=1))
            goes_on = is_there(server)
    status, rest, told = kill(server) if goes_on else own_end(server)
    if REFUSED_GROWTH not in told:
        return None
    end = status, rest, without_count(told.replace(REFUSED_GROWTH, b""))
    if server.port and looked(path)["locks"][0]["sections"] < jobs:
        return f"growth {number}: {looked(path)}, {jobs}"
    if goes_on and end[2] in (b"", b"rme: a connection is closed, since it can't have a thread\n"):
        return "went on"
    # What it can't write down may be the end of the session that asked whether it is there.
    # And it may be killed while it ends. There was no memory for its lines, or for their write.
    whys = (b"fault: no memory\n", f"fault: the state {path} can't be written: no memory\n".encode())
    if not end[1] and end[2] in whys and (end[0] == 4 or goes_on) and server.port:
        return "ended with status 4"
    if end == (5, b"", b"fault: no memory\n") and not server.port:
        return "did not begin"
    return f"growth {number}: {end}"


def try_growths(folder):
    """Refuses the first, the second, .. growth of memory of a server, until one meets no refusal."""
    shim = growth_refuser(folder)
    if not shim:
        return
    ends, number = collections.Counter(), 1
    while end := refused_end(os.path.join(folder, f"growth-{number}"), shim, number):
        ends[end] += 1
        number += 1
    told = ", ".join(f"{count} servers {end}" for end, count in ends.items())
    wrong = [end for end in ends if end.startswith("growth")]
    check("refused growths: " + told, not wrong and ends["went on"] and ends["did not begin"], wrong)


def part():
    note(f"seed {SEED}")
    main_in_folders(try_full, try_ending, try_full_under_load, try_no_sync, try_growths, minutes=5)
