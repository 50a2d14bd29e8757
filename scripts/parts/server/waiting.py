"""Clients of `rme serve` that wait for a lock: when they are answered, what they cost, what becomes of one that goes away,
and of one whose worker another client takes over."""

import os
import socket
import subprocess
import sys
import threading
import time

from lib.checks import check, main
from lib.servers import Server, line_of

ADD = [["add", 0, 1]]


def served(**options):
    return Server(without="connections", **options)


def owner_of(server, worker=0):
    """A session whose worker is inside the lock."""
    session = server.session()
    session.ask_all({"do": "attach", "worker": worker}, {"do": "enter", "lock": "bank", "number": 1, "script": ADD})
    return session


def waiting(server, worker, **how):
    """A session whose worker has begun to wait for the lock."""
    session = server.session()
    session.attach(worker)
    session.send(line_of(do="submit", lock="bank", number=1, script=ADD, **how))
    return session


def seconds_of(program):
    """The processor's seconds that a program has used so far."""
    with open(f"/proc/{program.pid}/stat", encoding="utf-8") as stat:
        words = stat.read().rpartition(")")[2].split()
    return (int(words[11]) + int(words[12])) / os.sysconf("SC_CLK_TCK")


def shares_of(*programs):
    """What share of a processor each program uses, in the same three seconds."""
    before, began = [seconds_of(program) for program in programs], time.monotonic()
    time.sleep(3)
    took = time.monotonic() - began
    return [(seconds_of(program) - so_far) / took for program, so_far in zip(programs, before)]


def try_time():
    server = served()
    owner_of(server)
    other = server.session()
    other.attach(1)
    for milliseconds in (0, 40, 300):
        began = time.monotonic()
        answer = other.told(do="enter", lock="bank", number=1, script=ADD, wait=milliseconds)
        took = 1000 * (time.monotonic() - began)
        check(f"a wait of {milliseconds} ms", answer == {"ok": "enter", "waiting": True}, answer)
        check(f"a wait of {milliseconds} ms takes that time", milliseconds <= took < milliseconds + 1000, took)
    server.kill()


def try_handing_over():
    """A client that waits is told at once when the lock is left."""
    server = served()
    owner = owner_of(server)
    other = waiting(server, 1, wait=60_000)
    time.sleep(0.5)
    began = time.monotonic()
    owner.ask({"do": "commit"})
    answer = other.hear()
    took = time.monotonic() - began
    check("the receipt of a job that waited", b'"receipt"' in answer, answer)
    check("it comes at once", took < 1, took)
    server.kill()


def try_gone():
    """A client that goes away while its job waits: its worker falls, and is there for the next."""
    ways = {"ends": lambda it: it.close(), "resets": lambda it: it.reset()}
    for name, leave in ways.items():
        server = served()
        owner_of(server)
        gone = waiting(server, 1, wait=3_600_000)
        time.sleep(0.3)
        leave(gone)
        began = time.monotonic()
        answer = server.session().attach(1)
        took = time.monotonic() - began
        check(f"a client that {name}: its worker waits", answer == {"number": 1, "ok": "attach", "stance": "climb"}, answer)
        check(f"a client that {name} is noticed", took < 2, took)
        server.kill()


def try_half_closed():
    """A client that has closed its sending side is answered: nobody would go on with its job."""
    server = served()
    owner_of(server)
    other = waiting(server, 1, wait=3_600_000)
    time.sleep(0.3)
    rest = other.hang_up()
    check("half of a connection: waiting, and then the end", rest == b'{"ok":"submit","waiting":true}\n', rest)
    server.kill()


# As many threads as clients, which sleep for as long as a client's longest pause and do nothing else.
SLEEPERS = """
import threading, time
for _ in range(200):
    threading.Thread(target=lambda: [time.sleep(0.04) for _ in range(10_000)], daemon=True).start()
print(flush=True)
time.sleep(400)
"""


def try_crowd():
    """200 clients that wait for a lock whose owner is down take less than a tenth of a processor; on a slow machine, less
    than twice what 200 threads of Python take there that only sleep for the same time."""
    server = served(workers=256)
    owner_of(server).close()
    crowd = [waiting(server, worker, wait=600_000) for worker in range(1, 201)]
    sleepers = subprocess.Popen([sys.executable, "-c", SLEEPERS], stdout=subprocess.PIPE)
    sleepers.stdout.readline()
    time.sleep(1)
    share, least = shares_of(server.program, sleepers)
    sleepers.kill()
    sleepers.communicate()
    check("200 that wait use less than a tenth of a processor", share < max(0.1, 2 * least), f"{share:.3f}, and 200 that sleep {least:.3f}")
    owner = server.session()
    owner.attach(0)
    owner.ask({"do": "commit"})
    told = [session.hear() for session in crowd]
    check("and have a receipt each when the owner commits", all(b'"receipt"' in line for line in told), told[:3])
    server.kill()


def try_taking():
    """A worker is taken from a session that waits, from one that is inside, and from one that many ask for at once."""
    server = served(workers=4)
    owner_of(server)
    waits = waiting(server, 1, wait=3_600_000)
    time.sleep(0.3)
    taker = server.session()
    answer = taker.told(do="attach", take=True, worker=1)
    check("from one that waits", answer == {"number": 1, "ok": "attach", "stance": "climb"}, answer)
    rest = waits.lines.read()
    check("whose connection is closed", rest in (b"", b'{"ok":"submit","waiting":true}\n'), rest)
    answer = taker.told(do="withdraw")
    check("and may be given up", answer == {"number": 1, "ok": "withdraw"}, answer)
    takers = [server.session() for _ in range(8)]
    told = [None] * len(takers)

    def take(at):
        told[at] = takers[at].ask({"do": "attach", "take": True, "worker": 0})

    threads = [threading.Thread(target=take, args=(at,)) for at in range(len(takers))]
    for thread in threads:
        thread.start()
    for thread in threads:
        thread.join()
    held = b'{"number":1,"ok":"attach","stance":"held"}'
    check("from one that is inside, by eight in turn", all(line in (held, b"") for line in told), told)
    left = [at for at, session in enumerate(takers) if session.ask({"do": "commit"}).startswith(b'{"ok":"commit"')]
    check("one of them has it in the end, and commits", len(left) == 1, left)
    server.kill()


def try_not_taken():
    """A refused line takes nobody's worker."""
    server = served(workers=2)
    owner = owner_of(server)
    other = server.session()
    other.attach(1)
    answers = other.ask_all({"do": "attach", "take": True, "worker": 0}, {"do": "attach", "take": True, "worker": 9})
    wanted = [b'{"code":9,"error":"Busy"}', b'{"code":6,"error":"NoWorker"}']
    check("a session that has a worker, and a worker that is not there", answers == wanted, answers)
    answer = owner.told(do="commit")
    check("the owner goes on", answer.get("ok") == "commit", answer)
    server.kill()


def try_socket_error():
    """A session over a socket pair of this machine has no further effect on others when it is reset within an order."""
    server = served(workers=3)
    owner = owner_of(server)
    for _ in range(20):
        session = server.session()
        session.attach(1)
        session.send(line_of(do="enter", lock="bank", number=1, script=ADD, wait=60_000))
        session.reset()
    answer = server.session().attach(1)
    check("twenty resets within an order", answer.get("stance") in ("climb", "ready"), answer)
    check("the owner is still inside", owner.told(do="commit").get("ok") == "commit")
    server.kill()


def part():
    socket.setdefaulttimeout(60)
    main(try_time, try_handing_over, try_gone, try_half_closed, try_crowd, try_taking, try_not_taken, try_socket_error)
