"""`rme ask top`: tables one after another, in place on a terminal, until it is interrupted or the server is gone."""

import os
import pty
import re
import select
import signal
import subprocess
import time

from lib.asks import ask, enter, leave_inside, ports_of, still, with_state
from lib.checks import check, main_in_folders, same
from lib.programs import built

CLEAR = "\x1b[H\x1b[J"
FIRST = """\
LOCK  OWNER   STATE  SINCE  WAITING  JOBS/S
bank  0       DEAD   -      1        -
shop  nobody  -      -      0        -
"""


def try_count(folder):
    server = with_state(folder)
    leave_inside(server, 0)
    waits, _ = enter(server, 1, tries=3)
    status, told, why = ask(server, "top", "--count", "1")
    same("one table", (status, still(told), why), (0, FIRST, ""))
    began = time.monotonic()
    status, told, why = ask(server, "top", "--count", "3")
    wanted = "\n".join([FIRST, *[FIRST.replace("1        -", "1        0").replace("0        -", "0        0")] * 2])
    same("three tables", (status, still(told), why), (0, wanted, ""))
    check("a second between two", 1.8 < time.monotonic() - began < 10)
    status, told, _ = ask(server, "--json", "top", "--count", "2")
    same("as lines", (status, told.count('"ok":"status"'), len(told.splitlines())), (0, 2, 2))
    waits.close()
    server.kill()


def try_rate(folder):
    """The jobs a second are those that were finished meanwhile."""
    server = with_state(folder)
    top = begin(server)
    session = server.session()
    session.attach(0)
    for _ in range(5):
        top.stdout.readline()
    for number in range(1, 301):
        session.told(do="submit", lock="shop", number=number, script=[])
    rates = []
    while len(rates) < 8:
        found = re.fullmatch(r"shop +nobody +- +- +0 +(\d+)\n", top.stdout.readline())
        rates += [int(found[1])] if found else []
    top.send_signal(signal.SIGINT)
    same("it is interrupted", top.wait(20), -signal.SIGINT)
    check("about 300 jobs were counted", 200 < sum(rates) <= 330, rates)
    session.close()
    server.kill()


def try_terminal(folder):
    """On a terminal each table takes the place of the one before."""
    server = with_state(folder)
    ours, theirs = pty.openpty()
    words = [built(), "ask", "--port", str(server.port), "top", "--count", "2"]
    with subprocess.Popen(words, stdin=subprocess.DEVNULL, stdout=theirs, stderr=theirs) as top:
        os.close(theirs)
        told = all_of(ours)
        top.wait(20)
    tables = told.replace("\r\n", "\n").split(CLEAR)
    check("two tables in place", [len(table.splitlines()) for table in tables] == [0, 3, 3], told)
    same("status", top.returncode, 0)
    server.kill()


def all_of(terminal):
    """What a terminal shows until its other side is closed."""
    told = b""
    while select.select([terminal], [], [], 20)[0]:
        try:
            more = os.read(terminal, 4096)
        except OSError:
            break
        if not more:
            break
        told += more
    os.close(terminal)
    return told.decode()


def try_gone(folder):
    server = with_state(folder)
    top = begin(server)
    top.stdout.readline()
    server.program.kill()
    _, why = top.communicate(timeout=20)
    check("the server is gone", top.returncode == 1 and why.startswith("rme: the "), (top.returncode, why))


def try_next(folder):
    """Of two servers the first is killed: the tables go on with the second, up to their count. When that is killed too, `top` ends
    after some time."""
    servers = [two_locks(os.path.join(folder, name)) for name in ("first", "second")]
    top = begin(servers, "--count", "4")
    table = [top.stdout.readline() for _ in range(3)]
    servers[0].program.kill()
    told, why = top.communicate(timeout=30)
    wanted = "\n".join(["".join(table)] * 4)
    same("four tables", (top.returncode, without_rates("".join(table) + told), why), (0, without_rates(wanted), ""))
    top = begin(servers)
    top.stdout.readline()
    servers[1].program.kill()
    killed = time.monotonic()
    _, why = top.communicate(timeout=60)
    known = all(f"\n  port {server.port}: " in why for server in servers)
    check("no server is there", top.returncode == 6 and known, (top.returncode, why))
    check("it was waited for", 5 < time.monotonic() - killed < 30, time.monotonic() - killed)


def two_locks(folder):
    os.mkdir(folder)
    return with_state(folder)


def without_rates(tables):
    """The tables of free locks without the jobs a second, which a first table does not have."""
    return re.sub(r" [-0]\n", " ?\n", tables)


def begin(server, *words):
    words = [built(), "ask", "--port", ports_of(server), "top", *words]
    return subprocess.Popen(words, stdin=subprocess.DEVNULL, stdout=subprocess.PIPE, stderr=subprocess.PIPE, text=True)


def part():
    # If this is run in the background, the shell has it ignore what Ctrl-C sends.
    signal.signal(signal.SIGINT, signal.default_int_handler)
    main_in_folders(try_count, try_rate, try_terminal, try_gone, try_next, minutes=4)
