"""Look-ups of both servers as tables and as lines, refusals with their explanations, lines of the standard input, and words
that are wrong."""

import json
import os

from lib.asks import StandIn, ask, enter, leave_inside, still, with_state, without_state
from lib.checks import check, main_in_folders, same
from lib.programs import ends_with, run

NO_LOOK_UPS = "A server without a state has no look-ups"
STATUS = """\
LOCK  OWNER   STATE  CELLS          SECTIONS
bank  0       DEAD   0,0 unsettled  0
shop  nobody  -      0,0            0

WORKER  SESSION  STANCE  LOCK  JOB  BLOCKED BY  SINCE  AS
0       none     held    bank  1    -           -      -
1       yes      climb   bank  1    0           -      -
2       none     ready   -     0    -           -      -
"""
TOLD = """\
LOCK  OWNER  STATE  CELLS  SECTIONS
bank  0      held   5      2

WORKER  SESSION  STANCE  LOCK  JOB  BLOCKED BY  SINCE  AS
0       yes      held    bank  3    -           12s    host7:cron
1       yes      climb   bank  2    0           3m12s  \\u{1b}[2J\u00e9
2       none     ready   -     0    -           2h03m  -
3       none     ready   -     0    -           4d01h  -
4       none     ready   -     0    -           -      -
"""
TOP = """\
LOCK  OWNER  STATE  SINCE  WAITING  JOBS/S
bank  0      held   12s    1        -
"""


def try_tables(folder):
    """A server with a state, in which worker 0 died inside its lock, and worker 1 waits for it."""
    server = with_state(folder)
    leave_inside(server, 0)
    waits, told = enter(server, 1, tries=3)
    same("worker 1 waits", told, {"ok": "enter", "waiting": True})
    status, told, why = ask(server, "status")
    same("status", (status, still(told), why), (0, STATUS, ""))
    same("owner", ask(server, "owner", "bank"), (0, "LOCK  OWNER\nbank  0\n", ""))
    same("the owner of a free lock", ask(server, "owner", "shop"), (0, "LOCK  OWNER\nshop  nobody\n", ""))
    same("cells", ask(server, "cells", "bank"), (0, "LOCK  CELLS\nbank  0,0 unsettled\n", ""))
    same("ping", ask(server, "ping"), (0, "the server answers\n", ""))
    session = server.session()
    for words, order in {
        ("status",): {"do": "status"},
        ("owner", "bank"): {"do": "owner", "lock": "bank"},
        ("cells", "shop"): {"do": "cells", "lock": "shop"},
        ("ping",): {"do": "ping"},
    }.items():
        wanted = session.ask(order).decode() + "\n"
        same(f"--json: {' '.join(words)}", ask(server, "--json", *words), (0, wanted, ""))
        same(f"--json behind: {' '.join(words)}", ask(server, *words, "-j"), (0, wanted, ""))
    waits.close()
    session.close()
    server.kill()


def try_told(_folder):
    """Since when a worker's stance is so, the name that its client gave, and who leads the log, as far as the server tells
    them."""
    workers = [
        {"attached": True, "lock": "bank", "number": 3, "seconds": 12, "stance": "held", "as": "host7:cron"},
        {"attached": True, "blocked_by": 0, "lock": "bank", "number": 2, "seconds": 192, "stance": "climb", "as": "\x1b[2J\u00e9"},
        {"attached": False, "number": 0, "seconds": 7384, "stance": "ready"},
        {"attached": False, "number": 0, "seconds": 349_200, "stance": "ready"},
        {"attached": False, "number": 0, "stance": "ready"},
    ]
    locks = [{"cells": [5], "name": "bank", "owner": 0, "sections": 2, "settled": True}]
    status = {"epoch": 0, "locks": locks, "ok": "status", "workers": workers}
    line = json.dumps(status).encode() + b"\n"
    server = StandIn(line)
    same("status", ask(server, "status"), (0, TOLD, ""))
    server.end()
    server = StandIn(json.dumps({**status, "leader": "host7:7000\x1b[2J", "term": 7}).encode() + b"\n")
    same("a leader", ask(server, "status"), (0, "leader host7:7000\\u{1b}[2J term 7\n\n" + TOLD, ""))
    server.end()
    server = StandIn(line)
    same("top", ask(server, "top", "--count", "1"), (0, TOP, ""))
    server.end()


def try_socket(folder):
    path = os.path.join(folder, "socket")
    server = with_state(folder, "--socket", path)
    told = ends_with(run(["ask", "--socket", path, "owner", "bank"]))
    same("a Unix socket", told, (0, b"LOCK  OWNER\nbank  nobody\n", b""))
    server.kill()


def try_refusals(folder):
    """The name, the explanation and what to do stand on the standard error; with --json the line on the output."""
    server = with_state(folder)
    for words in (["owner", "yard"], ["cells", 'b"a\nnk']):
        status, told, why = ask(server, *words)
        check(f"no such lock: {words}", (status, told) == (1, "") and why.startswith("rme: refused: 11 NoLock: there is no"), why)
    status, told, why = ask(server, "--json", "owner", "yard")
    wanted = '{"code":11,"error":"NoLock"}\n'
    check("a refusal as a line", (status, told) == (1, wanted) and "11 NoLock" in why, (status, told, why))
    server.kill()
    plain = without_state()
    for words in (["status"], ["owner", "bank"], ["cells", "bank"], ["top"]):
        status, told, why = ask(plain, *words)
        known = why.startswith("rme: refused: 1 BadLine: the line is no command\n") and NO_LOOK_UPS in why
        check(f"a server without a state: {words[0]}", (status, told) == (1, "") and known, (status, told, why))
    same("it answers a ping", ask(plain, "ping"), (0, "the server answers\n", ""))
    plain.kill()


def try_lines(folder):
    """Each line is sent, and answered before the next; a refusal is an answer like the others."""
    server = with_state(folder)
    orders = [
        {"do": "attach", "worker": 0},
        {"do": "submit", "lock": "bank", "number": 1, "script": [["add", 0, 5]]},
        {"do": "submit", "lock": "bank", "number": 7, "script": []},
        {"do": "cells", "lock": "bank"},
    ]
    given = "".join(json.dumps(order) + "\n" for order in orders) + "\nno line\n" + '{"do":"detach"}'
    receipt = '{"lock":"bank","number":1,"place":0,"reply":5,"worker":0}'
    wanted = [
        '{"number":0,"ok":"attach","stance":"ready"}',
        f'{{"ok":"submit","receipt":{receipt}}}',
        '{"code":16,"error":"WrongNumber","expected":2}',
        '{"cells":[5,0],"ok":"cells","settled":true}',
        *['{"code":1,"error":"BadLine"}'] * 2,
        '{"ok":"detach"}',
    ]
    same("lines", ask(server, given=given.encode()), (0, "\n".join(wanted) + "\n", ""))
    same("no line", ask(server, given=b""), (0, "", ""))
    status, told, why = ask(server, given=b'{"do":"ping"}\n' + b" " * 65_537 + b"\n")
    check("a line that is too long", (status, told) == (1, '{"ok":"ping"}\n') and "65,536" in why, (status, told, why))
    with open("/dev/full", "wb") as full:
        same("a full output", ask_to(server, full), (4, "fault: write failed\n"))
    server.kill()


def ask_to(server, output):
    ran = run(["ask", "--port", server.port, "ping"], stdout=output)
    return ran.returncode, ran.stderr.decode()


def try_wrong_words(_folder):
    """Words that are refused, status 2, before anything is connected to."""
    rows = {
        "no such word": ["look"],
        "owner of nothing": ["owner"],
        "status of something": ["status", "bank"],
        "ping of something": ["ping", "bank"],
        "finish of nobody": ["finish"],
        "finish of what is no number": ["finish", "bank"],
        "a negative worker": ["finish", "--", "-1"],
        "an option of another word": ["status", "--take"],
        "a wait of another word": ["owner", "bank", "--wait", "1"],
        "a wait that is no number": ["finish", "0", "--wait", "long"],
        "a count of another word": ["status", "--count", "1"],
        "a count of 0": ["top", "--count", "0"],
        "a port and a socket": ["--port", "1", "--socket", "x", "ping"],
        "two lists of ports": ["--port", "1", "--port", "2", "ping"],
    }
    for name, words in rows.items():
        ended = run(["ask", *words])
        check(name, (ended.returncode, ended.stdout) == (2, b"") and ended.stderr, ended)
    for ports in ("", "0", "70000", "bank", ",", "7000,", ",7000", "7000,,7001", "7000,0", "7000,70000", "7000,bank", "7000, 7001"):
        status, told, why = ends_with(run(["ask", "--port", ports, "ping"]))
        check(f"the ports {ports!r}", (status, told) == (2, b"") and b"invalid value" in why and b"--port" in why, (status, told, why))
    told = run(["ask", "--help"])
    check("help", told.returncode == 0 and b"rme ask finish WORKER" in told.stdout, told)
    for sockets in [[""], ["no-socket", ""]]:
        words = [word for path in sockets for word in ("--socket", path)]
        status, told, why = ends_with(run(["ask", *words, "ping"]))
        check(f"the sockets {sockets}", (status, told) == (2, b"") and b"--socket" in why, (status, told, why))


def part():
    main_in_folders(try_tables, try_told, try_socket, try_refusals, try_lines, try_wrong_words, minutes=5)
