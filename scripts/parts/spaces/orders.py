"""orders: the orders on spaces, with their refusals in order and the bytes of each answer, by TCP and by a Unix socket; sessions that
go from one space to another, with the bytes behind `use` in the same write; and spaces that are used at once."""

import json
import os
import threading
import time

from lib.checks import check, main_in_folders, note, same
from lib.logs import sentences_of
from lib.orders import COMMIT, DETACH, LAST, ONE, RESUME, STATUS, WITHDRAW, attach, job, receipt, stands, text
from lib.servers import line_of
from lib.spaces import CREATED, DROPPED, PING, PONG, SPACES, USED, create, drop, listed, made, path_of, refused, serve, session_in, use

BAD_LINE, NO_SPACE, BAD_SHAPE, BUSY, DIFFERS = (refused(code) for code in (1, 23, 5, 9, 24))
READY, DETACHED = stands("ready", 0), text(ok="detach")
AT_ONCE = 64  # sessions whose lines are cut
SIXTEEN = [f"lock-{number}" for number in range(16)]

# Each order of a worker or of a look-up.
OF_A_SPACE = [
    attach(0), attach(0, take=True), attach(0, after=0), {"do": "attach", "any": "ready"}, job("submit", "bank", 1, *ONE),
    job("enter", "bank", 1, *ONE), RESUME, COMMIT, WITHDRAW, LAST, DETACH, STATUS, {"do": "pending"}, {"do": "crash_after", "steps": 3},
    {"do": "owner", "lock": "bank"}, {"do": "cells", "lock": "bank"},
]  # fmt: skip

# Lines that are no orders, whatever the session uses. One with another word is refused as an order, if it uses no space.
NO_LINES = {
    "no JSON": b"use a\n",
    "an empty line": b"\n",
    "no space": line_of(do="use"),
    "a space that is no text": line_of(do="use", space=7),
    "a space that is null": line_of(do="drop", space=None),
    "a further key of use": line_of(do="use", space="a", worker=0),
    "a further key of drop": line_of(do="drop", space="a", locks=["bank"]),
    "a further key of create": line_of(**create("a"), jobs=10),
    "a further key of spaces": line_of(do="spaces", space="a"),
    "create without locks": line_of(do="create", space="a"),
    "create without a space": line_of(do="create", locks=["bank"]),
    "locks that are a text": line_of(do="create", space="a", locks="bank"),
    "a lock that is a number": line_of(do="create", space="a", locks=["bank", 1]),
    "workers that are a text": line_of(**create("a", workers="8")),
    "cells that are negative": line_of(**create("a", cells=-1)),
    "half a worker": line_of(**create("a", workers=1.5)),
    "an after that is a number": line_of(do="spaces", after=1),
}
NO_WORDS = {
    "another word": line_of(do="Use", space="a"),
    "a secret, without keys": line_of(do="hello", secret="apple"),
    "a ping with a further key": line_of(do="ping", space="a"),
    "a job with a further key": line_of(**job("submit", "bank", 1), more=1),
}

# Creations that no space can have.
NO_SHAPES = {
    "no worker": create("x", workers=0),
    "256 workers": create("x", workers=256),
    "2^32 - 1 workers": create("x", workers=2**32 - 1),
    "no cell": create("x", cells=0),
    "17 cells": create("x", cells=17),
    "no lock": {**create("x"), "locks": []},
    "17 locks": create("x", *SIXTEEN, "more"),
    "a lock twice": create("x", "bank", "shop", "bank"),
    "a lock without a name": create("x", ""),
    "a lock in capitals": create("x", "Bank"),
    "a lock of 33 bytes": create("x", "a" * 33),
    "a space without a name": create(""),
    "a space in capitals": create("X"),
}


def each_door(folder, checks):
    """Makes the checks by TCP and by a Unix socket: with a prefix of their names, the folder of the spaces, and how a session is had."""
    for name in ("TCP", "a socket"):
        place = os.path.join(folder, name.replace(" ", "-"))
        server = serve(place, port=0, socket=os.path.join(folder, f"{name[0]}.socket"))
        checks(name, place, server.session if name == "TCP" else server.session_at_socket)
        server.kill()


def try_before(folder):
    """A session that uses no space: each order is refused 23, but for those on spaces, and `ping`."""

    def checks(name, place, begin):
        session = begin()
        same(f"{name}: ping", session.ask(PING), PONG)
        for order in OF_A_SPACE:
            same(f"{name}: {order['do']}", session.ask(order), NO_SPACE)
        same(f"{name}: no spaces", session.ask(SPACES), listed())
        same(f"{name}: one that is not there", session.ask_all(use("a"), drop("a")), [NO_SPACE] * 2)
        for lines, wanted in (NO_LINES, BAD_LINE), (NO_WORDS, NO_SPACE):
            for what, line in lines.items():
                session.send(line)
                same(f"{name}: {what}", session.hear().rstrip(b"\n"), wanted)
        session.send(b" " * 70_000 + b"\n")
        same(f"{name}: a line that is too long", session.hear().rstrip(b"\n"), refused(2))
        same(f"{name}: it goes on", session.ask(PING), PONG)
        session.close()
        same(f"{name}: nothing was made", [it for it in os.listdir(place) if it.endswith(".state")], [])

    each_door(folder, checks)


def try_create(folder):
    """Creations: shapes that may be, shapes that may not, and ones that are there already."""

    def checks(name, place, begin):
        session = begin()
        for what, order in NO_SHAPES.items():
            same(f"{name}: {what}", session.ask(order), BAD_SHAPE)
        same(f"{name}: none of them is there", session.ask(SPACES), listed())
        there = create("a", "bank", "shop", workers=2, cells=3)
        same(f"{name}: a space, and once more", session.ask_all(there, there, there), [CREATED] * 3)
        others = {"workers": 3}, {"cells": 2}, {"locks": ["bank"]}, {"locks": ["shop", "bank"]}, {"locks": ["bank", "shop", "yard"]}
        same(f"{name}: another one of its name", session.ask_all(*({**there, **other} for other in others)), [DIFFERS] * len(others))
        told = session.ask_all({**there, "workers": 0}, {**there, "locks": []})
        same(f"{name}: what is no shape comes before that", told, [BAD_SHAPE] * 2)
        told = session.ask_all(create("b"), create("b", workers=8), create("b", cells=1), create("b", workers=8, cells=1))
        same(f"{name}: 8 workers and 1 cell without words", told, [CREATED] * 4)
        told = session.ask_all(create("most", *SIXTEEN, workers=255, cells=16), create("least", "x", workers=1, cells=1))
        same(f"{name}: the largest and the smallest", told, [CREATED] * 2)
        same(f"{name}: all of them", session.ask(SPACES), listed("a", "b", "least", "most"))
        files = sorted(it for it in os.listdir(place) if not it.startswith("."))
        check(f"{name}: each is a file", {"a.state", "b.state", "least.state", "most.state"} <= set(files), files)
        modes = {oct(os.stat(path_of(place, it)).st_mode & 0o777) for it in ("a", "b")}
        same(f"{name}: for only its user", modes, {"0o600"})
        for space, workers, locks, cells in (("most", 255, SIXTEEN, 16), ("least", 1, ["x"], 1), ("b", 8, ["bank"], 1)):
            status = [session.told(**use(space)), session.told(**STATUS)][1]
            shape = len(status["workers"]), [lock["name"] for lock in status["locks"]], len(status["locks"][0]["cells"])
            same(f"{name}: what {space} has", shape, (workers, locks, cells))
        session.close()

    each_door(folder, checks)


def try_use(folder):
    """What a session may use, and when."""

    def checks(name, _place, begin):
        session, other = begin(), begin()
        session.ask_all(create("a"), create("b", "shop"), use("a"))
        for what, line in {**NO_LINES, **NO_WORDS}.items():
            session.send(line)
            same(f"{name}: in a space, {what}", session.hear().rstrip(b"\n"), BAD_LINE)
        same(f"{name}: a space, and again", session.ask_all(use("a"), use("a")), [USED] * 2)
        told = session.ask_all(use("c"), use("C"), {"do": "owner", "lock": "bank"})
        same(f"{name}: after a refusal it uses the same", told, [NO_SPACE, BAD_SHAPE, text(ok="owner", owner=None)])
        told = session.ask_all(attach(0), use("b"), use("a"), use("c"), use("C"), LAST)
        same(f"{name}: with a worker", told, [READY, BUSY, BUSY, BUSY, BAD_SHAPE, text(last=None, ok="last")])
        told = session.ask_all(DETACH, use("b"), {"do": "owner", "lock": "bank"}, {"do": "owner", "lock": "shop"}, attach(0))
        same(f"{name}: without it", told, [DETACHED, USED, refused(11), text(ok="owner", owner=None), READY])
        told = other.ask_all(use("a"), attach(0), DETACH, use("b"), attach(0), attach(1))
        same(f"{name}: two sessions", told, [USED, READY, DETACHED, USED, refused(18), READY])
        told = session.ask_all({"do": "crash_after", "steps": 5}, job("submit", "shop", 1, *ONE), use("a"), use("b"), attach(0))
        wanted = [text(ok="crash_after"), text(fell=True, ok="submit"), USED, USED]
        same(f"{name}: a worker that fell is no worker", (told[:4], json.loads(told[4])["ok"]), (wanted, "attach"))
        session.close()
        other.close()

    each_door(folder, checks)


def try_drop(folder):
    """What may be dropped, and that nothing is left of it."""

    def checks(name, place, begin):
        session, other = begin(), begin()
        session.ask_all(create("a"), create("b"), use("b"))
        told = session.ask_all(drop("A"), drop(""), drop("c"), drop("b"))
        same(f"{name}: none, none, one that is not there, its own", told, [BAD_SHAPE, BAD_SHAPE, NO_SPACE, BUSY])
        other.ask(use("a"))
        same(f"{name}: one that another session uses", session.ask(drop("a")), BUSY)
        other.ask_all(attach(0), job("submit", "bank", 1, *ONE), job("enter", "bank", 2, *ONE), DETACH, use("b"))
        same(f"{name}: one with a job that is inside", session.ask(drop("a")), BUSY)
        other.ask_all(use("a"), attach(0), COMMIT, attach(0))
        other.ask_all(DETACH, attach(1), {"do": "crash_after", "steps": 9}, job("submit", "bank", 1, *ONE), use("b"))
        same(f"{name}: one whose worker fell", session.ask(drop("a")), BUSY)
        told = other.ask_all(use("a"), attach(1), RESUME, DETACH, use("b"))
        same(f"{name}: its job is made", json.loads(told[2])["receipt"]["reply"], 3)
        same(f"{name}: then it is dropped, once", dropped(session, "a") + session.ask_all(drop("a"), use("a")), [DROPPED, NO_SPACE, NO_SPACE])
        same(f"{name}: its file is gone", [it for it in os.listdir(place) if it.startswith("a.")], [])
        same(f"{name}: and it is not listed", session.ask(SPACES), listed("b"))
        told = session.ask_all(create("a", "shop", workers=1), use("a"), attach(0), LAST, {"do": "cells", "lock": "shop"})
        wanted = [CREATED, USED, READY, text(last=None, ok="last"), text(cells=[0], ok="cells", settled=True)]
        same(f"{name}: another one of its name is new", told, wanted)
        session.close()
        other.close()

    each_door(folder, checks)


def try_pages(folder):
    """More spaces than one answer has: in order, each once, and those behind a name."""
    names = sorted([f"n{number:04}" for number in range(2050)] + ["-", "_", "0", "a" * 64, "z" * 64, "n0500-", "n0500_"])
    server = serve(folder)
    session = server.session()
    session.ask(create("first"))
    held = open(path_of(folder, "first"), "rb").read()
    session.ask(drop("first"))
    server.kill()
    for name in names:
        with open(path_of(folder, name), "wb") as file:
            file.write(held)
    server = serve(folder)
    session = server.session()
    same("the first 1,000", session.ask(SPACES), listed(*names[:1000], more=True))
    same("the next", session.ask({**SPACES, "after": names[999]}), listed(*names[1000:2000], more=True))
    same("the last", session.ask({**SPACES, "after": names[1999]}), listed(*names[2000:]))
    same("behind the last", session.ask({**SPACES, "after": names[-1]}), listed())
    same("exactly 1,000 behind one", session.ask({**SPACES, "after": names[-1001]}), listed(*names[-1000:]))
    behind = [name for name in names if name > "n0500"]
    for after in ("n0500", "n05", "n0499a", "n0500"):
        wanted = [name for name in names if name > after]
        same(f"behind {after}", session.ask({**SPACES, "after": after}), listed(*wanted[:1000], more=len(wanted) > 1000))
    same("dropped and created", session.ask_all(drop(behind[0]), create("n0500-b")), [DROPPED, CREATED])
    wanted = sorted({*behind[1:], "n0500-b"})
    same("the list has it", session.ask({**SPACES, "after": "n0500"}), listed(*wanted[:1000], more=True))
    server.kill()


# ---- from one space to another


def talk(first, second):
    """A conversation that goes from one space to another and back, and what is answered."""
    orders = [use(first), attach(0), job("submit", "bank", 1, ["add", 0, 5]), DETACH, use(second), attach(0)]
    orders += [job("submit", "bank", 1, ["add", 0, 7]), DETACH, use(first), {"do": "cells", "lock": "bank"}, PING, use("gone"), use(second)]
    orders += [{"do": "cells", "lock": "bank"}]
    made = [text(ok="submit", receipt=receipt(0, 1, "bank", 0, amount)) for amount in (5, 7)]
    told = [USED, READY, made[0], DETACHED, USED, READY, made[1], DETACHED, USED, text(cells=[5], ok="cells", settled=True), PONG, NO_SPACE]
    return orders, [*told, USED, text(cells=[7], ok="cells", settled=True)]


def try_together(folder):
    """The lines behind `use` are in the same write: they are of the space that is used by then."""

    def checks(name, place, begin):
        session = begin()
        session.ask_all(create(f"one-{name[0].lower()}"), create(f"two-{name[0].lower()}"))
        orders, wanted = talk(f"one-{name[0].lower()}", f"two-{name[0].lower()}")
        same(f"{name}: all in one write", session.say(*orders), wanted)

    each_door(folder, checks)


def try_cuts(folder):
    """Such lines in two writes, cut at each byte."""
    server, free = serve(folder, at_once=4000), text(ok="owner", owner=None)
    admin = server.session()
    same("two spaces with a lock each", admin.ask_all(create("one"), create("two", "shop")), [CREATED] * 2)
    bank, shop = ({"do": "owner", "lock": lock} for lock in ("bank", "shop"))
    keepers = [session_in(server, name) for name in ("one", "two")]  # both stay open
    orders = [use("one"), bank, shop, use("two"), bank, shop, use("gone"), shop, use("one"), use("two"), PING, shop, use("one"), bank]
    wanted = [USED, free, refused(11), USED, refused(11), free, NO_SPACE, free, USED, USED, PONG, free, USED, free]
    lines, wrong = b"".join(line_of(**order) for order in orders), []
    for first in range(1, len(lines), AT_ONCE):
        sessions = {cut: server.session() for cut in range(first, min(first + AT_ONCE, len(lines)))}
        for part_of in (lambda cut: lines[:cut], lambda cut: lines[cut:]):
            for cut, session in sessions.items():
                session.send(part_of(cut))
        for cut, session in sessions.items():
            told = session.hang_up().splitlines()
            wrong += [(cut, told)] * (told != wanted)
    check(f"cut at each of {len(lines) - 1} places", not wrong and len(keepers) == 2, wrong[:2])
    server.kill()


def dropped(session, *names):
    """What is answered to the drop of spaces, once their last sessions have ended, for which it waits ten seconds at most."""
    answers, latest = [], time.monotonic() + 10
    for name in names:
        while (told := session.ask(drop(name))) == BUSY and time.monotonic() < latest:
            time.sleep(0.001)
        answers.append(told)
    return answers


def try_much_behind(folder):
    """Many jobs behind each `use`, in one write that is longer than any buffer."""
    server, spaces, count = serve(folder), ("one", "two", "three"), 150
    made(server, *spaces)
    orders = []
    for turn in range(3):
        for space in spaces:
            orders += [use(space), attach(turn), *(job("submit", "bank", number, *ONE) for number in range(1, 1 + count)), DETACH]
    lines = b"".join(line_of(**order) for order in orders)
    session = server.session()
    threading.Thread(target=session.send, args=(lines,), daemon=True).start()
    told = [json.loads(session.hear()) for _ in orders]
    replies = [it["receipt"]["reply"] for it in told if "receipt" in it]
    wanted = [turn * count + number for turn in range(3) for _ in spaces for number in range(1, 1 + count)]
    check(f"{len(orders)} orders in {len(lines)} bytes", replies == wanted and not [it for it in told if "code" in it], told[:3])
    cells = [[session.ask(use(space)), session.told(do="cells", lock="bank")["cells"]] for space in spaces]
    same("each space has its own", cells, [[USED, [3 * count]]] * 3)
    server.kill()


# ---- at once


def try_beside(folder):
    """What is done in one space changes nothing in another: owners, waiting, take-overs, numbers and cells."""
    server = serve(folder)
    made(server, "a", "b", workers=3)
    holder, waiter = session_in(server, "a", attach(0), job("enter", "bank", 1, *ONE)), session_in(server, "a", attach(1))
    waiter.send(line_of(**job("enter", "bank", 1, *ONE, wait=60_000)))
    own = session_in(server, "b")
    told = own.ask_all(attach(0), job("enter", "bank", 1, ["add", 0, 9]))
    same("the same worker is inside the same lock of another space", told, [READY, text(life=1, number=1, ok="enter", section=0, stance="held")])
    same("and commits", own.told(do="commit").get("receipt"), receipt(0, 1, "bank", 0, 9))
    looker = session_in(server, "b")
    same("nobody is attached there but it", [it["attached"] for it in looker.told(**STATUS)["workers"]], [True, False, False])
    same("it takes the worker of its own space", json.loads(looker.ask(attach(0, take=True)))["ok"], "attach")
    same("whose session is ended", own.hear(), b"")
    same("that of the other space goes on", holder.told(do="commit").get("receipt"), receipt(0, 1, "bank", 0, 1))
    same("and lets the next one in", waiter.hear(), text(life=1, number=1, ok="enter", section=1, stance="held") + b"\n")
    same("cells", looker.told(do="cells", lock="bank")["cells"], [9])
    same("of the other", holder.told(do="cells", lock="bank")["cells"], [1])
    server.kill()


def try_at_once(folder):
    """Clients of four spaces at once, each with as many jobs of one worker: their numbers, places and replies are as if
    there were no other client."""
    server, count, wrong = serve(folder), 200, []
    spaces = [f"s{number}" for number in range(4)]
    made(server, *spaces)

    def client(space, worker):
        session = session_in(server, space, attach(worker))
        lines = b"".join(line_of(**job("submit", "bank", number, *ONE, wait=60_000)) for number in range(1, 1 + count))
        threading.Thread(target=session.send, args=(lines,), daemon=True).start()
        told = [json.loads(session.hear())["receipt"] for _ in range(count)]
        numbers, places = [it["number"] for it in told], [it["place"] for it in told]
        if numbers != list(range(1, 1 + count)) or [it["reply"] for it in told] != [place + 1 for place in places]:
            wrong.append((space, worker, told[:3]))
        counted[space] += places

    counted = {space: [] for space in spaces}
    clients = [threading.Thread(target=client, args=(space, worker)) for space in spaces for worker in range(2)]
    began = time.monotonic()
    for each in clients:
        each.start()
    for each in clients:
        each.join()
    note(f"{len(clients) * count} jobs in {time.monotonic() - began:.2f} seconds")
    same("each job has a place of its own space", {space: sorted(places) for space, places in counted.items()},
         dict.fromkeys(spaces, list(range(2 * count))))
    same("and each client its own", wrong, [])
    server.kill()


def try_limits(folder):
    """Sessions in no space count, and silent ones are ended, as are those that use one."""
    server = serve(folder, at_once=2, idle=1)
    first, second = server.session(), server.session()
    same("two are served", [first.ask(PING), second.ask(create("a"))], [PONG, CREATED])
    third = server.session()
    same("a third is not", third.hear(), refused(9) + b"\n")
    second.ask(use("a"))
    began = time.monotonic()
    same("silence ends both", (first.hear(), second.hear()), (b"", b""))
    check("after a second", 0.5 < time.monotonic() - began < 20)
    fourth = server.session()
    same("then there is room", fourth.ask_all(use("a"), attach(0)), [USED, READY])
    server.kill()


def try_log(folder):
    """With `--log` each `use` has a line, so that the other lines of the connection tell of a space."""
    for further in ((), ("--log",)):
        place = os.path.join(folder, f"with{len(further)}")
        server = serve(place, *further)
        made(server, "a", "b")
        session = session_in(server, "a", attach(1), DETACH, use("none"), use("b"), attach(0))
        session.ask_all(DETACH)
        _, _, told = server.kill()
        sentences = [it for it in sentences_of(told) if it.startswith("connection")]
        wanted = ["uses space a", "attached worker 1", "let worker 1 go", "uses space b", "attached worker 0", "let worker 0 go"]
        same(f"--log: {bool(further)}", sentences, [f"connection 2 {it}" for it in wanted] if further else [])


def part():
    main_in_folders(
        try_before, try_create, try_use, try_drop, try_pages, try_together, try_cuts, try_much_behind, try_beside, try_at_once, try_limits, try_log,
        minutes=12,
    )  # fmt: skip
