"""`rme serve --state` with more workers, cells or locks than the file has: the state grows at the start, by a checkpoint of the
larger shape. What was there is as it was, and what is new is unused. Less than the file has is refused, and changes nothing."""

import json
import os
import random
import subprocess
import time

from lib.checks import check, main_in_folders, same
from lib.kept import end_of, kill, look, read, serve, state_words, whole_lines, without_count
from lib.orders import COMMIT, LAST, ONE, job, lock_status, receipt, without_seconds, worker_status
from lib.programs import built, ends_with, run

SMALL, LARGE = {"workers": 2, "cells": 2}, {"workers": 4, "cells": 3}
GREW = b"rme: the state grew: workers 4, locks 2, cells of each lock 3\n"


def begun(path):
    """A state of two workers and one lock: worker 0 has finished a job, and worker 1 is inside with one."""
    server = serve(path, "bank", **SMALL)
    session = server.session()
    session.attach(0)
    first = session.told(**job("submit", "bank", 1, ["add", 0, 5]))
    inside = server.session()
    inside.attach(1)
    same("worker 1 is inside", inside.told(**job("enter", "bank", 1, ["set", 1, 7])).get("stance"), "held")
    kill(server)
    return first["receipt"]


def status_of(server):
    """The status, without how long each worker has been as it is."""
    return without_seconds(server.session().told(do="status"))


def try_grown(folder):
    """All that was there is as it was; the new workers, lock and cells are unused, and are used."""
    path = os.path.join(folder, "bank.state")
    made = begun(path)
    server = serve(path, "bank", "shop", **LARGE)
    wanted = {
        "epoch": 1,
        "locks": [
            lock_status("bank", [5, 0, 0], owner=1, sections=1, settled=False),
            lock_status("shop", [0, 0, 0]),
        ],
        "ok": "status",
        "workers": [
            worker_status(False, "ready", 1),
            worker_status(False, "held", 1, lock="bank"),
            worker_status(False, "ready", 0),
            worker_status(False, "ready", 0),
        ],
    }
    same("what the grown state is", status_of(server), wanted)
    first = server.session()
    same("worker 0 has its number", first.attach(0), {"number": 1, "ok": "attach", "stance": "ready"})
    same("and its receipt", first.told(**LAST)["last"], made)
    same("which its job is answered with", first.told(**job("submit", "bank", 1, ["add", 0, 5]))["receipt"], made)
    inside = server.session()
    same("worker 1 is inside", inside.attach(1), {"number": 1, "ok": "attach", "stance": "held"})
    same("its job counts", inside.told(**COMMIT)["receipt"]["place"], 1)
    new = server.session()
    same("worker 3 is new", new.attach(3), {"number": 0, "ok": "attach", "stance": "ready"})
    told = new.told(**job("submit", "shop", 1, ["add", 2, 9]))
    same("and makes the first section of the new lock", told["receipt"], receipt(3, 1, "shop", 0, told["receipt"]["reply"]))
    same("the next section of the old one", first.told(**job("submit", "bank", 2, *ONE))["receipt"]["place"], 2)
    locks = [lock_status("bank", [6, 7, 0], sections=3), lock_status("shop", [0, 0, 9], sections=1)]
    same("the cells", status_of(server)["locks"], locks)
    ended = kill(server)
    same("it says that it grew", without_count(ended[2]), GREW)
    header = json.loads(whole_lines(read(path))[0])
    same("the header's numbers", header["numbers"], [1, 0, 0, 0])
    same("each worker's lives are counted on", header["lives"], [1, 1, 0, 0])
    same("the file can be read", ends_with(look(path, "--check")), (0, b"yes\n", b""))
    server = serve(path, "bank", "shop", **LARGE)
    same("the same words again: nothing grows", status_of(server)["epoch"], 1)
    same("and it says nothing", without_count(kill(server)[2]), b"")


def try_one_each(folder):
    """More of one kind only, without words for the others."""
    path = os.path.join(folder, "bank.state")
    begun(path)
    for options, locks, sizes in (
        ({"workers": 3}, (), (3, 1, 2)),
        ({"cells": 4}, (), (3, 1, 4)),
        ({}, ("bank", "shop"), (3, 2, 4)),
        ({"cells": 16, "workers": 255}, ("bank", "shop", *(f"lock{number}" for number in range(14))), (255, 16, 16)),
    ):
        server = serve(path, *locks, **options)
        told = status_of(server)
        has = len(told["workers"]), len(told["locks"]), len(told["locks"][0]["cells"])
        same(f"{options} {locks[:2]}: the sizes", has, sizes)
        same("worker 1 is inside", told["workers"][1], worker_status(False, "held", 1, lock="bank"))
        same("the cells", told["locks"][0]["cells"][:2], [5, 0])
        workers, locks_there, cells = sizes
        said = f"rme: the state grew: workers {workers}, locks {locks_there}, cells of each lock {cells}\n"
        same("it says so", without_count(kill(server)[2]), said.encode())
    server = serve(path)
    inside = server.session()
    inside.attach(1)
    same("its job counts", inside.told(**COMMIT)["receipt"]["place"], 1)
    last = server.session()
    last.attach(254)
    same("the last worker works", last.told(**job("submit", "lock13", 1, ["add", 15, 1]))["receipt"]["place"], 0)
    kill(server)


def try_less(folder):
    """Less than the file has, other names in the place of its own, and more than there may be: refused, and nothing changes."""
    path = os.path.join(folder, "bank.state")
    kill(serve(path, "bank", "shop", **LARGE))
    held = read(path)
    other = f"LOCK: the state {path} has other locks: bank shop"
    many = [f"lock{number}" for number in range(15)]
    for options, locks, why in (
        ({"workers": 3}, (), "--workers 3: the state has 4"),
        ({"workers": 0}, (), "--workers 0: the state has 4"),
        ({"cells": 2}, (), "--cells 2: the state has 3"),
        ({"workers": 3, "cells": 16}, (), "--workers 3: the state has 4"),
        ({"jobs": 9}, ("bank", "shop", "mill"), "--jobs 9: the state has 10000"),
        ({}, ("bank",), other),
        ({}, ("shop", "bank"), other),
        ({}, ("bank", "mill"), other),
        ({}, ("mill", "bank", "shop"), other),
        ({"workers": 256}, (), "--workers 256: it is 1 to 255"),
        ({"cells": 17}, (), "--cells 17: it is 1 to 16"),
        ({}, ("bank", "shop", "shop"), "the lock shop: each name stands once"),
        ({}, ("bank", "shop", "Mill"), "the lock Mill: a name has 1 to 32 of a-z 0-9 _ and -"),
        ({}, ("bank", "shop", *many), "17 locks: a service has 1 to 16"),
    ):
        ended = end_of(state_words(path, *locks, port=0, **options))
        said = (ended[0], ended[1], without_count(ended[2]))
        same(f"{options} {locks}", said, (2, b"", f"fault: bad arguments\n  {why}\n".encode()))
        same("the file is as it was", read(path), held)


def try_exits(folder):
    """A worker crashes after each number of own steps of a job, and the state grows then: it counts at most once, and
    if it counted its worker is ready and the lock free."""
    for steps in range(1, 40):
        path = os.path.join(folder, f"{steps}.state")
        server = serve(path, "bank", **SMALL)
        session = server.session()
        session.attach(0)
        session.told(do="crash_after", steps=steps)
        session.told(**job("submit", "bank", 1, *ONE))
        session.close()
        kill(server)
        server = serve(path, "bank", "shop", **LARGE)
        told = status_of(server)
        bank, worker = told["locks"][0], told["workers"][0]
        if bank["sections"] == 1:
            same(f"{steps} steps: done and free", (bank["owner"], worker["stance"]), (None, "ready"))
        again = server.session()
        again.attach(0)
        made = again.told(**job("submit", "bank", 1, *ONE))
        same(f"{steps} steps: once", made["receipt"]["place"], 0)
        same(f"{steps} steps: the cell", status_of(server)["locks"][0]["cells"], [1, 0, 0])
        kill(server)
        os.remove(path)


def try_killed(folder):
    """Servers are killed while the state grows: the file has the old shape or the new one, and all that was there."""
    path, drawn, grown = os.path.join(folder, "bank.state"), random.Random(59), 0
    begun(path)
    kept = read(path)
    for turn in range(40):
        with open(path, "wb") as file:
            file.write(kept)
        words = [built(), *state_words(path, "bank", "shop", port=0, **LARGE)]
        with subprocess.Popen(words, stdin=subprocess.DEVNULL, stdout=subprocess.DEVNULL, stderr=subprocess.DEVNULL) as server:
            time.sleep(drawn.uniform(0, 0.03))
            server.kill()
        told = json.loads(ends_with(look(path, "--json"))[1])
        has = len(told["workers"]), len(told["locks"])
        check(f"turn {turn}: one shape or the other", has in ((2, 1), (4, 2)), told)
        grown += has == (4, 2)
        same("worker 1 is inside", (told["workers"][1]["stance"], told["locks"][0]["owner"]), ("held", 1))
        same("the cells", told["locks"][0]["cells"][:2], [5, 0])
    server = serve(path, "bank", "shop", **LARGE)
    inside = server.session()
    inside.attach(1)
    same("its job counts", inside.told(**COMMIT)["receipt"]["place"], 1)
    kill(server)
    print(f"growing: {grown} of 40 starts were killed after they grew")


def part():
    main_in_folders(try_grown, try_one_each, try_less, try_exits, try_killed, minutes=4)


if __name__ == "__main__":
    part()
