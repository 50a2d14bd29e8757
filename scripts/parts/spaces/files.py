"""files: the file of a space is a state as `--state` has it. `rme look`, `rme check`, `cp` and `rme serve --state` take it, and a state can
become a space; its lines are those of a server with one state; each has its own checkpoints, syncs and growth."""

import json
import os
import re
import shutil
import time

from lib import kept
from lib.checks import check, main_in_folders, same, skip
from lib.kept import epoch_of, faults_of, look, looked, read, status_in, without_count
from lib.orders import COMMIT, DETACH, ONE, STATUS, attach, job, receipt, stands, text, without_seconds
from lib.programs import built, ends_with, has_strace, lines_traced, run
from lib.servers import Server
from lib.spaces import CREATED, USED, create, made, one_job, path_of, refused, serve, session_in, spaces_words, use

LOCKS = "bank", "shop"
# What a space is made for in these checks: jobs, one that is inside, one that waits, a withdrawn one, a planned crash.
TALK = [
    attach(0), job("submit", "bank", 1, ["add", 0, 5], ["set", 1, 9]), job("submit", "bank", 1, ["add", 0, 5]), job("submit", "shop", 9),
    job("submit", "yard", 2), job("submit", "bank", 2, ["add", 7, 1]), job("enter", "bank", 2, ["add", 0, 1]), {"do": "pending"}, COMMIT,
    {"do": "last"}, {"do": "crash_after", "steps": 9}, job("submit", "shop", 3, ["add", 0, 3]), attach(0), {"do": "resume"}, DETACH,
    attach(0, after=99), DETACH, attach(9), attach(1, **{"as": "host7:cron"}), job("enter", "shop", 1, *ONE), {"do": "owner", "lock": "shop"},
    {"do": "cells", "lock": "shop"}, {"do": "owner", "lock": "yard"}, DETACH, {"do": "attach", "any": "pending"}, {"do": "resume"},
]  # fmt: skip


def try_same(folder):
    """With `use` in front each answer is that of a server with a state, and the file is the same to the byte."""
    state = os.path.join(folder, "alone.state")
    servers = [kept.serve(state, *LOCKS, workers=4, cells=2), serve(os.path.join(folder, "spaces"))]
    session = servers[1].session()
    same("a space of the same shape", session.ask_all(create("a", *LOCKS, workers=4, cells=2), use("a")), [CREATED, USED])
    other = servers[0].session()
    wrong = [(order, told) for order in TALK if (told := [it.ask(order) for it in (other, session)])[0] != told[1]]
    same(f"{len(TALK)} orders", wrong, [])
    told = [without_seconds(json.loads(it.ask(STATUS))) for it in (other, session)]
    same("status", told[0], told[1])
    path = path_of(os.path.join(folder, "spaces"), "a")
    same("the files, while both are served", read(path), read(state))
    for server in servers:
        kept.kill(server)
    same("and afterwards", read(path), read(state))
    same("which `rme look` shows so", look(path, "--all").stdout, look(state, "--all").stdout)


def try_looks(folder):
    """`rme look`, `rme run` and `rme check` of a space's file, while it is open and when the server is gone."""
    server = serve(folder)
    made(server, "a", "untouched", workers=2)
    holder = session_in(server, "a", attach(0), job("submit", "bank", 1, ["add", 0, 5]), job("enter", "bank", 2, *ONE))
    looker = session_in(server, "a")
    status, path = without_seconds(looker.told(**STATUS)), path_of(folder, "a")
    same("look, while it is open", looked(path), status)
    same("it can all be read", ends_with(look(path, "--check")), (0, b"yes\n", b""))
    same("its lines lead there", status_in(read(path)), status)
    same("it is a run that the machine has", faults_of(read(path)), [])
    same("a space that nobody has used", faults_of(read(path_of(folder, "untouched"))), [])
    lines = read(path).split(b"\n", 1)[1]
    same("as the page says it", run(["check"], run(["run", "--transcript"], lines).stdout).stdout, b"yes\n")
    holder.close()
    while looker.told(**STATUS)["workers"][0]["attached"]:
        time.sleep(0.01)
    kept.kill(server)
    same("look, when the server is gone", [it["stance"] for it in looked(path)["workers"]], ["held", "ready"])
    told = look(path).stdout.decode()
    check("it says which worker is down inside", "worker 0 is down inside lock bank" in told, told)


def try_alone(folder):
    """A space's file is served by itself, and then as a space again; a copy of an open one is a state too; a state
    becomes a space."""
    place = os.path.join(folder, "spaces")
    server = serve(place)
    made(server, "a", workers=2)
    one_job(server, "a", amount=5)
    session_in(server, "a", attach(1), job("enter", "bank", 1, *ONE))
    copy = shutil.copy(path_of(place, "a"), os.path.join(folder, "copy.state"))
    kept.kill(server)
    for name, path in {"a copy of an open space": copy, "the file itself": path_of(place, "a")}.items():
        server = kept.serve(path)
        session = server.session()
        told = session.ask_all(attach(1), COMMIT, DETACH, attach(0), job("submit", "bank", 2, *ONE), DETACH)
        made_there = [text(ok=do, receipt=receipt(*it)) for do, it in (("commit", (1, 1, "bank", 1, 6)), ("submit", (0, 2, "bank", 2, 7)))]
        same(f"{name}, served by itself", (told[0], told[1], told[4]), (stands("held", 1), *made_there))
        session.close()
        same(f"{name}: it says nothing", without_count(kept.kill(server)[2]), b"")
        same(f"{name}: a run", faults_of(read(path)), [])
    os.rename(copy, path_of(place, "b"))
    server = serve(place)
    same("both are spaces", server.session().told(do="spaces")["spaces"], ["a", "b"])
    same("and each goes on", (one_job(server, "a"), one_job(server, "b"), one_job(server, "a")), (8, 8, 9))
    server.kill()


def try_grown(folder):
    """A space does not grow by `create`; served by itself it grows, and is a space of the new shape."""
    server, path = serve(folder), path_of(folder, "a")
    made(server, "a", workers=2)
    same("a job", one_job(server, "a"), 1)
    told = server.session().ask_all(create("a", workers=3), create("a", "bank", "shop", workers=2), create("a", workers=2))
    same("it does not grow", told, [refused(24), refused(24), CREATED])
    kept.kill(server)
    grown = kept.serve(path, "bank", "shop", workers=5, cells=2)
    kept.kill(grown)
    server = serve(folder)
    told = server.session().ask_all(create("a", workers=2), create("a", "bank", "shop", workers=5, cells=2))
    same("served by itself it grew", told, [refused(24), CREATED])
    same("and goes on", (one_job(server, "a"), one_job(server, "a", worker=4, lock="shop")), (2, 1))
    server.kill()


def try_checkpoints(folder):
    """Each space has its own checkpoints, after `--sections` finished jobs of it."""
    server = serve(folder, sections=10)
    made(server, "busy", "calm")
    session = session_in(server, "busy", attach(0))
    told = [session.told(**job("submit", "bank", number, *ONE)) for number in range(1, 96)]
    same("95 jobs", [it["receipt"]["reply"] for it in told], list(range(1, 96)))
    same("a job of the other", one_job(server, "calm"), 1)
    epochs = [epoch_of(read(path_of(folder, name))) for name in ("busy", "calm")]
    check("the one was renewed, and the other was not", epochs[0] >= 5 and epochs[1] == 0, epochs)
    same("the receipt is there", session.told(do="last")["last"], receipt(0, 95, "bank", 94, 95))
    same("only files of spaces are left", sorted(it for it in os.listdir(folder) if not it.startswith(".")), ["busy.state", "calm.state"])
    kept.kill(server)
    server = serve(folder, sections=10)
    same("after a restart both go on", (one_job(server, "busy"), one_job(server, "calm")), (96, 2))
    server.kill()
    same("a run", faults_of(read(path_of(folder, "busy"))), [])


def try_left(folder):
    """What a killed server left beside a space's file, as that of a checkpoint, is in nobody's way, and is no space."""
    server = serve(folder)
    made(server, "a")
    one_job(server, "a")
    kept.kill(server)
    held = read(path_of(folder, "a"))
    kept.written(path_of(folder, "a") + ".renewal", held[: len(held) // 2])
    kept.written(path_of(folder, "b") + ".123.new", held[: len(held) // 2])
    server = serve(folder)
    session = server.session()
    same("neither is a space", session.told(do="spaces")["spaces"], ["a"])
    same("the space goes on", one_job(server, "a"), 2)
    same("and the other is created", session.ask_all(create("b"), use("b")), [CREATED, USED])
    check("what a checkpoint left is removed when the space is opened", not os.path.exists(path_of(folder, "a") + ".renewal"))
    server.kill()


def traced_calls(folder, sync):
    """What a server did for a creation and for three jobs, in order: it wrote, waited for the disk, and answered."""
    log = os.path.join(folder, f"log-{sync}")
    traced = "trace=write,writev,pwrite64,sendto,sendmsg,fsync,fdatasync,rename,renameat,renameat2,link,linkat"
    place = os.path.join(folder, sync)
    os.mkdir(place)
    words = ["-D", "-f", "-s", "300", "-o", log, "-e", traced, built(), *spaces_words(place, port=0, sync=sync)]
    server = Server(program="strace", words=words)
    session = server.session()
    session.ask_all(create("a"), use("a"), attach(0), *(job("submit", "bank", number, *ONE) for number in (1, 2, 3)))
    kept.kill(server)
    calls = []
    marks = {
        "made": rb'\\"rme\\":\\"kept\\"',
        "named": rb"(rename|link)",
        "file synced": rb"fdatasync(\(\d+\)| resumed>\)) *= 0|fsync(\(\d+\)| resumed>\)) *= 0",
        "created": rb'\\"ok\\":\\"create',
        "written": rb'{\\"do\\":\\"submit.*\\"sum\\":',
        "answered": rb'\\"receipt',
    }
    for line in lines_traced(log):
        calls += [name for name, mark in marks.items() if re.search(mark, line)]
    return calls


def try_sync(folder):
    """`create` is with the disk before it is answered, file and name; each job is written before it is, and with `--sync always` the
    disk is waited for."""
    if not has_strace():
        skip("when it is written", "there is no strace that may look")
        return
    for sync, jobs in {"never": ["written", "answered"] * 3, "always": ["written", "file synced", "answered"] * 3}.items():
        calls = traced_calls(folder, sync)
        if "created" not in calls or "made" not in calls:
            check(f"{sync}: it was created", False, calls)
            continue
        created = calls[calls.index("made") : calls.index("created")]
        # The file's bytes come first, then its name, and then the folder.
        check(f"{sync}: file, name and folder are synced before `create` is answered", created.count("file synced") >= 2, calls)
        check(f"{sync}: the last of it is a sync", created[-1] == "file synced", created)
        same(f"{sync}: jobs", calls[calls.index("written") :] if "written" in calls else calls, jobs)


def part():
    main_in_folders(try_same, try_looks, try_alone, try_grown, try_checkpoints, try_left, try_sync, minutes=12)
