"""files: the files of rows/upgrade, which were written by hand from the formats of version 0.2, and what follows from them.

A server starts on a state without sums and without lives, in its first epoch and in a later one: owners, pending jobs,
numbers and receipts are as they were, lives count from 0 on, and the next checkpoint writes the present version. A file of
processes of version 1 is looked at and used, and its renewal has lives. An image is loaded, and saved as it was."""

import os
import re
import shutil
import struct

from lib.checks import check, main_in_folders, same, skip
from lib.kept import kill, lives_of, look, looked, read, serve, written
from lib.orders import COMMIT, DETACH, RESUME, attach, job, lock_status, receipt, stands, text, worker_status
from lib.processes import compiler, shared
from lib.programs import TOP, ends_with, run
from lib.sums import is_sealed, whole

ROWS = os.path.join(TOP, "rows", "upgrade")
FIVE, ONE, TWO = ["add", 0, 5], ["add", 0, 1], ["add", 0, 2]


def copy_of(folder, name):
    path = os.path.join(folder, name)
    shutil.copyfile(os.path.join(ROWS, name), path)
    return path


def submitted(worker, number, place, reply):
    return text(ok="submit", receipt=receipt(worker, number, "bank", place, reply))


# ---- states


def says(path, epoch, lock, *workers):
    same("all of it can be read", ends_with(look(path, "--check")), (0, b"yes\n", b""))
    same("what it says", looked(path), {"epoch": epoch, "locks": [lock], "ok": "status", "workers": [*workers]})


def try_inside(folder):
    """Worker 0 was inside with its second job, worker 1 waited with its first."""
    path = copy_of(folder, "inside.state")
    held = worker_status(True, "held", 2, lock="bank")
    climb = worker_status(True, "climb", 1, lock="bank", blocked_by=0)
    says(path, 0, lock_status("bank", [5], 0, 1, False), held, climb)
    server = serve(path)
    one, two = server.session(), server.session()
    told = two.ask_all(attach(1), {"do": "owner", "lock": "bank"})
    same("who waits, and who owns", told, [stands("climb", 1), text(ok="owner", owner=0)])
    told = one.ask_all(attach(0), job("enter", "bank", 2, FIVE), COMMIT, job("submit", "bank", 2, FIVE))
    inside = text(life=2, number=2, ok="enter", section=1, stance="held")
    committed = text(ok="commit", receipt=receipt(0, 2, "bank", 1, 10))
    same("who was inside", told, [stands("held", 2), inside, committed, submitted(0, 2, 1, 10)])
    same("who waited", two.ask(RESUME), text(ok="resume", receipt=receipt(1, 1, "bank", 2, 11)))
    kill(server)
    before, now = read(os.path.join(ROWS, "inside.state")), read(path)
    check("its lines go on, without sums", now.startswith(before) and not is_sealed(now), now)
    try_checkpoint(path, 3, 11, (2, 1))


def try_renewed(folder):
    """Three checkpoints before: receipts, a withdrawal, numbers and places of earlier epochs."""
    path = copy_of(folder, "renewed.state")
    ready = worker_status(False, "ready", 7), worker_status(False, "ready", 4)
    says(path, 3, lock_status("bank", [40], None, 12), *ready)
    server = serve(path)
    session = server.session()
    told = session.ask_all(attach(0), job("submit", "bank", 7, FIVE), job("submit", "bank", 8, TWO), DETACH)
    wanted = [stands("ready", 7), submitted(0, 7, 11, 40), submitted(0, 8, 12, 42), text(ok="detach")]
    same("its last receipt, and the next", told, wanted)
    told = session.ask_all(attach(1), job("submit", "bank", 4, FIVE), job("submit", "bank", 5, ONE))
    wanted = [stands("ready", 4), text(ok="submit", withdrawn=True), submitted(1, 5, 13, 43)]
    same("a number that was withdrawn, and the next", told, wanted)
    kill(server)
    try_checkpoint(path, 14, 43, (8, 5))


def try_checkpoint(path, sections, cell, numbers):
    """A checkpoint writes a file of the present version, with the same state; each start is one more life of a worker."""
    epoch, lives = looked(path)["epoch"], lives_of(read(path))[:2]
    server = serve(path, sections=2)
    session = server.session()
    told = [session.ask(attach(0))]
    told += [session.ask(job("submit", "bank", numbers[0] + more, ONE)) for more in range(1, 5)]
    wanted = [submitted(0, numbers[0] + more, sections - 1 + more, cell + more) for more in range(1, 5)]
    same("jobs go on", told, [stands("ready", numbers[0]), *wanted])
    kill(server)
    now = read(path)
    check("the file has sums now", is_sealed(now) and whole(now) == now, now)
    same("lives go on", lives_of(now)[:2], [lives[0] + 1, lives[1]])
    found = looked(path)
    check("a checkpoint was made", found["epoch"] > epoch, found)
    rows = [(row["number"], row["stance"]) for row in found["workers"]]
    same("numbers go on", rows, [(numbers[0] + 4, "ready"), (numbers[1], "ready")])
    same("cells and sections go on", found["locks"], [lock_status("bank", [cell + 4], None, sections + 4)])


# ---- files of processes


def words_file(path):
    """Writes the file that inside.words describes, for this start of the machine."""
    held = bytearray(4096 + 8 * 68)
    with open(os.path.join(ROWS, "inside.words"), encoding="utf-8") as file:
        lines = [line.split("#")[0].split() for line in file]
    for at, what in (line for line in lines if line):
        if what == "BOOT":
            told = read("/proc/sys/kernel/random/boot_id")[:36]
        else:
            told = what.strip('"').encode() if what.startswith('"') else struct.pack("=Q", int(what))
        held[int(at) : int(at) + len(told)] = told
    return written(path, held)


def try_words(folder):
    path, following = words_file(os.path.join(folder, "words")), os.path.join(folder, "next")
    told = ends_with(look(path))[1].decode()
    check("the lock is its dead owner's", re.search(r"^bank +0 +5 +no +1$", told, re.M), told)
    check("and is dead inside", re.search(r"^0 +dead +held +bank +2 +-$", told, re.M), told)
    if not shutil.which(compiler()):
        skip("processes over a file of version 1", "there is no C compiler")
        return
    rme = shared()
    with rme.Worker(path, 0) as worker:
        same("its next process finishes the job", worker.finish(), rme.Receipt("bank", 2, 1, 10, 0))
        same("without lives", worker.life, 0)
    with rme.Worker(path, 1) as worker:
        same("another worker", worker.run("bank", [("add", 0, 1)]), rme.Receipt("bank", 1, 2, 11, 1))
    rme.renew(path, following)
    with rme.Worker(following, 1) as worker:
        same("its renewal has lives, and the cells", (worker.life, worker.cells("bank")), (1, ([11], True)))


# ---- images


def try_image(folder):
    with open(os.path.join(ROWS, "inside.image"), encoding="utf-8") as file:
        held = bytes.fromhex("".join(line.split("#")[0] for line in file))
    path, again = written(os.path.join(folder, "image"), held), os.path.join(folder, "again")
    ran = run(["run", "--image", path, "--locks", "bank", "--save", again])
    same("it is loaded, and saved as it was", (*ends_with(ran), read(again)), (0, b"", b"", held))
    orders = ({"do": "owner", "lock": "bank"}, {"do": "restart", "worker": 0}, {"do": "walk", "worker": 0})
    ran = run(["run", "--image", path, "--locks", "bank"], b"".join(text(**order) + b"\n" for order in orders))
    notes = [["reentered", "bank"], ["finished", "bank", 2, 1, 10], ["left", "bank"]]
    wanted = [text(ok="owner", owner=0), text(ok="restart"), text(end="ready", notes=notes, ok="walk")]
    same("its owner goes on", ran.stdout.splitlines(), wanted)


def part():
    main_in_folders(try_inside, try_renewed, try_words, try_image, minutes=5)
