"""files [SEED]: the file of a state.

What the file says, with each byte of its lines changed and the sums made right, and without sums cut at each. What can't be
served: invalid files, words that contradict, two servers.
"""

import concurrent.futures
import json
import os
import random
import re
import socket
import stat
import subprocess
import sys

from lib.checks import check, main_in_folders, note, same
from lib.damage import changes_of, is_verdict, verdicts_on
from lib.kept import LOCKS, TORN, bad_state, end_of, faults_of, kill, look, looked, read, serve, state_words, status_of
from lib.kept import whole_lines, without_count, written
from lib.orders import COMMIT, DETACH, LAST, ONE, RESUME, STATUS, WITHDRAW, attach, job, text, without_seconds
from lib.programs import built, ends_with, run
from lib.sums import first_version, mended, resealed, sealed, writes_of

SEED = int(sys.argv[1]) if len(sys.argv) > 1 else random.randrange(10**6)
HEADER = '{"epoch":1,"last":[null],"numbers":[0],"places":[-3],"rme":"kept","version":1}\n'
OPENING = '{"cells":1,"do":"open","jobs":10,"locks":["bank"],"workers":2}\n'
NO_FIRST_LINES = (("", 1), (OPENING, 1), (HEADER + HEADER, 2), (HEADER + '{"do":"restart","worker":0}\n', 2), (HEADER + '{"do":"open"}\n', 2))
NO_LATER_LINES = (
    '{"do":"restart","worker":0}\n', '{"do":"last","worker":0}\n', '{"do":"save"}\n', '{"do":"restart","worker":2}\n', "\n", OPENING,
)  # fmt: skip


def try_no_lines(folder):
    """Lines that no file holds, each refused by its number; and a file that holds two. Without sums, and with them."""
    path = os.path.join(folder, "state")
    later = [(HEADER + OPENING + line, 3) for line in NO_LATER_LINES]
    for lines, number in (*NO_FIRST_LINES, *later):
        ended = ends_with(look(written(path, lines.encode()), "--check"))
        same(f"refused by its number: {lines!r}", ended, (1, b"no %d\n" % number, b""))
    for lines, number in later:
        ended = ends_with(look(written(path, resealed(lines.encode())), "--check"))
        same(f"with its sum, refused by its number: {lines!r}", ended, (1, b"no %d\n" % number, b""))
    front = resealed((HEADER + OPENING).encode())
    for line in NO_LATER_LINES:
        ended = ends_with(look(written(path, front + sealed(line.encode(), 1, 2)), "--check"))
        same(f"in the second write, refused by its number in the file: {line!r}", ended, (1, b"no 4\n", b""))
    for held in ((HEADER + OPENING).encode(), front):
        same("two lines are a file", ends_with(look(written(path, held), "--check")), (0, b"yes\n", b""))


# ---- the file


def made_by(path):
    """A small file with each kind of line: its bytes."""
    server = serve(path, *LOCKS, workers=2, cells=1, jobs=9)
    one, two = server.session(), server.session()
    one.ask_all(attach(0), job("submit", "bank", 1, ["add", 0, 5]), job("enter", "bank", 2, ["set", 0, 7], ["get", 0]))
    two.ask_all(attach(1), job("enter", "bank", 1, *ONE, tries=1), WITHDRAW)
    one.ask_all(COMMIT, DETACH)
    two.ask_all({"do": "crash_after", "steps": 3}, job("submit", "shop", 2, *ONE), attach(1))
    two.ask(job("enter", "shop", 2, ["copy", 0, 0]))
    kill(server)
    return read(path)


LINE = re.compile(
    rb'{"do":"(crash|restart|withdraw)","worker":\d+}\n|{"do":"walk","max":\d+,"worker":\d+}\n'
    rb'|{"do":"submit","lock":"(bank|shop)","script":\[.*\],"worker":\d+}\n'
)


def try_file(folder):
    """What a new file has, and what is added to it."""
    path = os.path.join(folder, "usual")
    server = serve(path, "bank")
    header = text(epoch=0, last=[None] * 8, lives=[0] * 8, numbers=[0] * 8, places=[0], rme="kept", version=2)
    opening = text(cells=1, do="open", jobs=10_000, locks=["bank"], workers=9)
    crashes = b"".join(text(do="crash", worker=worker) + b"\n" for worker in range(9))
    wanted = sealed(header + b"\n" + opening + b"\n", 0, 1) + sealed(crashes, 1, 2)
    same("a new file of the usual sizes", read(path), wanted)
    mode = os.lstat(path).st_mode
    same("a file for only its user", (stat.S_ISREG(mode), stat.S_IMODE(mode)), (True, 0o600))
    same("and nothing beside it", [name for name in os.listdir(folder) if name.startswith("usual.")], [])
    session = server.session()
    session.ask_all(STATUS, {"do": "cells", "lock": "bank"}, RESUME, {"do": "none"}, attach(8), job("enter", "bank", 1))
    same("look-ups and refusals add no line", read(path), wanted)
    session.ask_all(attach(0), LAST, {"do": "crash_after", "steps": 5}, job("submit", "bank", 2), COMMIT)
    told = [json.loads(line)["do"] for line in whole_lines(read(path))[11:]]
    same("an attach is a restart and a walk", told, ["restart", "walk"])
    kill(server)
    for _ in range(2):
        kill(serve(path))
    same("a start adds a crash of each worker that is up, once", read(path).count(b'"crash"'), 10)
    held = made_by(os.path.join(folder, "kinds"))
    wrong = [line for line in whole_lines(held)[2:] if not LINE.fullmatch(line)]
    same("each other line is of one of five kinds", (wrong, faults_of(held)), ([], []))
    kinds = {json.loads(line)["do"] for line in whole_lines(held)[2:]}
    same("and all five are there", kinds, {"crash", "restart", "submit", "walk", "withdraw"})


def looked_at(path, held):
    """What `rme look --check` says of these bytes; the file stays as it is."""
    ended = ends_with(look(written(path, held), "--check"))
    stays = read(path) == held
    os.remove(path)
    return ended if stays else (None, b"another file", b"")


def each_beside(calls):
    """What these calls answer, some of them beside each other."""
    with concurrent.futures.ThreadPoolExecutor(os.cpu_count()) as pool:
        return list(pool.map(lambda call: call(), calls))


def changes_in_lines(held, numbers):
    """A file with each byte of its lines changed, and the sums made right."""
    of_sums = {at for write in writes_of(held) for at in range(write.end - len(write.sum_line), write.end)}
    for at, damaged in changes_of(held, numbers):
        if at not in of_sums:
            yield at, damaged[at], mended(damaged)


def try_damage(folder):
    """A file with a byte of its lines changed, and right sums, is read, or refused by the first line that `rme run` refuses, and
    stays as it is; so is a file without sums."""
    numbers, held = random.Random(SEED), made_by(os.path.join(folder, "small"))
    old = first_version(held)
    cases = [*changes_in_lines(held, numbers), *((at, changed[at], changed) for at, changed in changes_of(old, numbers))]

    def changed(case):
        at, byte, damaged = case
        ended, wanted = looked_at(os.path.join(folder, f"damaged-{at}-{byte}-{len(damaged)}"), damaged), verdicts_on(damaged)
        return damaged, ended[1], is_verdict(ended, wanted), (at, byte, ended, wanted)

    told = each_beside([lambda case=case: changed(case) for case in cases])
    wrong = [why for _, _, holds, why in told if not holds]
    refused = [(damaged, said) for damaged, said, _, _ in told if said.startswith(b"no ")]
    name = f"{len(told)} files of {len(held)} bytes with one changed, of which {len(refused)} are refused"
    check(name, not wrong and len(refused) > len(told) // 2, wrong[:3])
    for damaged, said in numbers.sample(refused, 8):
        start_refused(os.path.join(folder, "refused"), damaged + numbers.choice((b"", b"torn")), int(said.split()[1]))


def start_refused(path, held, line):
    """A server ends at this line of the file, which stays as it is, and so does the torn piece behind it."""
    ended = end_of(state_words(written(path, held), port=0))
    wanted = 2, b"", bad_state(path, held, line)
    check(f"a file that is refused at line {line}", (ended, read(path)) == (wanted, held), ended)
    same(f"and look says so too: line {line}", ends_with(look(path)), wanted)


def try_cuts(folder):
    """A file without sums that is cut at each length: what is left of a line is no line, and what is before it stands."""
    held, numbers = first_version(made_by(os.path.join(folder, "whole"))), random.Random(SEED)

    def cut(length):
        wanted = {0: b"no 1\n", 1: b"no 2\n"}.get(held[:length].count(b"\n"), b"yes\n")
        ended = looked_at(os.path.join(folder, f"cut-{length}"), held[:length])
        return [] if ended == (0 if wanted == b"yes\n" else 1, wanted, b"") else [(length, ended)]

    wrong = sum(each_beside([lambda length=length: cut(length) for length in range(len(held) + 1)]), [])
    check(f"a file that is cut at each of {len(held)} bytes", not wrong, wrong[:3])
    lines = whole_lines(held)
    wrong = []
    path = os.path.join(folder, "cut")
    for count in range(2, len(lines) + 1):
        front = b"".join(lines[:count])
        for form in (bytes, resealed):
            wrong += [count] * (looked(written(path, form(front))) != status_of(lines[1:count]))
    check("what it says after each line, beside `rme run`", not wrong, wrong)
    for _ in range(6):
        start_cut(path, held[: numbers.randrange(len(lines[0] + lines[1]), len(held))] + numbers.choice(TORN))


def start_cut(path, held):
    """A server starts if a file was torn, and what was torn is not there any more."""
    front = whole_lines(held)
    wanted = status_of(front[1:])
    for worker in wanted["workers"]:
        worker["attached"] = False
    server = serve(written(path, held))
    told = without_seconds(server.session().told(do="status")) if server.port else server.first
    now, first = read(path), server.first
    kill(server)
    names = [json.loads(line)["do"] for line in whole_lines(now)[len(front) :]]
    holds = told == wanted and now.startswith(b"".join(front)) and set(names) <= {"crash"} and now.endswith(b"\n")
    check(f"a start from {len(front)} lines and a torn one", holds, (first, told, wanted, names))


def try_looking(folder):
    """What `rme look` can't read."""
    missing, bad = os.path.join(folder, "missing"), written(os.path.join(folder, "bad"), b"{}\n")
    for name, path, why in (
        ("a file that is not there", missing, "No such file or directory (os error 2)"),
        ("a folder", folder, "Is a directory (os error 21)"),
    ):
        for words in ((), ("--json",), ("--check",)):
            told = ends_with(look(path, *words))
            wanted = 3, b"", f"fault: the state {path} can't be read: {why}\n".encode()
            same(f"look at {name} {' '.join(words)}", told, wanted)
    for words in ((), ("--json",)):
        told = ends_with(look(bad, *words))
        wanted = 2, b"", f"fault: bad state\n  {bad}: line 1\n".encode()
        same(f"look at another file {' '.join(words)}", told, wanted)
    for words in ([], ["--json", "--check", "F"], ["F", "F"], ["--lines", "--json", "F"], ["--rows", "F"]):
        ran = run(["look", *words])
        same(f"refused by its form: look {' '.join(words)}", (ran.returncode, ran.stderr[:7]), (2, b"error: "))
    good = os.path.join(folder, "good")
    made_by(good)
    with open("/dev/full", "wb") as full:
        ran = run(["look", good], stdout=full)
    same("look, and a full output", (ran.returncode, ran.stderr), (4, b"fault: write failed\n"))


def seen(path):
    """What is there under a name, if anything is."""
    if not os.path.lexists(path):
        return None
    found = os.lstat(path)
    return found.st_mode, found.st_ino, read(path) if stat.S_ISREG(found.st_mode) else b""


def refused(name, path, why, *locks, status=2, **options):
    """A server that does not begin, and leaves what is there."""
    before = seen(path)
    ended = end_of(state_words(path, *locks, **{"port": 0, **options}))
    wanted = status, b"", f"fault: {why}\n".encode()
    same(f"refused: {name}", (*ended[:2], without_count(ended[2])), wanted)
    check(f"it is as it was: {name}", seen(path) == before, seen(path))


def try_places(folder):
    """A file that is not regular is not touched, nor is a file that another program wrote."""
    there = {name: os.path.join(folder, f"a-{name}") for name in ("file", "link", "lost", "folder", "pipe", "socket")}
    made_by(there["file"])
    os.symlink(there["file"], there["link"])
    os.symlink(os.path.join(folder, "nothing"), there["lost"])
    os.mkdir(there["folder"])
    os.mkfifo(there["pipe"])
    with socket.socket(socket.AF_UNIX) as listener:
        listener.bind(there["socket"])
    for path in (*list(there.values())[1:], "/dev/null"):
        why = f"bad arguments\n  --state {path}: it is there, and is no regular file"
        refused(os.path.basename(path), path, why, "bank")
    lines = whole_lines(first_version(read(there["file"])))
    others = {"empty": b"", "text": b"hello\n", "no line": b"hello", "run": b"".join(lines[1:]), "bytes": b"\0\n" * 99}
    for name, held in others.items():
        path = written(os.path.join(folder, f"other-{name}"), held)
        refused(f"another file: {name}", path, f"bad state\n  {path}: line 1", "bank")
    path = written(os.path.join(folder, "other-opening"), lines[0])
    refused("only a header", path, f"bad state\n  {path}: line 2", *LOCKS)
    missing = os.path.join(folder, "nowhere", "state")
    why = f"the state {missing} can't be written: No such file or directory (os error 2)"
    refused("a folder that is not there", missing, why, "bank", status=4)


def try_words(folder):
    """Words that contradict a file, words that make no file, and invalid words."""
    path = os.path.join(folder, "words")
    kill(serve(path, *LOCKS, workers=8, cells=2, jobs=10))
    for option, has, other in (("workers", 8, 7), ("cells", 2, 1), ("jobs", 10, 11)):
        for number in (other, 1, 0):
            why = f"bad arguments\n  --{option} {number}: the state has {has}"
            refused(f"--{option} {number}", path, why, *LOCKS, **{option: number})
    for locks in (("bank",), ("shop", "bank"), ("bank", "mill"), ("mill", *LOCKS), ("bank", "bank"), ("Bank", "shop")):
        refused(f"{locks}", path, f"bad arguments\n  LOCK: the state {path} has other locks: bank shop", *locks)
    for options in ({}, {"workers": 8}, {"cells": 2, "jobs": 10}, {"sync": "always"}, {"sync": "never"}):
        for locks in ((), LOCKS):
            server = serve(path, *locks, **options)
            check(f"as the state has it: {options} {locks}", server.port is not None, server.first)
            kill(server)
    none = os.path.join(folder, "none")
    refused("no names", none, f"bad arguments\n  LOCK: the state {none} is not there, and its locks need names")
    for option, most in {"workers": 255, "cells": 16, "jobs": 1_000_000}.items():
        for number in (0, most + 1):
            why = f"bad arguments\n  --{option} {number}: it is 1 to {most}"
            refused(f"--{option} {number}", none, why, "bank", **{option: number})
    for name in ("", "Bank", "b" * 33):
        why = f"bad arguments\n  the lock {name}: a name has 1 to 32 of a-z 0-9 _ and -"
        refused(f"the lock '{name}'", none, why, "shop", name)
    refused("a name twice", none, "bad arguments\n  the lock bank: each name stands once", "bank", "bank")
    refused("no file", "", "bad arguments\n  --state names no file: its value is empty", "bank")
    for options in ({"connections": 1}, {"sync": "often"}, {"sync": ""}, {"workers": "x"}, {"port": 65536}):
        ended = end_of(state_words(none, "bank", **{"port": 0, **options}))
        holds = (ended[:2], ended[2][:7], seen(none)) == ((2, b""), b"error: ", None)
        check(f"refused by its form: {options}", holds, ended)
    for words in (["--sync", "always"], ["--state"]):
        ended = end_of(["serve", "--workers", 1, "--cells", 1, "--jobs", 1, "--port", 0, "bank", *words])
        check(f"refused by its form: {words}", (ended[:2], ended[2][:7]) == ((2, b""), b"error: "), ended)
    for options in ({"workers": 255}, {"cells": 16}, {"jobs": 1, "workers": 1}):
        server = serve(f"{none}-{options}", "bank", **options)
        told = server.session().attach(0) if server.port else {}
        check(f"accepted: {options}", told.get("ok") == "attach", (server.first, told))
        kill(server)


def try_two_servers(folder):
    """A file is one server's: of two that are started one after another, and of four that are at once."""
    path = os.path.join(folder, "two")
    first = serve(path, "bank")
    session = first.session()
    session.ask(attach(0))
    for locks in ((), ("bank",), ("mill",)):
        refused(f"a second server, {locks}", path, f"bad arguments\n  --state {path}: a server has it", *locks)
    same("the first goes on", session.told(**job("submit", "bank", 1, *ONE))["receipt"]["reply"], 1)
    same("and is looked at", looked(path)["locks"][0]["cells"], [1])
    kill(first)
    second = serve(path, "bank")
    same("the next one has it at once", second.session().told(**attach(0))["number"], 1)
    kill(second)
    wrong = []
    for turn in range(8):
        path = os.path.join(folder, f"race-{turn}")
        if turn % 2:  # the file is there
            kill(serve(path, "bank"))
        ends = race(path)
        had = b"", 2, f"fault: bad arguments\n  --state {path}: a server has it\n".encode()
        wrong += [(turn, ends)] * (len(ends) != 3 or any(end != had for end in ends))
    check("of four servers that are started at once one has the file", not wrong, wrong[:2])


def race(path):
    """Starts four servers of one file, and answers how those end that do not listen: output, status and fault."""
    how = {"stdin": subprocess.DEVNULL, "stdout": subprocess.PIPE, "stderr": subprocess.PIPE}
    servers = [subprocess.Popen([built(), *state_words(path, "bank", port=0)], **how) for _ in range(4)]
    ends = []
    for server in servers:
        if not (first := server.stdout.readline()).startswith(b"listening "):
            ends.append((first, server.wait(10), without_count(server.stderr.read())))
    for server in servers:
        server.kill()
        server.communicate()
    return ends


def part():
    note(f"seed {SEED}")
    main_in_folders(try_file, try_no_lines, try_damage, try_cuts, try_looking, try_places, try_words, try_two_servers, minutes=5)
