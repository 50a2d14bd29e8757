"""What a start of `rme serve --state` decides before it changes anything, and what becomes of a server whose file, or whose
standard error, is taken away.

A start that is refused leaves the file, and each file beside it, as it was. A file that could never be renewed is refused at
once. A server whose file has lost its name ends. A server whose standard error nobody reads goes on. A renewal that failed is
not tried again at once.
"""

import json
import os
import re
import shutil
import socket
import subprocess
import time

from lib.checks import check, main_in_folders, same
from lib.full import own_end, rest_of, told_of
from lib.kept import kill, look, read, serve, state_words, whole_lines, without_count, written
from lib.orders import ONE, attach, job, text
from lib.programs import ends_with, run
from lib.servers import HOST, Server, line_of
from lib.sums import first_version, resealed

TOO_MANY = b'{"code":14,"error":"TooManyJobs"}'
BEHIND = b'{"do":"walk","max":1'  # a torn line
LOST = "its name is another file's by now, or nobody's"


def all_files(folder):
    """What each file of a folder holds; a link by where it leads, a folder by its name."""
    found = {}
    for name in sorted(os.listdir(folder)):
        path = os.path.join(folder, name)
        found[name] = os.readlink(path) if os.path.islink(path) else "a folder" if os.path.isdir(path) else read(path)
    return found


def refused(name, path, why, *locks, status=2, **options):
    """A start that ends with this status and this text, and changes nothing in the folder of its file."""
    folder = os.path.dirname(path)
    before = all_files(folder)
    places = {} if {"port", "socket"} & set(options) else {"port": 0}
    ended = ends_with(run(state_words(path, *locks, **places, **options)))
    told = ended[0], ended[1], without_count(ended[2])
    wanted = why if isinstance(why, bytes) else f"fault: {why}\n".encode()
    same(f"refused: {name}", told, (status, b"", wanted))
    same(f"nothing is changed: {name}", all_files(folder), before)


def made(path, *locks, **options):
    """A file that a server made and served; worker 0 is up in it."""
    server = serve(path, *(locks or ("bank",)), **options)
    server.session().ask_all(attach(0), job("submit", "bank", 1, *ONE))
    kill(server)
    return read(path)


# ---- a refused start


def try_beside(folder):
    """What is under the name of the file that would take its place."""
    notes = written(os.path.join(folder, "notes.txt"), b"milk\neggs\n")
    written(notes + ".renewal", b"a subscription\n")
    refused("a text, beside which another is", notes, f"bad state\n  {notes}: line 1", "bank")
    os.remove(notes + ".renewal")
    refused("a text", notes, f"bad state\n  {notes}: line 1", "bank")
    path = os.path.join(folder, "state")
    held = made(path)
    beside = path + ".renewal"
    for name, content in {"a text": b"a subscription\n", "a header of another kind": b'{"epoch":1}\n'}.items():
        written(beside, content)
        refused(f"a state beside which {name} is", path, beside_text(path))
        os.remove(beside)
    os.mkdir(beside)
    refused("a state beside which a folder is", path, beside_text(path))
    os.rmdir(beside)
    os.symlink(path, beside)
    refused("a state beside which a link is", path, beside_text(path))
    os.remove(beside)
    new = os.path.join(folder, "new")
    os.mkdir(new + ".renewal")
    refused("a new state beside which a folder is", new, beside_text(new), "bank")
    long = os.path.join(folder, "x" * 250)
    why = f"bad arguments\n  --state: the state could not be renewed, since {long}.renewal can't be made: "
    refused("a name that is too long", long, why + "File name too long (os error 36)", "bank")
    header = whole_lines(held)[0]
    for name, content in {"nothing": b"", "a front": header[:5], "a header": header, "a header, cut": header[:30]}.items():
        written(beside, content)
        server = serve(path)
        same(f"what a killed server left is removed: {name}", os.path.exists(beside), False)
        kill(server)


def beside_text(path):
    return f"bad arguments\n  --state: {path}.renewal is there and was not made by a server, so that the state could not be renewed"


def try_header(folder):
    """A header whose numbers or places leave no room for one more epoch: the first bad line is named, and nothing is written."""
    path = os.path.join(folder, "state")
    header, *lines = whole_lines(made(path))
    header = json.loads(header)
    last = {"lock": "bank", "number": 2**53 - 1, "place": 0, "reply": 0, "worker": 0}
    numbers = {**header, "epoch": 1, "numbers": [2**53 - 1] + header["numbers"][1:], "last": [last] + header["last"][1:]}
    places = {**header, "epoch": 1, "places": [2**53 - 1]}
    for name, bad in {"numbers": numbers, "places": places}.items():
        first = text(**bad) + b"\n" + b"".join(lines)
        for ending, held in {
            "a torn end": resealed(first) + BEHIND,
            "no torn end": resealed(first),
            "a bad line": resealed(first + b"{}\n"),
            "no sums, and a torn end": first_version(resealed(first)) + BEHIND,
        }.items():
            written(path, held)
            refused(f"{name}, {ending}", path, f"bad state\n  {path}: line 1")
            same(f"look says so: {name}, {ending}", ends_with(look(path, "--check")), (1, b"no 1\n", b""))
    # A header that no world of line 2 has, before a bad line.
    two = {**header, "numbers": header["numbers"] + [0]}
    written(path, resealed(text(**two) + b"\n" + b"".join(lines) + b"{}\n"))
    refused("a header of another world, and a bad line", path, f"bad state\n  {path}: line 1")
    same("look says so", ends_with(look(path, "--check")), (1, b"no 1\n", b""))


def try_place_taken(folder):
    """If it can't listen, no file is made, and one that is there stays as it is."""
    path = os.path.join(folder, "state")
    with socket.socket() as taken:
        taken.bind((HOST, 0))
        taken.listen()
        port = taken.getsockname()[1]
        why = f"socket failed\n  port {port}: Address already in use (os error 98)"
        refused("a port that is taken", path, why, "bank", status=6, port=port)
        same("no file was made", os.path.exists(path), False)
        held = made(path, "shop", "bank")
        written(path, held + BEHIND)
        refused("a port that is taken, of a state", path, why, status=6, port=port)
    where = written(os.path.join(folder, "text"), b"no socket\n")
    new = os.path.join(folder, "new")
    why = f"bad arguments\n  --socket {where}: it is there, and is no socket"
    refused("a file in the place of the socket", new, why, "bank", socket=where)
    missing = os.path.join(folder, "nowhere", "state")
    where = os.path.join(folder, "socket")
    why = f"the state {missing} can't be written: No such file or directory (os error 2)"
    ended = ends_with(run(state_words(missing, "bank", socket=where)))
    same("a file that can't be made", ended, (4, b"", f"fault: {why}\n".encode()))
    same("its socket is gone", os.path.lexists(where), False)
    server = serve(path, "shop", "bank")
    same("the next start goes on", server.session().attach(0)["number"], 1)
    kill(server)


def try_messages(folder):
    """What is wrong is named."""
    path = os.path.join(folder, "state")
    held = made(path, "bank", "shop")
    why = f"bad arguments\n  LOCK: the state {path} has other locks: bank shop"
    refused("other locks", path, why, "mill")
    written(path, held.replace(b'"version":2}', b'"version":3}', 1))
    why = f"bad state\n  {path}: it is of version 3, and this program reads versions 1 and 2"
    refused("another version", path, why)
    same("look says so", ends_with(look(path)), (2, b"", f"fault: {why}\n".encode()))
    path = written(os.path.join(folder, "processes"), b"rmewords" + bytes(8184))
    why = f"bad state\n  {path}: it is a file of processes, which `rme look` shows and no server keeps"
    refused("a file of processes", path, why, "bank")
    ended = ends_with(run(["serve", "bank"]))
    first = b"error: the shortest start is `rme serve --state FILE bank`; "
    check("no state and no sizes: the shortest start is named", ended[:2] == (2, b"") and ended[2].startswith(first), ended)


# ---- a file that is taken away


def remove(path):
    os.remove(path)


def rename(path):
    os.rename(path, path + ".moved")


def replace(path):
    """A copy takes its place."""
    shutil.copyfile(path, path + ".copy")
    os.rename(path + ".copy", path)


def move_folder(path):
    os.rename(os.path.dirname(path), os.path.dirname(path) + ".moved")


def jobs_for(server, seconds, number=0):
    """Makes jobs for some seconds, or until there is no answer: the last number that was answered."""
    session, latest = server.session(), time.monotonic() + seconds
    try:
        number = session.attach(0)["number"]
        while time.monotonic() < latest:
            if not session.ask(job("submit", "bank", number + 1, *ONE)).startswith(b'{"ok":"submit","receipt"'):
                break
            number += 1
    except (OSError, ValueError):
        pass
    return number


def try_taken_away(folder):
    """A server whose file loses its name ends with status 4 within some seconds, idle or busy."""
    for sync in ("never", "always"):
        for way in (remove, rename, replace, move_folder):
            for load in ("idle", "busy"):
                own = os.path.join(folder, f"{sync}-{way.__name__}-{load}")
                os.mkdir(own)
                path = os.path.join(own, "state")
                server = serve(path, "bank", sync=sync)
                silent = server.session()
                silent.ask(attach(1))
                way(path)
                began = time.monotonic()
                if load == "busy":
                    jobs_for(server, 5)
                ended = own_end(server)
                took = time.monotonic() - began
                name = f"{way.__name__}, {load}, --sync {sync}"
                same(f"it ends: {name}", ended, (4, b"", told_of(path, LOST)))
                check(f"within 3 seconds: {name}", took < 3, took)
                same(f"its sessions have ended: {name}", rest_of(silent), b"")


def try_taken_away_at_renewal(folder):
    """A renewal that finds another file under the name replaces nothing, and the server ends."""
    path = os.path.join(folder, "state")
    server = serve(path, "bank", jobs=2)
    session = server.session()
    session.ask_all(attach(0), *(job("submit", "bank", number, *ONE) for number in (1, 2)))
    rename(path)
    written(path, b"a file of somebody else\n")
    session.send(line_of(**job("submit", "bank", 3, *ONE)))
    same("it ends", own_end(server), (4, b"", told_of(path, LOST)))
    same("what is in its place stays", read(path), b"a file of somebody else\n")
    os.rename(path + ".moved", path)
    server = serve(path)
    same("the next start has what was answered", server.session().attach(0)["number"], 2)
    kill(server)


# ---- a standard error that nobody reads


def flood(server, count):
    """A session with malformed lines, each of which --why reports; how many answers came."""
    session = server.session()
    session.connection.settimeout(10)
    answers = 0
    try:
        for _ in range(count // 100):
            session.send(b"{}\n" * 100)
            answers += sum(session.hear() == b'{"code":1,"error":"BadLine"}\n' for _ in range(100))
    except OSError:
        pass
    return answers


def try_unread(folder):
    """Of 200,000 bytes that are told on the standard error, a pipe that nobody reads takes 65,536."""
    path = os.path.join(folder, "state")
    server = Server(words=[*state_words(path, "bank", port=0), "--why"])
    same("each malformed line is answered", flood(server, 3000), 3000)
    same("other sessions go on", server.session().attach(0).get("ok"), "attach")
    kill(server)
    server = Server(words=["serve", "--workers", "2", "--cells", "1", "--jobs", "10", "--port", "0", "--why", "bank"])
    same("also without a state", flood(server, 3000), 3000)
    same("and others go on", server.session().attach(0).get("ok"), "attach")
    server.kill()


def try_unread_end(folder):
    """A server ends though nobody reads its standard error, which is full."""
    path = os.path.join(folder, "state")
    server = Server(words=[*state_words(path, "bank", port=0), "--why"])
    flood(server, 3000)
    os.remove(path)
    try:
        status = server.program.wait(5)
    except subprocess.TimeoutExpired:
        status = "no end"
    same("it ends", status, 4)
    server.program.kill()


# ---- a renewal that failed


def try_again_later(folder):
    """A renewal that failed is tried again after some seconds, and not by each order; meanwhile others go on."""
    path = os.path.join(folder, "state")
    server = serve(path, "bank", workers=2, jobs=1000)
    spent, other = server.session(), server.session()
    number = spent.attach(0)["number"]
    while number < 1000:
        number += 1
        spent.ask(job("submit", "bank", number, *ONE))
    os.mkdir(path + ".renewal")
    began, refusals = time.monotonic(), 0
    while time.monotonic() - began < 2:
        refusals += spent.ask(job("submit", "bank", 1001, *ONE)) == TOO_MANY
    check(f"{refusals} orders of a worker whose jobs are used up are refused in 2 seconds", refusals > 100, refusals)
    same("another worker goes on", other.attach(1)["ok"], "attach")
    same("with jobs", other.told(**job("submit", "bank", 1, *ONE)).get("ok"), "submit")
    os.rmdir(path + ".renewal")
    same("it is not tried again at once", spent.ask(job("submit", "bank", 1001, *ONE)), TOO_MANY)
    answer, latest = TOO_MANY, time.monotonic() + 10
    while answer == TOO_MANY and time.monotonic() < latest:
        time.sleep(0.1)
        answer = spent.ask(job("submit", "bank", 1001, *ONE))
    took = time.monotonic() - began
    same("once it can be renewed, jobs go on", json.loads(answer).get("ok"), "submit")
    check(f"after {took:.1f} seconds", 4.5 < took < 8, took)
    _, _, told = kill(server)
    told = re.findall(rb"^rme: the new state .* can't be put in its place: .*$", told, re.M)
    same("it said so once", len(told), 1)


def part():
    main_in_folders(
        try_beside,
        try_header,
        try_place_taken,
        try_messages,
        try_taken_away,
        try_taken_away_at_renewal,
        try_unread,
        try_unread_end,
        try_again_later,
        minutes=5,
    )
