"""names: names with every byte, and of every length; what else lies in the folder of a server: links, devices, folders, and files of
another kind; a folder that another server has, and one that cannot be had."""

import json
import os
import socket
import stat
import time

from lib import kept
from lib.checks import check, main_in_folders, note, same
from lib.kept import end_of, without_count
from lib.orders import attach, text
from lib.spaces import (
    CREATED, DROPPED, LONGEST, PING, PONG, SPACES, USED, create, drop, listed, made, one_job, path_of, refused, serve,
    spaces_words, use,
)  # fmt: skip

LETTERS = "abcdefghijklmnopqrstuvwxyz0123456789_-"
BAD_SHAPE, NO_SPACE = refused(5), refused(23)

# Names that lead out of the folder, or to other files, if a server does not look at their bytes.
STRANGE = ["", ".", "..", "...", "../a", "a/..", "/etc/passwd", "a/b", "./a", "a.state", "a.state.new", ".a", "a ", " a", "a\0", "\0", "a\n", "-\t",
           "A", "\u00e9", "\u0430", "a\u0301", "\U0001f512", "%2e%2e", "a\\b", "*", "team-*", "?", "+a", "a,b", "a" * (LONGEST + 1), "a" * 255,
           "a" * 256, "a" * 5000, "../" * 30 + "tmp/a", "CON", "con:"]  # fmt: skip


def try_bytes(folder):
    """Each byte by itself, and in the middle of a name."""
    server = serve(folder)
    session, good = server.session(), []
    for code in range(128):
        letter = chr(code)
        for name in (letter, f"a{letter}", f"a{letter}b"):
            is_good = letter in LETTERS
            wanted = [CREATED, CREATED] if is_good else [BAD_SHAPE] * 2
            check(f"a name with byte {code}", session.ask_all(create(name), create(name)) == wanted, name, quiet=True)
            if not is_good or len(name) == 1:
                check(f"and by use, byte {code}", session.ask(use(name)) == (USED if is_good else BAD_SHAPE), name, quiet=True)
            good += [name] * is_good
    for raw in (b"\x80", b"\xc3", b"\xff", b"\xed\xa0\x80", b"\xc0\xae\xc0\xae"):
        session.send(b'{"do":"create","locks":["bank"],"space":"a' + raw + b'"}\n')
        same(f"bytes that are no text, {raw!r}", session.hear().rstrip(b"\n"), refused(1))
    found, after = [], ""
    while not found or told["more"]:
        told = session.told(**SPACES, **({"after": after} if after else {}))
        found += told["spaces"]
        after = found[-1]
    same("all with letters that may be, in the order of their bytes", found, sorted(set(good)))
    session.send(b'{"do":"use","space":"\\u0061\\u005f"}\n')
    same("a name with escapes is that name", session.hear().rstrip(b"\n"), USED)
    session.close()
    server.kill()


def try_strange(folder):
    """Invalid names: by each order, and nothing is made anywhere."""
    place = os.path.join(folder, "in", "spaces")
    server = serve(place)
    session = server.session()
    before = everything(folder)
    for name in STRANGE:
        told = session.ask_all(create(name), use(name), drop(name))
        same(f"{name[:40]!r}, {len(name)} bytes", told, [BAD_SHAPE] * 3)
    same("nothing was made", everything(folder), before)
    session.close()
    server.kill()


def everything(folder):
    return sorted(os.path.join(at, name) for at, folders, files in os.walk(folder) for name in folders + files)


def try_lengths(folder):
    """Names of each length that may be."""
    server = serve(folder)
    session = server.session()
    for size in range(1, LONGEST + 1):
        name = (LETTERS * 2)[size % len(LETTERS) :][:size]
        check(f"{size} bytes", session.ask(create(name)) == CREATED, name, quiet=True)
        if size in (1, 2, LONGEST - 1, LONGEST):
            same(f"{size} bytes, used", session.ask(use(name)), USED)
    longest = "z" * LONGEST
    session.ask_all(create(longest), use(longest), attach(0))
    same("a job in the longest", one_job(server, longest, worker=1), 1)
    session.close()
    other = server.session()
    other.ask(use("a"))
    latest = time.monotonic() + 10
    while (told := other.ask(drop(longest))) == refused(9) and time.monotonic() < latest:
        time.sleep(0.01)
    same("it is dropped", told, DROPPED)
    server.kill()


# ---- what else lies in the folder


def others_in(folder, good):
    """Puts into a folder what is no space, beside what is one; the names that a space would have."""
    outside = os.path.join(os.path.dirname(folder), "outside.state")
    kept.written(outside, good)
    kinds = {
        "empty": lambda path: kept.written(path, b""),
        "text": lambda path: kept.written(path, b"a text\n"),
        "cut": lambda path: kept.written(path, good[:150]),  # within the first write
        "zeros": lambda path: kept.written(path, b"\0" * 4096),
        "changed": lambda path: kept.written(path, good.replace(b"bank", b"tank", 1)),
        "link": lambda path: os.symlink(outside, path),
        "dangling": lambda path: os.symlink(os.path.join(folder, "nowhere"), path),
        "loop": lambda path: os.symlink(path, path),
        "link-to-folder": lambda path: os.symlink("/", path),
        "link-to-device": lambda path: os.symlink("/dev/zero", path),
        "folder": os.mkdir,
        "pipe": os.mkfifo,
        "socket": lambda path: bound(path),
        "secret": lambda path: (kept.written(path, good), os.chmod(path, 0)),
    }
    if os.geteuid() == 0:
        kinds["device"] = lambda path: os.mknod(path, 0o600 | stat.S_IFCHR, os.makedev(1, 5))
        kinds["null"] = lambda path: os.mknod(path, 0o600 | stat.S_IFCHR, os.makedev(1, 3))
        del kinds["secret"]
    there = []
    for name, make in kinds.items():
        try:
            make(path_of(folder, name))
            there.append(name)
        except PermissionError:
            note(f"left out: {name}")
    return there


def bound(path):
    with socket.socket(socket.AF_UNIX) as own:
        own.bind(path)


def states_of(folder):
    """What lies in a folder: of each name its kind, and of a file its bytes, of a link where it leads."""
    found = {}
    for name in os.listdir(folder):
        path = os.path.join(folder, name)
        kind = stat.S_IFMT(os.lstat(path).st_mode)
        held = os.readlink(path) if stat.S_ISLNK(kind) else kept.read(path) if stat.S_ISREG(kind) and os.access(path, os.R_OK) else None
        found[name] = kind, held
    return found


def good_file(folder):
    """The bytes of a space's file with a job."""
    server = serve(folder)
    made(server, "good", workers=2)
    one_job(server, "good")
    server.kill()
    return kept.read(path_of(folder, "good"))


def try_others(folder):
    """Links, devices, folders and files of another kind with the names of spaces: `use` refuses them, no order changes them, and
    the server and its spaces go on."""
    good, place = good_file(os.path.join(folder, "first")), os.path.join(folder, "spaces")
    os.mkdir(place)
    there = others_in(place, good)
    kept.written(path_of(place, "good"), good)
    before = states_of(place)
    server = serve(place)
    session = server.session()
    session.connection.settimeout(10)
    for name in there:
        told = session.ask(use(name))
        same(f"{name}: it is not used", told, NO_SPACE)
    for name in there:
        told = json.loads(session.ask(create(name)))
        check(f"{name}: it is not created over", told.get("code") in (20, 23, 24), told)
    for name in there:
        told = json.loads(session.ask(drop(name)))
        check(f"{name}: it is not dropped", told.get("code") == 23, told)
    told = session.told(**SPACES)["spaces"]
    check("the list has the good one, and no name twice", "good" in told and len(told) == len(set(told)), told)
    check("and none that is no regular file", set(told) <= {"good", "empty", "text", "cut", "zeros", "changed", "secret"}, told)
    same("the good one is used", session.ask_all(use("good"), PING), [USED, PONG])
    same("and goes on", one_job(server, "good"), 2)
    session.close()
    status, _, said = server.kill()
    check("it lived on", status in (-15, 0), (status, said))
    now = states_of(place)
    same("what is no space is as it was", {name: now.get(name) for name in before if name != "good.state"},
         {name: held for name, held in before.items() if name != "good.state"})
    same("nor is what a link leads to", kept.read(os.path.join(folder, "outside.state")), good)
    said = said.decode(errors="replace")
    for name in ("text", "cut", "changed"):
        check(f"{name}: the standard error names the file", f"{name}.state" in said, said[:2000])


def try_other_names(folder):
    """Files whose names are not those of spaces: they are neither listed nor touched, and a start removes none of
    them."""
    good = good_file(os.path.join(folder, "first"))
    place = os.path.join(folder, "spaces")
    os.mkdir(place)
    names = ["a", "a.txt", "A.state", ".state", "..state", "a.b.state", "a.state.bak", "a.state~", f"{'a' * 65}.state", "é.state", "state", "a.STATE",
             "a .state", "b.state.old", "README", ".hidden.state"]  # fmt: skip
    for name in names:
        kept.written(os.path.join(place, name), good)
    os.mkdir(os.path.join(place, "folder"))
    before = states_of(place)
    server = serve(place)
    session = server.session()
    same("none is a space", session.ask(SPACES), listed())
    same("nor is used", session.ask_all(use("a"), use("b")), [NO_SPACE] * 2)
    same("one of the name is created beside them", session.ask_all(create("a"), use("a"), SPACES), [CREATED, USED, listed("a")])
    same("a job", one_job(server, "a"), 1)
    server.kill()
    now = states_of(place)
    same("they are as they were", {name: now.get(name) for name in before}, before)


def try_put_there(folder):
    """A state that is put into the folder while the server runs is a space of its name."""
    good = good_file(os.path.join(folder, "first"))
    place = os.path.join(folder, "spaces")
    server = serve(place)
    session = server.session()
    same("nothing yet", session.ask_all(SPACES, use("late")), [listed(), NO_SPACE])
    kept.written(os.path.join(place, "late.part"), good)
    os.rename(os.path.join(place, "late.part"), path_of(place, "late"))
    same("it is used", session.ask_all(use("late"), {"do": "cells", "lock": "bank"}), [USED, text(cells=[1], ok="cells", settled=True)])
    same("and listed", session.ask(SPACES), listed("late"))
    same("and goes on", one_job(server, "late"), 2)
    server.kill()


# ---- the folder


def try_folder(folder):
    """A folder that another server has, and what is no folder: status 2, and nothing is changed."""
    place = os.path.join(folder, "spaces")
    server = serve(place)
    made(server, "a")
    held = kept.read(path_of(place, "a"))
    same("a job", one_job(server, "a"), 1)
    before = states_of(place)
    for name, where in {"the same name": place, "another name": os.path.join(place, "..", "spaces"), "a link": os.path.join(folder, "link")}.items():
        if name == "a link":
            os.symlink(place, where)
        status, told, said = end_of(spaces_words(where, port=0))
        check(f"a second server of the folder, by {name}", (status, told) == (2, b"") and said, (status, told, said))
    same("the folder is as it was", states_of(place), before)
    same("the first one goes on", one_job(server, "a"), 2)
    status, told, said = end_of(kept.state_words(path_of(place, "a"), port=0))
    check("a server of only the file, while the space is open", (status, told) == (2, b"") and said, (status, told, said))
    kept.kill(server)
    server = serve(place)
    same("once it is gone, another", one_job(server, "a"), 3)
    server.kill()
    rows = {"no such folder": "gone", "a file": "file", "an empty name": ""}
    kept.written(os.path.join(folder, "file"), held)
    for name, word in rows.items():
        status, told, said = end_of(spaces_words(os.path.join(folder, word) if word else "", port=0))
        check(name, status in (2, 3) and told == b"" and said, (status, told, said))
    same("and the file is as it was", kept.read(os.path.join(folder, "file")), held)


def try_words(folder):
    """Words beside `--spaces` that say something else, and invalid numbers: status 2, and no file is made."""
    place = os.path.join(folder, "spaces")
    os.mkdir(place)
    rows = {
        "a state": ["--state", os.path.join(folder, "x.state")],
        "names of locks": ["bank"],
        "workers": ["--workers", "4"],
        "cells": ["--cells", "1"],
        "connections": ["--connections", "1"],
        "no time to close after": ["--close-after"],
        "half a second": ["--close-after", "0.5"],
        "a time that is a word": ["--close-after", "soon"],
        "spaces twice": ["--spaces", place],
        "an invalid sync": ["--sync", "maybe"],
    }
    for name, words in rows.items():
        status, told, said = end_of(spaces_words(place, *words, port=0))
        check(name, (status, told) == (2, b"") and said, (status, told, said))
    status, told, said = end_of(["serve", "--port", "0", "--workers", "2", "--cells", "1", "--jobs", "9", "--close-after", "9", "bank"])
    check("a time to close after, without spaces", (status, told) == (2, b"") and said, (status, told, said))
    same("nothing was made", os.listdir(place), [])
    server = serve(place, close_after=1, sync="always", waiting="withdraw", sections=50, at_once=20, idle=60)
    same("all words that may be", server.session().ask(PING), PONG)
    same("and it says nothing", without_count(server.kill()[2]), b"")


def try_many(folder):
    """10,000 files in the folder: the start takes no longer than the folder takes to be read."""
    good = good_file(os.path.join(folder, "first"))
    place = os.path.join(folder, "spaces")
    os.mkdir(place)
    names = [f"n{number:05}" for number in range(10_000)]
    for name in names:
        kept.written(path_of(place, name), good)
    took = []
    for _ in range(5):
        began = time.monotonic()
        server = serve(place)
        took.append(time.monotonic() - began)
        if len(took) == 5:
            found, after, pages = [], "", 0
            session = server.session()
            while pages == 0 or told["more"]:
                told = session.told(**SPACES, **({"after": after} if after else {}))
                found, after, pages = found + told["spaces"], told["spaces"][-1], pages + 1
            same("all are listed", (found == names, pages), (True, 10))
            same("and one is used", one_job(server, names[-1]), 2)
        server.kill()
    empty = os.path.join(folder, "empty")
    began = time.monotonic()
    serve(empty).kill()
    note(f"starts with 10,000 files: {', '.join(f'{1000 * it:.0f}' for it in took)} ms; with none {1000 * (time.monotonic() - began):.0f} ms")
    check("within 0.2 seconds", min(took) < 0.2, took)


def part():
    main_in_folders(
        try_bytes, try_strange, try_lengths, try_others, try_other_names, try_put_there, try_folder, try_words, try_many, minutes=12
    )
