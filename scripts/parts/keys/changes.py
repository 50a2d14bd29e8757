"""changes: the file of `--keys` changes under a running server. A hello knows the file as it is; a session that runs keeps what
its key allowed; a file that cannot be used leaves the keys as they were, which is said once for each change."""

import os
import shutil
import threading
import time

from lib.checks import check, main_in_folders, same
from lib.kept import without_count
from lib.keys import KINDS, REFUSED, begun, greeting, hello, key_line, keys_text, put, put_keys, serve
from lib.orders import attach, stands

READY = stands("ready", 0)
PONG = b'{"ok":"ping"}'


def each_kind(folder, checks):
    """Makes the checks on each server, which begins with the keys `ops` and `team`."""
    for kind in KINDS:
        place = os.path.join(folder, kind)
        os.mkdir(place)
        keys = put_keys(os.path.join(place, "keys"), key_line("ops", "apple"), key_line("team", "banana", "0-1"))
        server = serve(kind, place, keys)
        checks(kind, server, keys)
        server.kill()


def greeted(server, secret):
    session = server.session()
    told = session.ask(hello(secret))
    session.close()
    return told


def try_new(folder):
    """Keys that come, by a file that is put in the place of the old one, and by one that is written on."""

    def checks(kind, server, keys):
        same(f"{kind}: not yet", greeted(server, "cherry"), REFUSED)
        put_keys(keys, key_line("ops", "apple"), key_line("new", "cherry", "2"))
        same(f"{kind}: a new key", greeted(server, "cherry"), greeting("new"))
        same(f"{kind}: the old one", greeted(server, "apple"), greeting("ops"))
        same(f"{kind}: one that is gone", greeted(server, "banana"), REFUSED)
        with open(keys, "ab") as file:
            file.write(keys_text(key_line("more", "melon")))
        same(f"{kind}: one that was written behind", greeted(server, "melon"), greeting("more"))
        # As many bytes, in the same file: the time tells.
        time.sleep(0.05)
        with open(keys, "r+b") as file:
            held = file.read()
            file.seek(0)
            file.write(held.replace(b"more", b"most"))
        same(f"{kind}: a change of as many bytes", greeted(server, "melon"), greeting("most"))
        put(keys, b"")
        same(f"{kind}: no keys at all", [greeted(server, secret) for secret in ("apple", "melon")], [REFUSED] * 2)
        put_keys(keys, key_line("ops", "apple"))
        same(f"{kind}: a session that begins at once", greeted(server, "apple"), greeting("ops"))
        # A link that leads to another file, as some systems replace what they mount.
        other = put_keys(keys + ".other", key_line("linked", "apple"))
        os.symlink(other, keys + ".link")
        os.rename(keys + ".link", keys)
        same(f"{kind}: a link in the place of the file", greeted(server, "apple"), greeting("linked"))

    each_kind(folder, checks)


def try_running(folder):
    """A session that runs keeps its key, though it is changed or gone; a new one has the new key."""

    def checks(kind, server, keys):
        old, none = begun(server, "banana"), server.session()
        same(f"{kind}: before its secret", none.ask(attach(0)), REFUSED)
        put_keys(keys, key_line("team", "banana", "2"))
        new = begun(server, "banana")
        same(f"{kind}: the new key", new.ask_all(attach(0), attach(2)), [REFUSED, READY])
        same(f"{kind}: the old one", old.ask_all(attach(2), attach(0)), [REFUSED, READY])
        same(f"{kind}: a session that began before the change", none.ask(hello("banana")), greeting("team"))
        same(f"{kind}: has the new key", none.ask(attach(1)), REFUSED)
        put_keys(keys, key_line("other", "pear"))
        same(f"{kind}: once the key is gone", greeted(server, "banana"), REFUSED)
        told = old.ask_all({"do": "submit", "lock": "bank", "number": 1, "script": []}, {"do": "detach"}, attach(1))
        same(f"{kind}: its session goes on", (b'"receipt"' in told[0], told[1:]), (True, [b'{"ok":"detach"}', READY]))
        same(f"{kind}: and has no more than before", old.ask_all({"do": "detach"}, attach(3))[1], REFUSED)
        for session in (old, none, new):
            session.close()

    each_kind(folder, checks)


def said(server, keys, seconds=1.0):
    """What the standard error has by now. The server must be at its end."""
    time.sleep(seconds)
    _, _, told = server.kill()
    prefix = f'rme: the keys stay as they were, since "{keys}" cannot be used: '
    return [line[len(prefix) :] if line.startswith(prefix) else line for line in without_count(told).decode().splitlines()]


def try_broken(folder):
    """Each way in which a changed file cannot be used: the old keys stay, and it is said once, however many sessions begin."""
    ways = {
        "a bad line": (lambda keys: put(keys, b"# keys\nno key\n"), "line 2: "),
        "a good line before a bad one": (lambda keys: put(keys, keys_text(key_line("new", "cherry"), "no key")), "line 2: "),
        "one that others read": (lambda keys: put_keys(keys, key_line("new", "cherry"), mode=0o644), "other users"),
        "one that others write": (lambda keys: put_keys(keys, key_line("new", "cherry"), mode=0o602), "other users"),
        "no file": (os.remove, ""),
        "a folder": (lambda keys: (os.remove(keys), os.mkdir(keys)), "not a regular file"),
        "a pipe": (lambda keys: (os.remove(keys), os.mkfifo(keys)), "not a regular file"),
        "CRLF": (lambda keys: put(keys, keys_text(key_line("new", "cherry")).replace(b"\n", b"\r\n")), "line 1: "),
    }
    for kind in KINDS:
        for at, (name, (change, word)) in enumerate(ways.items()):
            place = os.path.join(folder, f"{kind}-{at}")
            os.mkdir(place)
            keys = put_keys(os.path.join(place, "keys"), key_line("ops", "apple"))
            server = serve(kind, place, keys)
            change(keys)
            told = [greeted(server, "apple") for _ in range(5)]
            same(f"{kind}, {name}: the old keys stay", told, [greeting("ops")] * 5)
            remove(keys)
            put_keys(keys, key_line("new", "cherry"))
            same(f"{kind}, {name}: once it is mended, the new ones", greeted(server, "cherry"), greeting("new"))
            lines = said(server, keys, 0)
            check(f"{kind}, {name}: it is said once", len(lines) == 1 and word in lines[0], lines)


def try_path(folder):
    """A path with bytes that steer a terminal: what is said of it has none."""
    for kind in KINDS:
        keys = put_keys(os.path.join(folder, f"{kind} \x1b[2J\nkeys \u00e9"), key_line("ops", "apple"))
        server = serve(kind, folder, keys)
        put(keys, b"no key\n")
        same(f"{kind}: the old keys stay", greeted(server, "apple"), greeting("ops"))
        told = without_count(server.kill()[2])
        check(f"{kind}: one line, which steers nothing", told.count(b"\n") == 1 and b"line 1: " in told and b"\x1b" not in told, told)


def remove(path):
    if os.path.isdir(path):
        shutil.rmtree(path)
    elif os.path.lexists(path):
        os.remove(path)


def try_twice(folder):
    """One change after another that cannot be used: each is said; one that nobody meets is not."""

    def checks(kind, server, keys):
        for line in ("no key", "no other key", "still no key"):
            put_keys(keys, line)
            same(f"{kind}: {line}", [greeted(server, "apple"), greeted(server, "banana")], [greeting("ops"), greeting("team")])
        put_keys(keys, "a change that nobody meets")
        put_keys(keys, key_line("ops", "apple"))
        same(f"{kind}: mended", greeted(server, "banana"), REFUSED)
        # What repeats within 5 seconds may be said together, with its count.
        lines = said(server, keys, 6)
        told = sum(int(line.rpartition("(")[2].split()[0]) if "times" in line else 1 for line in lines)
        check(f"{kind}: three were said", told == 3 and all("line 1: " in line for line in lines), lines)

    each_kind(folder, checks)


def try_storm(folder):
    """The file is changed all the time, also to what cannot be used, while sessions begin: a key that each version has is always
    known, and one that no version has never."""

    def checks(kind, server, keys):
        over, wrong, count = threading.Event(), [], [0]

        def change():
            at = 0
            while not over.is_set():
                at += 1
                if at % 3 == 0:
                    put(keys, b"no key\n")
                else:
                    put_keys(keys, *(key_line(f"n{each}", f"s{each}") for each in range(at % 50)), key_line("ops", "apple"))
                time.sleep(0.002)

        def begin():
            while not over.is_set():
                told = greeted(server, "apple")
                count[0] += 1
                if told != greeting("ops"):
                    wrong.append(told)

        threads = [threading.Thread(target=change), *(threading.Thread(target=begin) for _ in range(4))]
        # A pipe that nobody reads is full at some time; then lines are left out.
        reader = threading.Thread(target=server.program.stderr.read)
        reader.start()
        for thread in threads:
            thread.start()
        time.sleep(3)
        over.set()
        for thread in threads:
            thread.join()
        check(f"{kind}: {count[0]} sessions", count[0] > 5 and not wrong, wrong[:3])
        same(f"{kind}: a wrong secret", greeted(server, "melon"), REFUSED)
        server.program.terminate()
        reader.join()

    each_kind(folder, checks)


def part():
    main_in_folders(try_new, try_running, try_broken, try_path, try_twice, try_storm, minutes=8)
