"""keys: commands at servers with keys: `--key-file`, status 77, and a connection that is made again with the secret."""

import os
import signal
import subprocess
import sys
import time

from lib.checks import check, main_in_folders, same
from lib.holds import Door, Way, environment, until
from lib.keys import KINDS, begun, hello, key_line, put, put_keys, serve
from lib.orders import attach

TOLD = 'echo "$RME_LOCK $RME_WORKER $RME_NUMBER $RME_SECTION${RME_AGAIN:+ again}"'
TELLS = ["bank", "--", "sh", "-c", TOLD]


class KeyedWay(Way):
    """A server with the keys `ops`, for all workers, and `one`, for worker 1; secrets lie in files of these names."""

    def start(self, port=0):
        self.keys = put_keys(os.path.join(self.folder, "keys"), key_line("ops", "apple"), key_line("one", "banana", "1"))
        for name, secret in {"ops": "apple", "one": "banana", "wrong": "melon"}.items():
            put(os.path.join(self.folder, name), secret.encode() + b"\n")
        self.server = serve(self.name, self.folder, self.keys)

    def key(self, name):
        return ["--key-file", os.path.join(self.folder, name)]


def each_kind(folder, checks):
    for kind in KINDS:
        place = os.path.join(folder, kind)
        os.mkdir(place)
        way = KeyedWay(kind, place)
        checks(kind, way)
        way.end()


def try_secrets(folder):
    """The right secret, none, a wrong one, and a worker that the key does not allow."""

    def checks(kind, way):
        same(f"{kind}: a key to all", way.hold(*way.key("ops"), *TELLS), (0, "bank 0 1 0\n", ""))
        same(f"{kind}: a key to its worker", way.hold(*way.key("one"), *TELLS, worker=1), (0, "bank 1 1 1\n", ""))
        same(f"{kind}: any worker, by a key to all", way.hold(*way.key("ops"), *TELLS, worker=None), (0, "bank 0 2 2\n", ""))
        refused = {
            "no secret": ([], 0),
            "no secret, any worker": ([], None),
            "a wrong secret": (way.key("wrong"), 0),
            "another worker": (way.key("one"), 0),
            "any worker, by a key to one": (way.key("one"), None),
            "another worker, which is to be taken": (["--kill", *way.key("one")], 0),
        }
        for name, (words, worker) in refused.items():
            status, told, why = way.hold(*words, *TELLS, worker=worker)
            check(f"{kind}: {name}", (status, told) == (77, "") and "NotAllowed" in why and "\n" not in why[:-1], (status, told, why))
            check(f"{kind}: {name}: the secret is not said", not any(each in why for each in ("apple", "banana", "melon")), why)
        same(f"{kind}: nothing of this was a job", way.hold(*way.key("ops"), *TELLS), (0, "bank 0 3 3\n", ""))
        environment = way.hold(*way.key("ops"), "bank", "--", "env")[1]
        check(f"{kind}: the command does not have the secret", "RME_LOCK=bank" in environment and "apple" not in environment)

    each_kind(folder, checks)
    for kind in KINDS:
        place = os.path.join(folder, f"{kind}-without")
        os.mkdir(place)
        way = KeyedWay(kind, place)
        way.server.kill()
        way.server = serve(kind, os.path.join(folder, kind))
        status, told, why = way.hold(*way.key("ops"), *TELLS)
        check(f"{kind}: a server without keys takes no secret", (status, told) == (64, "") and "BadLine" in why, (status, told, why))
        same(f"{kind}: and serves those without one", way.hold(*TELLS)[0], 0)
        way.end()


def try_files(folder):
    """Files that are read, and words that are wrong: status 64, and nothing is begun."""

    def checks(kind, way):
        path = os.path.join(way.folder, "secret")
        for name, held in {"no newline": b"apple", "CRLF": b"apple\r\n", "spaces": b"  apple \n", "more lines": b"apple\nbanana\n"}.items():
            put(path, held)
            same(f"{kind}: a file with {name}", way.hold(*way.key("secret"), *TELLS)[0], 0)
        put(path, b"\xff\xfe\n")
        os.mkdir(os.path.join(way.folder, "folder"))
        for name in ("gone", "folder", "secret"):
            status, told, why = way.hold(*way.key(name), *TELLS)
            check(f"{kind}: {name} is no file with a secret", (status, told) == (64, "") and "--key-file" in why, (status, told, why))
        status, _, why = way.hold("--file", "/dev/shm/none", *way.key("ops"), *TELLS)
        check(f"{kind}: two places", status == 64 and why, why)
        status, _, why = way.hold("--key-file")
        check(f"{kind}: no name", status == 64 and why, why)

    each_kind(folder, checks)
    words = [sys.executable, "-m", "rme_hold", "--file", "f", "--key-file", "k", "--worker", "0", *TELLS]
    ran = subprocess.run(words, env=environment(), capture_output=True, text=True, timeout=60)
    check("a file of processes has no keys", ran.returncode == 64 and "--key-file" in ran.stderr, ran)


def inside(way, name):
    """A command that runs until there is a file of this name, behind a door that can be cut."""
    way.door = Door(way.server.port)
    path = os.path.join(way.folder, name)
    words = ["bank", "--", "sh", "-c", f"echo inside; until [ -e {path} ]; do sleep 0.02; done; echo over"]
    first = way.begin(*way.key("ops"), *words, stderr=subprocess.PIPE)
    same(f"{way.name}: a command is inside", first.stdout.readline(), "inside\n")
    return first, path


def is_cut(way):
    before = len(way.door.open)
    way.door.cut()
    return before > 0 and until(lambda: len(way.door.open) >= 2)


def try_again(folder):
    """The connection breaks while a command runs, and is made again with the secret, also with one that was changed meanwhile."""

    def checks(kind, way):
        first, path = inside(way, "over")
        check(f"{kind}: cut", is_cut(way))
        time.sleep(0.3)
        same(f"{kind}: nobody else comes in", way.hold("-n", *way.key("ops"), *TELLS, worker=2)[0], 75)
        put_keys(way.keys, key_line("ops", "cherry"))
        put(os.path.join(way.folder, "ops"), b"cherry\n")
        check(f"{kind}: cut, with another secret by then", is_cut(way))
        time.sleep(0.3)
        os.remove(os.path.join(way.folder, "ops"))
        check(f"{kind}: cut, with no file by then", is_cut(way))
        time.sleep(0.3)
        put(path, b"")
        same(f"{kind}: the command goes on", (first.wait(20), first.stdout.read(), first.stderr.read()), (0, "over\n", ""))
        way.door.close()
        way.door = None
        put(os.path.join(way.folder, "ops"), b"cherry\n")
        same(f"{kind}: it counted once", way.hold(*way.key("ops"), *TELLS, worker=1)[:2], (0, "bank 1 1 1\n"))

    each_kind(folder, checks)


def try_gone(folder):
    """The key is gone when the connection breaks: the command is ended, status 77, and its job is pending."""

    def checks(kind, way):
        for what, line in {"a key that is gone": key_line("one", "pear"), "a key to other workers": key_line("ops", "apple", "1-3")}.items():
            first, _ = inside(way, "never")
            put_keys(way.keys, line)
            way.door.cut()
            same(f"{kind}: {what}", first.wait(20), 77)
            told = first.stderr.read()
            check(f"{kind}: {what}, and it is said", "NotAllowed" in told, told)
            way.door.close()
            way.door = None
            put_keys(way.keys, key_line("ops", "apple"))
            told = way.hold(*way.key("ops"), *TELLS)[1]
            check(f"{kind}: {what}: its job is pending", told.endswith(" again\n"), told)

    each_kind(folder, checks)


def try_full(folder):
    """A server without room for a session is waited for, as one whose worker is not free."""
    for kind in KINDS:
        place = os.path.join(folder, kind)
        os.mkdir(place)
        way = KeyedWay(kind, place)
        way.server.kill()
        way.server = serve(kind, place, way.keys, "--at-once", "1")
        other = begun(way.server, "apple")
        same(f"{kind}: not at once", way.hold("-n", *way.key("ops"), *TELLS)[0], 75)
        waits = way.begin(*way.key("ops"), *TELLS)
        time.sleep(0.7)
        check(f"{kind}: it waits", waits.poll() is None)
        other.close()
        same(f"{kind}: then there is room", (waits.stdout.read(), waits.wait(20)), ("bank 0 1 0\n", 0))
        way.end()


def try_killed(folder):
    """rme-hold is killed: its command has the worker still; the next one needs the key too, also to take it over."""

    def checks(kind, way):
        first = way.begin(*way.key("ops"), "bank", "--", "sh", "-c", "echo inside; exec sleep 60")
        first.stdout.readline()
        first.send_signal(signal.SIGKILL)
        first.wait()
        same(f"{kind}: without a secret", way.hold("--kill", *TELLS)[0], 77)
        same(f"{kind}: its command goes on", way.hold("-n", *way.key("ops"), *TELLS)[0], 75)
        same(f"{kind}: with the secret", way.hold("--kill", "--wait", "20", *way.key("ops"), *TELLS)[:2], (0, "bank 0 1 0 again\n"))
        session = way.server.session()
        same(f"{kind}: a stranger meanwhile", [session.told(**order).get("code") for order in (attach(0), hello("x"))], [25, 25])
        session.close()

    each_kind(folder, checks)


def part():
    main_in_folders(try_secrets, try_files, try_again, try_gone, try_full, try_killed, minutes=6)
