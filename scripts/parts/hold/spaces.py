"""spaces: commands at servers of spaces: `--space`, keys to spaces, and connections that are made again in the space."""

import os
import subprocess
import time

from lib import kept
from lib.checks import check, main_in_folders, same
from lib.holds import Door, Way, until
from lib.keys import key_line, put, put_keys
from lib.spaces import made, path_of, serve

TOLD = 'echo "$RME_LOCK $RME_WORKER $RME_NUMBER $RME_SECTION${RME_AGAIN:+ again}"'
TELLS = ["bank", "--", "sh", "-c", TOLD]
WAITS = 'echo $$; until [ -e "$0" ]; do sleep 0.02; done; echo over'


class SpaceWay(Way):
    """A server of the spaces `a` and `b`; words are those of rme-hold without a space."""

    def start(self, port=0):
        self.place = os.path.join(self.folder, "spaces")
        self.server = serve(self.place, port=port)
        made(self.server, "a", "b", workers=4)


def in_space(name):
    return ["--space", name]


def try_spaces(folder):
    """The same worker and the same lock of two spaces, at once."""
    way = SpaceWay("spaces", folder)
    same("a command", way.hold(*in_space("a"), *TELLS), (0, "bank 0 1 0\n", ""))
    same("any worker", way.hold(*in_space("a"), *TELLS, worker=None), (0, "bank 0 2 1\n", ""))
    same("of the other space", way.hold(*in_space("b"), *TELLS), (0, "bank 0 1 0\n", ""))
    over = os.path.join(folder, "over")
    first = way.begin(*in_space("a"), "bank", "--", "sh", "-c", WAITS, over)
    check("one is inside", first.stdout.readline().strip().isdigit())
    same("nobody else comes in", way.hold(*in_space("a"), "-n", *TELLS, worker=1)[0], 75)
    same("but in the other space", way.hold(*in_space("b"), "-n", *TELLS), (0, "bank 0 2 1\n", ""))
    put(over, b"")
    same("it ends well", (first.wait(20), first.stdout.read()), (0, "over\n"))
    same("a command that fails keeps the lock", way.hold(*in_space("a"), "bank", "--", "false")[0], 1)
    same("of its own space", [way.hold(*in_space(it), "-n", *TELLS, worker=1)[0] for it in ("a", "b")], [75, 0])
    same("its next run, by any", way.hold(*in_space("a"), *TELLS, worker=None)[1], "bank 0 4 3 again\n")
    way.end()


def try_refused(folder):
    """Spaces that are not there, invalid names, and words that do not fit: 64, and nothing is done."""
    way = SpaceWay("spaces", folder)
    for name, words in {"no such space": in_space("c"), "no name": in_space("C"), "an empty name": in_space(""), "no space": []}.items():
        for worker in (0, None):
            status, told, why = way.hold(*words, *TELLS, worker=worker)
            check(f"{name}, worker {worker}", (status, told) == (64, "") and why.startswith("rme-hold: ") and why.count("\n") == 1, (status, told, why))
    way.name, way.path = "file", os.path.join(folder, "words")
    status, told, why = way.hold(*in_space("a"), *TELLS)
    check("beside --file", (status, told) == (64, "") and "--space" in why, (status, told, why))
    way.name = "spaces"
    same("nothing of this was a job", [way.hold(*in_space(it), *TELLS)[1] for it in ("a", "b")], ["bank 0 1 0\n"] * 2)
    way.end()
    plain = Way("plain", folder)
    status, told, _ = plain.hold(*in_space("a"), *TELLS)
    same("a server without spaces", (status, told), (64, ""))
    plain.end()


def try_keys(folder):
    """With keys: 77 if the key does not have the space."""
    way = SpaceWay("spaces", folder)
    kept.kill(way.server)
    keys = put_keys(os.path.join(folder, "keys"), key_line("ops", "apple"), key_line("one", "banana", "*", "a"))
    for name, secret in {"ops": "apple", "one": "banana", "wrong": "melon"}.items():
        put(os.path.join(folder, name), secret.encode() + b"\n")
    way.server = serve(way.place, keys=keys)

    def key(name):
        return ["--key-file", os.path.join(folder, name)]

    same("a key to it", way.hold(*key("one"), *in_space("a"), *TELLS), (0, "bank 0 1 0\n", ""))
    same("a key to all", way.hold(*key("ops"), *in_space("b"), *TELLS, worker=None), (0, "bank 0 1 0\n", ""))
    for name, words in {"another space": [*key("one"), *in_space("b")], "no secret": in_space("a"), "a wrong one": [*key("wrong"), *in_space("a")]}.items():
        status, told, why = way.hold(*words, *TELLS)
        check(name, (status, told) == (77, "") and "NotAllowed" in why, (status, told, why))
    same("no such space, by a key to all", way.hold(*key("ops"), *in_space("c"), *TELLS)[0], 64)
    way.end()


def begun_in_a(way, over):
    """A command in the space `a` that runs until there is a file of this name, and its process."""
    first = way.begin(*in_space("a"), "bank", "--", "sh", "-c", WAITS, over, stderr=subprocess.PIPE)
    return first, int(first.stdout.readline())


def check_goes_on(way, first, over):
    """Nobody else comes in while the command runs, and it counts once."""
    same("nobody else comes in", way.hold(*in_space("a"), "-n", *TELLS, worker=1)[0], 75)
    put(over, b"")
    same("it ends well", (first.wait(20), first.stdout.read(), first.stderr.read()), (0, "over\n", ""))
    same("and counted once", way.hold(*in_space("a"), *TELLS)[:2], (0, "bank 0 2 1\n"))
    way.end()


def try_cut(folder):
    """The connection breaks while a command runs: it is made again in the space, and the command goes on."""
    way, over = SpaceWay("spaces", folder), os.path.join(folder, "over")
    way.door = Door(way.server.port)
    first, child = begun_in_a(way, over)
    for _ in range(2):
        way.door.cut()
        check("cut, and made again", until(lambda: len(way.door.open) >= 2))
        time.sleep(0.3)  # it is attached again
    check("the command goes on", is_alive(child))
    check_goes_on(way, first, over)


def try_killed(folder):
    """The space's file is away for a while, and the server is killed and started again: the command goes on."""
    way, over = SpaceWay("spaces", folder), os.path.join(folder, "over")
    first, child = begun_in_a(way, over)
    path = path_of(way.place, "a")
    os.rename(path, path + ".kept")
    time.sleep(3)
    os.rename(path + ".kept", path)
    time.sleep(1)
    check("the file was away, and the command goes on", is_alive(child))
    port = way.server.port
    kept.kill(way.server)
    way.server = serve(way.place, port=port)
    time.sleep(1)
    check("the server was killed, and the command goes on", is_alive(child))
    check_goes_on(way, first, over)


def try_away(folder):
    """The space's file does not come back: the command is ended, 75, and its job is pending once the file is there."""
    way = SpaceWay("spaces", folder)
    first = way.begin(*in_space("a"), "bank", "--", "sh", "-c", "echo $$; sleep 60", stderr=subprocess.PIPE)
    child, path = int(first.stdout.readline()), path_of(way.place, "a")
    os.rename(path, path + ".kept")
    same("it is ended", (first.wait(40), until(lambda: not is_alive(child))), (75, True))
    os.rename(path + ".kept", path)
    same("its job is pending", way.hold(*in_space("a"), *TELLS)[:2], (0, "bank 0 1 0 again\n"))
    way.end()


def is_alive(process):
    try:
        os.kill(process, 0)
        return True
    except ProcessLookupError:
        return False


def part():
    main_in_folders(try_spaces, try_refused, try_keys, try_cut, try_killed, try_away, minutes=4)
