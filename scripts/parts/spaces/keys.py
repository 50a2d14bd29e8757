"""keys: servers of spaces with keys. Which spaces a key has, by names, by beginnings, by `*` and without a word; who may create and drop;
its workers in each space; and that what is refused changes nothing."""

import os

from lib.checks import check, main_in_folders, same
from lib.keys import BAD_LINE, REFUSED, greeting, hello, key_line, put_keys
from lib.orders import COMMIT, DETACH, LAST, ONE, STATUS, attach, job, receipt, stands, text
from lib.servers import line_of
from lib.spaces import CREATED, DROPPED, PING, PONG, SPACES, USED, create, drop, listed, path_of, refused, serve, use

READY, DETACHED, NO_SPACE, BAD_SHAPE, BUSY = stands("ready", 0), text(ok="detach"), refused(23), refused(5), refused(9)
THERE = ["a", "b", "team-", "team-1", "team-2", "teams", "tenant-7", "tenant-70"]

# The name of each key, which is its secret too: its workers, its spaces as the file has them, and which of THERE these are.
KEYS = {
    "admin": ("*", "+*", THERE),
    "all": ("*", "*", THERE),
    "wordless": ("*", None, THERE),
    "one": ("*", "tenant-7", ["tenant-7"]),
    "team": ("*", "team-*", ["team-", "team-1", "team-2"]),
    "maker": ("*", "+team-*", ["team-", "team-1", "team-2"]),
    "both": ("0", "a,team-1,t*", ["a", "team-", "team-1", "team-2", "teams", "tenant-7", "tenant-70"]),
    "other": ("*", "nowhere", []),
    "looker": ("-", "a,b", ["a", "b"]),
    "some": ("0-1", "+a,b", ["a", "b"]),
}


def key_file(folder, keys=KEYS):
    lines = (key_line(name, name, workers, *([spaces] if spaces else [])) for name, (workers, spaces, _) in keys.items())
    return put_keys(os.path.join(folder, "keys"), *lines)


def keyed(folder, **options):
    """A server with these keys, at which all of THERE are spaces."""
    place = os.path.join(folder, "spaces")
    server = serve(place, keys=key_file(folder), **options)
    admin = begun(server, "admin")
    if admin.ask_all(*(create(name, workers=3) for name in THERE)) != [CREATED] * len(THERE):
        check("the key to all creates all", False)
    admin.close()
    return server, place


def begun(server, name, *orders):
    """A session that has said the secret of this key, and what was answered to these orders is dropped."""
    session = server.session()
    session.ask_all(hello(name), *orders)
    return session


def try_before(folder):
    """Before the secret each order is refused 25, and nothing is changed."""
    server, place = keyed(folder)
    session = server.session()
    orders = [PING, SPACES, create("new"), use("a"), drop("a"), use("A"), attach(0), STATUS, {"do": "owner", "lock": "bank"}]
    same("before the secret", session.ask_all(*orders), [REFUSED] * len(orders))
    for what, line in {"a bad line": b"use a\n", "an order of no form": line_of(do="use"), "a long line": b" " * 70_000 + b"\n"}.items():
        session.send(line)
        same(f"before the secret, {what}", session.hear().rstrip(b"\n"), REFUSED)
    same("then the secret, and a space", session.ask_all(hello("one"), use("tenant-7"), attach(0)), [greeting("one"), USED, READY])
    same("a secret is no order then", session.ask(hello("all")), BAD_LINE)
    session.close()
    session = server.session()
    same("a wrong secret ends the session", session.say(hello("melon"), use("a"), drop("a")), [REFUSED])
    same("nothing was changed", sorted(it for it in os.listdir(place) if it.endswith(".state")), sorted(f"{it}.state" for it in THERE))
    server.kill()


def try_use(folder):
    """Each key and each space: `use` of those that it has, whether one is there or not."""
    server, _ = keyed(folder)
    for name, (_, _, own) in KEYS.items():
        session = begun(server, name)
        told = {space: session.ask(use(space)) for space in THERE}
        same(f"key {name}", told, {space: USED if space in own else REFUSED for space in THERE})
        session.close()
    session = begun(server, "team")
    told = session.ask_all(use("team-9"), use("tea"), use("nowhere"), use("team-" + "x" * 59), use("team-" + "x" * 60))
    same("what is not there", told[:4], [NO_SPACE, REFUSED, REFUSED, NO_SPACE])
    check("a name that is too long", told[4] in (REFUSED, BAD_SHAPE), told[4])
    told = session.ask_all(use("team-1"), use("a"), {"do": "cells", "lock": "bank"}, use("team-2"), PING)
    same("after a refusal it uses the same", told, [USED, REFUSED, text(cells=[0], ok="cells", settled=True), USED, PONG])
    told = session.ask_all(attach(0), use("a"), use("team-1"), LAST)
    same("with a worker the key comes first", told, [READY, REFUSED, BUSY, text(last=None, ok="last")])
    session.close()
    server.kill()


def try_make(folder):
    """`create` and `drop` ask for a key with the space and with `+`; what is refused changes nothing."""
    server, place = keyed(folder)
    before = {name: os.stat(os.path.join(place, name)).st_ino for name in os.listdir(place)}
    for name, (_, spaces, own) in KEYS.items():
        if (spaces or "").startswith("+"):
            continue
        session = begun(server, name)
        for space in (*THERE, "new", "team-9", "nowhere"):
            told = session.ask_all(create(space, workers=3), drop(space))
            check(f"key {name} neither creates nor drops {space}", told == [REFUSED] * 2, (told, own), quiet=True)
        session.close()
    same("nothing was changed", {name: os.stat(os.path.join(place, name)).st_ino for name in os.listdir(place)}, before)
    session = begun(server, "maker")
    told = session.ask_all(create("team-9"), create("team-1"), create("team-1", workers=3), create("team"), create("a", workers=3), drop("teams"))
    same("a key that may, of its spaces", told, [CREATED, refused(24), CREATED, REFUSED, REFUSED, REFUSED])
    same("and drops them", session.ask_all(drop("team-9"), drop("team-9"), drop("a")), [DROPPED, NO_SPACE, REFUSED])
    same("a shape that none can have", session.ask_all(create("team-9", workers=0), create("a", workers=0)), [BAD_SHAPE] * 2)
    session.close()
    session = begun(server, "all")
    same("nor says who may not create that it could not be", session.ask_all(create("a", workers=0), create("new", cells=99)), [REFUSED] * 2)
    session.close()
    session = begun(server, "some")
    told = session.ask_all(use("a"), drop("b"), create("b"), drop("a"), use("b"), drop("a"), create("a"))
    same("two of them", told, [USED, DROPPED, CREATED, BUSY, USED, DROPPED, CREATED])
    session.close()
    server.kill()


def try_workers(folder):
    """The workers of a key are the same in each of its spaces, and `any` asks for all workers of the space."""
    server, _ = keyed(folder)
    session = begun(server, "some")
    for space in ("a", "b"):
        told = session.ask_all(use(space), attach(0), DETACH, attach(1), DETACH, attach(2), attach(2, take=True), {"do": "attach", "any": "ready"})
        wanted = [USED, READY, DETACHED, READY, DETACHED, REFUSED, REFUSED, REFUSED]
        same(f"workers 0 and 1 of {space}", told, wanted)
    session.close()
    session = begun(server, "looker")
    told = session.ask_all(use("a"), attach(0), {"do": "owner", "lock": "bank"}, job("submit", "bank", 1, *ONE))
    same("a key of no workers looks", told, [USED, REFUSED, text(ok="owner", owner=None), refused(19)])
    session.close()
    admin = begun(server, "admin", create("small", workers=1), create("large", workers=255))
    session = begun(server, "all")
    told = [session.told(**use("large")).get("ok"), session.told(do="attach", any="ready").get("worker"), session.told(**DETACH).get("ok")]
    same("`*` is all workers of each space", (told, session.ask(attach(254))), (["use", 0, "detach"], READY))
    session.close()
    admin.close()
    server.kill()
    keys = {**KEYS, "zero": ("0", "*", THERE)}
    key_file(folder, keys)
    server = serve(os.path.join(folder, "spaces"), keys=os.path.join(folder, "keys"))
    session = begun(server, "zero")
    told = session.ask_all(use("small"), {"do": "attach", "any": "ready"}, DETACH, use("a"), {"do": "attach", "any": "ready"})
    wanted = [USED, text(number=0, ok="attach", stance="ready", worker=0), DETACHED, USED, REFUSED]
    same("`any` of a space with one worker, by a key to it", told, wanted)
    server.kill()


def try_list(folder):
    """Any key may list: the answer has each name once, in order, and those behind one."""
    server, _ = keyed(folder)
    for name in KEYS:
        session = begun(server, name)
        told = session.told(**SPACES)
        own = KEYS[name][2]
        check(f"key {name}: its spaces are listed, in order", set(own) <= set(told["spaces"]) and told["spaces"] == sorted(set(told["spaces"])), told)
        session.close()
    session = begun(server, "all")
    same("all, and those behind one", session.ask_all(SPACES, {**SPACES, "after": "team-1"}),
         [listed(*THERE), listed("team-2", "teams", "tenant-7", "tenant-70")])
    server.kill()


def try_same(folder):
    """With a key to all a conversation is answered as without keys; sessions keep their key from space to space."""
    server, _ = keyed(folder)
    plain = serve(os.path.join(folder, "plain"))
    one, other = begun(server, "admin"), plain.session()
    other.ask_all(*(create(name, workers=3) for name in THERE))
    orders = [use("a"), attach(0), job("submit", "bank", 1, ["add", 0, 5]), job("enter", "bank", 2, *ONE), use("b"), COMMIT, DETACH, use("b"), LAST,
              attach(0), job("submit", "bank", 1, *ONE), DETACH, use("gone"), drop("b"), use("a"), create("c"), drop("c"), drop("c"), SPACES, PING,
              attach(9), {"do": "attach", "any": "ready"}, {"do": "none"}, use(""), create("a"), {"do": "cells", "lock": "bank"}]  # fmt: skip
    wrong = [(order, told) for order in orders if (told := [it.ask(order) for it in (one, other)])[0] != told[1]]
    same(f"{len(orders)} orders", wrong, [])
    one.close()
    session = begun(server, "team")
    told = session.say(use("team-1"), attach(0), job("submit", "bank", 1, *ONE), DETACH, use("a"), use("team-2"), attach(0), use("team-1"))
    wanted = [USED, READY, text(ok="submit", receipt=receipt(0, 1, "bank", 0, 1)), DETACHED, REFUSED, USED, READY, BUSY]
    same("the lines behind `use`, by a key to some spaces", told, wanted)
    plain.kill()
    server.kill()


def try_changed(folder):
    """A new file of keys is for sessions that begin then; others keep what their key had."""
    server, place = keyed(folder)
    old = begun(server, "one", use("tenant-7"))
    key_file(folder, {**KEYS, "one": ("*", "tenant-70", []), "admin": ("*", "+nowhere", [])})
    new = begun(server, "one")
    same("a session that begins then", new.ask_all(use("tenant-7"), use("tenant-70")), [REFUSED, USED])
    same("one that began before", old.ask_all(use("tenant-70"), use("tenant-7"), attach(0)), [REFUSED, USED, READY])
    same("who might create", begun(server, "admin").ask_all(create("new"), drop("a"), create("nowhere")), [REFUSED, REFUSED, CREATED])
    check("only that was made", not os.path.exists(path_of(place, "new")) and os.path.exists(path_of(place, "a")))
    server.kill()


def part():
    main_in_folders(try_before, try_use, try_make, try_workers, try_list, try_same, try_changed, minutes=2)
