"""Servers of spaces, `rme serve --spaces DIR`: the orders on spaces, the answers, and the files in DIR."""

import os

from lib.orders import job, text
from lib.servers import Server

NAMES = {1: "BadLine", 2: "LineTooLong", 5: "BadShape", 6: "NoWorker", 9: "Busy", 11: "NoLock", 18: "Taken", 19: "NotAttached",
         20: "NoMemory", 23: "NoSpace", 24: "SpaceDiffers", 25: "NotAllowed"}  # fmt: skip
CREATED, USED, DROPPED, PONG = (text(ok=word) for word in ("create", "use", "drop", "ping"))
SPACES, PING = {"do": "spaces"}, {"do": "ping"}
LONGEST = 64  # bytes of a name


def refused(code):
    """The bytes of the refusal of this number."""
    return text(code=code, error=NAMES[code])


def create(space, *locks, **sizes):
    return {"do": "create", "space": space, "locks": list(locks or ("bank",)), **sizes}


def use(space):
    return {"do": "use", "space": space}


def drop(space):
    return {"do": "drop", "space": space}


def listed(*names, more=False):
    """The answer to `spaces`."""
    return text(more=more, ok="spaces", spaces=list(names))


def spaces_words(folder, *further, **options):
    """The words after `rme` for a server of this folder, with these options, as `close_after` for `--close-after`."""
    given = [word for name, value in options.items() for word in ("--" + name.replace("_", "-"), str(value))]
    return ["serve", "--spaces", folder, *given, *further]


def serve(folder, *further, how=(), **options):
    """A server of the spaces of this folder, which is made if it is not there, on a port that is free if no place is
    said."""
    os.makedirs(folder, exist_ok=True)
    if not {"port", "socket"} & set(options):
        options["port"] = 0
    return Server(words=spaces_words(folder, *further, **options), how=how)


def path_of(folder, name):
    """The file of a space."""
    return os.path.join(folder, name + ".state")


def session_in(server, space, *orders):
    """A session that uses the space, after these orders were answered, whatever the answers were."""
    session = server.session()
    session.ask_all(use(space), *orders)
    return session


def made(server, *names, **sizes):
    """Creates spaces with a lock `bank`."""
    session = server.session()
    told = session.ask_all(*(create(name, **sizes) for name in names))
    session.close()
    if told != [CREATED] * len(names):
        raise AssertionError(f"{names}: {told}")


def one_job(server, space, worker=0, lock="bank", amount=1):
    """Makes the next job of a worker of the space, in a session of its own, and answers its reply; or what was answered in place
    of a receipt."""
    session = server.session()
    told = [session.told(**use(space)), session.attach(worker)] if space else [session.attach(worker)]
    number = told[-1].get("number", -1) + 1
    told.append(session.told(**job("submit", lock, number, ["add", 0, amount])))
    session.told(do="detach")
    session.close()
    return told[-1].get("receipt", {}).get("reply", told)


