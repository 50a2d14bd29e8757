"""Sessions of `rme serve` that enter a lock and commit, over connections that are cut, and with malformed lines.

A session that attaches, enters and commits ends after each byte of its lines, once by a close and once by a reset, with
nobody in its way and behind another: the job counts once, and as long as its worker is inside, another's `enter` waits.
Lines of `enter` and `commit` with a key that is missing, further or of another kind are refused in each stance, and leave
the session as it was.
"""

import os
import signal
import time

from lib.checks import check, main, same
from lib.servers import Server, Session, line_of, reset

ENTER = {"do": "enter", "lock": "a", "number": 1, "script": [["add", 0, 5]]}
COMMIT = {"do": "commit"}
ONE = [["add", 0, 1]]
BAD = {"code": 1, "error": "BadLine"}


def serve():
    """A server that serves until it is killed."""
    return Server(words=["serve", "--workers", "2", "--cells", "1", "--jobs", "100000", "--port", "0", "a"])


def attached(server, worker):
    session = server.session()
    return session, session.attach(worker)


# ---- connections that end at each byte


class Rival:
    """A client of worker 1, with jobs of its own."""

    def __init__(self, server):
        self.session, _ = attached(server, 1)
        self.number = self.counted = 0

    def enters(self):
        """The answer to the next job's line."""
        self.number += 1
        return self.session.told(do="enter", lock="a", number=self.number, script=ONE, tries=3)

    def commits(self, section):
        """Whether the job that it is inside with is done, and its receipt has the place that it was told."""
        self.counted += 1
        receipt = self.session.told(do="commit").get("receipt")
        return receipt is not None and receipt["place"] == section

    def tries(self):
        """Whether it was inside, and committed; or what was answered that may not be."""
        told = self.enters()
        if told == {"ok": "enter", "waiting": True}:
            gone = self.session.told(do="commit"), self.session.told(do="withdraw")
            wanted = {"code": 22, "error": "NotInside"}, {"number": self.number, "ok": "withdraw"}
            return False if gone == wanted else gone
        section = told.pop("section", None)
        is_held = told == {"life": 1, "number": self.number, "ok": "enter", "stance": "held"}
        return True if is_held and self.commits(section) else (section, told)


def ends_of(lines):
    """For each line after how many bytes of the whole it may be obeyed: with its last brace."""
    ends, size = [], 0
    for line in lines:
        ends.append(size + len(line) - 1)
        size += len(line)
    return ends


def attempt(server, text, hard):
    """A session that sends these bytes and ends: by a close once it has read what it is answered, or by a reset."""
    connection = server.connect()
    session = Session(connection)
    session.send(text)
    if not hard:
        session.hang_up()
        return
    session.lines.close()
    reset(connection)
    until_ended(server)


def until_ended(server):
    """Waits until no session runs but the rival's. Connections are taken in turn, and each session has a thread: once a new
    session is answered, the one before it has its thread, or has ended."""
    session = server.session()
    session.told(do="last")
    while len(os.listdir(f"/proc/{server.program.pid}/task")) > server.threads + 1:
        time.sleep(0.0005)
    session.close()


def stands(server):
    """Where worker 0 stands."""
    session, stood = attached(server, 0)
    session.hang_up()
    return stood["stance"], stood["number"]


def finishes(server, number, place):
    """Whether the same lines, sent again, answer the receipt of the job, at this place of the lock."""
    session, _ = attached(server, 0)
    entered = session.told(**{**ENTER, "number": number})
    told = entered if "receipt" in entered else session.told(do="commit")
    session.hang_up()
    reply = 5 * number + place - (number - 1)  # the rival's jobs before it added 1 each
    return told.get("receipt") == {"lock": "a", "number": number, "place": place, "reply": reply, "worker": 0}


def cut_without_rival(server, rival, number, lines, length, hard):
    """What went wrong if job `number`, with no other worker in its way, was cut after this number of bytes; or None."""
    attempt(server, b"".join(lines)[:length], hard)
    stood = stands(server)
    _, entered, committed = ends_of(lines)
    told = [("ready", number - 1), ("held", number), ("ready", number)]
    if stood not in (told if hard else [told[(length >= entered) + (length >= committed)]]):
        return stood
    was_inside = rival.tries()
    if was_inside is not (stood[0] != "held"):
        return stood, was_inside
    place = number - 1 + rival.counted - (was_inside and stood == ("ready", number))
    return None if finishes(server, number, place) else (stood, "not once")


def cut_waiting(server, rival, number, lines, length, hard):
    """The same if the rival is inside."""
    inside = rival.enters()
    attempt(server, b"".join(lines)[:length], hard)
    stood = stands(server)
    told = [("ready", number - 1), ("climb", number)]
    if stood not in (told if hard else [told[length >= ends_of(lines)[1]]]) or not rival.commits(inside.get("section")):
        return inside, stood
    return None if finishes(server, number, number - 1 + rival.counted) else (stood, "not once")


def try_cuts(cut, name, hard):
    server = serve()
    rival, number, length, wrong = Rival(server), 0, 0, []
    server.threads = len(os.listdir(f"/proc/{server.program.pid}/task"))
    while True:
        number += 1
        lines = [line_of(do="attach", worker=0), line_of(**{**ENTER, "number": number, "tries": 3}), line_of(**COMMIT)]
        if length > sum(map(len, lines)):
            break
        if told := cut(server, rival, number, lines, length, hard):
            wrong.append((length, told))
        length += 1
    way = f"{name}, {'reset' if hard else 'closed'} after each of {length - 1} bytes"
    check(f"{way}: once, and nobody else inside before the commit", not wrong, wrong[:3])
    session, _ = attached(server, 0)
    told = session.told(do="submit", lock="a", number=number, script=[])
    same(f"{way}: no job more", told["receipt"]["place"], number - 1 + rival.counted)
    server.kill()


def try_all_cuts():
    for hard in (False, True):
        try_cuts(cut_without_rival, "without a rival", hard)
        try_cuts(cut_waiting, "behind another", hard)


# ---- lines that are no orders

WRONG = {
    "do": ["Enter", "enter ", None, 0],
    "lock": [None, 0, ["a"], {}],
    "number": [None, "1", -1, 1.5, [1], 2**64],
    "script": [None, "add", {}, [["add"]], [["add", 0]], [["add", "0", 5]], [["fly", 0]], [[]], [5]],
    "tries": [None, "3", 0, -1, 1.5, 1_000_001],
}
FURTHER = [("worker", 0), ("steps", 1), ("stance", "held"), ("", 0)]


def hostile():
    """Lines of `enter` and `commit` that are no orders."""
    for key in ENTER:
        yield {name: value for name, value in ENTER.items() if name != key}
    for order in (ENTER, COMMIT):
        for key, value in FURTHER:
            yield {**order, key: value}
    for key, values in WRONG.items():
        for value in values:
            yield {**ENTER, key: value}
    for key, value in {**ENTER, "tries": 3}.items():
        if key != "do":
            yield {**COMMIT, key: value}
    for value in ("Commit", "commit ", ["commit"]):
        yield {"do": value}


def standing(session):
    """What shows a session's stance and changes nothing but by tries: the last receipt's, and a commit's, if it
    waits."""
    told = session.told(do="last")
    return told if told.get("code") != 9 else (told, session.told(**{**ENTER, "tries": 1}))


def bring(server, stance):
    """A session with this stance; a second one is inside if it waits."""
    session = server.session()
    if stance == "none":
        return session
    session.attach(0)
    if stance == "climb":
        other, _ = attached(server, 1)
        other.told(**ENTER)
    if stance in ("climb", "held"):
        session.told(**{**ENTER, "tries": 3})
    return session


def try_hostile():
    wanted = {
        "none": {"code": 19, "error": "NotAttached"},
        "ready": {"last": None, "ok": "last"},
        "climb": ({"code": 9, "error": "Busy"}, {"ok": "enter", "waiting": True}),
        "held": ({"code": 9, "error": "Busy"}, {"life": 1, "number": 1, "ok": "enter", "section": 0, "stance": "held"}),
    }
    orders = list(hostile())
    for stance, standing_there in wanted.items():
        server = serve()
        session = bring(server, stance)
        before = standing(session)
        wrong = [order for order in orders if session.told(**order) != BAD or standing(session) != before]
        after = standing(session)
        check(f"{stance}: {len(orders)} lines that are no orders", not wrong, wrong[:3])
        same(f"{stance}: as it was", (before, after), (standing_there, standing_there))
        server.kill()


def too_long(*_):
    raise TimeoutError("no end after 5 minutes")


def part():
    signal.signal(signal.SIGALRM, too_long)
    signal.alarm(300)
    main(try_all_cuts, try_hostile)
