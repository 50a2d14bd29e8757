"""storm [SEED]: servers of spaces that are killed, again and again, during creations, drops and jobs; jobs in 50
spaces, each of which counts once; and 1,000 sessions that create and drop the same few spaces."""

import json
import os
import random
import sys
import threading
import time

from lib import kept
from lib.checks import check, main_in_folders, note, same
from lib.limits import raise_files
from lib.orders import ONE, attach, job
from lib.servers import line_of
from lib.space_storms import MakerStorm, WideStorm
from lib.spaces import CREATED, DROPPED, PING, PONG, SPACES, USED, create, drop, made, refused, serve, session_in, use

SEED = int(sys.argv[1]) if len(sys.argv) > 1 else random.randrange(10**6)
KILLS = 25
SESSIONS, FEW = 1000, ["few-0", "few-1", "few-2", "few-3"]


def try_makers(folder):
    storm = MakerStorm(folder, SEED)
    wrong, counts = storm.run(KILLS), storm.counts
    told = f"{storm.kills} kills, {counts['created']} created, {counts['dropped']} dropped, {counts['jobs']} jobs, each once"
    check(f"spaces that are created and dropped under kills: {told}", not wrong and counts["dropped"] > 10 and counts["jobs"] > 100, wrong[:3])


def try_wide(folder):
    storm = WideStorm(folder, SEED)
    wrong, counts = storm.run(KILLS // 2), storm.counts
    used = sum(any(storm.receipts[name, worker] for worker in range(storm.WORKERS)) for name in storm.names)
    told = f"{storm.kills} kills, {counts['jobs']} jobs in {used} spaces, each once, {counts['renewals']} renewals"
    check(f"{storm.SPACES} spaces under kills: {told}", not wrong and counts["jobs"] > 200 and used > 30, wrong[:3])


def try_crowd(folder):
    """1,000 sessions create, use and drop the same few names, all at once: each answer is one that may be, a client of another space
    is served meanwhile, and at the end there is what is listed."""
    raise_files(4 * SESSIONS)
    server, numbers = serve(folder, at_once=SESSIONS + 20), random.Random(SEED)
    made(server, "calm")
    calm, slowest, over, jobs = session_in(server, "calm", attach(0)), [0.0], threading.Event(), [0]

    def be_calm():
        while not over.is_set():
            began = time.monotonic()
            if b"receipt" not in calm.ask(job("submit", "bank", jobs[0] + 1, *ONE)):
                return
            jobs[0] += 1
            slowest[0] = max(slowest[0], time.monotonic() - began)
            time.sleep(0.01)

    neighbour = threading.Thread(target=be_calm, daemon=True)
    neighbour.start()
    began, sessions = time.monotonic(), [server.session() for _ in range(SESSIONS)]
    orders = [[numbers.choice((create, use, drop))(numbers.choice(FEW)) for _ in range(6)] for _ in sessions]
    for turn in range(6):
        for session, own in zip(sessions, orders):
            session.send(line_of(**own[turn]))
    may_be = {"create": {CREATED}, "use": {USED, refused(23)}, "drop": {DROPPED, refused(9), refused(23)}}
    told = [[session.hear().rstrip(b"\n") for _ in range(6)] for session in sessions]
    wrong = [(order, answer) for own, all_told in zip(orders, told) for order, answer in zip(own, all_told) if answer not in may_be[order["do"]]]
    same("each answer is one that may be", wrong[:5], [])
    note(f"{6 * SESSIONS} orders in {time.monotonic() - began:.1f} seconds, {sum(answers.count(DROPPED) for answers in told)} drops")
    alive = {session.ask(PING) for session in sessions}
    same("each session goes on", alive, {PONG})
    for session in sessions:
        session.close()
    over.set()
    neighbour.join(10)
    check("another space is served meanwhile", jobs[0] > 3 and slowest[0] < 2, (jobs, slowest))
    note(f"{jobs[0]} jobs there, the slowest after {slowest[0]:.2f} seconds")
    admin = server.session()
    left = json.loads(admin.ask(SPACES))["spaces"]
    files = sorted(name[: -len(".state")] for name in os.listdir(folder) if name.endswith(".state"))
    same("what is listed is there", left, files)
    latest = time.monotonic() + 20
    for name in FEW:
        while (answer := admin.ask(drop(name))) == refused(9) and time.monotonic() < latest:
            time.sleep(0.01)
        check(f"{name} is dropped, or was", answer in (DROPPED, refused(23)), answer)
    same("each is made anew", admin.ask_all(*(create(name, "other", workers=1) for name in FEW)), [CREATED] * len(FEW))
    same("and used", admin.ask_all(*(use(name) for name in FEW)), [USED] * len(FEW))
    kept.kill(server)
    same("nothing else is left", sorted(name for name in os.listdir(folder) if name.endswith(".state")),
         sorted(f"{name}.state" for name in ("calm", *FEW)))
    same("each file is a state", [kept.look(os.path.join(folder, f"{name}.state"), "--check").stdout for name in FEW], [b"yes\n"] * len(FEW))


def part():
    note(f"seed {SEED}")
    main_in_folders(try_makers, try_wide, try_crowd, minutes=12)
