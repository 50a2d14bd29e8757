"""`rme ask finish`, on both servers: a dead owner, one that waits for another, one that gives its job up, one that a session
has, and one without a job."""

import subprocess
import time

from lib.asks import ask, enter, leave, leave_inside, with_state, without_state
from lib.checks import check, main_in_folders, same
from lib.programs import built

SCRIPT = '[["add",0,5]]'


def receipt(worker, number, place, reply, lock="bank"):
    return f"job {number} of worker {worker} on lock {lock}: place {place}, reply {reply}"


def each_server(folder, checks):
    """Makes the checks on a server with a state, and on one without, by its name and whether it has look-ups."""
    server = with_state(folder)
    checks("state", server)
    server.kill()
    server = without_state()
    checks("plain", server)
    server.kill()


def try_dead_owner(folder):
    """A worker died inside: its job counts once, and its lock is free."""

    def checks(name, server):
        leave_inside(server, 0)
        wanted = f"worker 0 is inside lock bank with job 1, script {SCRIPT}\nfinished: {receipt(0, 1, 0, 5)}\n"
        same(f"{name}: a dead owner", ask(server, "finish", "0"), (0, wanted, ""))
        again = f"worker 0 has no pending job; its last: {receipt(0, 1, 0, 5)}\n"
        same(f"{name}: once more", ask(server, "finish", "0"), (0, again, ""))
        never = "worker 2 has no pending job; its last was withdrawn, or it never had one\n"
        same(f"{name}: a worker without a job", ask(server, "finish", "2"), (0, never, ""))
        session, told = enter(server, 1)
        reply = session.told(do="commit")["receipt"]["reply"]
        same(f"{name}: the lock is free, and no session has worker 0", (told.get("stance"), reply), ("held", 10))
        session.close()
        same(f"{name}: no such worker", ask(server, "finish", "9")[0], 1)
        leave_inside(server, 0, number=2)
        lines = [
            f'{{"lock":"bank","number":2,"ok":"pending","script":{SCRIPT},"stance":"held"}}',
            '{"ok":"resume","receipt":{"lock":"bank","number":2,"place":2,"reply":15,"worker":0}}',
        ]
        same(f"{name}: as lines", ask(server, "--json", "finish", "0"), (0, "\n".join(lines) + "\n", ""))

    each_server(folder, checks)


def try_waiting(folder):
    """A worker that waits for a dead owner: until the time is over, and until the owner's job is finished."""

    def checks(name, server):
        leave_inside(server, 0)
        waits, _ = enter(server, 1, tries=3)
        leave(waits)
        began = time.monotonic()
        status, told, why = ask(server, "finish", "1", "--wait", "1")
        check(f"{name}: it waited a second", 0.9 < time.monotonic() - began < 10)
        same(f"{name}: a job that waits", (status, told), (1, f"worker 1 waits for lock bank with job 1, script {SCRIPT}\n"))
        owner = ", which worker 0 owns" if name == "state" else ""
        same(f"{name}: who has the lock", why, f"rme: job 1 of worker 1 still waits for lock bank{owner}\n")
        same(f"{name}: at once", ask(server, "finish", "1", "--wait", "0")[0], 1)
        same(f"{name}: the owner", ask(server, "finish", "0")[0], 0)
        status, told, why = ask(server, "finish", "1")
        check(f"{name}: then the other", status == 0 and told.endswith(f"finished: {receipt(1, 1, 1, 10)}\n"), (status, told, why))

    each_server(folder, checks)


def try_withdraw(folder):
    """A job that waits is given up; one that is inside is finished all the same."""

    def checks(name, server):
        leave_inside(server, 0)
        waits, _ = enter(server, 1, tries=3)
        leave(waits)
        wanted = f"worker 1 waits for lock bank with job 1, script {SCRIPT}\nwithdrawn: job 1 of worker 1 never counts\n"
        same(f"{name}: a job that waits is given up", ask(server, "finish", "1", "--withdraw"), (0, wanted, ""))
        status, told, _ = ask(server, "finish", "0", "--withdraw")
        check(f"{name}: one inside is finished", status == 0 and told.endswith(f"finished: {receipt(0, 1, 0, 5)}\n"), told)
        session, told = enter(server, 1, number=2)
        same(f"{name}: the lock is free for the next number", told.get("stance"), "held")
        session.close()

    each_server(folder, checks)


def try_taken(folder):
    """A worker that a living session has is not touched, unless it is to be taken."""

    def checks(name, server):
        session, _ = enter(server, 0)
        status, told, why = ask(server, "finish", "0")
        known = why.startswith("rme: refused: 18 Taken: ") and "--take" in why
        check(f"{name}: a session has it", (status, told) == (1, "") and known, (status, told, why))
        status, told, why = ask(server, "finish", "0", "--take")
        check(f"{name}: it is taken", status == 0 and told.endswith(f"finished: {receipt(0, 1, 0, 5)}\n"), (status, told, why))
        same(f"{name}: the session was ended", session.hear(), b"")
        session.close()

    each_server(folder, checks)


def try_long_wait(folder):
    """Without --wait it waits as long as it takes, in rounds, and says once which worker has the lock."""
    server = with_state(folder)
    owner, _ = enter(server, 0)
    waits, _ = enter(server, 1, tries=3)
    leave(waits)
    words = [built(), "ask", "--port", str(server.port), "finish", "1"]
    with subprocess.Popen(words, stdout=subprocess.PIPE, stderr=subprocess.PIPE, text=True) as waiting:
        same("it says what it does", waiting.stdout.readline(), f"worker 1 waits for lock bank with job 1, script {SCRIPT}\n")
        time.sleep(11)
        check("it waits still", waiting.poll() is None)
        owner.told(do="commit")
        told, why = waiting.communicate(timeout=30)
    wanted = f"finished: {receipt(1, 1, 1, 10)}\n", "rme: job 1 of worker 1 still waits for lock bank, which worker 0 owns\n", 0
    same("then it is done", (told, why, waiting.returncode), wanted)
    owner.close()
    server.kill()


def part():
    main_in_folders(try_dead_owner, try_waiting, try_withdraw, try_taken, try_long_wait, minutes=5)
