"""log: `rme serve --state --log` has a line for each job that the server withdraws and for each checkpoint, beside those of a
server without a state."""

import os

from lib.checks import check, main_in_folders, same
from lib.kept import kill, state_words, until_waiting, without_count
from lib.logs import sentences_of
from lib.orders import ONE, attach, job
from lib.servers import Server


def logged(path, *locks, **options):
    return Server(words=[*state_words(path, *locks, port=0, **options), "--log"])


def told_by(server):
    """What the log of a server says, which is killed."""
    return sentences_of(without_count(kill(server)[2]))


def begin(path, **options):
    """A server of which worker 0 is inside the lock, and worker 1 waits for it; and their sessions, which last as long as they
    are kept."""
    server = logged(path, "bank", workers=2, **options)
    owner, waits = server.session(), server.session()
    owner.attach(0)
    owner.ask(job("enter", "bank", 1, *ONE))
    waits.attach(1)
    waits.ask(job("enter", "bank", 1, *ONE, tries=3))
    return server, owner, waits


BEGUN = ["connection 1 attached worker 0", "connection 2 attached worker 1"]


def try_session_ends(folder):
    """A job that waits when its session ends is withdrawn before the worker is free."""
    server, _owner, waits = begin(os.path.join(folder, "bank.state"), waiting="withdraw")
    waits.close()
    later = server.session()
    later.attach(1)
    ends = ["withdrew the job of worker 1", "connection 2 ended, worker 1 is free", "connection 3 attached worker 1"]
    same("a withdrawal at the end of a session", told_by(server), [*BEGUN, *ends])


def try_start(folder):
    """A job that waits at a start is withdrawn before any session begins; without the option none is."""
    path = os.path.join(folder, "bank.state")
    server, _owner, waits = begin(path)
    until_waiting(server.session(), 1)
    same("nothing is withdrawn", told_by(server), BEGUN)
    waits.close()
    server = logged(path, waiting="withdraw")
    session = server.session()
    session.attach(1)
    same("a withdrawal at a start", told_by(server), ["withdrew the job of worker 1", "connection 1 attached worker 1"])


def try_take_over(folder):
    """The session that had the worker ends before the other attaches it."""
    server, *_sessions = begin(os.path.join(folder, "bank.state"))
    taker = server.session()
    same("it is refused", taker.told(**attach(1, take=True, after=0))["code"], 26)
    same("it takes over", taker.told(**attach(1, take=True))["stance"], "climb")
    ends = ["connection 3 takes over worker 1", "connection 2 ended, worker 1 is free", "connection 3 attached worker 1"]
    same("a take-over", told_by(server), [*BEGUN, *ends])


def try_choice(folder):
    """A session that leaves the choice to the server has a line for the worker that it gets."""
    server, *_sessions = begin(os.path.join(folder, "bank.state"))
    other = server.session()
    same("no worker is ready", other.told(do="attach", any="ready")["code"], 18)
    same("nothing of it", told_by(server), BEGUN)
    server = logged(os.path.join(folder, "bank.state"))
    session = server.session()
    same("there is one", session.told(do="attach", any="pending")["worker"], 0)
    same("a choice", told_by(server), ["connection 1 attached worker 0"])


def try_checkpoint(folder):
    """Each checkpoint has a line with the epoch that begins."""
    server = logged(os.path.join(folder, "bank.state"), "bank", workers=2, sections=3)
    session = server.session()
    session.attach(0)
    for number in range(1, 9):
        session.ask(job("submit", "bank", number, *ONE))
    epoch = session.told(do="status")["epoch"]
    wanted = ["connection 1 attached worker 0", *(f"checkpoint, epoch {number}" for number in range(1, epoch + 1))]
    same("the epochs", told_by(server), wanted)
    check("there are some", epoch >= 2, epoch)


def part():
    main_in_folders(try_session_ends, try_start, try_take_over, try_choice, try_checkpoint, minutes=2)
