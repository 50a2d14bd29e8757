"""A worker of a server: its session is a connection, and lasts as long as a process has that connection."""

from __future__ import annotations

import json
import select
import socket
import time
from typing import Any, Dict, List, Optional, Union

from .command import Guard
from .endings import LATER, NO_SERVER, NOT_ALLOWED, SOFTWARE, WRONG_WORDS, Ended
from .held import Deadline, Held
from .secret import KeyFile
from .words import Words

Answer = Dict[str, Any]

NO_WORKER, BUSY, DIFFERS, TAKEN, NO_MEMORY, OVERTAKEN = 6, 9, 17, 18, 20, 26
NO_SPACE, REFUSES_KEY = 23, 25
FOR_A_SERVER = 10.0
"""The most seconds to wait for a server that is not there, and to try to make a broken connection again."""
MOST_WORKERS = 256
"""The most workers that a server has."""
AN_ORDER_WAITS = 5.0
"""How many seconds the server tries in one order."""
FOR_ITS_END = 1.0
"""How many seconds to wait for the end of another session, and, after a take-over, for the end of that session's
command, which ends when it sees the take-over."""
AN_ANSWER_TAKES = 60.0
"""A server that has not answered after this number of further seconds counts as gone."""


class Gone(Exception):
    """The connection ended."""


class Full(Gone):
    """The server has no room for the session."""


class NoSpace(Ended):
    """The server has no space of this name, or cannot open it now."""


class Session:
    """A connection to the server, and the lines on it."""

    def __init__(self, server: Union[int, str], limit: float):
        self.connection = socket.socket(socket.AF_UNIX if isinstance(server, str) else socket.AF_INET)
        try:
            self.connection.settimeout(limit)
            self.connection.connect(server if isinstance(server, str) else ("127.0.0.1", server))
        except BaseException:
            self.connection.close()
            raise
        self._read = b""

    def ask(self, **order: Any) -> Answer:
        """The answer to an order. `Gone` if no answer comes."""
        try:
            self.connection.sendall(json.dumps(order).encode() + b"\n")
            while b"\n" not in self._read:
                more = self.connection.recv(65536)
                if not more:
                    raise Gone("the server closed the connection")
                self._read += more
        except OSError as error:
            raise Gone(str(error)) from error
        line, _, self._read = self._read.partition(b"\n")
        try:
            answer = json.loads(line)
        except ValueError:
            answer = None
        if not isinstance(answer, dict) or (answer.get("ok") != order["do"] and not isinstance(answer.get("code"), int)):
            raise Ended(SOFTWARE, f"no answer of a server of rme: {line[:200]!r}")
        return answer

    def is_alive(self) -> bool:
        """Whether the connection has not ended. A server says nothing unasked."""
        told = select.poll()
        told.register(self.connection, select.POLLIN | select.POLLHUP | select.POLLERR | select.POLLRDHUP)
        return not told.poll(0)

    def waits(self, seconds: float) -> None:
        """From now on an answer may take so long."""
        self.connection.settimeout(seconds)

    def end(self) -> None:
        """Ends the connection, even if other processes have its descriptor."""
        try:
            self.connection.shutdown(socket.SHUT_RDWR)
        except OSError:
            pass
        self.close()

    def close(self) -> None:
        self.connection.close()


def refused(answer: Answer) -> Optional[int]:
    code = answer.get("code")
    return code if isinstance(code, int) else None


def wrong(answer: Answer, otherwise: int = WRONG_WORDS, what: str = "") -> Ended:
    """How rme-hold ends for a refusal that waiting does not change: with 77 if a key is missing, or else with this
    status."""
    code = refused(answer)
    status = NOT_ALLOWED if code == REFUSES_KEY else otherwise
    return Ended(status, f"{what}the server refuses: {answer.get('error')}, {code}")


def may_begin(answer: Answer) -> None:
    """Returns if a session may go on after this answer to one of its first orders."""
    code = refused(answer)
    if code == BUSY:
        raise Full("the server has as many sessions as it may have")
    if code == NO_SPACE:
        raise NoSpace(WRONG_WORDS, f"the server refuses: {answer.get('error')}, {code}: it has no such space, or cannot open it")
    if code is not None:
        raise wrong(answer, LATER if code == NO_MEMORY else WRONG_WORDS)


class ServerWorker:
    """The worker that the words ask for, once a session has it."""

    def __init__(self, words: Words):
        self._words = words
        self._at = 0  # which of the servers is tried next
        self._key_file = None if words.key_file is None else KeyFile(words.key_file)
        self._session: Optional[Session] = None
        self._worker, self._number, self._stance = 0, 0, ""
        self._own: Optional[int] = None  # the number of the job that was begun here
        self._life: Optional[int] = None  # that of the worker which is inside; an older server does not tell it
        self._until: Optional[Deadline] = None  # while a broken connection is being made again: for how long

    # A worker

    def enter(self, deadline: Deadline) -> Held:
        """Attaches the worker and enters the lock. `Ended` if that cannot be done, or not in time: then nothing is
        pending that was not pending before."""
        for_a_server = Deadline(FOR_A_SERVER)
        why = f"{'no worker' if self._words.worker is None else f'worker {self._words.worker}'} is not free"
        try:
            while True:
                try:
                    if self._attach():
                        return self._entered(deadline)
                    for_a_server = Deadline(FOR_A_SERVER)
                except Full:
                    for_a_server = Deadline(FOR_A_SERVER)
                except (Gone, OSError) as error:
                    if for_a_server.is_over() or (self._own is None and deadline.is_over()):
                        raise Ended(NO_SERVER, f"no server is there: {error}") from error
                self._close()
                if deadline.is_over():
                    raise Ended(LATER, why)
                deadline.pause()
        except BaseException:
            self._give_up()
            raise

    def _attach(self) -> bool:
        """Whether the worker was attached: a worker that another session has cannot be, unless that session is
        ended."""
        one = self._words.worker if self._own is None else self._worker
        if one is not None:
            return self._attach_one(one, self._words.kill) is None
        told = self._workers()
        return self._attach_unseen() if told is None else self._attach_any(told)

    def _attach_any(self, told: List[Answer]) -> bool:
        """Whether one of these workers was attached: first those with a pending job of this lock, then those that are
        ready."""
        for worker, it in enumerate(told):
            if not it.get("attached") and it.get("lock") == self._words.lock and self._attach_one(worker, False) is None:
                if self._stance == "ready" or self._lock_of_job() == self._words.lock:
                    return True
                self._asked(do="detach")
        return self._attach_ready()

    def _attach_unseen(self) -> bool:
        """The same if the server does not tell the status of its workers: each is attached, and asked for its pending
        job."""
        for worker in range(MOST_WORKERS):
            code = self._attach_one(worker, False)
            if code == NO_WORKER:
                break
            if code is None:
                if self._stance != "ready" and self._lock_of_job() == self._words.lock:
                    return True
                self._asked(do="detach")
        return self._attach_ready()

    def _attach_ready(self) -> bool:
        """Whether a ready worker was attached: the lowest one that no session has."""
        answer = self._asked(do="attach", any="ready")
        code = refused(answer)
        if code in (TAKEN, BUSY):
            return False
        if code is not None:
            raise wrong(answer)
        self._worker, self._number, self._stance = answer["worker"], answer["number"], answer["stance"]
        return True

    def _attach_one(self, worker: Optional[int], take: bool) -> Optional[int]:
        """Why the worker was not attached, if waiting may help; `None` if it was."""
        answer = self._asked(do="attach", worker=worker, **({"take": True} if take else {}))
        code = refused(answer)
        if code in (TAKEN, BUSY) or (code == NO_WORKER and self._words.worker is None):
            return code
        if code is not None:
            raise wrong(answer)
        self._worker, self._number, self._stance = worker or 0, answer["number"], answer["stance"]
        if take:
            time.sleep(FOR_ITS_END)
        return None

    def _lock_of_job(self) -> Optional[str]:
        """The lock of the pending job; `None` if a server of version 0.2 does not say."""
        return self._asked(do="pending").get("lock")

    def _workers(self) -> Optional[List[Answer]]:
        """What the server says of all workers; `None` if it keeps no state."""
        told = self._asked(do="status").get("workers")
        return told if isinstance(told, list) else None

    def _asked(self, **order: Any) -> Answer:
        if self._session is None:
            self._session = self._begun(AN_ANSWER_TAKES)
        return self._session.ask(**order)

    def _begun(self, limit: float) -> Session:
        """A session, which begins with the secret if there is one, and uses the space if one is named. `Full` if the
        server has no room for it. If no session begins, the next server is tried next."""
        servers = self._words.servers
        share = limit if len(servers) == 1 else max(0.5, min(limit, FOR_A_SERVER) / len(servers))
        secret = None if self._key_file is None else self._key_file.secret()
        try:
            session = Session(servers[self._at], share)
        except OSError:
            self._go_on()
            raise
        try:
            self._greet(session, secret)
            session.waits(limit)
        except BaseException:
            self._go_on()
            session.close()
            raise
        return session

    def _greet(self, session: Session, secret: Optional[str]) -> None:
        """The first orders of a session. One of several servers may take a connection and answer nothing, if it was
        stopped: so it has to answer once."""
        space = self._words.space
        if secret is not None:
            may_begin(session.ask(do="hello", secret=secret))
        if space is not None:
            may_begin(session.ask(do="use", space=space))
        if secret is None and space is None and len(self._words.servers) > 1:
            may_begin(session.ask(do="ping"))

    def _go_on(self) -> None:
        """The next try is at the next server."""
        self._at = (self._at + 1) % len(self._words.servers)

    # A job

    def _asked_enter(self, seconds: float) -> Answer:
        order = {"lock": self._words.lock, "number": self._number, "script": self._words.script}
        return self._asked(do="enter", **order, wait=round(1000 * seconds))

    def _entered(self, deadline: Deadline) -> Held:
        """The job, once the worker is inside with it."""
        if self._stance == "ready":
            self._number += 1
            self._own = self._number
        is_own = self._number == self._own
        while True:
            answer = self._asked_enter(deadline.left(AN_ORDER_WAITS))
            code = refused(answer)
            if answer.get("stance") == "held":
                return self._held(not is_own and self._stance == "held", answer)
            if code == DIFFERS and not is_own:
                return self._other_job()
            if code is not None:
                self._own = None
                raise wrong(answer)
            if not answer.get("waiting"):
                self._own = None
                raise Ended(LATER, f"another client uses worker {self._worker}: {json.dumps(answer)}")
            if deadline.is_over():
                raise Ended(LATER, f"lock {self._words.lock} is not free")

    def _other_job(self) -> Held:
        """A pending job with another lock or another script: its command is run again if it is inside this lock."""
        told = self._asked(do="pending")
        lock = told.get("lock")
        if self._stance == "held" and lock == self._words.lock:
            answer = self._asked(do="enter", lock=lock, number=self._number, script=told["script"])
            return self._held(True, answer)
        of = "another lock or script" if lock is None else f"lock {lock}"
        raise Ended(LATER, f"worker {self._worker} has a pending job of {of}, number {self._number}")

    def _held(self, again: bool, told: Answer) -> Held:
        assert self._session is not None
        self._stance, self._own, self._life = "held", None, told.get("life")
        descriptor = self._session.connection.fileno()
        return Held(self._worker, self._number, told.get("section"), again, descriptor, self._life)

    def _give_up(self) -> None:
        """Gives up a job that was begun here and waits, so that it holds nothing. A job that is inside by then stays
        inside, as if its command had failed."""
        own, self._own = self._own, None
        if own is None:
            return
        try:
            self._close()
            its_end = Deadline(FOR_ITS_END)
            while self._attach_one(self._worker, False) is not None and not its_end.is_over():
                its_end.pause()  # the server has not seen the end of the session yet
            if self._number == own:
                self._asked(do="withdraw")
        except (Gone, OSError, Ended):
            pass

    # Inside

    def keep(self, guard: Optional[Guard]) -> None:
        """Returns while no other client can have had the worker: while the session lasts, and, after it has ended,
        while the connection is being made again, with one try in each call. `Ended` if another client had the worker,
        or no server was there in time."""
        if self._session is not None and self._session.is_alive():
            return
        lost = f"the connection ended, and so the command; worker {self._worker} stays inside {self._words.lock}"
        if self._life is None:
            raise Ended(LATER, lost)
        if self._until is None:
            self._until = Deadline(FOR_A_SERVER)
        if self._comes_back(self._until.left(FOR_A_SERVER)):
            self._until = None
            self._goes_on(guard)
        elif self._until.is_over():
            raise Ended(LATER, f"{lost}: no server was there for {FOR_A_SERVER:g} seconds")

    def _goes_on(self, guard: Optional[Guard]) -> None:
        """The command goes on, and keeps the session that replaces the broken one."""
        if self._stance != "held":
            raise self._overtaken("the server lost its state")
        if guard is not None:
            assert self._session is not None
            guard.goes_on(self._session.connection.fileno())

    def _comes_back(self, seconds: float) -> bool:
        """Whether the worker was attached again within these seconds. `Ended` if another client has attached it since
        it was inside."""
        self._end_session()
        try:
            self._session = self._begun(max(0.1, seconds))
            answer = self._session.ask(do="attach", worker=self._worker, after=self._life)
        except (Gone, NoSpace, OSError):  # a space whose file cannot be opened for a while still has the worker
            self._end_session()
            return False
        if refused(answer) in (TAKEN, BUSY):  # the server has not seen the end of the session yet
            self._end_session()
            return False
        self._found(answer)
        self._session.waits(AN_ANSWER_TAKES)
        return True

    def _found(self, answer: Answer) -> None:
        """Takes the answer to an attach with `after` the known life; `Ended` if the worker is not at its job."""
        code = refused(answer)
        if code == OVERTAKEN:
            raise self._overtaken("the answer to this one was lost")
        if code is not None:
            raise wrong(answer, LATER, f"worker {self._worker} is lost; ")
        if answer["number"] != self._number:
            raise self._overtaken("the server lost its state")
        self._stance = answer["stance"]
        assert self._life is not None
        self._life += 1

    def _overtaken(self, otherwise: str) -> Ended:
        return Ended(LATER, f"another client went on with worker {self._worker}, or {otherwise}: see what is pending")

    def commit(self, number: int) -> None:
        """Has the job counted and leaves the lock. If the answer is lost, the worker is attached again, which tells the
        outcome."""
        deadline = Deadline(FOR_A_SERVER)
        while not self._is_counted(number):
            self._end_session()
            if deadline.is_over():
                raise Ended(LATER, f"no answer says whether job {number} of worker {self._worker} counted")
            deadline.pause()

    def _is_counted(self, number: int) -> bool:
        """Whether the job is known to have counted: it is committed if it has not."""
        try:
            if self._session is None and not self._attached_again():
                return False
            if self._number != number:
                raise self._overtaken("the server lost its state")
            if self._stance == "ready":
                return True
            answer = self._asked(do="commit")
        except (Gone, OSError):
            return False
        if "receipt" in answer:
            return True
        raise Ended(SOFTWARE, f"the job did not count: {json.dumps(answer)}")

    def _attached_again(self) -> bool:
        """Whether the worker was attached again. If an older server told no life, another client may have had it
        meanwhile."""
        if self._life is None:
            return self._attach_one(self._worker, False) is None
        return self._comes_back(FOR_A_SERVER)

    def close(self) -> None:
        self._close()

    def _end_session(self) -> None:
        session, self._session = self._session, None
        if session is not None:
            session.end()

    def _close(self) -> None:
        session, self._session = self._session, None
        if session is not None:
            session.close()
