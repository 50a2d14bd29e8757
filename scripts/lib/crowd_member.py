"""One client process of a crowd: crowd_member.py FOLDER PORT WORKER SLOT SEED

Of each worker there are several, in turn. This one makes lives: each takes the worker, by a take-over if no other
client of it is in a call, makes some jobs, and lets it go; between them it may be silent until its session is ended. It
makes one life where FOLDER has `stop`, so that nothing is left pending. FOLDER/log has a line for all that it did and
was answered.
"""

import fcntl
import json
import os
import random
import signal
import sys
import time

sys.path.insert(0, os.path.join(os.path.dirname(os.path.realpath(__file__)), "..", "..", "clients", "python"))
from rme_client import Pending, Worker  # noqa: E402

LOCKS, SLOTS, SILENT = ("bank", "shop"), 3, 2.4
MORTAL = 0.05  # this part of the jobs are the last of their clients, which are killed within some milliseconds; some in a block


class Member:
    def __init__(self, folder, port, worker, slot, seed):
        self.folder, self.port, self.worker, self.slot = folder, port, worker, slot
        self.numbers = random.Random(seed)
        # Each file is opened once: a process that closes one of its descriptors loses its locks.
        self.log_file, self.guard, self.busy = (self.open(name) for name in ("log", "guard", "busy"))
        self.lines = {lock: self.open(lock) for lock in LOCKS}

    def open(self, name):
        return os.open(os.path.join(self.folder, name), os.O_RDWR | os.O_CREAT | os.O_APPEND, 0o600)

    def log(self, **told):
        os.write(self.log_file, json.dumps({"worker": self.worker, **told}).encode() + b"\n")

    def live(self):
        """Lives until all is over."""
        is_over = False
        while not is_over:
            is_over = self.is_over()
            idle = [] if is_over or self.numbers.random() < 0.6 else self.others_at_rest()
            with Worker("127.0.0.1", self.port, self.worker, timeout=20, take=bool(idle)) as own:
                fcntl.lockf(self.busy, fcntl.LOCK_EX, 1, self.place(self.slot))
                own.next_number()
                for place in idle:
                    fcntl.lockf(self.busy, fcntl.LOCK_UN, 1, place)
                if idle:
                    self.log(did="take")
                for _ in range(1 if is_over else self.numbers.randrange(1, 25)):
                    self.work(own)
                fcntl.lockf(self.busy, fcntl.LOCK_UN, 1, self.place(self.slot))

    def is_over(self):
        return os.path.exists(os.path.join(self.folder, "stop"))

    def may_die(self):
        if self.numbers.random() < MORTAL / 3 and not self.is_over():
            os.kill(os.getpid(), signal.SIGKILL)

    def place(self, slot):
        return self.worker * SLOTS + slot

    def others_at_rest(self):
        """The places of the other clients of the worker, which are kept out of calls, if all are between two calls."""
        kept = []
        for slot in range(SLOTS):
            if slot == self.slot:
                continue
            try:
                fcntl.lockf(self.busy, fcntl.LOCK_EX | fcntl.LOCK_NB, 1, self.place(slot))
                kept.append(self.place(slot))
            except OSError:
                for place in kept:
                    fcntl.lockf(self.busy, fcntl.LOCK_UN, 1, place)
                return []
        return kept

    def work(self, own):
        """A job, and then a rest, in which another client may take the worker, or which ends the session."""
        self.make(own, self.numbers.choice(LOCKS))
        fcntl.lockf(self.busy, fcntl.LOCK_UN, 1, self.place(self.slot))
        if self.numbers.random() < 0.01:
            self.log(did="silent")
            time.sleep(SILENT)
        else:
            time.sleep(0.01 * self.numbers.random() ** 3)
        fcntl.lockf(self.busy, fcntl.LOCK_EX, 1, self.place(self.slot))

    def make(self, own, lock):
        """Makes a job, with an amount of its own most often, or settles the one that is pending."""
        amount = 7 if self.numbers.random() < 0.5 else self.numbers.randrange(8, 2**40)
        if self.numbers.random() < MORTAL and not self.is_over():
            signal.setitimer(signal.ITIMER_REAL, 0.02 * self.numbers.random() + 1e-6)  # nobody handles its signal
        try:
            if self.numbers.random() < 0.4:
                made = own.submit(lock, [["add", 0, amount]])
                self.log(did="submit", made=made, amount=amount)
                return
            with own.inside(lock, [["add", 1, 1], ["add", 0, amount]]) as held:
                self.block(lock, held.number)
            if held.section not in (None, held.receipt["place"]):
                self.log(did="wrong", told=f"worker {self.worker} was told section {held.section}: {held.receipt}")
            self.log(did="inside", made=held.receipt, amount=None if held.again else amount, again=held.again)
        except Pending as pending:
            self.settle(own, pending)

    def settle(self, own, pending):
        """A job of another client's: one that is inside has its block run, and one that waits is given up."""
        if pending.stance == "held":
            self.block(pending.lock, pending.number)
            self.log(did="settle", made=own.finish(), amount=None)
        else:
            self.log(did="withdraw", left=own.withdraw(), number=pending.number)

    def block(self, lock, number):
        """Appends the job's line to the lock's file, once. Nobody else may be at it."""
        at = LOCKS.index(lock)
        try:
            fcntl.lockf(self.guard, fcntl.LOCK_EX | fcntl.LOCK_NB, 1, at)
        except OSError:
            self.log(did="wrong", told=f"worker {self.worker} is inside {lock} beside another")
        self.may_die()
        own, file = b"%d %d\n" % (self.worker, number), self.lines[lock]
        size = os.fstat(file).st_size
        last = os.pread(file, 64, max(0, size - 64)).splitlines(keepends=True)[-1:]
        time.sleep(0.01 * self.numbers.random() ** 2)
        if last != [own]:
            os.write(file, own)
        self.may_die()
        fcntl.lockf(self.guard, fcntl.LOCK_UN, 1, at)


def main():
    folder, words = sys.argv[1], [int(word) for word in sys.argv[2:]]
    member = Member(folder, *words)
    try:
        member.live()
    except Exception as error:
        member.log(did="wrong", told=repr(error))
        raise


if __name__ == "__main__":
    main()
