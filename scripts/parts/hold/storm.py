"""storm [SECONDS | kills N] [SEED]: wrappers for few workers, started again and again. They or their commands are
killed, for SECONDS seconds, or until N were killed.

At no moment are two commands of one lock at work: each takes a lock of the kernel on a file, which ends with it and with its
children. Each section that counted is one whose command came to its end. The pairs of section and life rise, from one end to
the next. Several servers and files are stormed side by side, so that none of the processors waits.
"""

import collections
import os
import random
import shutil
import signal
import sys
import tempfile
import time

from lib.checks import check, main, note, skip
from lib.holds import Way, fork_hold, ways

SECONDS = 24
WORKERS = 3
SIDE_BY_SIDE = 4
"""How many there are of each way to have a worker."""
ENOUGH = 5
LOCK = "bank"
# Two that are at work at once are seen by the second. What is killed without its children is at work as long as they are.
COMMAND = """
exec 9<> "$0.beside"
flock -n 9 || echo two >> "$0.wrong"
sleep "$1"
echo "$RME_SECTION $RME_WORKER $RME_NUMBER $RME_LIFE" >> "$0.over"
"""
WRAPPER, ONE, GROUP = "wrapper", "command", "command with its children"


class Run:
    """A wrapper that runs, and when it is killed."""

    def __init__(self, pid, kill_at):
        self.pid, self.kill_at, self.victim, self.is_inside = pid, kill_at, WRAPPER, False


class Storm:
    def __init__(self, way, chance):
        self.way, self.chance = way, chance
        self.kills, self.ended, self.runs = collections.Counter(), collections.Counter(), {}
        self.notes = os.path.join(way.folder, way.name)

    def words(self, wait, seconds, worker):
        return self.way.words_for("--wait", str(wait), LOCK, "--", "sh", "-c", COMMAND, self.notes, str(seconds), worker=worker)

    def start(self, place):
        """Starts the wrapper of a worker, or behind the last that of any; one of four is killed whatever it does then."""
        kill_at = time.monotonic() + self.chance.uniform(0, 0.2) if self.chance.random() < 0.25 else None
        words = self.words(5, self.chance.choice((0, 0.005, 0.02)), None if place >= WORKERS else place)
        self.runs[place] = Run(fork_hold(words), kill_at)

    def command(self, pid):
        """The process of a wrapper's command, if it runs; the guard of a session is started before it."""
        try:
            with open(f"/proc/{pid}/task/{pid}/children", encoding="utf-8") as file:
                children = file.read().split()
        except OSError:
            return None
        return int(children[-1]) if len(children) > (self.way.name != "file") else None

    def turn(self):
        """Starts each wrapper that has ended once more, and kills some."""
        for place in range(WORKERS + 1):
            run = self.runs.get(place)
            status = None if run is None else ended(run.pid)
            if status is not None:
                self.ended[status] += 1
            if run is None or status is not None:
                self.start(place)
            else:
                self.harm(run)

    def harm(self, run):
        command = self.command(run.pid)
        if command is not None and not run.is_inside:
            run.is_inside = True
            if self.chance.random() < 0.6:
                run.kill_at = time.monotonic() + self.chance.uniform(0, 0.03)
                run.victim = self.chance.choice((WRAPPER, ONE, ONE, GROUP))
        if run.kill_at is None or time.monotonic() < run.kill_at:
            return
        run.kill_at = None
        if run.victim == WRAPPER or command is not None:
            self.kills[run.victim] += 1
            kill(run, command)

    def finish(self):
        """Lets all commands end, and each worker finish its job; answers how many sections the lock has then."""
        for run in self.runs.values():
            end_of(run.pid)
        # The worker of a wrapper that was killed while it waited holds a part of the lock's tree: one behind it ends later.
        for _ in range(WORKERS + 1):
            runs = [fork_hold(self.words(2, 0, worker)) for worker in range(WORKERS + 1)]
            if not any([end_of(pid) for pid in runs]):
                break
        return int(self.way.hold(LOCK, "--", "sh", "-c", "echo $RME_SECTION")[1])

    def lines(self, ending):
        try:
            with open(f"{self.notes}.{ending}", encoding="utf-8") as file:
                return file.read().splitlines()
        except FileNotFoundError:
            return []


def kill(run, command):
    try:
        if run.victim == GROUP:
            os.killpg(command, signal.SIGKILL)
        else:
            os.kill(run.pid if run.victim == WRAPPER else command, signal.SIGKILL)
    except ProcessLookupError:
        pass  # it has just ended


def ended(pid):
    """The status of a process, negative for a signal; `None` if it runs."""
    gone, status = os.waitpid(pid, os.WNOHANG)
    return os.waitstatus_to_exitcode(status) if gone else None


def end_of(pid, seconds=60):
    """The status of a process, once it has ended."""
    ends = time.monotonic() + seconds
    while (status := ended(pid)) is None:
        if time.monotonic() > ends:
            raise TimeoutError(f"no end of process {pid} after {seconds} seconds")
        time.sleep(0.005)
    return status


class Asked:
    """How long it storms, and the seed, by the words of the command line."""

    def __init__(self, words):
        words = list(words)
        self.kills = int(words[1]) if words[:1] == ["kills"] else None
        del words[: 2 if self.kills else 0]
        self.seconds = float(words.pop(0)) if words and not self.kills else SECONDS
        self.seed = int(words[0]) if words else random.randrange(10**6)
        self.began = time.monotonic()

    def passed(self):
        return time.monotonic() - self.began

    def is_over(self, storms):
        """After this number of kills; or after this number of seconds, and longer on a slow machine, until there were
        some of each kind."""
        if self.kills:
            return killed(storms) >= self.kills
        return self.passed() > self.seconds * (1 if all(is_enough(of_way(storms, name)) for name in ways()) else 5)


def of_way(storms, name):
    return [storm for storm in storms if storm.way.name == name]


def is_enough(storms):
    """Whether some of each kind were killed, in all storms of a way together."""
    return all(sum(storm.kills[victim] for storm in storms) > ENOUGH for victim in (WRAPPER, ONE))


def killed(storms):
    return sum(sum(storm.kills.values()) for storm in storms)


def try_storms(asked):
    with tempfile.TemporaryDirectory() as folder:
        storms = [Storm(way, random.Random(f"{asked.seed} {way.folder}")) for way in started(folder)]
        try:
            while not asked.is_over(storms):
                for storm in storms:
                    storm.turn()
                time.sleep(0.002)
            seconds = asked.passed()
            for name in ways():
                judge(name, of_way(storms, name), asked)
            note(f"seed {asked.seed}: {killed(storms)} kills in {seconds:.0f} seconds")
        finally:
            for storm in storms:
                storm.way.end()


def started(folder):
    """Several of each way, each in a folder of its own."""
    for name in ways():
        for number in range(SIDE_BY_SIDE):
            own = os.path.join(folder, f"{name}-{number}")
            os.mkdir(own)
            yield Way(name, own)


def judge(name, storms, asked):
    sections = [storm.finish() for storm in storms]
    kills = sum((storm.kills for storm in storms), collections.Counter())
    ends = sum((storm.ended for storm in storms), collections.Counter())
    told = f"{sum(sections)} sections, killed {dict(kills)}, ended {dict(ends)}"
    wrong = sum(len(storm.lines("wrong")) for storm in storms)
    check(f"{name}, seed {asked.seed}: no two commands of a lock were at work: {told}", not wrong, wrong)
    pairs = [[(int(it[0]), int(it[3])) for it in map(str.split, storm.lines("over"))] for storm in storms]
    rise(name, pairs)
    missing = [set(range(most)) - {section for section, _ in some} for most, some in zip(sections, pairs)]
    check(f"{name}: each section that counted was worked to its end", not any(missing), missing)
    if asked.kills or asked.seconds >= 5:
        check(f"{name}: there was enough of it", sum(sections) > 10 and is_enough(storms), told)


def rise(name, pairs):
    """Each is greater than the one before: a resource that keeps the greatest refuses none of them."""
    both = [two for some in pairs for two in zip(some, some[1:])]
    again = sum(one[0] == other[0] for one, other in both)
    wrong = [two for two in both if two[0] >= two[1]]
    made = sum(map(len, pairs))
    check(f"{name}: {made} pairs of section and life rise, {again} in the section of the one before", not wrong, wrong[:9])


def part():
    if shutil.which("flock") is None:
        main(lambda: skip("storm", "there is no flock of util-linux"))
    asked = Asked(sys.argv[1:])
    main(lambda: try_storms(asked))
