"""Refuses the first, the second, .. growth of memory, one in each run, until a run meets no refusal.

A refused run of `rme run` ends with status 5 after whole answers to its first lines, or answers one line by the
refusal 20 and goes on as if that line had not been there. So does one of `rme run --transcript`, which tells
nothing of that line. A refused run of `rme check` ends with status 5 and no verdict, one of
`rme draw` with status 5 and no picture. One of `rme threads` ends with status 5; if a thread was refused memory, with
the jobs of the other worker made. One of `rme look` ends with status 5. One of `rme serve --state`, which renews its file
after each second job, ends with status 5 before it listens, or answers what it would have answered, until it refuses a
job by 20 or 14, or ends the session; and the next start is right. Each may answer all as ever: a list that was refused
room for all of its items at once asks for less, and then gets it.

At their end `rme threads` and `rme serve` need none: if each growth is refused there, they still print their closing
lines.

Of the library, `World::run`, `Service::close`, `supervise`, `Slots::new` and `Slots::into_downs` are refused: crates/rme_bench
makes each, and sees that the refusal is the one that the call tells of. What the call was given is then as it was: a second
call answers what the first would have answered, and no worker is lost.
"""

import collections
import concurrent.futures
import itertools
import os
import re
import signal
import subprocess
import tempfile

from lib.checks import check, main
from lib.kept import faults_of, kill, looked, read, serve, written
from lib.orders import COMMIT, LAST, ONE, RESUME, STATUS, WITHDRAW, attach, job, text
from lib.programs import REFUSED_GROWTH, built, examples, growth_refuser, refusing
from lib.servers import Server, line_of

NO_MEMORY = b'{"code":20,"error":"NoMemory"}\n'

# What `rme threads` reports of two workers with two jobs each: how many were done, the cell and the entries.
REPORT = b"workers 2\njobs 2\nall done %d\ncell %d\nentries %d\n"

# Jobs of a run whose end is refused all growths: their entries take more than a reserve of a few pages.
JOBS = 2000

# The number of sweeps over the growths of a program in threads.
SWEEPS = 2


def lines(text):
    return text.splitlines(keepends=True)


def refused_runs(shim, words, given):
    """Runs a program with each of its growths refused in turn, and gives the number and the end of each run."""
    number = 0
    while True:
        number += 1
        ran = subprocess.run(words, input=given, capture_output=True, env=refusing(shim, number), timeout=60)
        if REFUSED_GROWTH not in ran.stderr:
            return
        yield number, ran.returncode, ran.stdout, ran.stderr.replace(REFUSED_GROWTH, b"")


def ends_well(name, ends, *wanted):
    """A check that each refused run ended in a good way, which is not told as its growth, and that these ways came."""
    told = ", ".join(f"{count} runs {end}" for end, count in ends.items())
    check(f"{name}: {told}", all(ends[end] for end in wanted) and not any(end.startswith("growth") for end in ends))


def end_of(program, given, whole, status, output, fault):
    """How a refused run of `rme run` ended, or None; `whole` is the output of a run that was not refused."""
    answers = lines(output)
    if status == 5 and fault == b"fault: no memory\n" and answers == lines(whole)[: len(answers)]:
        return "ended with status 5"
    if status != 0 or fault:
        return None
    if output == whole:
        return "answered all as ever"
    if answers.count(NO_MEMORY) != 1:
        return None
    at = answers.index(NO_MEMORY)
    others = subprocess.check_output([program, "run"], input=b"".join(lines(given)[:at] + lines(given)[at + 1 :]))
    return "answered 20 and went on" if answers[:at] + answers[at + 1 :] == lines(others) else None


def try_lines(shim):
    program = built()
    for name, given in examples():
        whole, ends = subprocess.check_output([program, "run"], input=given), collections.Counter()
        for number, status, output, fault in refused_runs(shim, [program, "run"], given):
            end = end_of(program, given, whole, status, output, fault)
            ends[end or f"growth {number}: status {status}, {fault!r}, {output!r}"] += 1
        ends_well(name, ends, "ended with status 5", "answered 20 and went on")


def end_of_transcript(program, given, whole, status, output, fault):
    """How a refused run of `rme run --transcript` ended, or None."""
    if status == 5 and fault == b"fault: no memory\n" and lines(output) == lines(whole)[: len(lines(output))]:
        return "ended with status 5"
    if status != 0 or fault:
        return None
    if output == whole:
        return "told all as ever"
    for at in range(len(lines(given))):
        others = b"".join(lines(given)[:at] + lines(given)[at + 1 :])
        if output == subprocess.check_output([program, "run", "--transcript"], input=others):
            return "told nothing of one line and went on"
    return None


def end_of_check(status, output, fault):
    """How a refused run of `rme check` ended, or None."""
    if (status, output, fault) == (5, b"", b"fault: no memory\n"):
        return "ended with status 5"
    return "said yes as ever" if (status, output, fault) == (0, b"yes\n", b"") else None


def end_of_draw(whole, status, output, fault):
    """How a refused run of `rme draw` ended, or None; `whole` is the picture of a run that was not refused."""
    if (status, output, fault) == (5, b"", b"fault: no memory\n"):
        return "ended with status 5"
    return "drew all as ever" if (status, output, fault) == (0, whole, b"") else None


def try_pictures(shim):
    program = built()
    for name, given in examples():
        transcript = subprocess.check_output([program, "run", "--transcript"], input=given)
        whole, ends = subprocess.check_output([program, "draw"], input=transcript), collections.Counter()
        for number, status, output, fault in refused_runs(shim, [program, "draw"], transcript):
            ends[end_of_draw(whole, status, output, fault) or f"growth {number}"] += 1
        ends_well(f"{name}, picture", ends, "ended with status 5")


def try_transcripts(shim):
    program = built()
    for name, given in examples():
        whole = subprocess.check_output([program, "run", "--transcript"], input=given)
        told, checked = collections.Counter(), collections.Counter()
        for number, status, output, fault in refused_runs(shim, [program, "run", "--transcript"], given):
            told[end_of_transcript(program, given, whole, status, output, fault) or f"growth {number}"] += 1
        for number, status, output, fault in refused_runs(shim, [program, "check"], whole):
            checked[end_of_check(status, output, fault) or f"growth {number}"] += 1
        ends_well(f"{name}, transcript", told, "ended with status 5")
        ends_well(f"{name}, check", checked, "ended with status 5")


def end_of_threads(status, output, fault):
    """How a refused run of `rme threads` ended, or None. Where a thread was refused memory its worker ends early."""
    if (status, output, fault) == (5, b"", b"fault: no memory\n"):
        return "ended with status 5"
    if (status, output, fault) == (0, REPORT % (2, 4, 4), b""):
        return "made all jobs as ever"
    made = [REPORT % (1, count, count) for count in (2, 3)]
    return "made all jobs of one worker" if status == 1 and output in made and not fault else None


def try_threads(shim):
    """Two workers with two jobs each, which fall once."""
    ends = collections.Counter()
    # In which order threads take memory differs from run to run, so that one sweep over the growths may pass a thread by.
    for _ in range(SWEEPS):
        for number, status, output, fault in refused_runs(shim, [built(), "threads", "2", "2", "7"], b""):
            ends[end_of_threads(status, output, fault) or f"growth {number}: status {status}, {fault!r}, {output!r}"] += 1
    ends_well("threads", ends, "ended with status 5", "made all jobs of one worker")


def try_ends(shim):
    """One worker and one session, so that behind the thread that makes its jobs the first thread has only the end to do. A server
    has started one thread before, which looks each second whether it is over."""
    ran = subprocess.run([built(), "threads", "1", str(JOBS)], capture_output=True, env=refusing(shim, "threaded"), timeout=60)
    ended = ran.returncode, ran.stdout, ran.stderr.replace(REFUSED_GROWTH, b"")
    lines_of_one = b"workers 1\njobs %d\nall done 1\ncell %d\nentries %d\n" % (JOBS, JOBS, JOBS)
    check("threads, no memory at the end", ended == (0, lines_of_one, b""), ended)
    server = Server(("bank", "shop"), how={"env": refusing(shim, "threaded 2")}, workers=1, jobs=JOBS)
    add = [("submit", "bank" if number % 2 else "shop", number) for number in range(1, JOBS + 1)]
    orders = [line_of(do=do, lock=lock, number=number, script=[["add", 0, 1]]) for do, lock, number in add]
    client = server.session()
    client.attach(0)
    for order in orders:
        client.send(order)
        answer = client.hear()
    client.close()
    check("serve, the last receipt", b'"number":%d,' % JOBS in answer, answer)
    status, told, remarks = server.end()
    half = JOBS // 2
    wanted = b"lock bank cells %d 0 entries %d\nlock shop cells %d 0 entries %d\n" % (half, half, half, half)
    check("serve, no memory at the end", (status, told) == (0, wanted), (status, told, remarks))


# ---- calls of the library


def end_of_call(whole, status, output, fault):
    """How a program ended that makes a call, and once more if the call was refused; or None."""
    good = {
        (2, b"", b""): "ended before the call",
        (0, whole, b""): "answered as ever",
        (0, b"refused\n" + whole, b""): "was refused, and answered at the next try",
    }
    return good.get((status, output, fault))


def end_of_supervise(whole, status, output, fault):
    """How a supervised run of two workers with three jobs each ended, or None. One that is refused, before it or in its close,
    gives all workers back, with which the service is closed; and if a thread was refused its worker ends early."""
    done, counts = whole.split(b"\n", 1)
    none = counts.replace(b"6", b"0")
    ends = {(0, b"refused\n" + none, b""): "was refused before it", (0, b"refused\n" + counts, b""): "was refused in its close"}
    one = done.replace(b"2 of", b"1 of") + b"\n" + counts.replace(b"6", b"3")
    ends[0, one, b""] = "made the jobs of one worker"
    return ends.get((status, output, fault)) or end_of_call(whole, status, output, fault)


def try_calls(shim):
    program = built("rme_bench")
    calls = {"run": end_of_call, "close": end_of_call, "slots": end_of_call, "supervise": end_of_supervise}
    wanted = {"supervise": ("was refused before it", "was refused in its close", "made the jobs of one worker")}
    for call, end_of in calls.items():
        words, ends = [program, "refused", call], collections.Counter()
        whole = subprocess.check_output(words)
        for number, *ended in refused_runs(shim, words, b""):
            ends[end_of(whole, *ended) or f"growth {number}: {ended}"] += 1
        ends_well(f"the call {call}", ends, *wanted.get(call, ("was refused, and answered at the next try",)))


# ---- a state


def made_state(path):
    """A file that was renewed, with workers of each kind: the first has this number of jobs."""
    server = serve(path, "bank", "shop", workers=5, cells=2, jobs=100, sections=2)
    one, two, three = (server.session() for _ in range(3))
    two.ask_all(attach(1), job("enter", "shop", 1, *ONE))
    three.ask_all(attach(2), job("submit", "shop", 1, *ONE, tries=1), WITHDRAW, job("submit", "shop", 2, *ONE, tries=1))
    one.ask_all(attach(0), *(job("submit", "bank", number, *ONE) for number in range(1, 4)))
    kill(server)
    return read(path)


# What is asked of a server that goes on from there, in which the file is renewed three times.
ORDERS = (
    attach(0), LAST, *(job("submit", "bank", number, *ONE) for number in range(4, 8)), STATUS,
    job("enter", "bank", 8, *ONE), {"do": "owner", "lock": "bank"}, COMMIT,
    job("submit", "bank", 9, ["set", 1, 9], ["get", 0]), LAST, STATUS,
)  # fmt: skip
MAY_REFUSE = (text(code=20, error="NoMemory"), text(code=14, error="TooManyJobs"))


def answered_by(server):
    """What a server answers to these orders, up to the end of its session; how often it renewed its file aside, which it may
    have had no memory for."""
    answers = []
    try:
        session = server.session()
        for order in ORDERS:
            answers.append(re.sub(rb'"(epoch|seconds)":\d+,', b"", session.ask(order)))
            if not answers[-1] or answers[-1] in MAY_REFUSE:
                break
        session.close()
    except OSError:
        answers.append(b"")
    return answers


def end_of_state(shim, folder, held, wanted, number):
    """How a server ended that was refused this growth, and its next start: whether it was refused, and in which way."""
    path = written(os.path.join(folder, f"state-{number}"), held)
    server = serve(path, how={"env": refusing(shim, number)}, sections=2)
    if server.port is None:
        status, _, told = server.end()
        good = status == 5 and told.endswith(b"fault: no memory\n") and next_start(path, 3, 3)
        return True, "did not begin" if good else f"growth {number}: {status}, {told!r}"
    answers = answered_by(server)
    status, _, told = kill(server)
    is_refused = REFUSED_GROWTH in told
    same = sum(1 for _ in itertools.takewhile(lambda both: both[0] == both[1], zip(answers, wanted)))
    rest = answers[same:]
    jobs = 3 + sum(b'"receipt"' in answer for answer in answers[:same])
    sent = jobs + (len(rest) == 1 and ORDERS[same]["do"] in ("submit", "enter", "commit"))
    good = len(rest) <= 1 and (not rest or not rest[0] or rest[0] in MAY_REFUSE)
    # What was done and could not be written down ends the server: there was no memory for its lines, or for its write.
    whys = (b"fault: no memory\n", b" can't be written: no memory\n")
    is_over = status == 4 and sum(map(told.count, whys)) == 1
    if not (is_over or status == -signal.SIGKILL) or not good or not next_start(path, jobs, sent):
        return is_refused, f"growth {number}: {status}, {told!r}, {rest}"
    if is_over:
        return is_refused, "ended the server"
    return is_refused, "answered all as ever" if not rest else "refused a job" if rest[0] else "ended the session"


def next_start(path, jobs, sent):
    """Whether the next start goes on with this number of jobs, or with as many as were sent, and all else stands as it
    stood."""
    if faults_of(read(path)):
        return False
    server = serve(path)
    session = server.session()
    told = session.told(**STATUS)
    stands = session.told(**attach(0))
    made = stands["number"] - (stands["stance"] != "ready")
    stances = [(worker["stance"], worker["number"]) for worker in told["workers"]]
    good = made in range(jobs, sent + 1) and stances[1:] == [("held", 1), ("climb", 2), ("ready", 0), ("ready", 0)]
    order = job("submit", "bank", made + 1, *ONE) if stands["stance"] == "ready" else RESUME
    receipt = session.told(**order).get("receipt", {})
    good = good and (receipt.get("number"), receipt.get("place")) == (made + 1, made)
    kill(server)
    looks = looked(path)
    os.remove(path)
    return good and looks["locks"][0]["cells"][0] in (made, made + 1) and looks["locks"][0]["sections"] == made + 1


def try_states(shim):
    with tempfile.TemporaryDirectory() as folder:
        held = made_state(os.path.join(folder, "state"))
        server = serve(written(os.path.join(folder, "whole"), held), sections=2)
        wanted = answered_by(server)
        kill(server)
        check("a server with a state that is refused nothing", len(wanted) == len(ORDERS) and wanted[-1], wanted)
        ends, number = collections.Counter(), 1
        with concurrent.futures.ThreadPoolExecutor(os.cpu_count()) as pool:
            refused = True
            while refused:
                numbers = range(number, number + 32)
                for is_refused, end in pool.map(lambda it: end_of_state(shim, folder, held, wanted, it), numbers):
                    refused = is_refused
                    ends[end] += is_refused or end.startswith("growth")
                number += 32
        ends_well("serve --state", +ends, "did not begin", "answered all as ever", "ended the session", "ended the server")
        path, ends = os.path.join(folder, "state"), collections.Counter()
        for form in ((), ("--json",), ("--check",)):
            words = [built(), "look", *form, path]
            whole = subprocess.check_output(words)
            for number, status, output, fault in refused_runs(shim, words, b""):
                good = {(5, b"", b"fault: no memory\n"): "ended with status 5", (0, whole, b""): "said all as ever"}
                ends[good.get((status, output, fault)) or f"growth {number}: {status}, {fault!r}, {output!r}"] += 1
        ends_well("look", ends, "ended with status 5")


def with_shim(group, shim):
    """A group of checks that is given the library which refuses growths."""

    def call():
        group(shim)

    call.__name__ = group.__name__
    return call


GROUPS = try_calls, try_threads, try_ends, try_lines, try_transcripts, try_pictures, try_states


def part():
    with tempfile.TemporaryDirectory() as folder:
        shim = growth_refuser(folder)
        main(*(with_shim(group, shim) for group in GROUPS if shim))
