"""sums [SEED]: the sums of a state's file.

The file of real servers is what lib/sums.py writes: each write with its number, the last write that was with the disk, and its
sum. Then files are changed: each byte, cut at each length, lines and writes doubled, left out and exchanged, sectors of an end
that was not synced lost in each combination. A start refuses a file in which something that was durable has changed, cuts off an
end that was never known to be durable, and takes no other contents; `rme look --check`, which decides the same, is asked of all
files, and a server is started on some. At last files without sums, which get them at their checkpoint.
"""

import collections
import itertools
import json
import multiprocessing
import os
import random
import sys

from lib.checks import check, main_in_folders, note, same
from lib.damage import is_verdict
from lib.kept import bad_state, end_of, faults_of, kill, log_of, look, looked, read, serve, state_words, status_in, status_of
from lib.kept import whole_lines, without_count, written
from lib.orders import COMMIT, DETACH, LAST, ONE, STATUS, attach, job, text, without_seconds
from lib.programs import ends_with, run
from lib.servers import line_of
from lib.sums import MARK, crc32c, durable, first_version, is_sealed, last_line, payload_of, sealed, start_of, whole, writes_of

SEED = int(sys.argv[1]) if len(sys.argv) > 1 else random.randrange(10**6)
PROCESSES = 4
SECTOR = 512
DIGITS = b"0123456789"
SIZES = {"workers": 2, "cells": 1, "jobs": 100}
# Orders of two sessions, each with whether it adds a write.
ORDERS = (
    (0, attach(0), True),
    (0, job("submit", "bank", 1, *ONE), True),
    (0, job("submit", "bank", 1, *ONE), False),
    (0, job("enter", "bank", 2, *ONE), True),
    (1, attach(1), True),
    (1, job("submit", "bank", 1, *ONE, tries=1), True),
    (0, COMMIT, True),
    (1, STATUS, False),
    (1, {"do": "resume"}, True),
    (0, LAST, False),
    (1, DETACH, True),
    (0, job("submit", "bank", 3, ["set", 0, 7]), True),
)


# ---- the model by itself


class Disk:
    """A file that a server writes, of which it knows how much is with the disk."""

    def __init__(self, numbers):
        self.numbers, self.count, self.synced, self.kept = numbers, 1, 1, 0
        self.held = sealed(b'{"rme":"kept","version":2}\n' + self.lines(), 0, 1)
        self.safe = len(self.held)  # the number of bytes that are with the disk

    def lines(self):
        draw = self.numbers.randrange
        return b"".join(bytes(draw(33, 123) for _ in range(draw(200))) + b"\n" for _ in range(draw(1, 4)))

    def write(self, is_synced):
        self.count, self.kept = self.count + 1, self.synced
        self.held += sealed(self.lines(), self.kept, self.count)
        if is_synced:
            self.synced, self.safe = self.count, len(self.held)


def try_model(_):
    """What is written here is taken here: whatever is lost of what is not with the disk, and not if a byte of it
    changed."""
    numbers, wrong, count = random.Random(SEED), [], 0
    for _ in range(300):
        disk = Disk(numbers)
        for _ in range(numbers.randrange(12)):
            disk.write(numbers.random() < 0.7)
        for lost in itertools.islice(lost_in(disk.held, disk.safe, most=6), 64):
            start, count = start_of(lost[1]), count + 1
            wrong += [lost] * (start.changed is not None or len(start.writes) < disk.synced)
        at = numbers.randrange(len(disk.held))
        changed = disk.held[:at] + bytes([disk.held[at] ^ 1 << numbers.randrange(8)]) + disk.held[at + 1 :]
        start = start_of(changed)
        fine = start.changed is not None or (start.behind and len(start.writes) >= durable(disk.held))
        wrong += [(at, disk.held, changed)] * (not fine)
    check(f"{count} ends without sectors, and 300 changed bytes", not wrong, wrong[:1])


def try_model_changes(_):
    """A change of a write that a later one says was with the disk: a start refuses it, whatever the change is."""
    numbers, wrong, count = random.Random(SEED), [], 0
    for share in (1, 1, 0.7, 0.7):
        disk = Disk(numbers)
        for _ in range(5):
            disk.write(numbers.random() < share)
        writes = [write.bytes for write in writes_of(disk.held)]
        changes = bytes_changed(disk.held), moved(disk.held.splitlines(keepends=True)), moved(writes)
        for name, changed in itertools.chain(*changes):
            start, count = start_of(changed), count + 1
            fine = start.changed is not None or len(start.writes) >= durable(disk.held)
            wrong += [(name, disk.held, changed)] * (not fine)
    check(f"{count} changes", not wrong, wrong[:1])


# ---- what is written


def ordered(sessions, path):
    """Has two sessions say the orders, and answers what is wrong: each adds one write, or none."""
    wrong = []
    for number, order, writes in ORDERS:
        before = log_of(path)
        answer = sessions[number].ask(order)
        after = log_of(path)
        more = len(writes_of(after)) - len(writes_of(before))
        if b'"ok"' not in answer or not after.startswith(before) or more != writes or whole(after) != after:
            wrong.append((order, answer, after[len(before) :]))
    return wrong


def made(path, sync):
    """The file of a server that was killed after ten orders and more."""
    server = serve(path, "bank", **SIZES, sync=sync)
    sessions = [server.session(), server.session()]  # which end behind the server: the end of a session is a write, too
    wrong = ordered(sessions, path)
    kill(server)
    same(f"--sync {sync}: each order adds one write, or none", wrong, [])
    return log_of(path)


def as_written(held, lives):
    """The same lines as a server writes them that was started once for each of these: with which `--sync`, and after how many
    writes; the first one has made the file."""
    told, kept = b"", 0
    begins = [begin for _, begin in lives]
    for number, write in enumerate(writes_of(held), 1):
        sync = [sync for sync, begin in lives if begin < number][-1]
        if number > 1:
            # What was not known when the server started is not known to the crashes that it begins with; then it has synced all.
            of_start = number - 1 in begins and write.lines.count(b'{"do":"crash",') == write.lines.count(b"\n")
            kept = max(1, kept) if sync == "never" or of_start else number - 1
        told += sealed(write.lines, kept, number)
    return told


def try_written(folder):
    """The files of real servers, byte by byte."""
    same("the sum of the nine digits", crc32c(b"123456789"), 0xE3069283)
    for first, second in (("always", "always"), ("always", "never"), ("never", "always"), ("never", "never")):
        path = os.path.join(folder, f"{first}-{second}")
        held = made(path, first)
        header = text(epoch=0, last=[None] * 2, lives=[0] * 2, numbers=[0] * 2, places=[0], rme="kept", version=2)
        opening = text(cells=1, do="open", jobs=100, locks=["bank"], workers=3)
        same("the first write", writes_of(held)[0].lines, header + b"\n" + opening + b"\n")
        lives = [(first, 0)]
        same(f"--sync {first}: numbers, and sums", held, as_written(held, lives))
        for ends in (LAST, DETACH, LAST):  # the last one finds no worker up
            lives.append((second, len(writes_of(log_of(path)))))
            server = serve(path, sync=second)
            session = server.session()
            number = session.attach(0)["number"]
            session.ask_all(*(job("submit", "bank", number + more, *ONE) for more in (1, 2)), ends)
            kill(server)
        now = log_of(path)
        check("it is longer", now.startswith(held) and len(writes_of(now)) == len(writes_of(held)) + 12, now)
        same(f"--sync {first}, and then --sync {second}", now, as_written(now, lives))
        same("all of it is taken", ends_with(look(path, "--check")), (0, b"yes\n", b""))


def try_together(folder):
    """Sessions that send jobs without waiting, whose lines may be of one write; the server is killed meanwhile."""
    for sync in ("always", "never"):
        path = os.path.join(folder, sync)
        server = serve(path, "bank", workers=6, sync=sync)
        sessions = [server.session() for _ in range(6)]
        for worker, session in enumerate(sessions):
            session.attach(worker)
        for session in sessions:
            session.send(b"".join(line_of(**job("submit", "bank", number, *ONE, wait=60_000)) for number in range(1, 101)))
        answered = [json.loads(session.hear())["receipt"]["number"] for session in sessions for _ in range(20)]
        kill(server)
        front = whole(read(path))
        same(f"--sync {sync}, many sessions: numbers, and sums", front, as_written(front, [(sync, 0)]))
        told = [worker["number"] for worker in looked(path)["workers"]]
        check("what was answered is there", min(told) >= 20 == max(answered), told)
        note(f"--sync {sync}: {sum(told)} jobs in {len(writes_of(front))} writes")


def try_room(folder):
    """A server that waits for the disk has zeros behind its log, room for further writes, at most as long as the log, or 16 KiB. A
    start counts none of them, and cuts them off."""
    for sync in ("always", "never"):
        path, wrong = os.path.join(folder, sync), []
        server = serve(path, "bank", sync=sync, workers=2)
        session = server.session()
        session.attach(0)
        for number in range(1, 201):
            session.ask(job("submit", "bank", number, *ONE))
            held, log = read(path), log_of(path)
            if whole(held) != log or len(held) > len(log) + max(len(log), 16 << 10) or (len(held) > len(log)) != (sync == "always"):
                wrong.append((number, len(log), len(held)))
        same(f"--sync {sync}: room behind the log", wrong, [])
        kill(server)
        log = log_of(path)
        same("all of it is taken", ends_with(look(path, "--check")), (0, b"yes\n", b""))
        same("it is a run", faults_of(read(path)), [])
        server = serve(path, sync="never")
        held = read(path)
        check("a start cuts the room off", held.startswith(log) and whole(held) == held, held[len(log) :])
        check("and does not speak of it", b"never known" not in kill(server)[2])


# ---- what a start makes of a file


def judged(case):
    """Of the bytes of a file, and of what was in it before: in which way a start ends, and what is wrong with that."""
    folder, name, held, before, known = case
    path = written(os.path.join(folder, f"judged-{os.getpid()}"), held)
    ended, start = ends_with(look(path, "--check")), start_of(held)
    kind = "refused" if ended[1].startswith(b"no ") else "cut" if ended[1] != b"yes\n" else "taken"
    wrong = []
    if not is_verdict(ended, start.verdicts):
        wrong.append((name, ended, start.verdicts))
    if kind != "refused" and writes_of(before)[: len(start.writes)] != list(start.writes):
        wrong.append((name, "other writes are taken", ended))
    if kind != "refused" and len(start.writes) < known:
        wrong.append((name, "a durable write is cut off", ended))
    return kind, wrong


def judge(folder, what, cases):
    """Judges files, each by its name, its bytes, the bytes before, and how many of its writes were durable; prints in which ways
    starts end, and answers the cases by these ways."""
    kinds, wrong, found = collections.Counter(), [], collections.defaultdict(list)
    with multiprocessing.get_context("fork").Pool(PROCESSES) as pool:
        told = pool.map(judged, [(folder, *case) for case in cases], chunksize=16)
    for case, (kind, faults) in zip(cases, told):
        kinds[kind] += 1
        wrong += faults
        found[kind].append(case[1])
    counts = ", ".join(f"{kinds[kind]} {kind}" for kind in ("refused", "cut", "taken"))
    check(f"{what}: {len(cases)} files, {counts}", not wrong, wrong[:3])
    return found


def start_refused(path, held):
    """A server does not begin, and leaves the file as it is."""
    ended, start = end_of(state_words(written(path, held), port=0)), start_of(held)
    wanted = [(2, b"", bad_state(path, held, start.changed))]
    if not start.writes:  # its header may be none
        wanted.append((2, b"", f"fault: bad state\n  {path}: line 1\n".encode()))
    check("a start is refused", (*ended[:2], without_count(ended[2])) in wanted, (ended, wanted))
    check("and look says so", ends_with(look(path)) in wanted, wanted)
    check("the file is as it was", read(path) == held)


def start_cut(path, held):
    """A server begins, says how many bytes it cuts off, and goes on from what is before them."""
    front, cut = whole(held), start_of(held).behind
    wanted = status_in(front)
    for worker in wanted["workers"]:
        worker["attached"] = False
    server = serve(written(path, held))
    session = server.session()
    told = without_seconds(session.told(**STATUS))
    number = session.attach(0)["number"]
    is_ready = told["workers"][0]["stance"] == "ready"
    went_on = session.told(**job("submit", "bank", number + 1, *ONE)) if is_ready else session.told(do="resume")
    said = kill(server)[2]
    note_of_cut = f"rme: {cut} bytes at the end of {path} were never known to be with the disk, and are cut off\n".encode()
    same(f"a start after {len(writes_of(front))} writes, {cut} bytes cut off", told, wanted)
    check("it says so", (note_of_cut in said) == bool(cut), said)
    check("jobs go on", went_on.get("ok") in ("submit", "resume"), went_on)
    now = log_of(path)
    check("behind what is left", now.startswith(front) and whole(now) == now, now[len(front) :])
    same("and all of it is taken", ends_with(look(path, "--check")), (0, b"yes\n", b""))


def start_some(folder, found, count=4):
    """Starts servers on some of these files."""
    numbers, path = random.Random(SEED), os.path.join(folder, "started")
    for kind, start in {"refused": start_refused, "cut": start_cut, "taken": start_cut}.items():
        for held in numbers.sample(found[kind], min(count, len(found[kind]))):
            if is_sealed(held):  # of another version something else is said
                start(path, held)


def bytes_changed(held):
    """Each byte changed, to some others, and a digit of a sum line to each other digit; with what it is called."""
    of_sums = {at for write in writes_of(held) for at in range(write.end - len(write.sum_line), write.end)}
    for at, byte in enumerate(held):
        others = {byte ^ 1, byte ^ 0x80, 10}
        if at in of_sums:
            others |= {byte ^ 0x20, *(DIGITS if byte in DIGITS else ())}
        for other in sorted(others - {byte}):
            yield (at, other), held[:at] + bytes([other]) + held[at + 1 :]


def try_changes(folder):
    """Each byte of a file changed."""
    for sync in ("always", "never"):
        held = made(os.path.join(folder, sync), sync)
        cases = [(name, changed, held, durable(held)) for name, changed in bytes_changed(held)]
        found = judge(folder, f"--sync {sync}, each of {len(held)} bytes changed", cases)
        check("none is taken", not found["taken"], len(found["taken"]))
        start_some(folder, found)


def try_cuts(folder):
    """A file cut at each length. What it knew of its end is cut off with the end, and nothing tells of it."""
    for sync in ("always", "never"):
        held = made(os.path.join(folder, sync), sync)
        ends = [write.end for write in writes_of(held)]
        lengths = range(len(held) + 1)
        cases = [(length, held[:length], held, sum(end <= length for end in ends)) for length in lengths]
        found = judge(folder, f"--sync {sync}, cut at each of {len(held)} bytes", cases)
        same("where a write ends, all of it is taken", len(found["taken"]), len(ends))
        same("it is refused where no write is left", len(found["refused"]), ends[0])
        start_some(folder, found)


def moved(parts):
    """Each of these parts doubled, left out, and exchanged with the next, with what it is called."""
    for at, part in enumerate(parts):
        front, behind = b"".join(parts[:at]), parts[at + 1 :]
        yield f"{at} doubled", b"".join([front, part, part, *behind])
        yield f"{at} left out", b"".join([front, *behind])
        if behind and behind[0] != part:
            yield f"{at} exchanged", b"".join([front, behind[0], part, *behind[1:]])


def try_moved(folder):
    """Lines and whole writes doubled, left out and exchanged with the next one."""
    files = {sync: made(os.path.join(folder, sync), sync) for sync in ("always", "never")}
    files["always, then never"] = next(unsynced(folder))[1]
    for sync, held in files.items():
        for what, parts in {
            "lines": held.splitlines(keepends=True),
            "writes": [write.bytes for write in writes_of(held)],
        }.items():
            cases = [(name, changed, held, durable(held)) for name, changed in moved(parts)]
            found = judge(folder, f"--sync {sync}, {what} doubled, left out and exchanged", cases)
            # The last write may be missing: it is that of a server that never made it.
            shorter = [held[: writes_of(held)[-2].end]] * (what == "writes")
            same("what is taken is the file without its last write", found["taken"], shorter)
            start_some(folder, found, count=2)


def try_forms(folder):
    """Lines behind the last write: some say that a further write was with the disk, and others begin almost so."""
    held = made(os.path.join(folder, "made"), "always")
    count, begun = len(writes_of(held)), b'{"kept":%d,"seq":1,"sum":"'
    forms = {
        "refused": (
            *(begun % (count + 1) + behind for behind in (b"", b"\n", b"zzzzzzzz", b'00000000"}', b'00000000"}\n{"do":"walk')),
            *(front + begun % 2**63 for front in (b"\n", b"{\n", b'{"do":"resume"}\n', begun % 2 + b"\n")),
            b'{"kept":99,"seq":0,"sum":"',
            b'{"kept":%d,"seq":%d,"sum":"00000000"}\n' % (2**64 - 1, 2**64 - 1),
        ),
        "cut": (
            *(begun.replace(b"%d", kept) + b"\n" for kept in (b"%d" % count, b"%d" % 2**64, b"099", b"+99", b"-99", b" 99", b"")),
            *(b'{"kept":99,"seq":%s,"sum":"\n' % number for number in (b"%d" % 2**64, b"01", b"+1", b"-1", b" 1", b"")),
            *(front + begun % 99 for front in (b" ", b"{", b"\r", b"\0")),
            *(b'{"kept":99,"seq":1' + behind for behind in (b"", b',"sum":', b',"sum": "', b', "sum":"', b"}\n")),
            b'{"seq":1,"kept":99,"sum":"',
        ),
    }
    for kind, behind in forms.items():
        found = judge(folder, f"lines behind a file, to be {kind}", [(line, held + line, held, count) for line in behind])
        same("it is so of all", [it[len(held) :] for it in found[kind]], list(behind))


# ---- a machine that stops


def without_sectors(held, synced, lost):
    """A file of which these sectors, by their numbers, are as they were when only this number of bytes was synced."""
    found = bytearray(held)
    for sector in lost:
        begin, end = max(synced, SECTOR * sector), min(len(held), SECTOR * (sector + 1))
        found[begin:end] = bytes(max(0, end - begin))
    return bytes(found)


def lost_in(held, synced, most=8):
    """A file without each combination of its last sectors that were not synced."""
    sectors = range(synced // SECTOR, (len(held) - 1) // SECTOR + 1)[-most:]
    for count in range(len(sectors) + 1):
        for lost in itertools.combinations(sectors, count):
            yield lost, without_sectors(held, synced, lost)


def unsynced(folder):
    """Files with an end that was not synced, and how many bytes were: a server that does not sync behind one that does; and one
    write for the lines of many sessions."""
    path = os.path.join(folder, "unsynced")
    held = made(path, "always")
    server = serve(path, sync="never")
    session = server.session()
    number = session.attach(0)["number"]
    session.ask_all(*(job("submit", "bank", number + more, ["add", 0, more]) for more in range(1, 24)))
    kill(server)
    now = log_of(path)
    yield "many writes", now, len(held)
    writes = writes_of(now)
    count = len(writes_of(held))
    lines = b"".join(write.lines for write in writes[count:])
    yield "one large write", held + sealed(lines, count, count + 1), len(held)


def try_sectors(folder):
    """An end that was not synced, of which a machine that stopped has kept some sectors and lost others: no start is refused, and
    nothing durable is missing after it."""
    for name, held, synced in unsynced(folder):
        known = len(writes_of(held[:synced]))
        cases = []
        for lost, left in lost_in(held, synced):
            cases += [((lost, zeros), left + bytes(zeros), held, known) for zeros in (0, 1, SECTOR, 4096)]
        found = judge(folder, f"{name}, {len(held) - synced} bytes not synced, sectors lost", cases)
        check("none is refused", not found["refused"], len(found["refused"]))
        start_some(folder, found)
        lost = [(length, held[:synced] + bytes(length), held, known) for length in (0, 1, 2, 511, 512, 4096, 70_000)]
        found = judge(folder, f"{name}, zeros in the place of the end", lost)
        check("none is refused", not found["refused"], len(found["refused"]))
        start_some(folder, found, count=2)


# ---- a file without sums


def try_first_version(folder):
    """A file without sums is served, goes on without them, and has them from its next checkpoint on."""
    path = os.path.join(folder, "state")
    held = first_version(made(os.path.join(folder, "second"), "never"))
    for sync in ("never", "always"):
        wanted = looked(written(path, held))
        same("what it says", wanted, status_of(whole_lines(held)[1:]))
        server = serve(written(path, held + b'{"do":"walk"'), sync=sync)
        session = server.session()
        number = session.attach(0)["number"]
        session.ask_all(*(job("submit", "bank", number + more, *ONE) for more in range(1, 4)))
        said = kill(server)[2]
        now = log_of(path)
        check("it goes on without sums", now.startswith(held) and MARK not in now and not is_sealed(now), now[len(held) :])
        check("nothing is said of its torn line", b"never known" not in said, said)
        same("all of it is taken", ends_with(look(path, "--check")), (0, b"yes\n", b""))
        for what, options in {"a checkpoint": {"sections": 2}, "a growth": {"workers": 3}}.items():
            server = serve(written(path, now), sync=sync, **options)
            session = server.session()
            stood = session.attach(0)["number"]
            session.ask_all(*(job("submit", "bank", stood + more, *ONE) for more in range(1, 5)))
            kill(server)
            then = log_of(path)
            check(f"{what} puts a file with sums in its place", is_sealed(then) and whole(then) == then, then)
            same(f"{what}: numbers and sums", then, as_written(then, [(sync, 0)]))
            same(f"{what}: all jobs are there", looked(path)["workers"][0]["number"], stood + 4)


def try_mixed(folder):
    """Sum lines in a file that has none, and none in one that has them."""
    path = os.path.join(folder, "mixed")
    held = made(os.path.join(folder, "second"), "always")
    old = first_version(held)
    sums_in_first = held.replace(b'"version":2}', b'"version":1}', 1)
    first_sum = writes_of(held)[0].last
    for name, changed, line in (
        ("sum lines in a file of version 1", sums_in_first, first_sum),
        ("version 2 without sum lines", old.replace(b'"version":1}', b'"version":2}', 1), last_line(old)),
    ):
        ended = ends_with(look(written(path, changed), "--check"))
        same(f"refused: {name}", ended, (1, b"no %d\n" % line, b""))
        ended = end_of(state_words(path, port=0))
        same(f"and by a start: {name}", ended, (2, b"", bad_state(path, changed, line)))


def try_replayed(folder):
    """`tail -n +2 FILE | rme run --transcript | rme check`: `rme run` refuses a sum line, which changes nothing."""
    for sync in ("always", "never"):
        held = made(os.path.join(folder, sync), sync)
        lines = held[held.index(b"\n") + 1 :]
        ran = run(["run", "--transcript"], lines)
        same("a transcript", (ran.returncode, run(["check"], ran.stdout).stdout), (0, b"yes\n"))
        of_lines = run(["run", "--transcript"], payload_of(held).split(b"\n", 1)[1]).stdout
        same("which is that of only the lines", ran.stdout, of_lines)
        answers = run(["run"], lines).stdout.splitlines()
        same("each sum line is answered by 1", answers.count(b'{"code":1,"error":"BadLine"}'), len(writes_of(held)))


def part():
    note(f"seed {SEED}")
    of_model = try_model, try_model_changes
    changes = try_changes, try_cuts, try_moved, try_forms, try_sectors
    main_in_folders(*of_model, try_written, try_together, try_room, *changes, try_first_version, try_mixed, try_replayed, minutes=5)
