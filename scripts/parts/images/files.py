"""Saved worlds: runs that are cut in two with an image between, by files.

Each example is cut before each of its lines: what a second run answers over the saved world is what one run answers that
crashes all its workers there. So is a job that is cut before each of its steps. Then all that can go wrong with the files:
an image that is not there, broken, under other names or not to be read, what can't be saved, a file that grows too long,
runs that are killed while they save, and pairs of runs that save to one file.
"""

import json
import os
import random
import resource
import shutil
import signal
import subprocess
import tempfile
import time

from lib import programs
from lib.checks import check, main
from lib.programs import REFUSED_GROWTH, built, examples, growth_refuser, refusing
from lib.worlds import OPENING, SMALLEST, answers, job, lines_of, run


def written(path, held):
    with open(path, "wb") as file:
        file.write(held)
    return path


def read(path):
    with open(path, "rb") as file:
        return file.read()


def beside(path):
    """The names of what stands beside a file under a name that begins with its own."""
    folder, name = os.path.split(path)
    return sorted(other for other in os.listdir(folder) if other.startswith(name) and other != name)


# ---- runs that are cut in two


def open_after(lines, told):
    """The names of the locks after these lines and their answers, and the workers that are up, in order."""
    names, up = [], set()
    for line, answer in zip(lines, told):
        asked, answer = json.loads(line), json.loads(answer)
        if answer.get("ok") == "open":
            names, up = asked["locks"], set(range(asked["workers"]))
        elif answer.get("ok") == "load":
            names, up = asked["locks"], set()
        elif answer.get("ok") == "crash":
            up.discard(asked["worker"])
        elif answer.get("ok") == "restart":
            up.add(asked["worker"])
    return ",".join(names), sorted(up)


def is_report(line):
    return b'"report"' in line


def cut_example(given, folder):
    """Cuts an example before each line. Left out are reports, which begin anew with an image."""
    lines = [line for line in given.splitlines(keepends=True) if not is_report(line)]
    image = os.path.join(folder, "cut.rme")
    for at in range(1, len(lines) + 1):
        before = answers(["--save", image], *lines[:at])
        names, up = open_after(lines[:at], before)
        crashes = [{"do": "crash", "worker": worker} for worker in up]
        restarts = [{"do": "restart", "worker": worker} for worker in up]
        asked = restarts + lines[at:]
        whole = answers([], *lines[:at], *crashes, *asked)
        after = answers(["--image", image, "--locks", names], *asked)
        if before != whole[:at] or after != whole[at + len(crashes) :]:
            return f"cut before line {at + 1}: {after} in place of {whole[at + len(crashes):]}"
    return ""


def try_cut_examples(folder):
    for name, given in examples():
        told = cut_example(given, folder)
        check("cut before each line: " + name, not told, told)


def try_cut_steps(folder):
    """A job of 56 steps is cut before each of them: 18 of Post, 1 of Enter, 34 of the section, 3 of Exit. It counts once
    if its number was stored, and else it was never asked for."""
    image = os.path.join(folder, "steps.rme")
    script = [["set", 1, 5], ["set", 0, 2**64 - 1], ["add", 0, 1], ["swap", 0, 0], ["copy", 1, 1]]
    opening = {"cells": 2, "do": "open", "jobs": 10, "locks": ["bank"], "workers": 1}
    submission = {"do": "submit", "lock": "bank", "script": script, "worker": 0}
    entry = {"lock": "bank", "number": 1, "place": 0, "reply": 5, "script": script, "worker": 0}
    looks = [{"do": "cells", "lock": "bank"}, {"do": "history"}]
    wrong = []
    for steps in range(57):
        walk = [{"do": "walk", "max": steps, "worker": 0}] if steps else []
        answers(["--save", image], opening, submission, *walk)
        asked = [{"do": "restart", "worker": 0}, {"do": "walk", "worker": 0}, *looks]
        cells, history = [json.loads(line) for line in answers(["--image", image, "--locks", "bank"], *asked)[2:]]
        counts = steps >= 18
        wanted = {"cells": [0, 5] if counts else [0, 0], "ok": "cells", "settled": True}
        if cells != wanted or history["entries"] != ([entry] if counts else []):
            wrong.append((steps, cells, history))
    check("a job that is cut before each of its 56 steps counts once", not wrong, wrong)


# ---- files that are as they should be


def not_there(image):
    return f"nothing is open at the beginning: {image} is not there\n".encode()


def try_first_start(folder):
    image = os.path.join(folder, "first.rme")
    words = ["--image", image, "--locks", "bank", "--save", image]
    ran = run(words, {"do": "history"}, OPENING)
    wanted = (0, b'{"code":3,"error":"NotOpen"}\n{"ok":"open"}\n', not_there(image))
    check("an image that is not there: nothing is open, and a line says so", (ran.returncode, ran.stdout, ran.stderr) == wanted, ran)
    held = read(image)
    told = answers(words, OPENING, {"do": "history"})
    wanted = [b'{"code":4,"error":"AlreadyOpen"}', b'{"entries":[],"ok":"history"}']
    check("the next run begins with it, and gives the same bytes back", told == wanted and read(image) == held, told)
    told = answers(["--image", image, "--locks", "other"], {"do": "owner", "lock": "other"}, {"do": "owner", "lock": "bank"})
    wanted = [b'{"ok":"owner","owner":null}', b'{"code":11,"error":"NoLock"}']
    check("the locks have the names that were given", told == wanted, told)
    check("no file is left beside it", beside(image) == [])


def try_nothing_open(folder):
    image = written(os.path.join(folder, "kept.rme"), b"old")
    ran = run(["--save", image], {"do": "history"})
    text = f"nothing is open at the end: {image} stays as it is\n".encode()
    check("nothing open at the end: a line, status 0 and the file as it was", (ran.returncode, ran.stderr, read(image)) == (0, text, b"old"), ran)
    missing = os.path.join(folder, "never.rme")
    ran = run(["--save", missing])
    check("nothing open, and no file either", ran.returncode == 0 and not os.path.exists(missing), ran)


def try_older(folder):
    """An image of version 1, with 1 worker, 1 lock, 2 cells and 1 job, and the one of version 2 that it stands for."""
    words = [0] * 38
    for number, value in {0: 1, 6: 1, 7: 2, 9: 5, 31: 1, 32: 1, 35: 5, 37: 5}.items():
        words[number] = value
    older = bytes.fromhex("524d4549" "01" "0001" "01" "02" "00000001") + b"".join(word.to_bytes(8, "big") for word in words)
    newer = bytes.fromhex("524d4549" "02" "0001" "01" "02" "00000001") + b"".join(word.to_bytes(8, "big") for word in words + [3])
    image, other = os.path.join(folder, "older.rme"), os.path.join(folder, "newer.rme")
    written(image, older + bytes(4))
    told = answers(["--image", image, "--locks", "bank", "--save", other])
    check("version 1 is saved as version 2", told == [] and read(other) == newer + bytes(4), read(other).hex())
    asked = [{"do": "owner", "lock": "bank"}, {"do": "restart", "worker": 0}, {"do": "walk", "worker": 0}, {"do": "cells", "lock": "bank"}]
    wanted = [
        b'{"ok":"owner","owner":0}',
        b'{"ok":"restart"}',
        b'{"end":"ready","notes":[["reentered","bank"],["finished","bank",1,0,5],["left","bank"]],"ok":"walk"}',
        b'{"cells":[5,0],"ok":"cells","settled":true}',
    ]
    for path in (image, other):
        told = answers(["--image", path, "--locks", "bank"], *asked)
        check(f"what was begun is finished from {os.path.basename(path)}", told == wanted, told)


# ---- files that are not


def refused(name, words, status, text, *asked):
    """A run must write nothing and end with this status and text."""
    ran = run(words, *(asked or [OPENING]))
    check(name, (ran.returncode, ran.stdout, ran.stderr) == (status, b"", f"fault: {text}\n".encode()), ran)


def try_broken(folder):
    image = os.path.join(folder, "broken.rme")
    broken = {
        "empty": b"",
        "one byte short": SMALLEST[:-1],
        "one byte more": SMALLEST + b"\0",
        "version 9": SMALLEST[:4] + b"\x09" + SMALLEST[5:],
        "a node that names no worker": SMALLEST[:268] + b"\2" + SMALLEST[269:],
        "a node of a worker that begun nothing": SMALLEST[:268] + b"\1" + SMALLEST[269:],
        "a turn that is not the lock's": SMALLEST[:276] + b"\1" + SMALLEST[277:],
        "a cell that no section wrote": SMALLEST[:284] + b"\1" + SMALLEST[285:],
        "a number of entries that are not there": SMALLEST[:-4] + b"\xff\xff\xff\xff",
    }
    for name, held in broken.items():
        written(image, held)
        words = ["--image", image, "--locks", "bank", "--save", image]
        refused("broken: " + name, words, 2, f"the image {image} is broken: it is the image of no world")
        if read(image) != held:
            check("it stays as it was", False)


def try_names(folder):
    image = written(os.path.join(folder, "names.rme"), SMALLEST)
    bad = "--locks takes 1 to 16 names, each once, of 1 to 32 of a-z 0-9 _ and -, with commas between"
    for names in ("", "Bank", "bank,bank", "bank,", "b" * 33, ",".join("abcdefghijklmnopq")):
        refused(f"names: '{names}'", ["--image", image, "--locks", names], 2, bad)
    refused("invalid names, and no image", ["--image", image + ".none", "--locks", "Bank"], 2, bad)
    other = f"the world of the image {image} has not as many locks as --locks has names: 2"
    refused("two names for one lock", ["--image", image, "--locks", "bank,shop"], 2, other)


def try_words(folder):
    image = written(os.path.join(folder, "words.rme"), SMALLEST)
    for option, words in (("--image", ["--image=", "--locks", "bank"]), ("--save", ["--save="])):
        refused(f"{option} with nothing", words, 2, f"bad arguments\n  {option} names no file: its value is empty")
    for words in (
        ["--image", image],
        ["--locks", "bank"],
        ["--save"],
        ["--transcript", "--save", image],
        ["--transcript", "--image", image, "--locks", "bank"],
        ["--save", image, "--save", image],
    ):
        ran = run(words, OPENING)
        said = ran.stderr.startswith(b"error: ")
        check("refused words: " + " ".join(words).replace(folder, ".."), (ran.returncode, ran.stdout, said) == (2, b"", True), ran)


def try_unread(folder):
    text = f"the image {folder} can't be read: Is a directory (os error 21)"
    refused("a folder as the image", ["--image", folder, "--locks", "bank"], 3, text)
    below = written(os.path.join(folder, "no-folder"), b"") + "/image.rme"
    text = f"the image {below} can't be read: Not a directory (os error 20)"
    refused("an image below a file", ["--image", below, "--locks", "bank"], 3, text)


def unsaved(name, image, text, **more):
    """A run answers all its lines and can't save the world."""
    ran = run(["--save", image], OPENING, {"do": "history"}, **more)
    wanted = (4, b'{"ok":"open"}\n{"entries":[],"ok":"history"}\n', f"fault: the image {image} can't be written: {text}\n".encode())
    check(name, (ran.returncode, ran.stdout, ran.stderr) == wanted, ran)


def short_files():
    """A file of this process may have 100 bytes, and a write beyond them fails."""
    signal.signal(signal.SIGXFSZ, signal.SIG_IGN)
    resource.setrlimit(resource.RLIMIT_FSIZE, (100, 100))


def unsavable(name, image, why):
    """A run is refused before its first line is read, and leaves what there is."""
    refused(f"can't be saved: {name}", ["--save", image], 2, f"the image {image} can't be saved: {why}")


def try_unsavable(folder):
    """A file that is not regular stays what it is, also behind a link; and a folder must take new files."""
    inner, pipe, link = (os.path.join(folder, name) for name in ("inner", "pipe", "link"))
    os.mkdir(inner)
    os.mkfifo(pipe)
    os.symlink("/dev/null", link)
    before = [os.lstat(path)[:3] for path in (inner, pipe, link, "/dev/null")]
    for name, image in {"a folder": inner, "a FIFO": pipe, "a device": "/dev/null", "a link to a device": link}.items():
        unsavable(name, image, "it is no regular file")
    after = [os.lstat(path)[:3] for path in (inner, pipe, link, "/dev/null")]
    check("each of them is what it was, and nothing is left beside it", (before, beside(inner), beside(pipe)) == (after, [], []), after)
    unsavable("a folder that is not there", os.path.join(folder, "none", "image.rme"), "No such file or directory (os error 2)")
    unsavable("a folder that is a file", written(os.path.join(folder, "plain"), b"") + "/image.rme", "Not a directory (os error 20)")
    unsavable("a name that is too long", os.path.join(folder, "n" * 255), "File name too long (os error 36)")
    if os.path.isdir("/sys/kernel"):
        ran = run(["--save", "/sys/kernel/image.rme"], OPENING)
        said = ran.stderr.startswith(b"fault: the image /sys/kernel/image.rme can't be saved: ")
        check("a folder that takes no file", (ran.returncode, ran.stdout, said) == (2, b"", True), ran)


def try_unwritten(folder):
    image = written(os.path.join(folder, "short.rme"), b"old")
    unsaved("a file that grows too long", image, "File too large (os error 27)", preexec_fn=short_files)
    check("it stays as it was, and nothing is left beside it", read(image) == b"old" and beside(image) == [], beside(image))


def try_modes(folder):
    """The mode of the file that is replaced stays; a new file has that of new files."""
    image = os.path.join(folder, "mode.rme")
    for mode in (0o600, 0o640, 0o444, 0o666):
        written(image, b"old")
        os.chmod(image, mode)
        answers(["--save", image], OPENING)
        seen = os.stat(image).st_mode & 0o7777
        check(f"the mode {mode:o} stays", seen == mode and read(image) != b"old", oct(seen))
        os.remove(image)
    old = os.umask(0o027)
    answers(["--save", image], OPENING)
    os.umask(old)
    check("a new file has the mode of new files", os.stat(image).st_mode & 0o7777 == 0o640, oct(os.stat(image).st_mode))


def try_names_beside(folder):
    """Names beside the file that others have are not touched, also a link and a FIFO."""
    image = os.path.join(folder, "taken.rme")
    other = written(os.path.join(folder, "other.txt"), b"other")
    os.symlink(other, image + ".new")
    os.mkfifo(image + ".1.new")
    written(image + ".2.new", b"left")
    names = beside(image)
    answers(["--save", image], OPENING)
    held = (read(other), os.readlink(image + ".new"), read(image + ".2.new"), beside(image))
    check("what stands beside it is in nobody's way, and stays", held == (b"other", other, b"left", names) and read(image).startswith(b"RMEI"), held)


def try_faults(folder):
    """What ends a run early saves nothing."""
    image = written(os.path.join(folder, "fault.rme"), b"old")
    with open("/dev/full", "wb") as full:
        ran = run(["--save", image], OPENING, stdout=full)
    check("a full output saves nothing", (ran.returncode, ran.stderr, read(image)) == (4, b"fault: write failed\n", b"old"), ran)
    descriptor = os.open(folder, os.O_RDONLY)
    ran = programs.run(["run", "--save", image], stdin=descriptor)
    os.close(descriptor)
    check("an input that can't be read saves nothing", (ran.returncode, ran.stderr, read(image)) == (3, b"fault: read failed\n", b"old"), ran)


# ---- memory that is refused


def try_growths(folder):
    """Refuses the first, the second, .. growth of memory of a run that loads and saves, until a run meets no refusal."""
    shim = growth_refuser(folder)
    if not shim:
        return
    image, other = os.path.join(folder, "grown.rme"), os.path.join(folder, "other.rme")
    answers(["--save", image], OPENING, *job(0), *job(1))
    ends, wrong, number = {0: 0, 5: 0}, [], 0
    while True:
        number += 1
        if os.path.exists(other):
            os.remove(other)
        ran = run(["--image", image, "--locks", "bank", "--save", other], env=refusing(shim, number))
        if REFUSED_GROWTH not in ran.stderr:
            break
        whole = (ran.returncode, ran.stderr, os.path.exists(other) and read(other) == read(image))
        if whole not in ((0, REFUSED_GROWTH, True), (5, REFUSED_GROWTH + b"fault: no memory\n", False)):
            wrong.append((number, ran))
        else:
            ends[ran.returncode] += 1
    check(f"refused growths: {ends[5]} runs ended with status 5 and saved nothing, {ends[0]} went on as ever", not wrong and ends[5], wrong)


# ---- runs that are killed


def kill_when_saving(words, given, image, delay):
    """Starts a run and kills it this time after it began to write beside the file, which it does once it has answered
    all. Answers whether it was still there."""
    program = subprocess.Popen([built(), "run"] + words, stdin=subprocess.PIPE, stdout=subprocess.PIPE, stderr=subprocess.DEVNULL)
    program.stdin.write(given)
    program.stdin.flush()
    for _ in range(given.count(b"\n")):
        program.stdout.readline()
    program.stdin.close()
    before = len(beside(image))
    while len(beside(image)) == before and program.poll() is None:
        pass
    time.sleep(delay)
    program.kill()
    program.stdout.close()
    return program.wait() == -signal.SIGKILL


def clear_beside(image):
    for name in beside(image):
        os.remove(os.path.join(os.path.dirname(image), name))


def many_sections(folder):
    """The image of a world of many sections, the words of a run that begins and ends with it, and what it answers."""
    image = os.path.join(folder, "many.rme")
    lines = [line for _ in range(20_000) for line in job(0)]
    opening = {"cells": 1, "do": "open", "jobs": 1_000_000, "locks": ["bank"], "workers": 1}
    answers(["--save", image], opening, *lines)
    more = [{"do": "restart", "worker": 0}, {"do": "walk", "worker": 0}, *job(0)]
    return image, ["--image", image, "--locks", "bank", "--save", image], more


def try_kills(folder):
    """A world of many sections, one more in each run: the file is the old image or the new one, whenever a run is killed."""
    image, words, more = many_sections(folder)
    old = read(image)
    wanted = os.path.join(folder, "wanted.rme")
    answers(words[:-1] + [wanted], *more)
    new = read(wanted)
    delays, killed, was_old, broken = random.Random(1), 0, 0, 0
    for _ in range(60):
        written(image, old)
        clear_beside(image)
        killed += kill_when_saving(words, lines_of(*more), image, delays.uniform(0, 0.004))
        held = read(image)
        was_old += held == old
        broken += held not in (old, new)
    told = f"{killed} of 60 runs killed, {was_old} left the old image, {60 - was_old - broken} the new one"
    check("killed while it saves: " + told, old != new and not broken and killed > 0, f"{broken} broken")
    written(image, old)
    answers(words, *more)
    check("what killed runs left beside it is in nobody's way", read(image) == new)
    clear_beside(image)


# ---- pairs of runs


def save_both(image, shorter, longer, delays):
    """Two runs save to one file, each with its system calls of a kind held up for this number of microseconds, if
    `strace` is there. Answers their statuses and the images that were seen meanwhile."""
    programs = []
    for given, (call, delay) in zip((shorter, longer), delays):
        command = [built(), "run", "--save", image]
        if delay:
            command = ["strace", "-f", "-o", "/dev/null", "-e", f"trace={call}", "-e", f"inject={call}:delay_enter={delay}", *command]
        programs.append(subprocess.Popen(command, stdin=subprocess.PIPE, stdout=subprocess.DEVNULL, stderr=subprocess.PIPE))
    for program, given in zip(programs, (shorter, longer)):
        program.stdin.write(given)
        program.stdin.close()
    seen = set()
    while any(program.poll() is None for program in programs):
        seen.add(read(image))
    for program in programs:
        program.stderr.close()
    return [program.returncode for program in programs], seen | {read(image)}


def has_strace():
    """Whether `strace` is there and may hold up what another program calls."""
    if not shutil.which("strace"):
        return False
    ran = subprocess.run(["strace", "-o", "/dev/null", "-e", "inject=fsync:delay_enter=1", "true"], capture_output=True)
    return ran.returncode == 0


def try_pairs(folder):
    """Of two runs that save to one file one whole image stays, and each reader finds a whole one at each moment."""
    image = os.path.join(folder, "pair.rme")
    shorter = lines_of(OPENING)
    longer = lines_of({**OPENING, "workers": 200, "cells": 16}, *(line for worker in range(200) for line in job(worker)))
    images = []
    for given in (shorter, longer):
        answers(["--save", image], given)
        images.append(read(image))
    pairs = [(("fsync", 0), ("fsync", 0))] * 60
    if has_strace():
        calls = ["openat", "write", "fsync", "rename", "fchmod"]
        pairs += [((call, 3000), (other, 5000)) for call in calls for other in calls]
        pairs += [((call, 0), (other, 5000)) for call in calls[:1] for other in calls]
    else:
        print("skip there is no strace that may hold calls up: pairs run as they come")
    wrong, whole = [], set(images)
    for delays in pairs:
        statuses, seen = save_both(image, shorter, longer, delays)
        if statuses != [0, 0] or not seen <= whole or beside(image):
            wrong.append((delays, statuses, [len(one) for one in seen], beside(image)))
    check(f"{len(pairs)} pairs of runs that save to one file leave one whole image", not wrong, wrong)


FOLDER = tempfile.TemporaryDirectory()


def with_folder(part):
    """A part of the script that is given the folder in which all parts work."""

    def call():
        part(FOLDER.name)

    call.__name__ = part.__name__
    return call


IN_FOLDER = [
    try_cut_examples,
    try_cut_steps,
    try_first_start,
    try_nothing_open,
    try_older,
    try_unsavable,
    try_modes,
    try_names_beside,
    try_broken,
    try_names,
    try_words,
    try_unread,
    try_unwritten,
    try_faults,
    try_growths,
    try_kills,
    try_pairs,
]


def part():
    main(*map(with_folder, IN_FOLDER))
