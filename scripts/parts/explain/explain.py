"""`rme explain`: its list beside the table of docs/lines.md, each explanation, several in turn, what is not known, and a
full output."""

import os
import re
import subprocess
import tempfile

from lib import programs
from lib.checks import check, main, same
from lib.programs import TOP, built


def run(words, **streams):
    return programs.run(words, text=True, given=None, stdin=subprocess.DEVNULL, **streams)


def tables(title):
    """The rows of the first table below this heading of docs/lines.md, without the marks of code."""
    with open(os.path.join(TOP, "docs", "lines.md")) as page:
        section = page.read().split(f"\n{title}\n", 1)[1]
    rows = section[section.index("\n|") + 1 :].split("\n\n", 1)[0].splitlines()[2:]
    return [[cell.strip().replace("`", "") for cell in row.strip("|").split("|")] for row in rows]


def wanted_list():
    refusals = [f"{number} {name}: {when}" for number, name, when in tables("## Refusals")]
    endings = [f"status {number} {name}: {when}" for number, name, when in tables("### Statuses by name")]
    return refusals + endings


def try_each(line):
    """A line of the list has an explanation of two sentences or more, under its number and under its name."""
    status, number, name = re.match(r"(status )?(\d+) (\w+): ", line).groups()
    found = {}
    for code in (number, name, name.upper()):
        ended = run(["explain", code])
        found[code] = ended.stdout.splitlines()
        told = (ended.returncode, ended.stderr) == (0, "") and line in found[code]
        if not check(f"explain {code}", told, ended):
            return
        at = found[code].index(line)
        check(f"explain {code}, in sentences", len(re.findall(r"[.!?](?: |$)", found[code][at + 1])) > 1, found[code][at + 1])
        if status:
            of_status = run(["explain", "status", code])
            same(f"explain status {code}", (of_status.returncode, of_status.stdout.splitlines()), (0, found[code][at : at + 2]))
    same(f"explain {name.upper()}, by another case", found[name.upper()], found[name])


def titles(words):
    """The first lines of what is explained."""
    ended = run(["explain", *words])
    lines = [line for line in ended.stdout.splitlines() if not line.startswith("  ")]
    return ended.returncode, [line.split(":")[0] for line in lines]


def try_several():
    cases = {
        "1 1": ["1 BadLine", "status 1 AnswerIsNo"] * 2,
        "Down 12": ["7 Down", "12 BadScript"],
        "status 1 status Done": ["status 1 AnswerIsNo", "status 0 Done"],
        "0": ["status 0 Done"],
        "idle too many jobs status no memory up": ["10 Idle", "14 TooManyJobs", "status 5 NoMemory", "8 Up"],
        "STATUS 7 21": ["status 7 NoThread", "21 NotWaiting"],
    }
    for words, wanted in cases.items():
        seen = titles(words.split())
        check(f"explain {words}", seen == (0, wanted), seen)


def try_unknown():
    """A word that is not known ends it with nothing explained, and with nothing in its text that steers a terminal."""
    cases = {
        ("27",): "27",
        ("Nobody",): "Nobody",
        ("-1",): "-1",
        ("1.0",): "1.0",
        ("99999999999",): "99999999999",
        ("1", "Nobody"): "Nobody",
        ("status",): "status",
        ("status", "8"): "8",
        ("status", "Idle"): "Idle",
        ("2", "status"): "status",
        ("no", "such"): "no",
        ("\x1b[31m\x07\x7f\x85é",): "\\u{1b}[31m\\u{7}\\u{7f}\\u{85}é",
    }
    for words, word in cases.items():
        ended = run(["explain", "--", *words])
        wanted = f"fault: no refusal and no status is called {word}: rme explain names each\n"
        check(f"explain {' '.join(words)!r}", (ended.returncode, ended.stdout, ended.stderr) == (2, "", wanted), ended)
    for words in ([""], ["1", ""], ["status", ""]):
        ended = run(["explain", *words])
        wanted = "fault: an empty word is the name of no refusal and no status: rme explain names each\n"
        check(f"explain {words}", (ended.returncode, ended.stdout, ended.stderr) == (2, "", wanted), ended)


def try_help():
    """The example of the help, run as it stands with the program on the path, prints what stands below it."""
    text = run(["explain", "--help"]).stdout
    command, printed = re.search(r"\n  (rme explain \w+)\n\n((?:  .*\n)+)", text).groups()
    with tempfile.TemporaryDirectory() as folder:
        os.symlink(built(), os.path.join(folder, "rme"))
        path = folder + os.pathsep + os.environ["PATH"]
        ran = subprocess.run(command, shell=True, capture_output=True, text=True, env={**os.environ, "PATH": path})
    wanted = "".join(line[2:] + "\n" for line in printed.splitlines())
    check("the example of the help", (ran.returncode, ran.stdout, ran.stderr) == (0, wanted, ""), ran)


def try_list():
    ended = run(["explain"])
    listed = ended.stdout.splitlines()
    same("the list is the table of docs/lines.md", (ended.returncode, listed), (0, wanted_list()))
    check("26 refusals, 8 statuses", len(listed) == 34 and [int(line.split()[0]) for line in listed[:26]] == [*range(1, 27)], listed)
    for line in listed:
        try_each(line)


def try_both():
    ended = run(["explain", "no", "memory"])
    both = [line for line in ended.stdout.splitlines() if not line.startswith("  ")]
    same("a refusal and a status of one name", both, ["20 NoMemory: memory was refused", "status 5 NoMemory: memory ran out"])


def try_cluster():
    """Each status with which `rme look etcd:NAME` or `rme move` may end names them."""
    for command, statuses in ("rme look", (1, 2, 3, 6)), ("rme move", (2, 3, 4, 6)):
        for status in statuses:
            ended = run(["explain", "status", str(status)])
            check(f"explain status {status} names {command}", ended.returncode == 0 and command in ended.stdout, ended)


def try_full():
    with open("/dev/full", "w") as full:
        ended = run(["explain"], stdout=full)
    same("a full output", (ended.returncode, ended.stderr), (4, "fault: write failed\n"))


def part():
    main(try_list, try_both, try_several, try_unknown, try_cluster, try_full, try_help)
