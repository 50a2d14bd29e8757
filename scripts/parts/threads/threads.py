"""Runs `rme threads` and looks at its output, its status and its texts: a whole run, a fall at each own step, words that are
refused, an output that can't be written, and what a terminal shows."""

import os
import pty
import subprocess

from lib import programs
from lib.checks import check, main
from lib.programs import built

BAD = b"fault: bad arguments\n"
REPORT = b"workers 8\njobs 100\nall done 8\ncell 800\nentries 800\n"
WORDS = ["8", "100", "7", "19", "40"]
ONE_JOB = b"workers 1\njobs 1\nall done 1\ncell 1\nentries 1\n"


def run(words, **more):
    return programs.run(["threads", *words], stdin=subprocess.DEVNULL, timeout=300, **more)


def try_report():
    ran = run(WORDS)
    check("report", (ran.returncode, ran.stdout, ran.stderr) == (0, REPORT, b""), ran)


def try_every_cut():
    """A worker with one job falls once, after this number of own steps: two of the first recovery and 28 of the job.
    Its next life makes the job or leaves it made."""
    for steps in range(31):
        ran = run(["1", "1", str(steps)])
        check(f"a fall after {steps} own steps", (ran.returncode, ran.stdout, ran.stderr) == (0, ONE_JOB, b""), ran, quiet=True)


def try_refused():
    cases = {
        "WORKERS 0: it is 1 to 256": ["0", "1"],
        "WORKERS 257: it is 1 to 256": ["257", "1"],
        "WORKERS 999: it is 1 to 256": ["999", "0", "5", "4"],
        "JOBS 0: it is 1 to 1000000": ["1", "0"],
        "JOBS 1000001: it is 1 to 1000000": ["1", "1000001"],
        "FALL 5 after 5: each is greater than the one before": ["2", "2", "5", "5"],
        "FALL 4 after 5: each is greater than the one before": ["2", "2", "1", "5", "4", "3"],
    }
    for why, words in cases.items():
        ran = run(words)
        told = BAD + f"  {why}\n".encode()
        check("refused: " + " ".join(words), (ran.returncode, ran.stdout, ran.stderr) == (2, b"", told), ran)
    for words in ([], ["1"], ["x", "1"], ["1", "-1"], ["1", "1", "4294967296"], ["1", "1", "--loud"]):
        ran = run(words)
        said = ran.stderr.startswith(b"error: ")
        check("no number: " + " ".join(words), (ran.returncode, ran.stdout, said) == (2, b"", True), ran)


def try_full():
    with open("/dev/full", "wb") as full:
        ran = run(WORDS, stdout=full)
    check("full output", (ran.returncode, ran.stderr) == (4, b"fault: write failed\n"), ran)


def shown(words, is_whole=False):
    """What a terminal on the standard error, or on the standard output as well, shows, and the standard output."""
    ours, theirs = pty.openpty()
    output = theirs if is_whole else subprocess.PIPE
    ran = subprocess.Popen([built(), "threads"] + words, stdin=subprocess.DEVNULL, stdout=output, stderr=theirs)
    os.close(theirs)
    text = b""
    while True:
        try:
            part = os.read(ours, 65536)
        except OSError:
            break
        if not part:
            break
        text += part
    output = b"" if is_whole else ran.stdout.read()
    ran.wait()
    os.close(ours)
    return text, output


def try_terminal():
    text, output = shown(WORDS)
    check("progress on a terminal", b"\r800 of 800 jobs" in text and output == REPORT, (text[-200:], output))
    text, output = shown(WORDS, is_whole=True)
    lines = text.replace(b"\r\n", b"\n")
    check("the results begin on a line of their own", lines.endswith(b"\r800 of 800 jobs\n" + REPORT), lines[-300:])
    text, output = shown(["2", "2", "5", "5"])
    check("no line is begun where nothing runs", text.startswith(b"fault: bad arguments"), text)
    text, output = shown(["--quiet"] + WORDS)
    check("no progress with --quiet", text == b"" and output == REPORT, (text[-200:], output))


def part():
    main(try_report, try_every_cut, try_refused, try_full, try_terminal)
