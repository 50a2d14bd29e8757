"""The program on streams that fail and on words that are refused: its status, what it writes and what it says."""

import os
import subprocess
import tempfile

from lib.checks import check, main, same
from lib.programs import TOP, built, ends_with, run

LINE = b'{"do":"history"}\n'
READ_FAILED = b"fault: read failed\n"
WRITE_FAILED = b"fault: write failed\n"
REFUSED = ["", "walk", "run now", "run --no-such", "check now", "check --transcript", "--no-such"]
TAKEN = ["--help", "run --help", "check --help", "--version"]


def first_run():
    with open(os.path.join(TOP, "examples", "first-run.jsonl"), "rb") as file:
        return file.read()


def to_full(words, given=b""):
    """The end of a run whose standard output is a full device."""
    with open("/dev/full", "wb") as full:
        ran = run(words, given, stdout=full)
    return ran.returncode, ran.stderr


def try_inputs():
    with tempfile.TemporaryDirectory() as folder:
        held = os.open(folder, os.O_RDONLY)
        ran = run(["run"], stdin=held)
        same("a folder as the standard input", (ran.returncode, ran.stderr), (3, READ_FAILED))
        same("a folder as a transcript", ends_with(run(["check"], stdin=held)), (3, b"", READ_FAILED))
        os.close(held)
    ran = run(["run"], stdin=None, preexec_fn=lambda: os.close(0))
    same("a closed standard input", (ran.returncode, ran.stderr), (3, READ_FAILED))
    same("no input", ends_with(run(["run"])), (0, b"", b""))
    same("no input, and no transcript", ends_with(run(["run", "--transcript"])), (0, b"", b""))
    ran = run(["check"])
    same("no transcript", (ran.returncode, ran.stdout), (1, b"bad 1\n"))


def try_outputs():
    same("a full device as the standard output", to_full(["run"], LINE), (4, WRITE_FAILED))
    same("a transcript to a full device", to_full(["run", "--transcript"], first_run()), (4, WRITE_FAILED))
    transcript = run(["run", "--transcript"], first_run()).stdout
    same("a verdict to a full device", to_full(["check"], transcript), (4, WRITE_FAILED))
    same("help to a full device", to_full(["--help"]), (4, WRITE_FAILED))


def try_broken_pipe():
    """The reader of the output goes away after one line; the program has many more to write."""
    with tempfile.TemporaryFile() as lines:
        lines.write(LINE * 200_000)
        lines.seek(0)
        program = subprocess.Popen([built(), "run"], stdin=lines, stdout=subprocess.PIPE, stderr=subprocess.PIPE)
        program.stdout.readline()
        program.stdout.close()
        told = program.stderr.read()
        same("a pipe that broke", (program.wait(timeout=60), told), (4, WRITE_FAILED))


def try_words():
    for words in REFUSED:
        ran = run(words.split())
        check(f"the words '{words}'", (ran.returncode, ran.stdout) == (2, b"") and ran.stderr, ran)
    for words in TAKEN:
        ran = run(words.split())
        check(f"the words '{words}'", (ran.returncode, ran.stderr) == (0, b"") and ran.stdout, ran)


def try_unwritten_text():
    """The words were refused, whether or not the text can be written."""
    ran = run(["walk"], stderr=None, preexec_fn=lambda: os.close(2))
    same("a refused word with a closed standard error", ran.returncode, 2)
    with open("/dev/full", "wb") as full:
        same("a refused word with a full standard error", run(["walk"], stderr=full).returncode, 2)


def part():
    main(try_inputs, try_outputs, try_broken_pipe, try_words, try_unwritten_text)
