"""commands [PROGRAM]: runs the commands that README.md, docs/*.md and clients/README.md show, and compares what they print.

Each document has a fresh folder with ./rme, examples/, clients/ and scripts/new-key, in which its blocks are run in order by
bash, with rme-hold in the path:

  ```console          each line `$ COMMAND` is run; the lines below it are what it prints
  ```sh               the block is run as one; what it prints is not shown
  ```sh table         the same; it prints the answers in the column Answer of the next table
  ```sh needs NAME    the same, if this program is there
  ```text output      what the block above prints
  ```console server   its one command is started, and must end once the next block was run
  ```sh skip: WHY     not run here; also with console

Each command must end with status 0. The ports 7000, 7001, 9464, 2379 and 2380 stand for free ones. A command in an indented block is an error:
it would not be run. PROGRAM is run in the place of ./rme."""

import contextlib
import glob
import os
import re
import shutil
import signal
import socket
import subprocess
import sys
import tempfile
import threading

from lib.checks import check, main, skip
from lib.programs import TOP, built

PROGRAM = os.path.realpath(sys.argv[1]) if len(sys.argv) > 1 else built()
SECONDS = 60
PORTS = ("7000", "7001", "9464", "2379", "2380")  # as documents have them

INDENTED = re.compile(r" {4}(\$ |\./rme |rme |rt |bash |python3? |scripts/|bench/)")


def free_ports():
    """A free port for each of PORTS."""
    with contextlib.ExitStack() as stack:
        taken = [stack.enter_context(socket.create_server(("127.0.0.1", 0))) for _ in PORTS]
        return {port: str(it.getsockname()[1]) for port, it in zip(PORTS, taken)}


class Block:
    """A block of a document: its kind, the words after it, its lines, and the lines that follow it up to a heading."""

    def __init__(self, page, number, words):
        self.place, self.lines, self.after = f"{page}:{number}", [], []
        self.kind, _, self.words = words.partition(" ")


def blocks_of(page):
    """The blocks of a document, and the places of commands in indented blocks."""
    blocks, strays, inside = [], [], False
    with open(os.path.join(TOP, page), encoding="utf-8") as file:
        lines = file.read().splitlines()
    for number, line in enumerate(lines, 1):
        if inside:
            inside = not line.startswith("```")
            if inside:
                blocks[-1].lines.append(line)
        elif line.startswith("```"):
            blocks.append(Block(page, number, line[3:]))
            inside = True
        elif INDENTED.match(line):
            strays.append(f"{page}:{number}")
        elif blocks:
            blocks[-1].after.append(line)
    return blocks, strays


def answers_of_table(block):
    """The answers in the column Answer of the first table after the block."""
    column, answers = None, []
    for line in block.after:
        cells = [cell.strip() for cell in line.split("|")]
        if column is None:
            column = cells.index("Answer") if "Answer" in cells else None
        elif not line.startswith("|"):
            break
        elif cells[column].startswith("`"):
            answers.append(cells[column].strip("`"))
    return answers


def commands_of(block):
    """The commands of a console, each with the lines that it prints."""
    commands = []
    for line in block.lines:
        if line.startswith("$ "):
            commands.append((line[2:], []))
        elif commands:
            commands[-1][1].append(line)
    return commands


class Folder:
    """The folder of one document, and its server, if one runs."""

    def __init__(self, path):
        self.path, self.ports, self.server = path, free_ports(), None
        os.symlink(PROGRAM, os.path.join(path, "rme"))
        for name in ("examples", "clients"):
            shutil.copytree(os.path.join(TOP, name), os.path.join(path, name))
        os.mkdir(os.path.join(path, "scripts"))
        os.symlink(os.path.join(TOP, "scripts", "new-key"), os.path.join(path, "scripts", "new-key"))
        os.mkdir(os.path.join(path, "bin"))
        hold = os.path.join(path, "bin", "rme-hold")
        with open(hold, "w", encoding="utf-8") as file:
            file.write(f"#!/bin/sh\nPYTHONPATH={path}/clients/hold exec {sys.executable} -m rme_hold \"$@\"\n")
        os.chmod(hold, 0o755)
        self.environment = {**os.environ, "PATH": os.pathsep.join((os.path.join(path, "bin"), os.environ["PATH"]))}

    def as_shown(self, text):
        """A text that was printed, with the ports of the documents."""
        for port, free in self.ports.items():
            text = text.replace(free, port)
        return text

    def start(self, command):
        for port, free in self.ports.items():
            command = command.replace(port, free)
        words = ["bash", "-e", "-o", "pipefail", "-c", command]
        return subprocess.Popen(words, cwd=self.path, env=self.environment, stdin=subprocess.DEVNULL, stdout=subprocess.PIPE,
                                stderr=subprocess.PIPE, text=True, start_new_session=True)

    def run(self, place, command, wanted):
        """Runs a command, which must print these lines, or may print any lines if the document shows none."""
        self.judge(place, command, self.start(command), wanted)

    def judge(self, place, command, started, wanted):
        """The command must end well, and must have printed these lines."""
        try:
            told, said = started.communicate(timeout=SECONDS)
        except subprocess.TimeoutExpired:
            os.killpg(started.pid, signal.SIGKILL)
            told, said = started.communicate()
            said += "it did not end"
        name = f"{place} {command.splitlines()[0]}"
        printed = self.as_shown(told).splitlines()
        holds = started.returncode == 0 and (wanted is None or printed == wanted)
        check(name, holds, f"status {started.returncode}, it printed {printed}, and said {said!r}")

    def serve(self, place, command, wanted):
        """Starts a server, and waits for its first line."""
        started = self.start(command)
        # A server that says nothing must not stop the script.
        alarm = threading.Timer(SECONDS, os.killpg, (started.pid, signal.SIGKILL))
        alarm.start()
        first = self.as_shown(started.stdout.readline().rstrip("\n"))
        alarm.cancel()
        check(f"{place} {command}, its first line", wanted[:1] == [first], first)
        self.server = (place, command, started, wanted[1:])

    def stop_server(self):
        """Ends a server that no block has ended."""
        if self.server:
            os.killpg(self.server[2].pid, signal.SIGKILL)
            self.server[2].wait()

    def end_server(self):
        """The server must end by itself, after the lines that are left of its block."""
        if self.server:
            place, command, started, wanted = self.server
            self.server = None
            self.judge(place, command, started, wanted)


def shown_of(blocks, at):
    """What the sh block of this index prints, if the document shows it."""
    if blocks[at].words == "table":
        return answers_of_table(blocks[at])
    if at + 1 < len(blocks) and (blocks[at + 1].kind, blocks[at + 1].words) == ("text", "output"):
        return blocks[at + 1].lines
    return None


def try_block(folder, blocks, at):
    block = blocks[at]
    if block.kind not in ("sh", "bash", "console"):
        return
    if block.words.startswith("skip: "):
        skip(block.place, block.words[6:])
        return
    if block.words.startswith("needs ") and not shutil.which(block.words[6:]):
        skip(block.place, f"there is no {block.words[6:]}")
        return
    if block.words == "server":
        folder.serve(block.place, *commands_of(block)[0])
        return
    if block.kind == "console":
        for command, wanted in commands_of(block):
            folder.run(block.place, command, wanted)
    else:
        folder.run(block.place, "\n".join(block.lines), shown_of(blocks, at))
    folder.end_server()


def try_page(page):
    blocks, strays = blocks_of(page)
    for place in strays:
        check(place, False, "a command in an indented block is not run: make it a block of sh or console")
    with tempfile.TemporaryDirectory() as path:
        folder = Folder(path)
        try:
            for at in range(len(blocks)):
                try_block(folder, blocks, at)
            if folder.server:
                check(folder.server[0], False, "nothing is run beside the server")
        finally:
            folder.stop_server()


def try_pages():
    paths = glob.glob(os.path.join(TOP, "docs", "*.md")) + [os.path.join(TOP, "clients", "README.md")]
    pages = ["README.md"] + sorted(os.path.relpath(path, TOP) for path in paths)
    for page in pages:
        try_page(page)


def part():
    main(try_pages)
