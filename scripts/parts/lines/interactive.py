"""A client over pipes gets each answer before it sends the next line, even if a line comes in two pieces; a line that
comes in 1,000 pieces is one, and lines that come together are answered by one write; and at a terminal nothing is read after
the end of the input, also after a last piece without a newline."""

import os
import pty
import select
import socket
import subprocess
import time

from lib.checks import Stop, main, note, same, skip
from lib.programs import built

ROUNDS = 5000
MOST_BYTES = 65_536
OPENING = b'{"cells":1,"do":"open","jobs":10,"locks":["bank"],"workers":2}\n'
OWNER = b'{"do":"owner","lock":"bank"}\n'
NO_OWNER = b'{"ok":"owner","owner":null}'
NOT_OPEN = b'{"code":3,"error":"NotOpen"}\n'


class Pipes:
    """The program between two pipes."""

    def __init__(self):
        self.program = subprocess.Popen([built(), "run"], stdin=subprocess.PIPE, stdout=subprocess.PIPE)
        self.left = b""

    def ask(self, *pieces):
        """The answer of a line that comes in these pieces, within five seconds."""
        for piece in pieces:
            os.write(self.program.stdin.fileno(), piece)
        while b"\n" not in self.left:
            ready, _, _ = select.select([self.program.stdout], [], [], 5)
            if not ready:
                self.program.kill()
                raise Stop("no answer within five seconds")
            self.left += os.read(self.program.stdout.fileno(), 65536)
        line, self.left = self.left.split(b"\n", 1)
        return line


def try_pipes():
    pipes = Pipes()
    same("an opening", pipes.ask(OPENING), b'{"ok":"open"}')
    same("a line in two pieces", pipes.ask(OWNER[:14], OWNER[14:]), NO_OWNER)
    began = time.monotonic()
    answers = {pipes.ask(OWNER) for _ in range(ROUNDS)}
    took = time.monotonic() - began
    same(f"{ROUNDS} round trips", answers, {NO_OWNER})
    note(f"{took / ROUNDS * 1e6:.0f} microseconds a round trip")
    pipes.program.stdin.close()
    same("the end of the input", (pipes.program.wait(timeout=5), pipes.program.stdout.read()), (0, b""))


def writes_for(*pieces):
    """What the program writes, as a list of its writes, if each read gives it one of these pieces: sockets that keep
    the borders of packets are its input and its output."""
    ours, given = socket.socketpair(socket.AF_UNIX, socket.SOCK_SEQPACKET)
    told, theirs = socket.socketpair(socket.AF_UNIX, socket.SOCK_SEQPACKET)
    with subprocess.Popen([built(), "run"], stdin=given, stdout=theirs) as program, ours, told:
        given.close()
        theirs.close()
        for piece in pieces:
            ours.send(piece)
        ours.close()
        return list(iter(lambda: told.recv(MOST_BYTES), b""))


def try_packets():
    pieces = [OPENING[:-1], *[b" "] * 998, b"\n"]
    same("a line in 1,000 pieces", writes_for(*pieces), [b'{"ok":"open"}\n'])
    # 58,034 bytes by one read, and 55,986 bytes of answers.
    together = OPENING + OWNER * 1999
    answers = b'{"ok":"open"}\n' + (NO_OWNER + b"\n") * 1999
    same("2,000 lines that come together", writes_for(together) == [answers], True)


def at_a_terminal(name, typed, wanted):
    """The end of the input is typed as a terminal has it; what is typed after it stays for the next program."""
    try:
        master, slave = pty.openpty()
    except OSError as error:
        skip(name, error)
        return
    program = subprocess.Popen([built(), "run"], stdin=slave, stdout=subprocess.PIPE)
    os.close(slave)
    os.write(master, typed)
    try:
        output, _ = program.communicate(timeout=5)
    except subprocess.TimeoutExpired:
        program.kill()
        raise Stop("the program did not end with the input of a terminal")
    same(name, (program.returncode, output), (0, wanted))
    os.close(master)


def try_terminals():
    at_a_terminal("a last piece at a terminal", b'{"do":"history"}\x04\x04{"do":"history"}\n\x04', NOT_OPEN)
    at_a_terminal("the end of the input at a terminal", b'{"do":"history"}\n\x04{"do":"history"}\n\x04', NOT_OPEN)


def part():
    main(try_pipes, try_packets, try_terminals)
