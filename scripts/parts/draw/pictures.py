"""Pictures of runs: `rme draw` against a model of the picture, byte for byte.

The model draws a transcript in Python: what a worker is at and who owns a lock it knows from its own account of the
events, and where things are on the sheet from the same plan. `rme draw` must write the same picture of each example's
transcript, and of the three that docs/pictures keeps, which were looked at. A transcript that the machine does not
have, at each line in turn, must have no picture but its verdict, and faults their statuses. Each range of lines of two
examples is drawn, and what is drawn of a long transcript if no line is named. A worker that is named as a blocker must
hold the node, by an image of that moment.

`try-draw pictures --write` writes docs/pictures anew, from the model."""

import json
import os
import random
import re
import struct
import subprocess
import sys
import tempfile
import xml.etree.ElementTree

from lib.checks import Stop, check, main, same
from lib.programs import TOP, built, ends_with, examples, run

PICTURES = os.path.join(TOP, "docs", "pictures")
KEPT = ["re-entry", "dead-climber", "withdrawal-with-a-node"]
USUAL = 2_000  # lines that are drawn at most if none is named
WORD = 2**64

COLOURS = {
    "ready": "#e9edf2",
    "Post": "#c9dcf2",
    "Enter": "#f5e0a9",
    "Critical section": "#5fb37a",
    "Exit": "#c5e6cf",
    "Recover": "#dccbf0",
    "down": "#f3c6c6",
}
OWNERS = ["#9ec5e8", "#f0c38a", "#b5d99c", "#d5b8e6", "#efb9b9", "#a5d8d3"]
HEAD, WORKER_ROW, LOCK_ROW, TEXT_LINE, LETTER = 128, 62, 52, 14, 7
BAR, BAR_HEIGHT, WORDS = 12, 24, 50
DASHES = ' stroke-dasharray="5 3" fill-opacity="0.6"'


def run_script(script, row):
    """Runs a script on a row of cells, in place."""
    for kind, cell, *more in script:
        if kind == "set":
            row[cell] = more[0]
        elif kind == "add":
            row[cell] = (row[cell] + more[0]) % WORD
        elif kind == "copy":
            row[more[0]] = row[cell]
        elif kind == "swap":
            row[cell], row[more[0]] = row[more[0]], row[cell]


class Account:
    """What was seen of a run up to a line: stays of workers, holds of locks, marks and finished sections. Drawn is what
    reaches the first line, or comes after it."""

    def __init__(self, lines, first=1, last=None, of_state=False):
        self.all, self.first, self.last, self.of_state = len(lines), first, last or len(lines), of_state
        opening, *events = [json.loads(line) for line in lines[: self.last]]
        self.names = opening["locks"]
        self.workers = opening["workers"]
        self.rows = {name: [0] * opening["cells"] for name in self.names}
        self.owner = dict.fromkeys(self.names)
        self.job = [None] * self.workers
        self.up = [True] * self.workers
        self.phase = ["ready"] * self.workers
        self.since = [1] * self.workers
        self.gave_up = [None] * self.workers
        self.climbs = [None] * self.workers  # the lock in whose tree a worker may hold nodes
        self.blocked = []  # the line, the worker, and its blocker or None
        self.held = dict.fromkeys(self.names)
        self.stays, self.holds, self.marks, self.finishes = [], [], [], []
        self.number = 0
        for line, event in enumerate(events, 2):
            self.see(line, event)
        for worker in range(self.workers):
            self.end_stay(worker, self.last + 1, "")
        for name in self.names:
            if self.held[name]:
                self.holds.append((name, *self.held[name], self.last + 1))
        self.stays = [stay for stay in self.stays if stay[-1] > first]
        self.holds = [hold for hold in self.holds if hold[-1] > first]
        self.marks = [mark for mark in self.marks if mark[0] >= first]
        self.blocked = [it for it in self.blocked if it[0] >= first]
        self.finishes = [finish for finish in self.finishes if finish[0] >= first]

    def end_stay(self, worker, line, kind):
        """A worker that gave up, and of which no note tells that it became ready later, was so at once."""
        gave_up, since, phase = self.gave_up[worker], self.since[worker], self.phase[worker]
        parts = [(phase, self.waits_for(worker), since, line)]
        if phase == "Exit" and gave_up and kind != "ready":
            parts = [(phase, self.waits_for(worker), since, gave_up), ("ready", "", gave_up, line)]
        self.stays += [(worker, *part) for part in parts if part[2] < part[3]]

    def waits_for(self, worker):
        return self.job[worker][0] if self.job[worker] else ""

    def see(self, line, event):
        worker = event["worker"]
        kind, *told = event["note"] if event["do"] == "note" else [event["do"]]
        label = {"reentered": "re-entered"}.get(kind, kind)
        if kind == "submit":
            self.number = max(self.number, event["number"])
            label = f"submit {event['number']}"
        elif kind in ("asked", "withdrew"):
            label = f"{kind} {told[0]}"
        elif kind == "finished":
            label = f"finished {told[1]}"
        if kind != "quiet":
            self.marks.append((line, worker, label))
        old_job = self.job[worker]
        phase = self.phase_after(worker, kind, event)
        if kind == "blocked":
            self.blocked.append((line, worker, self.blocker_of(worker)))
        self.see_climb(worker, kind)
        if kind == "finished":
            lock, number, place, reply = told
            run_script(old_job[1], self.rows[lock])
            self.finishes.append((line, lock, worker, number, place, reply, list(self.rows[lock])))
        if phase != self.phase[worker]:
            now, self.job[worker] = self.job[worker], old_job
            self.end_stay(worker, line, kind)
            self.job[worker], self.phase[worker], self.since[worker] = now, phase, line
            self.gave_up[worker] = None
        if kind == "withdrew":
            self.gave_up[worker] = line
        self.see_locks(line)

    def phase_after(self, worker, kind, event):
        """Follows a worker by its events; whether it has a job, and how far that is, decides about the notes."""
        left = "ready" if self.workers <= 2 else "Exit"
        if kind == "submit":
            self.job[worker] = (event["lock"], event["script"], "posted")
            return "Post"
        if kind == "crash":
            self.up[worker] = False
            if self.job[worker] and self.job[worker][2] == "posted":
                self.job[worker] = None
            return "down"
        if kind == "restart":
            self.up[worker] = True
            return "Recover"
        if kind == "withdraw":
            return "Exit"
        if kind == "asked":
            self.job[worker] = (*self.job[worker][:2], "pending")
            return "Enter"
        if kind == "entered":
            self.owner[self.waits_for(worker)] = worker
            self.job[worker] = (*self.job[worker][:2], "inside")
            return "Critical section"
        if kind == "finished":
            self.job[worker] = (*self.job[worker][:2], "finished")
            return "Exit"
        if kind == "reentered":
            return "Critical section" if self.job[worker][2] == "inside" else "Exit"
        if kind == "left":
            self.owner[self.waits_for(worker)] = None
        if kind in ("left", "withdrew"):
            self.job[worker] = None
            return left
        if kind == "blocked":
            return "Enter"
        if kind == "ready" and not self.job[worker]:
            return "ready"
        return self.phase[worker]

    def see_climb(self, worker, kind):
        if kind == "asked":
            self.climbs[worker] = self.waits_for(worker)
        elif kind in ("submit", "ready") or kind in ("left", "withdrew") and self.workers <= 2:
            self.climbs[worker] = None

    def blocker_of(self, worker):
        """The only one that can hold the next node of a blocked worker: of those in the tree that is the lock's owner, or
        one below the node at which the owner comes from the other side."""
        lock = self.waits_for(worker)
        others = {other for other in range(self.workers) if other != worker and self.climbs[other] == lock}
        owner = self.owner[lock]
        if owner is not None:
            reach = meeting(owner, worker)
            others = {other for other in others if other == owner or meeting(other, worker) < reach}
        return others.pop() if len(others) == 1 else None

    def last_blocker(self, worker, span):
        """Who blocked a worker last in these lines, as far as it is known."""
        known = [by for line, who, by in self.blocked if who == worker and span[0] <= line < span[1] and by is not None]
        return known[-1] if known else None

    def see_locks(self, line):
        for name in self.names:
            owner = self.owner[name]
            now = None if owner is None else (owner, self.up[owner])
            held = self.held[name]
            if (held[:2] if held else None) == now:
                continue
            if held:
                self.holds.append((name, *held, line))
            self.held[name] = None if now is None else (*now, line)


def meeting(one, other):
    """The level at which the paths of two workers to the root of a lock's tree meet."""
    return (one ^ other).bit_length()


def cell_lines(row):
    lines, line = [], "cells"
    for value in row:
        if len(line) + len(str(value)) + 1 > 24:
            lines.append(line)
            line = ""
        line += f" {value}"
    return [*lines, line]


class Sheet:
    """Where things are. A long transcript is cut into strips of this number of lines, one below the other."""

    def __init__(self, seen):
        used = {lock for _, _, lock, *_ in seen.stays}
        self.names = [name for name in seen.names if name in used]
        self.left = 40 + 9 * max([len("worker 000"), *(len(f"lock {name}") for name in self.names)])
        self.column = 62 + 4 * len(str(seen.number))
        drawn = range(seen.first, seen.last + 1)
        self.lines = max(1, min(len(drawn), (30_000 - self.left - 64) // self.column - 1))
        self.width = max(980, self.left + self.column * (self.lines + 1) + 64)
        bottom = HEAD + WORKER_ROW * seen.workers + 8
        self.locks = {}
        for name in self.names:
            texts = [3 + len(cell_lines(row)) for _, lock, *_, row in seen.finishes if lock == name]
            self.locks[name] = bottom
            bottom += LOCK_ROW + TEXT_LINE * max(texts, default=0)
        self.bottom = bottom
        self.strips = [drawn[at : at + self.lines] for at in range(0, len(drawn), self.lines)]
        self.height = bottom + 12 + (len(self.strips) - 1) * (bottom - 88)
        self.strip = self.strips[0]

    def x(self, line):
        return self.left + (line - self.strip.start + 1) * self.column - self.column // 2

    def has(self, line):
        return line in self.strip

    def cut(self, span):
        """What of these lines, up to the last and without it, is in this strip."""
        return max(span[0], self.strip.start), min(span[1], self.strip.stop)


def count(number, thing):
    return f"{number} {thing}" + ("" if number == 1 else "s")


def head(seen, sheet):
    part = f"lines {seen.first} to {seen.last} of {seen.all}"
    extent = count(seen.all, "line") if seen.last - seen.first + 1 == seen.all else part
    title = f"A run of {count(seen.workers, 'worker')} and {count(len(seen.names), 'lock')}, {extent}"
    width, height = sheet.width, sheet.height
    yield (
        f'<svg xmlns="http://www.w3.org/2000/svg" width="{width}" height="{height}" viewBox="0 0 {width} {height}"'
        ' font-family="DejaVu Sans, Helvetica, Arial, sans-serif" font-size="11">'
    )
    yield f"<title>{title}</title>"
    yield f'<rect width="{width}" height="{height}" fill="#ffffff"/>'
    yield "<g>"
    yield f'<text x="16" y="28" font-size="16" font-weight="bold" fill="#111111">{title}</text>'


def legend():
    x = 16
    for name, colour in COLOURS.items():
        yield (
            f'<rect x="{x}" y="42" width="16" height="14" fill="{colour}" stroke="#8a96a5"/>'
            f'<text x="{x + 22}" y="53" fill="#333333">{name}</text>'
        )
        x += 46 + 6 * len(name)
    yield '<path d="M17 66 L29 78 M29 66 L17 78" stroke="#b03030" stroke-width="3"/>'
    yield '<text x="38" y="76" fill="#333333">crash</text>'
    yield '<path d="M93 66 L100 78 L86 78 Z" fill="#6a3fa0"/>'
    yield '<text x="108" y="76" fill="#333333">restart</text>'
    yield '<circle cx="171" cy="72" r="5" fill="#1f5fa8"/>'
    yield (
        '<text x="182" y="76" fill="#333333">a finished section of a lock:'
        " its place, its worker and job, its reply, and the cells after it</text>"
    )
    yield (
        '<text x="16" y="96" fill="#555555">One column for each line of the transcript.'
        " A worker recovers up to its next note; a lock keeps an owner that is down (dashed).</text>"
    )


def columns(seen, sheet):
    yield '<text x="16" y="118" fill="#555555">line</text>'
    for line in sheet.strip:
        x = sheet.x(line)
        yield (
            f'<path d="M{x} 122 V{sheet.bottom}" stroke="#e4e8ee"/>'
            f'<text x="{x}" y="118" text-anchor="middle" fill="#555555">{line}</text>'
        )


def names(seen, sheet):
    rows = [(f"worker {worker}", HEAD + WORKER_ROW * worker) for worker in range(seen.workers)]
    for name, top in rows:
        yield from row_name(sheet, name, top)
    if seen.of_state:
        yield f'<text x="16" y="{rows[-1][1] + 45}" fill="#555555">checkpoint worker</text>'
    for name in sheet.names:
        yield from row_name(sheet, f"lock {name}", sheet.locks[name])


def row_name(sheet, name, top):
    yield f'<text x="16" y="{top + 29}" font-size="13" font-weight="bold" fill="#111111">{name}</text>'
    for line in sheet.strip[19::20]:
        if sheet.x(line) + 11 * len(name) <= sheet.width:
            yield f'<text x="{sheet.x(line)}" y="{top + 8}" fill="#555555">{name}</text>'


def bar(sheet, top, span, look, texts, tip):
    span = sheet.cut(span)
    if span[0] >= span[1]:
        return
    x, width, y = sheet.x(span[0]), (span[1] - span[0]) * sheet.column, top + BAR
    colour, edge, dashes = look
    yield (
        f'<rect x="{x}" y="{y}" width="{width}" height="{BAR_HEIGHT}" fill="{colour}" stroke="{edge}"{dashes}>'
        f"<title>{tip}</title></rect>"
    )
    for text in texts:
        if len(text) * LETTER + 6 <= width:
            yield f'<text x="{x + width // 2}" y="{y + 16}" text-anchor="middle" fill="#111111">{text}</text>'
            return


def stays(seen, sheet):
    for worker, phase, lock, *span in seen.stays:
        short = "Section" if phase == "Critical section" else phase
        text = f"Enter {lock}" if phase == "Enter" else phase
        blocker = seen.last_blocker(worker, span)
        blocked = text if blocker is None else f"{text}, blocked by worker {blocker}"
        look = (COLOURS[phase], "#b03030", DASHES) if phase == "down" else (COLOURS[phase], "#8a96a5", "")
        tip = f"worker {worker}: {blocked}, lines {span[0]} to {span[1]}"
        yield from bar(sheet, HEAD + WORKER_ROW * worker, span, look, [blocked, text, short], tip)


def holds(seen, sheet):
    for name, owner, is_up, *span in seen.holds:
        text = f"worker {owner}" + ("" if is_up else ", down")
        look = (OWNERS[owner % 6], "#5b6673", "") if is_up else (OWNERS[owner % 6], "#b03030", DASHES)
        tip = f"owned by {text}, lines {span[0]} to {span[1]}"
        yield from bar(sheet, sheet.locks[name], span, look, [text, f"worker {owner}"], tip)


SIGNS = {
    "crash": ("#b03030", 'd="M-7 5 L7 19 M7 5 L-7 19" stroke="#b03030" stroke-width="3.5"'),
    "restart": ("#6a3fa0", 'd="M0 4 L8 19 L-8 19 Z" fill="#6a3fa0"'),
}


def marks(seen, sheet):
    for line, worker, label in filter(lambda mark: sheet.has(mark[0]), seen.marks):
        x, top = sheet.x(line), HEAD + WORKER_ROW * worker
        ink, sign = SIGNS.get(label, ("#333333", 'd="M0 20 V28" stroke="#555555"'))
        yield f'<path transform="translate({x} {top + BAR})" {sign}/>'
        yield f'<text x="{x}" y="{top + WORDS}" text-anchor="middle" fill="{ink}">{label}</text>'


def finishes(seen, sheet):
    for line, lock, worker, number, place, reply, row in filter(lambda finish: sheet.has(finish[0]), seen.finishes):
        x, top = sheet.x(line), sheet.locks[lock]
        yield f'<circle cx="{x}" cy="{top + BAR + BAR_HEIGHT}" r="5" fill="#1f5fa8"/>'
        texts = [f"place {place}", f"worker {worker}, job {number}", f"reply {reply}", *cell_lines(row)]
        for at, text in enumerate(texts, 1):
            yield f'<text x="{x}" y="{top + WORDS + at * TEXT_LINE - 7}" fill="#333333">{text}</text>'


def picture_of(lines, *drawn):
    """The picture of a transcript that the machine has: of all lines, or from one to another."""
    seen = Account(lines, *drawn)
    sheet = Sheet(seen)
    parts = [columns, names, stays, holds, marks, finishes]
    text = [*head(seen, sheet), *legend()]
    for before, strip in enumerate(sheet.strips):
        sheet.strip = strip
        if before:
            text += ["</g>", f'<g transform="translate(0 {before * (sheet.bottom - 88)})">']
        text += [line for part in parts for line in part(seen, sheet)]
    text += ["</g>", "</svg>"]
    return "".join(f"{line}\n" for line in text)


def transcript_of(name, given):
    ended = run(["run", "--transcript"], given)
    if ended.returncode != 0:
        raise Stop(f"{name}: its transcript has status {ended.returncode}")
    return ended.stdout


def try_picture(name, transcript, words=(), drawn=(), told=b""):
    wanted = picture_of(transcript.splitlines(), *drawn).encode()
    xml.etree.ElementTree.fromstring(wanted)
    ended = run(["draw", *words], transcript)
    same(name, ends_with(ended), (0, wanted, told))


def try_ranges(name, transcript):
    """Each range of lines."""
    lines, wrong = transcript.splitlines(), []
    for first in range(1, len(lines) + 1):
        for last in range(first, len(lines) + 1):
            wanted = picture_of(lines, first, last).encode()
            ended = run(["draw", "--from", first, "--to", last], transcript)
            if ends_with(ended) != (0, wanted, b""):
                wrong.append((first, last))
    check(f"{name}: its {len(lines) * (len(lines) + 1) // 2} ranges", not wrong, wrong)


def try_range_by_hand():
    """What the rows say of the lines 6 to 8 of re-entry: worker 0 fell in its section at line 5 and is restarted at line
    9; worker 1 is handed a job at line 6, asks at 7, and is blocked at 8. No later line shows."""
    drawn = run(["draw", "--from", 6, "--to", 8], FOUND["re-entry"]).stdout.decode()
    tips = [
        "worker 1: Post, lines 6 to 7",
        "worker 0: down, lines 5 to 9",
        "worker 1: Enter bank, blocked by worker 0, lines 7 to 9",
        "owned by worker 0, down, lines 5 to 9",
    ]
    same("the bars of lines 6 to 8", re.findall("<title>([wo][^<]*)</title>", drawn), tips)
    words = ["submit 1", "asked 1", "blocked"]
    same("the events of lines 6 to 8", re.findall('y="240" text-anchor="middle" fill="#333333">([^<]*)<', drawn), words)
    check("its title", ">A run of 2 workers and 1 lock, lines 6 to 8 of 15<" in drawn, drawn[:600])


def try_bad_ranges():
    transcript = FOUND["re-entry"]
    for words in (["--to", 16], ["--from", 16], ["--from", 2, "--to", 20], ["--from", 20, "--to", 20]):
        told = b"fault: bad arguments\n  the transcript ends at line 15, before the LINE of --from or --to\n"
        same(f"draw {words} of 15 lines", ends_with(run(["draw", *words], transcript)), (2, b"", told))
    for words in (["--from", 9, "--to", 3], ["--from", 0], ["--to", 0], ["--from", "x"], ["--to", "1.5"], ["--from", ""], ["--to"]):
        ended = run(["draw", *words], transcript)
        check(f"draw {words}", (ended.returncode, ended.stdout) == (2, b"") and b"LINE" in ended.stderr, ended)
    lines = transcript.splitlines(keepends=True)
    ended = run(["draw", "--to", 3], b"".join(lines[:8] + lines[9:]))
    same("a wrong line after the last that is drawn", ends_with(ended), (1, b"", b"no 9\n"))


def try_state():
    """The last worker of a state's transcript is labelled in its row, and only with the word."""
    transcript = FOUND["dead-climber"]
    try_picture("the checkpoint worker", transcript, ["--state"], [1, None, True])
    label = '<text x="16" y="359" fill="#555555">checkpoint worker</text>'  # 128 + 3 * 62 + 45
    for words, wanted in ((["--state"], 1), ([], 0)):
        drawn = run(["draw", *words], transcript).stdout.decode()
        same(f"labels with {words}", (drawn.count(label), drawn.count("checkpoint")), (wanted, wanted))


def try_kept(name, transcript):
    with open(os.path.join(PICTURES, f"{name}.svg"), "rb") as it:
        check(f"{name}: the picture that was looked at", it.read() == run(["draw"], transcript).stdout, "another one")


def try_left_out(name, transcript):
    """With a line left out: the verdict of `rme check` on the standard error, and no picture but after yes."""
    lines = transcript.splitlines(keepends=True)
    for at in range(len(lines)):
        other = b"".join(lines[:at] + lines[at + 1 :])
        verdict = run(["check"], other)
        ended = run(["draw"], other)
        if verdict.returncode == 0:
            wanted = (0, picture_of(other.splitlines()).encode(), b"")
        else:
            wanted = (1, b"", verdict.stdout)
        same(f"{name} without line {at + 1}", ends_with(ended), wanted)


def gave_up():
    """Four workers: one gives up with nothing to release, one with a node, and one falls after giving up. A lock that
    nobody uses has no row, and one of 32 letters has its name along its row if that has room."""
    wide, job = "m" * 32, {"do": "submit", "script": [["add", 0, 5]]}
    walks = [(0, "bank", "entered"), (1, "bank", ""), (2, "bank", ""), (3, wide, "")]
    yield {"cells": 1, "do": "open", "jobs": 100, "locks": ["bank", "unused", wide], "workers": 4}
    for worker, lock, until in walks:
        yield {**job, "lock": lock, "worker": worker}
        yield {"do": "walk", "worker": worker, **({"until": until} if until else {})}
        if lock == "bank" and worker > 0:
            yield {"do": "withdraw", "worker": worker}
            yield {"do": "walk", "worker": worker}
    yield {"do": "crash", "worker": 1}
    for _ in range(9):
        yield {**job, "lock": wide, "worker": 3}
        yield {"do": "walk", "worker": 3}


def try_gave_up():
    lines = "".join(json.dumps(line) + "\n" for line in gave_up()).encode()
    transcript = run(["run", "--transcript"], lines).stdout
    try_picture("workers that gave up, and locks with no row and with a long name", transcript)
    drawn = picture_of(transcript.splitlines())
    tips = re.findall("<title>(worker [12]: (?:Exit|ready), lines [^<]*)</title>", drawn)
    wanted = ["worker 1: Exit, lines 8 to 9", "worker 1: ready, lines 9 to"]
    check("one with nothing to release is ready at once", all(any(tip.startswith(one) for tip in tips) for one in wanted), tips)
    check("a lock that nobody used has no row", "unused" not in drawn, "it has one")


def long_transcript(jobs):
    """Two workers in turn: three events of a job that go by unhindered, over 2,000 lines in all."""
    yield {"cells": 16, "do": "open", "jobs": jobs, "locks": ["a", "b" * 32], "workers": 2}
    cells = [0] * 16
    for at in range(jobs):
        worker, number, lock = at % 2, at // 2 + 1, "b" * 32
        value = WORD - 1 - at
        cells[at % 16] = value
        yield {"do": "submit", "lock": lock, "number": number, "script": [["set", at % 16, value]], "worker": worker}
        for note in (["asked", number], ["entered", lock], ["finished", lock, number, at, value], ["left", lock]):
            yield {"do": "note", "note": note, "worker": worker}


def try_faults():
    transcript = FOUND["re-entry"]
    with open("/dev/full", "wb") as full:
        ended = run(["draw"], transcript, stdout=full)
    same("a full output", (ended.returncode, ended.stderr), (4, b"fault: write failed\n"))
    ended = run(["draw"], stdin=os.open(TOP, os.O_RDONLY))
    same("a folder as input", ends_with(ended), (3, b"", b"fault: read failed\n"))
    ended = run(["draw"], b"")
    same("no input", ends_with(ended), (1, b"", b"bad 1\n"))
    ended = run(["draw", "twice"], transcript)
    check("a word too many", (ended.returncode, ended.stdout) == (2, b"") and b"twice" in ended.stderr, ended)


def try_help():
    """The example of the help, run as it stands with the program on the path, draws its transcript."""
    text = run(["draw", "--help"], b"").stdout.decode()
    commands = re.search(r"\n((?:  .*\n)*  rme draw <run.jsonl >run.svg\n)", text).group(1)
    with tempfile.TemporaryDirectory() as folder:
        os.symlink(built(), os.path.join(folder, "rme"))
        environment = {**os.environ, "PATH": folder + os.pathsep + os.environ["PATH"]}
        unindented = "".join(f"{line[2:]}\n" for line in commands.splitlines())
        ran = subprocess.run(["bash", "-c", unindented], cwd=folder, capture_output=True, env=environment)
        with open(os.path.join(folder, "run.jsonl")) as lines, open(os.path.join(folder, "run.svg")) as picture:
            is_drawn = picture.read() == picture_of(lines.read().splitlines())
    check("the example of the help", (ran.returncode, ran.stdout, ran.stderr, is_drawn) == (0, b"", b"", True), ran)


FOUND = {}


def crowd(seed):
    """Lines for workers that step, fall, come back and give up at random, each with an image behind it."""
    chance = random.Random(seed)
    workers = chance.choice([2, 3, 5, 8])
    yield {"cells": 1, "do": "open", "jobs": 100, "locks": ["a", "b"], "workers": workers}
    kinds = ["step"] * 40 + ["submit"] * 3 + ["restart"] * 2 + ["crash", "withdraw"]
    for _ in range(1_500):
        line = {"do": chance.choice(kinds), "worker": chance.randrange(workers)}
        if line["do"] == "submit":
            line.update(lock=chance.choice("aaab"), script=[])
        yield line
        yield {"do": "save"}


def blocker_in(image, worker):
    """The holder of the next node of a worker that waits, by the words of an image, or None."""
    workers, locks, cells, _ = struct.unpack_from(">HBBI", image, 5)
    leaves = max(2, 1 << (workers - 1).bit_length())
    block = leaves + 2 + 2 * cells
    words = struct.unpack_from(f">{31 * workers + locks * block}Q", image, 13)
    first = 31 * workers + words[31 * worker + 5] * block - 1
    child = leaves + worker
    while words[first + child // 2] == 1 + child % 2:
        child //= 2
    place = child // 2
    while place < leaves:
        place = 2 * place + words[first + place] - 1
    return place - leaves


def try_blockers():
    """Whoever is named as a blocker holds the node, by an image of that moment."""
    named = unnamed = 0
    for seed in range(12):
        given = [json.dumps(line) for line in crowd(seed)]
        answers = [json.loads(line) for line in run(["run"], "".join(f"{line}\n" for line in given).encode()).stdout.splitlines()]
        true = []
        for line, answer, saved in zip(given[1::2], answers[1::2], answers[2::2]):
            if answer.get("note") == ["blocked"]:
                true.append(blocker_in(bytes.fromhex(saved["image"]), json.loads(line)["worker"]))
        transcript = transcript_of(f"seed {seed}", "".join(f"{line}\n" for line in given).encode())
        told = [by for _, _, by in Account(transcript.splitlines()).blocked]
        wrong = [it for it in zip(told, true) if it[0] not in (None, it[1])]
        check(f"seed {seed}: the named blockers of {len(true)}", len(told) == len(true) and not wrong, wrong)
        named, unnamed = named + sum(by is not None for by in told), unnamed + told.count(None)
        try_picture(f"seed {seed}", transcript)
    check("blockers are named, and some are not known", named > 100 and unnamed > 10, (named, unnamed))


def try_examples():
    for name, given in examples():
        FOUND[name] = transcript_of(name, given)
        try_picture(name, FOUND[name])
        try_picture(f"{name} from 3", FOUND[name], ["--from", 3], [3])
        try_picture(f"{name} to 3", FOUND[name], ["--to", 3], [1, 3])
    for name in ("re-entry", "dead-climber"):
        try_ranges(name, FOUND[name])
    for name in KEPT:
        try_kept(name, FOUND[name])
    for name in ("re-entry", "dead-climber"):
        try_left_out(name, FOUND[name])


def try_long():
    """Of a long transcript its last lines are drawn, unless lines are named; the standard error says which."""
    lines = [json.dumps(event, separators=(",", ":"), sort_keys=True) for event in long_transcript(500)]
    count, text = len(lines), "".join(f"{line}\n" for line in lines).encode()
    told = f"rme: lines {count - USUAL + 1} to {count} of {count} are drawn: --from LINE and --to LINE draw others\n".encode()
    try_picture(f"the last of {count} lines", text, [], [count - USUAL + 1], told)
    try_picture(f"all {count} lines", text, ["--from", 1], [1])
    try_picture(f"lines 700 to 900 of {count}", text, ["--from", 700, "--to", 900], [700, 900])
    usual = b"".join(text.splitlines(keepends=True)[:USUAL])
    try_picture(f"{USUAL} lines", usual)
    told = f"rme: lines 2 to {USUAL + 1} of {USUAL + 1} are drawn: --from LINE and --to LINE draw others\n".encode()
    try_picture(f"{USUAL + 1} lines", b"".join(text.splitlines(keepends=True)[: USUAL + 1]), [], [2], told)
    picture = picture_of(lines)
    width, height = re.search(r'width="(\d+)" height="(\d+)"', picture).groups()
    check("it is within what viewers take", int(width) <= 30_000 and int(height) < 32_768, (width, height))
    size = len(picture_of(lines, count - USUAL + 1))
    check("what is drawn of a long transcript is no long file", size < 3 * 2**20, size)


def write():
    """Writes docs/pictures anew, from the model."""
    given = dict(examples())
    for name in KEPT:
        with open(os.path.join(PICTURES, f"{name}.svg"), "w") as out:
            out.write(picture_of(transcript_of(name, given[name]).splitlines()))


def part():
    if "--write" in sys.argv:
        write()
    else:
        main(try_examples, try_range_by_hand, try_bad_ranges, try_state, try_blockers, try_long, try_gave_up, try_faults, try_help)
