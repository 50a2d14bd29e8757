"""Rows of images: changes of one, its cuts and bits, and worlds that are saved and loaded between two steps."""

import json
import re

from rows.program import check, check_output, difference, run_lines
from rows.reading import Line, Save, read

LOADED = b'{"ok":"load"}\n'
REFUSED = b'{"code":15,"error":"BadImage"}\n'
SAVE = b'{"do":"save"}\n'
HEADER = 13

# How many loads there are in a run.
MOST_LOADS = 1000

WORKER_WORDS = ("Begun", "Done", "Reply", "Place", "At", "SlateLock", "SlateLen")

# The fields of an entry before its operations, and the operation's own, with their bytes.
ENTRY = {"Worker": (0, 2), "Number": (2, 4), "Lock": (6, 1), "Place": (7, 4), "Reply": (11, 8), "Len": (19, 1)}
OPERATION = {"Kind": (20, 1), "First": (21, 1), "Second": (22, 8)}


def line_of(**asked):
    return json.dumps(asked, separators=(",", ":"), sort_keys=True).encode() + b"\n"


def load(image, locks):
    return line_of(do="load", image=image.hex(), locks=[f"l{number}" for number in range(locks)])


def saved(image):
    return line_of(image=image.hex(), ok="save")


def image_of(answer):
    return bytes.fromhex(json.loads(answer)["image"])


class Layout:
    """The offsets of the words of an image of version 2, by the sizes in its header."""

    def __init__(self, image):
        self.workers = int.from_bytes(image[5:7], "big")
        self.locks, self.cells = image[7], image[8]
        self.leaves = 2
        while self.leaves < self.workers:
            self.leaves *= 2
        self.block = self.leaves + 2 + 2 * self.cells
        self.entries = HEADER + 8 * (31 * self.workers + self.block * self.locks)

    def word(self, name, whose, more):
        """The number of a word of a worker or of a lock."""
        if name in WORKER_WORDS:
            return 31 * whose + WORKER_WORDS.index(name)
        if name == "SlateWord":
            return 31 * whose + 7 + 3 * more[0] + more[1]
        shadow = self.leaves + self.cells
        at = {"Node": -1, "Turn": self.leaves - 1, "Cell": self.leaves, "Shadow": shadow}
        at |= {"ShadowReply": shadow + self.cells, "Mask": shadow + self.cells + 1}
        return 31 * self.workers + self.block * whose + at[name] + sum(more)

    def entry(self, image, number):
        """Where an entry begins."""
        at = self.entries + 4
        for _ in range(number):
            at += 20 + 10 * image[at + 19]
        return at

    def place(self, image, name, numbers):
        """The offset of what a change names, and how many bytes it has."""
        if name == "Byte":
            return numbers[0], 1
        if name == "Entries":
            return self.entries, 4
        field = {**ENTRY, **OPERATION}.get(name.removeprefix("Entry"))
        if field and name.startswith("Entry"):
            return self.entry(image, numbers[0]) + field[0], field[1]
        return HEADER + 8 * self.word(name, numbers[0], numbers[1:]), 8


def changed(image, layout, changes):
    """The image with these changes, as `Turn(0)=1`."""
    found = bytearray(image)
    for change in changes:
        name, numbers, value = re.fullmatch(r"(\w+)(?:\(([\d,]*)\))?(?:=(\d+))?", change).groups()
        if name == "Shorter":
            del found[-1]
        elif name == "Longer":
            found.append(int(value))
        else:
            at, size = layout.place(image, name, [int(number) for number in (numbers or "").split(",") if number])
            found[at : at + size] = int(value).to_bytes(size, "big")
    return bytes(found)


# ---- version 1, which has no masks


def masks(layout):
    """The offset of each lock's mask."""
    return [HEADER + 8 * layout.word("Mask", lock, []) for lock in range(layout.locks)]


def older(image):
    """The image of version 1 with the same words."""
    found = bytearray(image)
    for at in reversed(masks(Layout(image))):
        del found[at : at + 8]
    found[4] = 1
    return bytes(found)


def stands_for(image, layout):
    """The image of version 2 that one of version 1 stands for: the mask of all cells if the turn is odd, else 0."""
    found = bytearray(image)
    for lock, at in enumerate(masks(layout)):
        turn = HEADER + 8 * layout.word("Turn", lock, [])
        found[at:at] = ((2**layout.cells - 1) * (found[turn + 7] % 2)).to_bytes(8, "big")
    found[4] = 2
    return bytes(found)


# ---- loads, one after another


def check_loads(cases, locks):
    """Loads and saves, many in a run: each case is a name, an image, and the image that is saved then, or None if it is
    refused. After a refusal the last world is saved again."""
    for at in range(0, len(cases), MOST_LOADS):
        check_some_loads(cases[at : at + MOST_LOADS], locks)


def check_some_loads(cases, locks):
    given, wanted, last = [], [], b'{"code":3,"error":"NotOpen"}\n'
    for _, image, back in cases:
        given += [load(image, locks), SAVE]
        last = last if back is None else saved(back)
        wanted.append((REFUSED if back is None else LOADED) + last)
    ran = run_lines(["run"], b"".join(given))
    answers = ran.stdout.splitlines(keepends=True)
    for at, (name, _, _) in enumerate(cases):
        found = b"".join(answers[2 * at : 2 * at + 2])
        check(name, found == wanted[at], difference(found, wanted[at]))
    ended = (ran.returncode, ran.stderr, len(answers))
    check("the run of the loads", ended == (0, b"", 2 * len(cases)), ended)


def case_of(line, image, layout):
    """The image that a line of changes is about, and what it is saved as."""
    word, *changes = line.decode().split()
    if word == "older":
        return older(image), changed(image, layout, changes)
    found = changed(image, layout, changes)
    return found, found if word == "good" else None


def try_changes(path, name):
    """A file of lines that make a world, and of changes that leave its image good or break it."""
    lines = [line for line in read(path).splitlines(keepends=True) if not line.startswith(b"#")]
    commands = [line for line in lines if line.startswith(b"{")]
    ran = run_lines(["run"], b"".join(commands) + SAVE)
    answers = ran.stdout.splitlines()
    check(f"{name}: the world is made", ran.returncode == 0 and b'"code"' not in ran.stdout, ran.stdout)
    image = image_of(answers[-1])
    layout = Layout(image)
    cases = [(f"{name}: unchanged", image, image)]
    for line in lines[len(commands) :]:
        cases.append((f"{name}: {line.decode().strip()}", *case_of(line, image, layout)))
    check_loads(cases, layout.locks)


# ---- cuts and bits of the image of a dead climber


def good_in_header(offset, bit):
    """Of its jobs, which are 10, each bit may be changed that leaves them at most 1,000,000."""
    return offset in (11, 12) or offset == 10 and bit < 4


def good_pending(word, bit):
    """A word of worker 0 or 2, which has an empty job: it stays begun and not done, at its lock, and may have 1, 2, 4 or
    8 gets of cell 0. Its receipt and operations may be anything."""
    return word not in (0, 1, 5) and (word != 6 or bit < 4)


def good_idle(word, bit):
    """A word of worker 1 or 3, which has begun nothing: with Begun 1 it waits with an empty job. Its receipt is 0, and its
    slate may be anything."""
    return word > 4 or word == 0 and bit == 0


def good_at_lock(word, bit):
    """The root may be free, though not node 3 behind it; node 2 may be free; the turn may be 1, since the empty job inside
    has copied no cell; the cell is 0; and what is left may be anything."""
    return word > 4 or word == 0 and bit == 1 or word in (1, 3) and bit == 0


def good_bit(offset, bit, words):
    """Whether the image stays good with this bit changed of the byte at an offset. After this number of words stands
    the number of entries, which is 0."""
    if offset < HEADER:
        return good_in_header(offset, bit)
    word, byte = divmod(offset - HEADER, 8)
    if word >= words:
        return False
    bit += 8 * (7 - byte)
    if word >= 124:
        return good_at_lock(word - 124, bit)
    worker, word = divmod(word, 31)
    return good_idle(word, bit) if worker % 2 else good_pending(word, bit)


def try_cuts(name, image, back):
    cases = [(f"{name}, whole", image, back)]
    cases += [(f"{name}, cut after {length} bytes", image[:length], None) for length in range(len(image))]
    check_loads(cases, 1)


def try_bits(name, image, words, back_of):
    """Each bit is changed in turn; `back_of` gives what a good image is saved as."""
    cases = []
    for offset in range(len(image)):
        for bit in range(8):
            other = bytearray(image)
            other[offset] ^= 1 << bit
            back = back_of(bytes(other)) if good_bit(offset, bit, words) else None
            cases.append((f"{name}, bit {bit} of byte {offset}", bytes(other), back))
    check_loads(cases, 1)


def try_cuts_and_bits(row):
    """The image that a row of a dead climber saves, of 4 workers, one lock and one cell, and its older image."""
    answers = read(row.files[".answers.jsonl"]).splitlines()
    image = next(image_of(answer) for answer in answers if b'"ok":"save"' in answer)
    layout = Layout(image)
    check(f"{row.name}, the lengths", (len(image), len(older(image))) == (1073, 1065), len(image))
    try_cuts(row.name, image, image)
    try_cuts(f"{row.name}, older", older(image), image)
    try_bits(row.name, image, 132, lambda other: other)
    try_bits(f"{row.name}, older", older(image), 131, lambda other: stands_for(other, layout))


# ---- the most workers


def empty(version, workers):
    """The image of a world of one lock, one cell and one job in which nothing was done."""
    leaves = 64 if workers == 64 else 128
    words = 31 * workers + leaves + (4 if version == 2 else 3)
    return bytes.fromhex("524d4549") + bytes([version, 0, workers, 1, 1, 0, 0, 0, 1]) + bytes(8 * words + 4)


def try_most_workers():
    """Version 1 has at most 64 workers, version 2 more."""
    cases = [
        ("version 1 with 64 workers", empty(1, 64), empty(2, 64)),
        ("version 1 with 65 workers", empty(1, 65), None),
        ("version 2 with 65 workers", empty(2, 65), empty(2, 65)),
    ]
    check_loads(cases, 1)


# ---- worlds that are saved and loaded between two steps


def each(workers, **asked):
    return [line_of(worker=worker, **asked) for worker in workers]


def others_come_up(workers, but):
    """The lines by which all workers but one come up, each of which is ready after two steps, and their answers."""
    lines, answers = [], []
    for worker in range(workers):
        if worker != but:
            lines += each([worker], do="restart") + each([worker], do="step") * 2
            answers += [line_of(ok="restart"), line_of(note=["quiet"], ok="step"), line_of(note=["ready"], ok="step")]
    return lines, answers


def halves_of(items):
    """The lines before and after the place at which the world is saved, and the worker that goes on there."""
    at = next(at for at, item in enumerate(items) if isinstance(item, Save))
    before, after = ([item.text for item in part if isinstance(item, Line)] for part in (items[:at], items[at:]))
    return before, after, items[at].worker


def try_saved(name, items, answers):
    """What comes after a save and a load is what comes after a crash of all workers there, up to the image at the end.
    After the load all workers are down, and no step is counted."""
    before, after, worker = halves_of(items)
    opening = json.loads(before[0])
    workers = range(opening["workers"])
    up, came = others_come_up(len(workers), worker)
    told, then = answers[: len(before)], answers[len(before) :]
    crashes = each(workers, do="crash")
    whole = run_lines(["run"], b"".join([*before, SAVE, *crashes, SAVE, *up, *after, SAVE])).stdout
    found = whole.splitlines(keepends=True)
    image, end = found[len(before)], found[-1]
    wanted = [*told, image, *[line_of(ok="crash")] * len(crashes), image, *came, *then, end]
    check(f"{name}, crashed", found == wanted, difference(whole, b"".join(wanted)))
    steps = each(workers, do="step")
    loaded = line_of(do="load", image=json.loads(image)["image"], locks=opening["locks"])
    given = [loaded, SAVE, line_of(do="report"), *steps, SAVE, *up, *after, SAVE]
    none = dict.fromkeys(("enter", "exit", "post", "recover", "section"), 0)
    down = [line_of(code=7, error="Down")] * len(steps)
    wanted = [LOADED, image, line_of(ok="report", **none), *down, image, *came, *then, end]
    check_output(f"{name}, loaded", ["run"], b"".join(given), b"".join(wanted))
