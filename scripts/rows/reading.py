"""The files of examples/ and of the folders of rows/: their lines, and what the lines that begin with # ask for."""

import os
import re
from collections import namedtuple

from lib.programs import TOP

FOLDERS = ("examples", "rows/lines", "rows/transcripts", "rows/images", "rows/sessions")

# A row: its name, its lines, and by the ends of their names the other files that it has.
Row = namedtuple("Row", "name items files")

# What stands in a file: a line that is given or answered, or what a # asks for.
Line = namedtuple("Line", "text")
Cut = namedtuple("Cut", "first last")
Save = namedtuple("Save", "worker")
Client = namedtuple("Client", "number")
Ends = namedtuple("Ends", "number")
Serve = namedtuple("Serve", "words")

ASKED = (
    (Cut, re.compile(rb"# cut (\d+) to (\d+)\n")),
    (Save, re.compile(rb"# save (\d+)\n")),
    (Client, re.compile(rb"# client (\d+)\n")),
    (Ends, re.compile(rb"# client (\d+) ends\n")),
)
INPUTS = (".jsonl", ".bin")
OTHERS = (".answers.jsonl", ".expected.jsonl", ".transcript.jsonl")


def read(path):
    with open(path, "rb") as file:
        return file.read()


def item_of(line):
    """A line, or what a line that begins with # asks for; None for a comment."""
    if not line.startswith(b"#"):
        return Line(line)
    if line.startswith(b"# serve "):
        return Serve(line.decode().split()[2:])
    for kind, form in ASKED:
        if found := form.fullmatch(line):
            return kind(*map(int, found.groups()))
    return None


def items_of(path):
    items = (item_of(line) for line in re.findall(rb"[^\n]*\n|[^\n]+$", read(path)))
    return [item for item in items if item is not None]


def of_cut(items, cut):
    """What stands for this cut: all that stands in no range of cuts, or in one that has it."""
    chosen, stands = [], True
    for item in items:
        if isinstance(item, Cut):
            stands = item.first <= cut <= item.last
        elif stands and isinstance(item, Line):
            chosen.append(Line(item.text.replace(b"CUT", b"%d" % cut)))
        elif stands:
            chosen.append(item)
    return chosen


def cuts_of(*files):
    """The cuts that these files speak of, from 0 on; if they speak of no cut, only the cut 0."""
    return range(max([0, *(item.last for items in files for item in items if isinstance(item, Cut))]) + 1)


def text_of(items):
    return b"".join(item.text for item in items if isinstance(item, Line))


def asks(row, kind):
    return any(isinstance(item, kind) for item in row.items)


def split_name(file):
    """The name of a row and which of its files this is; None if it is not the name of a row's file."""
    for end in OTHERS + INPUTS:
        if file.endswith(end):
            return file.removesuffix(end), end
    return None


def rows_of(folder):
    """The rows of a folder that have lines to be given, by name."""
    files = {}
    for file in sorted(os.listdir(os.path.join(TOP, folder))):
        if found := split_name(file):
            files.setdefault(found[0], {})[found[1]] = os.path.join(TOP, folder, file)
    for name, ends in files.items():
        given = ends.get(".jsonl") or ends.get(".bin")
        yield Row(f"{folder}/{name}", items_of(given) if given else [], ends)


def all_rows():
    for folder in FOLDERS:
        yield from rows_of(folder)


def plain_rows():
    """The name and the text of each row whose lines are for `rme run` as they stand."""
    for row in all_rows():
        if not any(asks(row, kind) for kind in (Cut, Save, Serve)):
            yield row.name, text_of(row.items)
