"""The rows of a folder: what they are given and must answer, their tables of verdicts, and their changes of images."""

import glob
import os

from lib.programs import TOP
from rows.images import try_changes, try_cuts_and_bits, try_saved
from rows.program import check, check_output
from rows.reading import INPUTS, OTHERS, Line, Save, Serve, asks, cuts_of, items_of, of_cut, read, rows_of, text_of
from rows.sessions import try_cut_session, try_session, words_of

# Rows of which more is made: a sweep over the bytes of a session, and one over those of an image.
CUT_SESSION, CUT_IMAGE = "rows/sessions/cut", "rows/images/saved-climber"


def try_answers(row, path):
    """The answers of a row, at each of its cuts if it is swept."""
    answers = items_of(path)
    cuts = cuts_of(row.items, answers)
    for cut in cuts:
        name = f"{row.name}, cut {cut}" if len(cuts) > 1 else row.name
        given, wanted = of_cut(row.items, cut), of_cut(answers, cut)
        if asks(row, Serve):
            try_session(name, words_of(row), given, text_of(wanted))
        elif asks(row, Save):
            try_saved(name, given, [item.text for item in wanted if isinstance(item, Line)])
        else:
            check_output(name, ["run"], text_of(given), text_of(wanted))
            if len(cuts) == 1:
                check_output(f"{name}, by rme_cli_run", ["run"], text_of(given), text_of(wanted), program="rme_cli_run")


def try_transcript(row, path):
    """The answers to a row's lines, from the machine and from each of its fronts, also without the last newline."""
    transcript = read(path)
    check_output(f"{row.name}, told", ["run", "--transcript"], text_of(row.items), transcript)
    lines = transcript.splitlines(keepends=True)
    for count in range(1, len(lines) + 1):
        front = b"".join(lines[:count])
        for text in (front, front.rstrip(b"\n")):
            check_output(f"{row.name}, its first {count} event lines", ["check"], text, b"yes\n")


def try_row(row):
    paired = any(end in row.files for end in INPUTS) and any(end in row.files for end in OTHERS)
    check(f"{row.name}: lines, and what comes of them", paired, sorted(row.files))
    if answers := row.files.get(".answers.jsonl") or row.files.get(".expected.jsonl"):
        try_answers(row, answers)
    if ".transcript.jsonl" in row.files:
        try_transcript(row, row.files[".transcript.jsonl"])
    if row.name == CUT_SESSION:
        try_cut_session(row)
    if row.name == CUT_IMAGE:
        try_cuts_and_bits(row)


def try_table(path, name):
    """A table: on each line a verdict, and behind tabs the lines of a transcript."""
    for number, line in enumerate(read(path).rstrip(b"\n").split(b"\n"), 1):
        if not line.startswith(b"#"):
            verdict, *lines = line.split(b"\t")
            text = b"".join(line + b"\n" for line in lines)
            check_output(f"{name}, line {number}", ["check"], text, verdict + b"\n", int(verdict != b"yes"))


def named(folder, ending, word):
    """The path and the name of each row of a folder that has a file with this ending, and the word in its name."""
    for path in sorted(glob.glob(os.path.join(TOP, folder, "*" + ending))):
        name = os.path.relpath(path, TOP).removesuffix(ending)
        if word in name:
            yield path, name


def try_folder(folder, word=""):
    """All rows of a folder, or those that have a word in their names."""
    for row in rows_of(folder):
        if word in row.name:
            try_row(row)
    for path, name in named(folder, ".verdicts.tsv", word):
        try_table(path, name)
    for path, name in named(folder, ".changes", word):
        try_changes(path, name)
