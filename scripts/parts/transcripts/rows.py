"""rows [WORD]: the rows of rows/transcripts, and an event line of the most bytes; with WORD the rows that have it in their
names. Tables of verdicts on transcripts, and runs with the transcripts that are told of them.

A line is printed for each check that fails."""

import sys

from lib.checks import main
from rows.folders import try_folder
from rows.longest import try_event_lines

WORD = sys.argv[1] if len(sys.argv) > 1 else ""


def try_rows():
    try_folder("rows/transcripts", WORD)


def try_what_no_file_holds():
    if not WORD:
        try_event_lines()


def part():
    main(try_rows, try_what_no_file_holds)
