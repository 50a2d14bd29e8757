"""rows [WORD]: the rows of examples/ and rows/lines on the built program, byte for byte; with WORD those that have it in
their names. What a row is, and what its files are, says rows/README.md. Then lines of the most bytes, and a job that is cut
twice, at each two of its steps.

A line is printed for each check that fails."""

import sys

from lib.checks import main
from rows.cuts import try_cut_everywhere
from rows.folders import try_folder
from rows.longest import try_commands

WORD = sys.argv[1] if len(sys.argv) > 1 else ""


def try_rows():
    try_folder("examples", WORD)
    try_folder("rows/lines", WORD)


def try_what_no_file_holds():
    if not WORD:
        try_cut_everywhere()
        try_commands()


def part():
    main(try_rows, try_what_no_file_holds)
