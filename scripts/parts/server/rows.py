"""rows [WORD]: the rows of rows/sessions, by a server without a state, and an order of the most bytes; with WORD the rows
that have it in their names.

A line is printed for each check that fails."""

import sys

from lib.checks import main
from rows.folders import try_folder
from rows.longest import try_orders

WORD = sys.argv[1] if len(sys.argv) > 1 else ""


def try_rows():
    try_folder("rows/sessions", WORD)


def try_what_no_file_holds():
    if not WORD:
        try_orders()


def part():
    main(try_rows, try_what_no_file_holds)
