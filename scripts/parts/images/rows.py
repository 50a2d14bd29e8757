"""rows [WORD]: the rows of rows/images, and the most workers of an image; with WORD the rows that have it in their names.
Images that are loaded and saved, and changes of them that leave them good or break them.

A line is printed for each check that fails."""

import sys

from lib.checks import main
from rows.folders import try_folder
from rows.images import try_most_workers

WORD = sys.argv[1] if len(sys.argv) > 1 else ""


def try_rows():
    try_folder("rows/images", WORD)


def try_what_no_file_holds():
    if not WORD:
        try_most_workers()


def part():
    main(try_rows, try_what_no_file_holds)
