#!/usr/bin/env python3
"""A program that writes a file together with others, one version at a time; each may be killed at any moment.

    guarded_file.py PORT WORKER FILE CHANGES

Each version of FILE has one line more than the one before: `VERSION WORKER NUMBER`: its own number, the worker that
made it, and the number of the worker's job. A process makes CHANGES versions as its worker's jobs 1, 2, 3 and so on, in
the lock `file`, whose cell counts the versions. One that is started again goes on with the job that is pending, or with
the next.
"""

import os
import sys

from rme_client import Worker


def read(path):
    """The file's lines; there is no file before version 1."""
    if not os.path.exists(path):
        return []
    with open(path, encoding="utf-8") as file:
        return [line.split() for line in file]


def write(path, lines):
    """Writes the version beside the file and then puts it into its place, so that the file is always a whole
    version."""
    with open(path + ".next", "w", encoding="utf-8") as file:
        file.writelines(" ".join(line) + "\n" for line in lines)
    os.replace(path + ".next", path)


def change(client, path, number):
    """Makes the client's version of this number, once."""
    own = [str(client.worker), str(number)]
    with client.inside("file", [["add", 0, 1]], number) as held:
        lines = read(path)
        if not lines or lines[-1][1:] != own:  # else an earlier attempt wrote it, and was killed before its commit
            lines.append([str(len(lines) + 1), *own])
            write(path, lines)
    if held.receipt["reply"] != len(lines):
        sys.exit(f"version {len(lines)} was counted as {held.receipt['reply']}")


def run(port, worker, path, changes):
    with Worker("127.0.0.1", port, worker) as client:
        for number in range(client.next_number(), changes + 1):
            change(client, path, number)


if __name__ == "__main__":
    if len(sys.argv) != 5:
        sys.exit(__doc__)
    run(int(sys.argv[1]), int(sys.argv[2]), sys.argv[3], int(sys.argv[4]))
