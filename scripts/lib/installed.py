"""What is installed of this repository: a table of paths below a prefix, each with a file that is put there, or a link.

scripts/install puts the files of the table in their places, and scripts/package into packages."""

import hashlib
import os
import subprocess

from lib.programs import SCRIPTS, TOP


class Refused(Exception):
    """What ends the script, in a sentence."""


class Item:
    def __init__(self, source=None, mode=0o644, link=None):
        self.source, self.mode, self.link = source, mode, link

    def mark(self):
        return f"link {self.link}" if self.link else checksum(self.source)


def checksum(path):
    with open(path, "rb") as file:
        return "sha256 " + hashlib.sha256(file.read()).hexdigest()


def made(words, what):
    """What a script prints."""
    ran = subprocess.run(words, stdin=subprocess.DEVNULL, stdout=subprocess.PIPE, check=False)
    if ran.returncode != 0:
        raise Refused(f"{what} could not be made: {os.path.basename(words[0])} ended with status {ran.returncode}")
    return ran.stdout


def written(folder, name, data):
    path = os.path.join(folder, name)
    with open(path, "wb") as file:
        file.write(data)
    return path


def program_items(folder, program):
    manual = made([os.path.join(SCRIPTS, "manual"), program], "the manual page")
    completions = made([os.path.join(SCRIPTS, "completions"), program], "the completions")
    return {
        "bin/rme": Item(program, 0o755),
        "share/man/man1/rme.1": Item(written(folder, "rme.1", manual)),
        "share/bash-completion/completions/rme": Item(written(folder, "rme.bash", completions)),
    }


def c_items(folder, flags=()):
    """The C library, which is made in this folder, with these flags for the C compiler."""
    made([os.path.join(SCRIPTS, "build-c"), folder, *flags], "the C library")
    return {
        "include/rme.h": Item(os.path.join(TOP, "c", "rme.h")),
        "lib/librme.a": Item(os.path.join(folder, "librme.a")),
        "lib/librme.so": Item(os.path.join(folder, "librme.so"), 0o755),
        "share/man/man3/rme.3": Item(os.path.join(TOP, "c", "rme.3")),
    }


def package_items(folder, client, package):
    source = os.path.join(TOP, "clients", client, package)
    names = sorted(name for name in os.listdir(source) if name.endswith(".py") or name == "py.typed")
    return {os.path.join(folder, package, name): Item(os.path.join(source, name)) for name in names}


# bin/rme-hold, which finds its package from where it lies.
STARTS_HOLD = """\
#!/usr/bin/env python3
import os
import sys

sys.path.insert(0, os.path.join(os.path.dirname(os.path.realpath(__file__)), {packages!r}))
from rme_hold.main import main

sys.exit(main())
"""


def hold_items(folder, packages):
    source = os.path.join(TOP, "clients", "hold")
    starts = STARTS_HOLD.format(packages=os.path.relpath(packages, "bin"))
    return {
        **package_items(packages, "hold", "rme_hold"),
        "bin/rme-hold": Item(written(folder, "rme-hold", starts.encode()), 0o755),
        "share/man/man1/rme-hold.1": Item(os.path.join(source, "rme-hold.1")),
        "share/bash-completion/completions/rme-hold": Item(os.path.join(source, "rme-hold.bash")),
    }


def python_items(folder, packages, with_c):
    """The packages below this folder for packages, and rme-hold."""
    items = {**package_items(packages, "python", "rme_client"), **hold_items(folder, packages)}
    if with_c:
        items.update(package_items(packages, "processes", "rme_shared"))
        beside = os.path.join(packages, "rme_shared")
        items[os.path.join(beside, "librme.so")] = Item(link=os.path.relpath("lib/librme.so", beside))
    return items
