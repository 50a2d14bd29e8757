"""Checks that are counted. A part of a script makes all of its checks, whatever fails, and its last line is
`N checks, M failed`; if the script runs all of its parts, it gets the count in place of the line."""

import os
import signal
import sys
import tempfile
import time
import traceback

made = 0
failed = 0
left_out = 0
counted = None  # the descriptor of the file to which the count is written


class Stop(Exception):
    """A group of checks cannot go on: it counts as a failed check, and the other groups are made."""


def check(name, holds, told="", quiet=False):
    """Counts a check, says how it went, and answers whether it holds; `told` is printed if it does not. A quiet check
    prints nothing if it holds."""
    global made, failed
    made += 1
    failed += not holds
    if holds and quiet:
        return True
    print(("ok   " if holds else "FAIL ") + name + ("" if holds else f": {told}"), flush=True)
    return bool(holds)


def same(name, found, wanted):
    """A check that two values are equal."""
    return check(name, found == wanted, f"{found!r} in place of {wanted!r}")


def fail(name, told=""):
    """Counts a check that is known to fail."""
    return check(name, False, told)


def note(text):
    """Prints a line that is not a check."""
    print(f"     {text}", flush=True)


def skip(name, why):
    """Says that something cannot be tried on this machine."""
    global left_out
    left_out += 1
    print(f"skip {name}: {why}", flush=True)


def is_well(made, failed, left_out):
    """Whether all is well after this number of checks: no check failed, and if no check was made, it was said what is
    left out."""
    return not failed and bool(made or left_out)


def end():
    """Tells the count, and ends the script: status 1 if a check failed."""
    if counted is None:
        print(f"{made} checks, {failed} failed", flush=True)
    else:
        os.write(counted, f"{made} {failed} {left_out}".encode())
    sys.exit(0 if is_well(made, failed, left_out) else 1)


def main(*groups):
    """Makes groups of checks in turn, each a function without arguments, and ends the script."""
    for group in groups:
        try:
            group()
        except Stop as stop:
            fail(getattr(group, "__name__", "a group"), stop)
        except Exception:
            fail(getattr(group, "__name__", "a group"), traceback.format_exc())
    end()


def main_in_folders(*groups, minutes):
    """Makes the groups as `main` does, each in a folder of its own, within this number of minutes, and says how long
    each took."""

    def too_long(*_):
        signal.alarm(60)  # the groups after it have an end too
        raise TimeoutError(f"no end after {minutes} minutes")

    def in_folder(group):
        def call():
            folder = os.path.join(all_of_them, group.__name__)
            os.mkdir(folder)
            began = time.monotonic()
            group(folder)
            note(f"{group.__name__}: {time.monotonic() - began:.1f} seconds")

        call.__name__ = group.__name__
        return call

    signal.signal(signal.SIGALRM, too_long)
    signal.alarm(60 * minutes)
    with tempfile.TemporaryDirectory() as all_of_them:
        main(*map(in_folder, groups))
