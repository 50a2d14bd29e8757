"""Files of a kept state with a byte changed, and what may be said of each: by its sums, by `rme run` and by its header's form."""

import json

from lib.kept import whole_lines
from lib.programs import run
from lib.sums import is_sealed, line_in_file, start_of


MOST = 2**53


def opened_by(line):
    """How many workers a line opens, and the names of its locks."""
    try:
        order = json.loads(line)
        return order["workers"], order["locks"]
    except (ValueError, TypeError, KeyError):
        return 0, []


def int_of(digits):
    """Whether it is a whole number; -0 is not."""
    return float(digits) if digits == "-0" else int(digits)


def is_whole(value, least=0, most=MOST):
    return type(value) is int and least <= value <= most


def is_last(word, worker, number, locks):
    """Whether this may be the outcome of a worker's last number: a receipt must be its own, of that number."""
    if not isinstance(word, dict):
        return word is None and number == 0
    if set(word) == {"withdrawn"}:
        return word["withdrawn"] is True and number > 0
    if set(word) != {"lock", "number", "place", "reply", "worker"} or word["lock"] not in locks:
        return False
    own = [word["worker"], word["number"]] == [worker, number] and number > 0
    kinds = type(word["worker"]), type(word["number"])
    return own and kinds == (int, int) and is_whole(word["place"]) and is_whole(word["reply"], most=2**64 - 1)


def header_fits(line, opening):
    """Whether a line is a header, and one for the world that another line opens; None if it is no header."""
    try:
        header = json.loads(line.decode(), parse_int=int_of)
    except ValueError:
        return None
    keys = {"epoch", "last", "numbers", "places", "rme", "version"}
    if not isinstance(header, dict) or set(header) - {"lives"} != keys or header["rme"] != "kept":
        return None
    if type(header["version"]) is not int or header["version"] not in (1, 2):
        return None
    workers, locks = opened_by(opening)
    last, numbers, places = lists = [header[name] for name in ("last", "numbers", "places")]
    lives = header.get("lives", [0] * (workers - 1))
    if not all(isinstance(it, list) for it in (*lists, lives)):
        return False
    if [len(it) for it in (*lists, lives)] != [workers - 1, workers - 1, len(locks), workers - 1]:
        return False
    if not is_whole(header["epoch"], most=2**64 - 1) or not all(map(is_whole, numbers + lives)):
        return False
    if not all(is_whole(place, -MOST) for place in places):
        return False
    if header["epoch"] == 0 and any(numbers + places):
        return False
    return all(is_last(word, worker, numbers[worker], locks) for worker, word in enumerate(last))


def verdicts_on(held):
    """What `rme look --check` may say of a file with these bytes: by its sums if it has them, by `rme run`, and by the
    form of the header."""
    start = start_of(held) if is_sealed(held) else None
    if start and start.changed:
        return start.verdicts
    header, *lines = whole_lines(held) or [b""]
    fits = header_fits(header, lines[0] if lines else b"")
    if fits is None:
        return {b"no 1\n"}
    if not lines:
        return {b"no 2\n"}
    answers = run(["run"], b"".join(lines)).stdout.splitlines()
    refused = [line_in_file(held, number) for number, answer in enumerate(answers, 2) if b'"code"' in answer]
    good = start.verdicts if start else {b"yes\n"}
    said = [b"no %d\n" % number for number in refused[:1]] or (good if fits else [])
    return {*said, *([] if fits else [b"no 1\n"])}


def is_verdict(ended, wanted):
    """Whether `rme look --check` ended with one of these verdicts."""
    return ended[1] in wanted and (ended[0], ended[2]) == (0 if ended[1].startswith(b"yes") else 1, b"")


def changes_of(held, numbers):
    """Each byte of a file in turn: one of its bits is turned; of some it becomes a newline, or any other byte."""
    for at, byte in enumerate(held):
        others = {byte ^ 1 << numbers.randrange(8)}
        if at % 4 == 0 or byte == 10:
            others |= {10, numbers.randrange(256)}
        for other in sorted(others - {byte}):
            yield at, held[:at] + bytes([other]) + held[at + 1 :]
