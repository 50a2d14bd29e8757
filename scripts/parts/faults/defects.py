"""Planted defects of the store and of its clients: some seed finds each.

early-answer: the store says that lines are stored, and stores them with the next ones. dropped-pending: the bytes of a
checkpoint lack a pending job. lost-crashes: the crashes that a start logs are not stored. job-twice: a start reads the last
job twice. stale-look-up: a look-up is answered from before a durable answer. retried-append: after a failed append the
store appends the lines again. ignored-failure: a failed append is answered as if it had succeeded.
"""

from lib.checks import check, main
from lib.faults import simulate

DEFECTS = (
    "early-answer",
    "dropped-pending",
    "lost-crashes",
    "job-twice",
    "stale-look-up",
    "retried-append",
    "ignored-failure",
)
FIRST, MOST, AT_ONCE = 1, 400, 20


def seeds_for(defect):
    """The number of seeds that it takes to find a defect, and what is found; None if they do not find it."""
    for first in range(FIRST, FIRST + MOST, AT_ONCE):
        failures, _ = simulate(first, AT_ONCE, "--defect", defect)
        if failures:
            return failures[0][0] - FIRST + 1, failures[0][2]
    return None


def try_defects():
    for defect in DEFECTS:
        found = seeds_for(defect)
        name = f"{defect}: found by {found[0]} seeds: {found[1]}" if found else defect
        check(name, found, f"{MOST} seeds do not find it")


def part():
    main(try_defects)
