"""storm [SECONDS] [SEED]: a crowd of client processes, three for each of three workers, of a server that keeps its
state and ends silent sessions.

They make jobs without numbers, take the worker from each other between two calls, are silent until their session is ended, and
are killed and started again. Each receipt is that of its call's own job; the fold of all jobs equals the cells; each block was
run, once, in the order of the jobs, and beside no other.
"""

import random
import sys
import tempfile

from lib.checks import check, main
from lib.crowds import Crowd

SECONDS = float(sys.argv[1]) if len(sys.argv) > 1 else 20
KINDS = ("again", "settle", "withdraw", "take", "silent")
SEED = int(sys.argv[2]) if len(sys.argv) > 2 else random.randrange(10**6)


def try_storm():
    with tempfile.TemporaryDirectory() as folder:
        crowd = Crowd(folder, SEED)
        wrong = crowd.run(SECONDS, KINDS if SECONDS >= 10 else ())
        counts = crowd.counts
        told = ", ".join(f"{counts[kind]} {kind}" for kind in ("jobs", *KINDS))
        check(f"a crowd, seed {SEED}: {crowd.kills} kills, {told}", not wrong, wrong[:3])
        if SECONDS >= 10:
            few = [kind for kind in KINDS if not counts[kind]]
            check("there was each of these", crowd.kills > 10 and not few, few)


def part():
    main(try_storm)
