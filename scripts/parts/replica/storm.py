"""storm [SEED]: two servers and three nodes, which are killed, stopped and cut off under eight clients; each job counts once."""

import random
import sys

from lib.checks import check, note
from lib.clusters import main_with_etcd
from lib.replica_storms import ReplicaStorm

SEED = int(sys.argv[1]) if len(sys.argv) > 1 else random.randrange(10**6)
ACTS = 16


def try_storm(folder):
    storm = ReplicaStorm(folder, SEED)
    wrong = storm.run(ACTS)
    told = ", ".join(f"{count} {name}" for name, count in sorted(storm.counts.items()))
    check(f"{storm.jobs()} jobs over {told}", not wrong and storm.jobs() > 100, wrong[:3])


def part():
    note(f"seed {SEED}")
    main_with_etcd(try_storm, minutes=4)
