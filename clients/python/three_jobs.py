#!/usr/bin/env python3
"""three_jobs.py PORT [WORKER]: a client of `rme serve` that adds 5, 10 and 20 to the first cell of the lock `bank`."""

import sys

from rme_client import Worker

if not 2 <= len(sys.argv) <= 3:
    sys.exit(__doc__)
with Worker("127.0.0.1", int(sys.argv[1]), int(sys.argv[2]) if len(sys.argv) > 2 else 0) as worker:
    for amount in (5, 10, 20):
        print(worker.submit("bank", [["add", 0, amount]]))
