#!/usr/bin/env python3
"""A job runner on `rme serve` that may be killed at any moment: each job counts once, and its receipt is kept.

    job_runner.py PORT WORKER JOBS RECEIPTS

Line n of the file JOBS is the script of job n, for the lock `bank`, and line n of RECEIPTS will be its receipt. A job is sent
under the number of its line, and the next one only when the receipt is on the disk. So a runner that is started again
begins with the first job that has no receipt; if that job was done already, the server answers its receipt once more.
"""

import json
import os
import sys

from rme_client import Worker


def lines_of(path):
    """The whole lines of a file. A last piece without a newline is what a runner wrote when it was killed."""
    if not os.path.exists(path):
        return []
    with open(path, "r+b") as file:
        whole = file.read().rpartition(b"\n")[0]
        file.truncate(len(whole) + 1 if whole else 0)
    return whole.split(b"\n") if whole else []


def run(port, worker, jobs, receipts):
    with open(jobs, "rb") as file:
        scripts = [json.loads(line) for line in file]
    client = Worker("127.0.0.1", port, worker)
    first = len(lines_of(receipts)) + 1
    with open(receipts, "ab") as file:
        for number in range(first, len(scripts) + 1):
            receipt = client.submit("bank", scripts[number - 1], number)
            file.write(json.dumps(receipt).encode() + b"\n")
            file.flush()
            os.fsync(file.fileno())
    client.close()


if __name__ == "__main__":
    run(int(sys.argv[1]), int(sys.argv[2]), sys.argv[3], sys.argv[4])
