"""async_job_runner.py PORT LOCK COUNT WORKER..: makes the jobs of several workers up to number COUNT, each once, side
by side in one event loop, and prints their receipts. It may be killed at any moment and started again; a receipt may be
printed twice then."""

import asyncio
import sys

from rme_client import AsyncWorker, Done, Overtaken


def amount(worker, number):
    """What a job adds to cell 0."""
    return (1 << 62) + 1000 * number + worker


def tell(receipt):
    print(receipt["worker"], receipt["number"], receipt["place"], receipt["reply"], flush=True)


async def inside(worker, lock, script, number):
    """Makes the job with the program's own work inside. If the connection broke meanwhile, the job's number tells
    whether it counted."""
    while True:
        try:
            async with worker.inside(lock, script, number) as held:
                await asyncio.sleep(0)  # the work, which may be done again
            return held.receipt
        except Done as done:
            return done.receipt
        except Overtaken as overtaken:
            if overtaken.found is not None:
                raise


async def run(port, lock, count, number):
    async with AsyncWorker("127.0.0.1", port, number, label="async_job_runner") as worker:
        left = await worker.finish()  # what an earlier run has left, or did last
        if left is not None:
            tell(left)
        for job in range(await worker.next_number(), count + 1):
            script = [["add", 0, amount(number, job)], ["add", 1, 1]]
            tell(await (worker.submit(lock, script) if job % 2 else inside(worker, lock, script, job)))


async def main(port, lock, count, *workers):
    await asyncio.gather(*(run(int(port), lock, int(count), int(number)) for number in workers))


if __name__ == "__main__":
    asyncio.run(main(*sys.argv[1:]))
