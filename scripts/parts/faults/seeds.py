"""Simulations of the durable server: sessions, faults of the disk, crashes, stops of the machine, checkpoints and growths,
all drawn from a seed. No seed may fail. What a failed one shows is made smaller, and told with the words that repeat it.

`try-faults seeds [SEEDS] [FIRST]` runs this number of seeds from the first on.
"""

import sys

from lib.checks import check, main
from lib.faults import simulate_all, smaller, told

SEEDS, FIRST = 16_000, 1


def try_seeds():
    words = [int(word) for word in sys.argv[1:]]
    count, first = (words + [SEEDS, FIRST][len(words) :])[:2]
    failures, sums = simulate_all(first, count)
    check(f"no seed fails: {told(sums)}", not failures, f"{len(failures)} fail")
    for seed, step, wrong in failures[:5]:
        words = " ".join(map(str, smaller(seed, step)))
        check(f"seed {seed}", False, f"step {step}: {wrong}; rme_faults {seed} 1 --trace {words}")
    for name in ("crashes", "stops", "faults", "torn", "checkpoints", "growths", "receipts"):
        check(f"there are {name}", sums.get(name, 0) > 0, told(sums))


def part():
    main(try_seeds)
