"""`cut everywhere`: the job of row `five operations` is crashed after each of its own steps, and its worker again after each
step of what follows. It is made once, with reply 5, if its number was stored, and else never. The number is stored at
step 18 of 56."""

from rows.images import LOADED, load
from rows.program import check, difference, run_lines

# A world of one worker, one lock of two cells and ten jobs, in which nothing was ever asked for: 39 words of 0, no entry.
EMPTY = bytes.fromhex("524d454902000101020000000a") + bytes(8 * 39 + 4)

SCRIPT = b'[["set",1,5],["set",0,18446744073709551615],["add",0,1],["swap",0,0],["copy",1,1]]'
SUBMIT = b'{"do":"submit","lock":"l0","script":' + SCRIPT + b',"worker":0}\n'
CRASH, RESTART = b'{"do":"crash","worker":0}\n', b'{"do":"restart","worker":0}\n'
WALK = b'{"do":"walk","worker":0}\n'
LOOK = b'{"do":"owner","lock":"l0"}\n{"do":"cells","lock":"l0"}\n{"do":"history"}\n'

FREE = b'{"ok":"owner","owner":null}\n'
UNMADE = FREE + b'{"cells":[0,0],"ok":"cells","settled":true}\n{"entries":[],"ok":"history"}\n'
ENTRY = b'{"lock":"l0","number":1,"place":0,"reply":5,"script":' + SCRIPT + b',"worker":0}'
MADE = FREE + b'{"cells":[0,5],"ok":"cells","settled":true}\n{"entries":[' + ENTRY + b'],"ok":"history"}\n'

STEPS, NUMBER_AT, MOST_STEPS = 56, 18, 60


def steps(count):
    """So many own steps, or fewer if the worker is ready sooner."""
    return b'{"do":"walk","max":%d,"worker":0}\n' % count if count else b""


def cut_twice(first, second):
    begun = load(EMPTY, 1) + RESTART + WALK + SUBMIT
    return begun + steps(first) + CRASH + RESTART + steps(second) + CRASH + RESTART + WALK + LOOK


def try_cut_everywhere():
    """In each run one first cut with all second ones: a load puts a new world in the place of the last."""
    for first in range(STEPS + 1):
        given = b"".join(cut_twice(first, second) for second in range(MOST_STEPS + 1))
        looks = run_lines(["run"], given).stdout.split(LOADED)[1:]
        check(f"cut everywhere, after {first} steps", len(looks) == MOST_STEPS + 1, f"{len(looks)} worlds")
        wanted = MADE if first >= NUMBER_AT else UNMADE
        for second, answers in enumerate(looks):
            found = b"".join(answers.splitlines(keepends=True)[-3:])
            check(f"cut everywhere, after {first} steps and {second} more", found == wanted, difference(found, wanted))
