"""look [SEED]: `rme look` of a file whose words processes map.

The file is made, and its workers are moved, by clients/processes. What is printed of workers in each stance, alive and dead, is
worked out by hand, and beside a storm it is what the C library looks up. `--check` says yes of all of them, and names a word
that no world has; a first page with a byte changed is refused with its reason.
"""

import json
import os
import random
import signal
import struct
import subprocess
import sys
import time

from lib.checks import check, main, main_in_folders, same, skip
from lib.kept import look, read, written
from lib.processes import compiler, has, shared
from lib.programs import ends_with

SEED = int(sys.argv[1]) if len(sys.argv) > 1 else random.randrange(10**6)
WORKERS, CELLS = 3, 2
PAGE, LIVES, WORDS_OF_A_WORKER, LEAVES = 4096, 2048, 31, 4
# A process that makes one call and then holds its worker until it is killed.
HOLDER = """
import sys, time
from rme_shared import Blocked, Worker
worker = Worker(sys.argv[1], int(sys.argv[2]))
exec(sys.argv[3])
print("ready", flush=True)
time.sleep(600)
"""


def holder(path, worker, what):
    process = subprocess.Popen([sys.executable, "-c", HOLDER, path, str(worker), what], stdout=subprocess.PIPE, text=True)
    same(f"worker {worker} has a process", process.stdout.readline(), "ready\n")
    return process


def killed(process):
    process.send_signal(signal.SIGKILL)
    process.wait()
    process.stdout.close()


def shows(name, path, locks, workers, left=(), moved=False):
    """What is printed are these locks and workers, and what is left to finish; the JSON says the same, and a start of another
    process could take the words."""
    active = [row for row in workers if row[1] != "free"]
    text = "moved: another file has the cells since\n" * moved + aligned([LOCK, *locks])
    text += "\n" + (aligned([WORKER, *active]) if active else "every worker is ready, and nobody has one\n")
    text += "\n" * bool(left) + "".join(line + "\n" for line in left)
    same(name, ends_with(look(path)), (0, text.encode(), b""))
    whole = "\n".join(text.splitlines()[: moved + 1 + len(locks)]) + "\n\n" + aligned([WORKER, *workers])
    whole += "\n" * bool(left) + "".join(line + "\n" for line in left)
    same(f"{name}, all of it", ends_with(look(path, "--all")), (0, whole.encode(), b""))
    told = json.loads(ends_with(look(path, "--json"))[1])
    same(f"{name}, as JSON", (told["ok"], told["moved"], locks_of(told)), ("status", moved, locks))
    same(f"{name}, the workers as JSON", workers_of(told), [(row[0], row[1].isdigit(), *row[2:]) for row in workers])
    same(f"{name}: the words are sound", ends_with(look(path, "--check")), (0, b"yes\n", b""))


LOCK = ("LOCK", "OWNER", "CELLS", "SETTLED", "SECTIONS")
WORKER = ("WORKER", "PROCESS", "STANCE", "LOCK", "NUMBER", "BLOCKED BY")


def aligned(rows):
    widths = [max(map(len, column)) for column in zip(*rows)]
    lines = ("  ".join(text.ljust(width) for text, width in zip(row, widths)).rstrip() for row in rows)
    return "".join(line + "\n" for line in lines)


def locks_of(told):
    rows = []
    for lock in told["locks"]:
        owner = "nobody" if lock["owner"] is None else str(lock["owner"])
        cells, settled = ",".join(map(str, lock["cells"])), "yes" if lock["settled"] else "no"
        rows.append((lock["name"], owner, cells, settled, str(lock["sections"])))
    return rows


def workers_of(told):
    rows = []
    for number, it in enumerate(told["workers"]):
        row = str(number), it["living"], it["stance"], it.get("lock", "-"), str(it["number"]), str(it.get("blocked_by", "-"))
        rows.append(row)
    return rows


def try_stances(folder):
    """Workers that nobody has, that are ready, inside and waiting, and processes that die there."""
    rme, path = shared(), os.path.join(folder, "words")
    rme.create(path, ["bank", "shop"], workers=WORKERS, cells=CELLS)
    bank, shop = [(name, "nobody", "0,0", "yes", "0") for name in ("bank", "shop")]
    free = [(str(number), "free", "ready", "-", "0", "-") for number in range(WORKERS)]
    shows("a new file", path, [bank, shop], free)
    one = holder(path, 0, "worker.run('bank', [('add', 1, 5)]); worker.submit('bank', [('add', 0, 1)]); worker.enter()")
    two = holder(path, 1, "worker.submit('bank', [('add', 0, 1)])")
    inside, first = ("bank", "0", "0,5", "no", "1"), ("held", "bank", "2", "-")
    waits = "1", str(two.pid), "climb", "bank", "1", "0"
    shows("one is inside, one waits for it", path, [inside, shop], [("0", str(one.pid), *first), waits, free[2]])
    killed(one)
    left = f"worker 0 is dead inside lock bank, and keeps 1 waiting: rme-hold --file {path} --worker 0 bank -- true"
    shows("its process is dead", path, [inside, shop], [("0", "dead", *first), waits, free[2]], [left])
    killed(two)
    locks = [("bank", "nobody", "1,5", "yes", "2"), shop]
    with rme.Worker(path, 0) as worker:
        worker.commit()
        rows = [("0", str(os.getpid()), "ready", "-", "2", "-"), ("1", "dead", "climb", "bank", "1", "-"), free[2]]
        shows("another finished its job", path, locks, rows)
    with rme.Worker(path, 1) as worker:
        worker.withdraw()
    after = [("0", "free", "ready", "-", "2", "-"), ("1", "free", "ready", "-", "1", "-"), free[2]]
    shows("and one gave its up", path, locks, after)
    new = os.path.join(folder, "new")
    rme.renew(path, new)
    shows("a file that was renewed", path, locks, after, moved=True)
    shows("and the new one", new, [("bank", "nobody", "1,5", "yes", "1"), shop], [after[0], *free[1:]])


def try_waiting(folder):
    """Four workers: 2 is inside, and 0 and 1 wait below the root, 1 for 0; then all of them die."""
    rme, path = shared(), os.path.join(folder, "words")
    rme.create(path, ["bank"], workers=4, cells=1)
    enter = "worker.submit('bank', [('add', 0, 1)])\ntry:\n    worker.enter(0.1)\nexcept Blocked:\n    pass"
    held = [holder(path, worker, enter) for worker in (2, 0, 1)]
    told = workers_of(json.loads(look(path, "--json").stdout))
    same("which worker waits for which", [row[5] for row in told], ["2", "0", "-", "-"])
    for process in held:
        killed(process)
    left = [
        f"worker 0 is dead before lock bank with 1 of 2 levels, and keeps 1 waiting: {holding(path, 0)}",
        f"worker 2 is dead inside lock bank, and keeps 0 waiting: {holding(path, 2)}",
    ]
    same("what is left to finish", look(path).stdout.decode().splitlines()[-2:], left)
    same("it is the same as JSON", [row[5] for row in workers_of(json.loads(look(path, "--json").stdout))], ["2", "0", "-", "-"])


def holding(path, worker):
    return f"rme-hold --file {path} --worker {worker} bank -- true"


def try_pages(folder):
    """An invalid first page, by its reason; and one of an earlier start of the machine."""
    rme, path, other = shared(), os.path.join(folder, "words"), os.path.join(folder, "other")
    rme.create(path, ["bank"], workers=WORKERS, cells=CELLS)
    held = read(path)
    for why, changed in {
        "it is shorter than its first page": held[: PAGE - 1],
        "its byte order is that of another machine": held[:16] + held[23:15:-1] + held[24:],
        "its version is neither 1 nor 2": held[:8] + b"\x03" + held[9:],
        "its shape is outside the limits": held[:64] + bytes(8) + held[72:],
        "its size is not that of its shape": held[:-8],
        "its locks do not have names": held[:112] + b"B" + held[113:],
        "its first page has more than there is to say": held[: PAGE - 1] + b"x" + held[PAGE:],
        "its renewal was not finished, which the next rme_renew does, or its mark of a renewal is none": held[:104] + b"\x02" + held[105:],
    }.items():
        text = f"fault: bad words\n  {other}: {why}\n".encode()
        same(f"refused: {why}", ends_with(look(written(other, changed))), (2, b"", text))
        same(f"and by --check: {why}", ends_with(look(other, "--check")), (1, f"no: {why}\n".encode(), b""))
    more = "its first page has more than there is to say"
    for name, changed in {
        "a life in a page of version 1": held[:8] + b"\x01" + held[9:LIVES] + b"\x01" + held[LIVES + 1 :],
        "a life of no worker": held[: LIVES + 8 * WORKERS] + b"\x01" + held[LIVES + 8 * WORKERS + 1 :],
    }.items():
        same(f"refused: {name}", ends_with(look(written(other, changed), "--check")), (1, f"no: {more}\n".encode(), b""))
    for kind in (b"NU", b"OM"):  # the marks that a renewal leaves that was killed
        text = f"fault: bad words\n  {other}: its renewal was not finished, which the next rme_renew does, or its mark of a renewal is none\n".encode()
        told = look(written(other, held[:104] + b"\x07" + bytes(5) + kind + held[112:]))
        same(f"refused: a mark {kind!r}", ends_with(told), (2, b"", text))
    old = held[:24] + b"00000000-0000-0000-0000-000000000000" + held[60:]
    told = look(written(other, old)).stdout.splitlines()[:1]
    same("an earlier start of the machine", told, [b"old boot: the machine was started again since"])
    same("no such file of words, and no state", ends_with(look(written(other, b"rmeword\n")))[0], 2)


def first_version():
    """The bytes of a file of version 1, which has no lives, of two workers and a lock `bank` of one cell: 31 words a worker,
    and 6."""
    numbers = struct.pack("=2Q", 1, 0x0102030405060708), struct.pack("=6Q", 2, 1, 1, 10, 68, 0)
    page = b"rmewords" + numbers[0] + read("/proc/sys/kernel/random/boot_id")[:36] + bytes(4) + numbers[1] + b"bank"
    return page + bytes(PAGE + 8 * 68 - len(page))


def try_versions(folder):
    """A file of version 1, and one of version 2 whose workers have lives: the same jobs look the same."""
    rme, first, second = shared(), written(os.path.join(folder, "first"), first_version()), os.path.join(folder, "second")
    rme.create(second, ["bank"], workers=2, jobs=10)
    free = ("0", "free", "ready", "-", "0", "-"), ("1", "free", "ready", "-", "0", "-")
    for path, life in ((first, 0), (second, 1)):
        shows("a file without jobs", path, [("bank", "nobody", "0", "yes", "0")], free)
        with rme.Worker(path, 1) as worker:
            same("its life", worker.life, life)
            worker.run("bank", [("add", 0, 5)])
        shows("with one", path, [("bank", "nobody", "5", "yes", "1")], [free[0], ("1", "free", "ready", "-", "1", "-")])
        same("its version", read(path)[8], life + 1)


def try_damage(folder):
    """Words that no world has are named, one by one, and what the others say is printed still."""
    rme, path, other = shared(), os.path.join(folder, "words"), os.path.join(folder, "other")
    rme.create(path, ["bank"], workers=WORKERS, cells=CELLS, jobs=10)
    with rme.Worker(path, 1) as worker:
        worker.run("bank", [("add", 0, 1)])
    held, lock = read(path), WORDS_OF_A_WORKER * WORKERS
    own = WORDS_OF_A_WORKER
    for word, value, named in (
        (own, 11, "the word begun of worker 1"),
        (own + 1, 3, "the word done of worker 1"),
        (own + 4, 1, "the receipt of worker 1"),
        (lock + LEAVES - 1, 2**40, "the word turn of lock bank"),
        (lock + LEAVES - 1, 3, "the word turn of lock bank"),
        (lock, 3, "node 1 of lock bank"),
    ):
        at = PAGE + 8 * word
        changed = held[:at] + value.to_bytes(8, "little") + held[at + 8 :]
        ended = ends_with(look(written(other, changed), "--check"))
        check(f"{named}: {value}", ended[0] == 1 and ended[1].startswith(b"no: ") and named.encode() in ended[1], ended)
        same(f"and it is told of: {named}", look(other).returncode, 0)
    cell = PAGE + 8 * (lock + LEAVES)
    same("a cell may be anything", look(written(other, held[:cell] + b"\xff" * 8 + held[cell + 8 :]), "--check").stdout, b"yes\n")


def try_beside(folder):
    """Beside processes that work, a look ends well; and if they are dead, it says what the C library looks up."""
    rme, path = shared(), os.path.join(folder, "words")
    rme.create(path, ["bank", "shop"], workers=WORKERS, cells=CELLS, jobs=1_000_000)
    busy = "[worker.run(('bank', 'shop')[n % 2], [('add', n % 2, 1)]) for n in range(1_000_000)]"
    words = [sys.executable, "-c", HOLDER, path]
    processes = [subprocess.Popen([*words, str(number), busy], stdout=subprocess.DEVNULL) for number in range(WORKERS)]
    wrong, numbers, looks = [], random.Random(SEED), 0
    latest = time.monotonic() + 4
    while time.monotonic() < latest:
        ended = ends_with(look(path, *(["--json"] if numbers.random() < 0.5 else [])))
        wrong += [ended] * (ended[0] != 0 or ended[2] != b"")
        looks += 1
    for process in processes:
        process.kill()
        process.wait()
    check(f"{looks} looks beside processes that work", not wrong and looks > 20, wrong[:2])
    told, looked = json.loads(look(path, "--json").stdout), rme.look(path)
    found = [(lock["name"], lock["owner"], lock["cells"], lock["settled"]) for lock in told["locks"]]
    same("the locks", found, [(it.name, it.owner, it.cells, it.settled) for it in looked.locks])
    same("the words are sound", ends_with(look(path, "--check")), (0, b"yes\n", b""))
    same("nobody lives", [worker["living"] for worker in told["workers"]], [False] * WORKERS)
    sections = {lock["name"]: lock["sections"] for lock in told["locks"]}
    settled = {lock["name"]: sum(lock["cells"]) for lock in told["locks"] if lock["settled"]}
    same("cells and sections agree", settled, {name: sections[name] for name in settled})


def part():
    if not has(compiler()):
        skip("the look", f"there is no C compiler {compiler()}, which makes the library")
        main()
    main_in_folders(try_stances, try_waiting, try_pages, try_versions, try_damage, try_beside, minutes=3)
