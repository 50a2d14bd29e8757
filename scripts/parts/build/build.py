"""build: what `./rme` and scripts/build build, and when, in a small tree of crates, with an `rt` that proves nothing.

A program is built again if a source, a line of crates.txt that it is made of, or the toolchain is another one than when
it was built; and it is left where only times changed, or something that it is not made of. Nothing is built that is
there."""

import contextlib
import os
import shutil
import signal
import subprocess
import sys
import time

from lib.checks import check, main_in_folders, same
from lib.programs import SCRIPTS, TOP

# What stands in for the toolchain. It writes down what it is asked for, and makes what the toolchain would.
RT = """\
#!{python}
import os, sys, time

def write(path, text):
    os.makedirs(os.path.dirname(path), exist_ok=True)
    with open(path, "w") as file:
        file.write(text)

verb, crate = sys.argv[1], os.path.basename(os.getcwd())
if verb == "version":
    sys.exit(print({version!r}))
if verb == "doc":
    sys.exit(print("/kit/page.md"))
with open(os.environ["RT_LOG"], "a") as log:
    print(verb, crate, file=log)
with open(os.environ["RT_LOG"] + ".nice", "a") as log:
    print(crate, os.nice(0), file=log)
if os.environ.get("RT_WAITS") == crate:
    write(os.environ["RT_LOG"] + ".waits", str(os.getpid()))
    time.sleep(60)
if os.environ.get("RT_FAILS") == crate:
    sys.exit("".join(f"goal {{number}}\\n" for number in range(100)) + "no proof")
if os.environ.get("RT_EDITS") == crate:
    write(os.path.join(os.environ["RT_TREE"], "crates/low/src/lib.rt"), "edited meanwhile\\n")
write("out/rlib/stamp", crate)
if crate == "rme_process_abi":
    write("out/librme_process_abi.a", crate)
if verb == "run":
    write("out/" + crate, "#!/bin/sh\\necho " + crate + '"$*"' + "\\n")
    os.chmod("out/" + crate, 0o755)
"""
CRATES = "# Lowest first.\nlow:\nother: low\nmid: low\nrme_cli_run: low\nrme_cli_state: other\nrme_cli: mid low\nrme_process_abi staticlib: low\n"
ALL = ["lib low", "lib mid", "run rme_cli"]


class Tree:
    """A small repository with the scripts of this one."""

    def __init__(self, folder):
        self.top = os.path.join(folder, "a tree")
        self.bin = os.path.join(folder, "bin")
        self.log = os.path.join(folder, "log")
        os.mkdir(self.top)
        for name in ("rme", "HANDLES"):
            shutil.copy2(os.path.join(TOP, name), self.top)
        skipped = shutil.ignore_patterns("__pycache__", "try-*", "parts")
        shutil.copytree(SCRIPTS, os.path.join(self.top, "scripts"), ignore=skipped)
        self.write("crates.txt", CRATES)
        for crate in ("low", "other", "mid", "rme_cli_run", "rme_cli_state", "rme_cli", "rme_process_abi"):
            self.write(f"crates/{crate}/src/lib.rt", f"{crate}\n")
            self.write(f"crates/{crate}/README.md", "\n")
        self.put_rt("kit one")

    def path(self, name):
        return os.path.join(self.top, name)

    def read(self, name):
        with open(self.path(name), encoding="utf-8") as file:
            return file.read()

    def write(self, name, text):
        os.makedirs(os.path.dirname(self.path(name)), exist_ok=True)
        with open(self.path(name), "w", encoding="utf-8") as file:
            file.write(text)

    def put_rt(self, version):
        os.makedirs(self.bin, exist_ok=True)
        with open(os.path.join(self.bin, "rt"), "w", encoding="utf-8") as file:
            file.write(RT.format(python=sys.executable, version=version))
        os.chmod(file.name, 0o755)

    def environment(self, **more):
        path = f"{self.bin}:{os.path.dirname(sys.executable)}:{os.environ['PATH']}"
        return {**os.environ, "PATH": path, "RT_LOG": self.log, "RT_TREE": self.top, **more}

    def run(self, *words, program="rme", **environment):
        """Runs `./rme`, or another program of the tree, and answers how it ended and what `rt` was asked for."""
        open(self.log, "w", encoding="utf-8").close()
        environment = self.environment(**environment)
        ran = subprocess.run([self.path(program), *words], env=environment, capture_output=True, text=True, timeout=60)
        with open(self.log, encoding="utf-8") as file:
            return ran, file.read().splitlines()

    def builds(self, name, wanted, *words, **environment):
        """A check of what is built, and that the program then runs."""
        ran, asked = self.run(*words, **environment)
        same(name, (asked, ran.returncode, ran.stdout), (wanted, 0, f"rme_cli{''.join(words)}\n"))

    def sources(self):
        for at, folders, files in os.walk(self.path("crates")):
            folders[:] = [it for it in folders if it != "out"]
            yield from (os.path.join(at, it) for it in files)


def built_tree(folder):
    tree = Tree(folder)
    tree.run()
    return tree


def hours_from_now(path, hours):
    at = time.time() + 3600 * hours
    os.utime(path, (at, at))


def try_first(folder):
    tree = Tree(folder)
    ran, asked = tree.run("--version")
    same("all that the program stands on is built, once", (asked, ran.stdout), (ALL, "rme_cli--version\n"))
    check("it says how far it is", ran.stderr.startswith("rme: proving and building rme_cli: 3 crates"), ran.stderr)
    ran, asked = tree.run("--version")
    same("then nothing is", (asked, ran.stdout, ran.stderr), ([], "rme_cli--version\n", ""))


def try_times(folder):
    """Times that change and nothing else, as a checkout changes them."""
    tree = built_tree(folder)
    for hours, name in ((0, "all sources are touched"), (1, "their times lie ahead"), (-9999, "they lie far back")):
        for path in (*tree.sources(), tree.path("crates.txt"), tree.path("HANDLES")):
            hours_from_now(path, hours)
        tree.builds(name, [])
    text = tree.read("crates/low/src/lib.rt")
    os.remove(tree.path("crates/low/src/lib.rt"))
    tree.write("crates/low/src/lib.rt", text)
    tree.builds("a source was written anew, alike", [])


def try_unrelated(folder):
    tree = built_tree(folder)
    tree.write("crates.txt", CRATES + "my_counter: rme_cli\n")
    tree.builds("a further crate in crates.txt", [])
    tree.write("crates.txt", "# Another remark.\n\n" + CRATES.replace("other: low", "other:   low mid") + "# The end.\n")
    tree.builds("remarks, and another crate's line", [])
    tree.write("crates/other/src/lib.rt", "edited\n")
    tree.write("crates/my_counter/src/main.rt", "new\n")
    tree.builds("sources of crates that it does not stand on", [])
    tree.write("crates/low/README.md", "edited\n")
    tree.write("crates/low/must-fail/wrong.edit", "file: src/lib.rt\n")
    tree.write("crates/rme_cli/stdin", "{}\n")
    tree.builds("what no program is made of", [])


def try_edits(folder):
    tree = built_tree(folder)
    tree.write("crates/low/src/lib.rt", "wol\n")
    hours_from_now(tree.path("crates/low/src/lib.rt"), -9999)
    tree.builds("an edit that has an old time", ALL)
    tree.builds("and then nothing", [])
    before = os.stat(tree.path("crates/mid/src/lib.rt"))
    tree.write("crates/mid/src/lib.rt", "dim\n")
    os.utime(tree.path("crates/mid/src/lib.rt"), ns=(before.st_atime_ns, before.st_mtime_ns))
    tree.builds("an edit with the size and the time that were", ["lib mid", "run rme_cli"])
    tree.write("crates/mid/src/lib.rt", "mid\n")
    tree.builds("an edit that is taken back", ["lib mid", "run rme_cli"])
    tree.write("crates/mid/specs/Lib.antt", "\n")
    tree.builds("a source more", ["lib mid", "run rme_cli"])
    os.remove(tree.path("crates/mid/specs/Lib.antt"))
    tree.builds("a source less", ["lib mid", "run rme_cli"])
    tree.write("crates.txt", CRATES.replace("mid: low", "mid may_wait=1: low"))
    tree.builds("another line of crates.txt", ["lib mid", "run rme_cli"])


def try_little_is_built(folder):
    """Of what a program stands on only what was edited is built, whatever times the rest has."""
    tree = built_tree(folder)
    for path in tree.sources():
        hours_from_now(path, 1)
    tree.write("crates/mid/src/lib.rt", "edited\n")
    tree.builds("an edit where all times changed", ["lib mid", "run rme_cli"])
    # As `rt check` does of a crate above.
    tree.write("crates/low/src/lib.rt", "edited\n")
    tree.write("crates/low/out/rlib/stamp", "of the edited source")
    tree.write("crates/low/src/lib.rt", "low\n")
    hours_from_now(tree.path("crates/low/out/rlib/stamp"), -1)
    tree.write("crates/rme_cli/src/lib.rt", "edited\n")
    tree.builds("a library that another build made", ALL)


def try_toolchain(folder):
    tree = built_tree(folder)
    hours_from_now(os.path.join(tree.bin, "rt"), 1)
    tree.builds("the toolchain is touched", [])
    os.remove(os.path.join(tree.bin, "rt"))
    tree.builds("there is no toolchain", [], PATH=os.path.dirname(sys.executable) + ":/usr/bin:/bin")
    tree.put_rt("kit two")
    tree.builds("another toolchain", ALL)


def try_without_stamp(folder):
    """A program that `rt ci` built, and one that is older than its sources."""
    tree, program = built_tree(folder), "crates/rme_cli/out/rme_cli"

    def rebuilt(hours):
        tree.write(program, tree.read(program))
        hours_from_now(tree.path(program), hours)

    with contextlib.suppress(FileNotFoundError):
        os.remove(tree.path(f"{program}.made-of"))
    rebuilt(1)
    tree.builds("one that is newer than its sources", [])
    hours_from_now(tree.path("crates/low/src/lib.rt"), 2)
    tree.builds("it has its stamp then", [])
    tree.write("crates/low/src/lib.rt", "edited\n")
    rebuilt(1)
    tree.builds("one that took the place of another", [])
    tree.write("crates/low/src/lib.rt", "edited again\n")
    rebuilt(-1)
    tree.builds("one that is older than its sources", ["lib low", "lib mid", "run rme_cli"])
    tree.write(f"{program}.made-of", "[no stamp")
    tree.builds("a broken stamp", [])


def try_failures(folder):
    tree = Tree(folder)
    ran, asked = tree.run(RT_FAILS="mid")
    same("a crate that fails", (ran.returncode, ran.stdout, asked), (1, "", ["lib low", "lib mid"]))
    check("it is said which", "no proof" in ran.stderr and "rme_cli was not built: mid failed" in ran.stderr, ran.stderr)
    check("and the end of its log", "goal 99\n" in ran.stderr and "goal 9\n" not in ran.stderr, ran.stderr)
    check("and where all of it is", "goal 9\n" in tree.read("crates/mid/out/failed.log"))
    tree.builds("what was built before it is kept", ["lib mid", "run rme_cli"])
    tree.write("crates/mid/src/lib.rt", "edited\n")
    ran, asked = tree.run(RT_FAILS="rme_cli")
    same("a program that fails", (ran.returncode, asked), (1, ["lib mid", "run rme_cli"]))
    tree.builds("it is built at the next call", ["run rme_cli"])
    tree.write("crates/mid/src/lib.rt", "edited again\n")
    tree.builds("a source that is edited during the build", ["lib mid", "run rme_cli"], RT_EDITS="mid")
    tree.builds("counts at the next call", ALL)


def is_alive(number):
    try:
        with open(f"/proc/{number}/stat", encoding="utf-8") as file:
            return file.read().rpartition(")")[2].split()[0] != "Z"
    except OSError:
        return False


def try_order(folder):
    """The crates that decide when all is done come first, and others take what they leave."""
    tree = Tree(folder)
    tree.write("crates.txt", CRATES.replace("rme_cli: mid low", "rme_cli: mid other low"))
    tree.write("crates/other/src/lib.rt", "\n" * 6000)
    tree.run("--version")
    with open(f"{tree.log}.nice", encoding="utf-8") as file:
        nice = {crate: int(it) for crate, it in map(str.split, file)}
    least = os.nice(0)
    leads = {crate: it == least for crate, it in nice.items()}
    same("which crates lead", leads, {"low": True, "other": True, "mid": False, "rme_cli": True})


def try_signals(folder):
    """A run that is ended ends what it started, and what was built stays."""
    tree = Tree(folder)
    held = {"cwd": tree.top, "start_new_session": True, "stdout": subprocess.DEVNULL, "stderr": subprocess.DEVNULL}
    for name in (signal.SIGINT, signal.SIGTERM):
        with subprocess.Popen([tree.path("rme")], env=tree.environment(RT_WAITS="mid"), **held) as ran:
            started, ends = f"{tree.log}.waits", time.monotonic() + 30
            while not os.path.exists(started) and time.monotonic() < ends:
                time.sleep(0.05)
            time.sleep(0.2)
            with open(started, encoding="utf-8") as file:
                number = file.read()
            os.killpg(ran.pid, name)
        os.remove(started)
        ends = time.monotonic() + 10
        while is_alive(number) and time.monotonic() < ends:
            time.sleep(0.05)
        check(f"{name.name} ends what it started", not is_alive(number))
    tree.builds("and what was built stays", ["lib mid", "run rme_cli"])


def try_smaller(folder):
    """Until the program was built once, lines are run by a smaller one, and so is a durable server."""
    tree = Tree(folder)
    ran, asked = tree.run("run")
    same("run, by the smaller program", (ran.stdout, asked), ("rme_cli_runrun\n", ["lib low", "run rme_cli_run"]))
    ran, asked = tree.run("run", "--transcript")
    same("and again", (ran.stdout, asked), ("rme_cli_runrun --transcript\n", []))
    ran, asked = tree.run("serve", "--state", "x")
    same("a durable server, by another", (ran.stdout, asked), ("rme_cli_stateserve --state x\n", ["lib other", "run rme_cli_state"]))
    tree.builds("any other command", ["lib mid", "run rme_cli"], "look")
    tree.builds("then all are of the whole program", [], "run")
    ran, asked = tree.run("no_crate", program="scripts/build")
    same("a crate that is not there", (ran.returncode, ran.stderr), (1, "rme: crates.txt names no crate no_crate\n"))


def try_library(folder):
    """The proved library that scripts/build-c links."""
    tree = Tree(folder)
    archive = tree.path("crates/rme_process_abi/out/librme_process_abi.a")

    def links(name, wanted):
        ran, asked = tree.run("--libraries", program="scripts/build-c")
        same(name, (asked, ran.returncode, ran.stdout), (wanted, 0, f"{archive} /kit/c/liblibc_c.a\n"))

    links("it is built", ["lib rme_process_abi"])
    for path in (*tree.sources(), tree.path("crates.txt")):
        hours_from_now(path, 1)
    tree.write("crates.txt", CRATES + "my_counter: rme_cli\n")
    tree.write("crates/other/src/lib.rt", "edited\n")
    links("and is left where it is made of the same", [])
    tree.write("crates/low/src/lib.rt", "wol\n")
    hours_from_now(tree.path("crates/low/src/lib.rt"), -9999)
    links("and is built again for an edit that has an old time", ["lib rme_process_abi"])
    links("once", [])
    tree.write("crates/low/src/lib.rt", "edited\n")
    ran, _ = tree.run("--libraries", program="scripts/build-c", RT_FAILS="rme_process_abi")
    told = ran.returncode, "no proof" in ran.stderr, "goal 9\n" in ran.stderr
    same("one that fails, and the end of its log", told, (1, True, False))


def part():
    main_in_folders(
        try_first,
        try_times,
        try_unrelated,
        try_edits,
        try_little_is_built,
        try_toolchain,
        try_without_stamp,
        try_failures,
        try_order,
        try_signals,
        try_smaller,
        try_library,
        minutes=5,
    )
