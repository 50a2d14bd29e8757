"""The C library of c/, its test programs, and runs of them."""

import functools
import os
import re
import shutil
import subprocess
import sys

from lib.checks import check, note, skip
from lib.programs import SCRIPTS, TOP

C = os.path.join(TOP, "c")
TESTS = os.path.join(C, "tests")
WARNINGS = ("-Wall", "-Wextra", "-Wpedantic", "-Werror")
SANITIZERS = ("-fsanitize=address,undefined", "-fno-sanitize-recover=all", "-fno-omit-frame-pointer")
# The functions that tests wrap: a kill before an own step, a function just before a claim, a read, and a kill before each
# call by which a renewal hands a file over.
STEPS = ("-Wl,--wrap=rme_core_next", "-Wl,--wrap=rme_core_after")
WRAPS = {
    "calls": ("-Wl,--wrap=fcntl", "-Wl,--wrap=read"),
    "damage": STEPS,
    "handover": ("-Wl,--wrap=link", "-Wl,--wrap=unlink", "-Wl,--wrap=rme_file_put_moved"),
    "points": STEPS,
}
PARTS = ("rme", "looks", "renew", "holder", "file", "errors")
SECONDS = 300


def compiler():
    return os.environ.get("CC", "cc")


def libraries():
    """The folder of librme.a and librme.so, which are built first if something that they are made of is newer."""
    folder = os.path.join(C, "out")
    made = os.path.join(folder, "librme.so")
    sources = [os.path.join(C, name) for name in os.listdir(C) if name.endswith((".c", ".h", ".map"))]
    newest = max(os.stat(path).st_mtime for path in [*sources, core_libraries()[0]])
    if not os.path.exists(made) or os.stat(made).st_mtime < newest:
        build(folder)
    return folder


def build(folder, *flags):
    subprocess.run([os.path.join(SCRIPTS, "build-c"), folder, *flags], check=True, stdin=subprocess.DEVNULL)


@functools.lru_cache(maxsize=None)
def core_libraries():
    """The archives with which the objects of c/ are linked."""
    words = [os.path.join(SCRIPTS, "build-c"), "--libraries"]
    return subprocess.run(words, check=True, stdout=subprocess.PIPE, text=True).stdout.split()


def program(name, folder, *flags):
    """A test program, made in a folder of objects of c/, of these objects and of the proved library."""
    made, objects = os.path.join(folder, f"test-{name}"), folder
    parts = [os.path.join(objects, f"{part}.o") for part in PARTS]
    words = [compiler(), "-std=c11", "-O2", "-g", "-pthread", *WARNINGS, *flags, *WRAPS.get(name, ()), "-o", made]
    subprocess.run([*words, os.path.join(TESTS, f"{name}.c"), *parts, *core_libraries()], check=True)
    return made


def sanitized():
    """A folder with the objects of c/, built with sanitizers, and the flags for what is linked with them; or the plain
    objects if sanitizers are not there."""
    folder = os.path.join(C, "out", "sanitized")
    os.makedirs(folder, exist_ok=True)
    if not has_sanitizers(folder):
        return libraries(), ()
    build(folder, *SANITIZERS)
    return folder, SANITIZERS


def has_sanitizers(folder):
    """Whether a program can be built and run with them."""
    source, made = os.path.join(folder, "sanitized.c"), os.path.join(folder, "sanitized")
    with open(source, "w", encoding="utf-8") as file:
        file.write("int main(void) { return 0; }\n")
    ran = subprocess.run([compiler(), *SANITIZERS, "-o", made, source], capture_output=True)
    if ran.returncode == 0 and subprocess.run([made], capture_output=True).returncode == 0:
        return True
    skip("sanitizers", "the C compiler does not have them")
    return False


def run(name, *words):
    """Runs a test program, whose checks count as one check here, and prints its output, which it also returns."""
    ran = subprocess.run([*map(str, words)], stdin=subprocess.DEVNULL, capture_output=True, text=True, timeout=SECONDS)
    lines = ran.stdout.splitlines()
    for line in lines[:-1]:
        if not line.startswith("ok"):
            note(line)
    told = lines[-1] if lines else "nothing"
    check(f"{name}: {told}", ran.returncode == 0 and told.endswith(" 0 failed"), ran.stdout[-3000:] + ran.stderr[-3000:])
    return ran.stdout


def names_of(path, pattern):
    with open(path, encoding="utf-8") as file:
        return set(re.findall(pattern, file.read(), re.M))


def shared_memory():
    """A folder in memory if there is one, for files whose words are touched often."""
    return "/dev/shm" if os.access("/dev/shm", os.W_OK) else None


def has(program_name):
    return shutil.which(program_name) is not None


def shared():
    """The package of clients/processes, with the library that was built."""
    os.environ["RME_LIBRARY"] = os.path.join(libraries(), "librme.so")
    folder = os.path.join(TOP, "clients", "processes")
    os.environ["PYTHONPATH"] = folder
    if folder not in sys.path:
        sys.path.insert(0, folder)
    import rme_shared

    return rme_shared
