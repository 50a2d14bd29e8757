"""library [SEED | soak MINUTES [SEED]]: processes over one mapped file, by the C library of c/.

The library is built without a warning by each compiler that is there, and again with sanitizers. Each call with each of
its refusals and its answers; files whose first page, size or words are damaged; a kill before each own step of a job and
of its recovery, and before each call by which a renewal hands a file over; the lives of workers, also of killed ones, and
a program that is older than lives; storms, in which processes are killed at random moments, and each job counts once.
`soak` makes storms for this number of minutes, and says how many kills there were.
"""

import ctypes
import os
import random
import re
import subprocess
import sys
import tempfile
import time

from lib.checks import check, main, main_in_folders, note, same, skip
from lib.processes import C, WARNINGS, compiler, has, libraries, names_of, program, run, sanitized, shared_memory

WORDS = sys.argv[1:]
SOAK = WORDS[:1] == ["soak"]
SEED = int(WORDS[-1]) if len(WORDS) > 2 * SOAK else random.randrange(10**6)
# Workers, jobs of each, and kills.
STORMS = ((2, 20000, 150), (8, 4000, 250), (64, 600, 300))


def storm(made, folder, workers, jobs, kills, seed):
    path = os.path.join(folder, f"storm-{workers}-{seed}")
    told = run(f"a storm of {workers} processes, seed {seed}", made, path, workers, jobs, kills, seed)
    if os.path.exists(path):
        os.remove(path)
    found = re.search(r"(\d+) kills, (\d+) re-entries", told)
    return (int(found[1]), int(found[2])) if found else (0, 0)


def try_names(folder):
    """The library has the names of rme.h and no others, and a C++ compiler takes them."""
    declared = names_of(os.path.join(C, "rme.h"), r"^(?:int|const char \*)\s*(rme_\w+)\(")
    mapped = names_of(os.path.join(C, "rme.map"), r"\b(rme_\w+);")
    same("rme.map has the calls of rme.h", mapped, declared)
    words = ["nm", "-D", "--defined-only", os.path.join(libraries(), "librme.so")]
    lines = subprocess.run(words, check=True, stdout=subprocess.PIPE, text=True).stdout.splitlines()
    same("librme.so has them", {line.split()[2].split("@")[0] for line in lines} - {"RME_1", "RME_2", "RME_3"}, declared)
    words[1:] = ["-g", "--defined-only", os.path.join(libraries(), "librme.a")]
    lines = subprocess.run(words, check=True, stdout=subprocess.PIPE, text=True).stdout.splitlines()
    same("librme.a has them", {line.split()[2] for line in lines if len(line.split()) == 3}, declared)
    errors = set(re.findall(r"^    (RME_\w+) = \d+", open(os.path.join(C, "rme.h"), encoding="utf-8").read(), re.M))
    same("each error has its sentence", names_of(os.path.join(C, "errors.c"), r"\[(RME_\w+)\] ="), errors)
    for name in ("gcc", "clang", "g++"):
        if not has(name):
            skip(name, "it is not there")
        elif name == "g++":
            words = [name, "-x", "c++", "-fsyntax-only", *WARNINGS, os.path.join(C, "rme.h")]
            check("g++ takes rme.h", subprocess.run(words).returncode == 0)
        else:
            sources = [os.path.join(C, source) for source in sorted(os.listdir(C)) if source.endswith(".c")]
            words = [name, "-std=c11", "-fsyntax-only", *WARNINGS, "-Wconversion", "-Wshadow", *sources]
            check(f"{name} has no warning", subprocess.run(words).returncode == 0)


def try_example(folder):
    made, path = os.path.join(libraries(), "example"), os.path.join(folder, "bank")
    words = [compiler(), "-std=c11", "-I", C, "-o", made, os.path.join(C, "example.c")]
    subprocess.run([*words, os.path.join(libraries(), "librme.a")], check=True)
    for worker, number, place in ((3, 1, 0), (0, 1, 1), (3, 2, 2)):
        told = subprocess.run([made, path, str(worker)], stdout=subprocess.PIPE, text=True).stdout
        wanted = f"inside\njob {number} counted as section {place}, reply {5 * place + 5}\n"
        same(f"example.c with worker {worker}", told, wanted)


def try_calls(folder):
    run("each call", program("calls", libraries()), folder)


def try_older(folder):
    """A program that was linked before a stance had a life: what it calls writes the 16 bytes that it has room for."""
    library, path = ctypes.CDLL(os.path.join(libraries(), "librme.so")), os.path.join(folder, "older").encode()
    find = ctypes.CDLL(None).dlvsym
    find.restype, find.argtypes = ctypes.c_void_p, [ctypes.c_void_p, ctypes.c_char_p, ctypes.c_char_p]
    handle = ctypes.c_void_p()
    same("a file", library.rme_create(path, 1, 1, 1, 10, (ctypes.c_char_p * 1)(b"a")), 0)
    same("a worker", library.rme_attach(path, 0, ctypes.byref(handle)), 0)
    for name in ("rme_recover", "rme_standing"):
        found = {version: find(library._handle, name.encode(), version) for version in (b"RME_1", b"RME_3")}
        check(f"{name} has both versions", all(found.values()) and len(set(found.values())) == 2, found)
        stance = (ctypes.c_uint64 * 3)(9, 9, 9)
        call = ctypes.CFUNCTYPE(ctypes.c_int, ctypes.c_void_p, ctypes.c_void_p)(found[b"RME_1"])
        same(f"the first version of {name}", (call(handle, stance), list(stance)), (0, [0, 0, 9]))
    stance = (ctypes.c_uint64 * 3)(9, 9, 9)
    same("the one of today", (library.rme_standing(handle, stance), list(stance)), (0, [0, 0, 1]))
    same("its end", library.rme_detach(handle), 0)


def try_lives(folder):
    run("lives", program("lives", libraries()), folder)


def try_points(folder):
    made = program("points", libraries())
    for workers, stride in ((2, 1), (200, 5)):
        run(f"a kill before each own step, {workers} workers", made, folder, workers, stride)


def try_handover(folder):
    run("renewals that are killed", program("handover", libraries()), folder)


def try_storms(folder):
    """A storm of each size, and further ones until there were enough kills: a fast machine has made all jobs of a storm
    before all of its kills."""
    made = program("storm", libraries())
    kills, re_entries, storms = 0, 0, 0
    while storms < len(STORMS) or (kills < 300 and storms < 10 * len(STORMS)):
        found = storm(made, folder, *STORMS[storms % len(STORMS)], SEED + storms)
        kills, re_entries, storms = kills + found[0], re_entries + found[1], storms + 1
    note(f"{storms} storms, {kills} kills, {re_entries} of them inside; seed {SEED}")
    check("there were hundreds of kills", kills >= 300, kills)


def try_sanitized(folder):
    """The same with the sanitizers, and what is damaged."""
    at, flags = sanitized()
    run("each call, sanitized", program("calls", at, *flags), folder)
    run("what is damaged, sanitized", program("damage", at, *flags), folder)
    run("renewals that are killed, sanitized", program("handover", at, *flags), folder)
    run("lives, sanitized", program("lives", at, *flags), folder)
    storm(program("storm", at, *flags), folder, 8, 400, 40, SEED)


def soak(minutes):
    """Storms, for this number of minutes."""
    end, seed, storms, kills, re_entries = time.time() + 60 * minutes, SEED, 0, 0, 0
    with tempfile.TemporaryDirectory() as folder:
        made = program("storm", libraries())
        while time.time() < end:
            workers, jobs, most = STORMS[storms % len(STORMS)]
            found = storm(made, folder, workers, 4 * jobs, 4 * most, seed)
            kills, re_entries = kills + found[0], re_entries + found[1]
            storms, seed = storms + 1, seed + 1
    print(f"{storms} storms, {kills} kills, {re_entries} of them inside; next seed {seed}")


def part():
    if shared_memory():
        tempfile.tempdir = shared_memory()
    if not has(compiler()):
        skip("the C library", f"there is no C compiler {compiler()}")
        main()
    elif SOAK:
        soak(float(WORDS[1]))
    else:
        groups = try_names, try_example, try_calls, try_older, try_lives, try_points, try_handover, try_storms, try_sanitized
        libraries()  # What is not proved and built yet takes none of the minutes.
        main_in_folders(*groups, minutes=4)
