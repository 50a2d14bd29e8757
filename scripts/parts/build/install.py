"""install: the version, the manual page, the completions for bash, and scripts/install.

The program's version is that of the change log and of the Python packages, and the toolchain that it names is the one
that is here. The page has all words of the help texts, in their order. Completions are asked for as bash asks for them.
What is installed is what the manifest says, and works from there; pip installs the packages without a network; a file
that is not one of ours, or that was changed, is left; an install that fails leaves what was there; and a removal leaves
nothing else."""

import glob
import os
import re
import resource
import shutil
import subprocess
import sys

from lib.checks import check, main_in_folders, same, skip
from lib.help import helps_of, told_by
from lib.processes import compiler, libraries
from lib.programs import SCRIPTS, TOP, built

COMPILER = compiler()
PACKAGES = {"python": "rme_client", "processes": "rme_shared", "hold": "rme_hold"}
SITE = f"lib/python{sys.version_info[0]}.{sys.version_info[1]}/site-packages"
PROGRAM = ["bin/rme", "share/bash-completion/completions/rme", "share/man/man1/rme.1"]
HOLD = ["bin/rme-hold", "share/bash-completion/completions/rme-hold", "share/man/man1/rme-hold.1"]
LIBRARY = ["include/rme.h", "lib/librme.a", "lib/librme.so", "share/man/man3/rme.3"]


def script(name, *words, **how):
    how = {"stdin": subprocess.DEVNULL, "capture_output": True, "text": True, "timeout": 300, **how}
    return subprocess.run([os.path.join(SCRIPTS, name), *words], **how)


def install(*words, **how):
    ran = script("install", *words, **how)
    return ran.returncode, ran.stdout, ran.stderr


def files_in(folder):
    """The paths of all files and links below a folder."""
    return sorted(os.path.relpath(os.path.join(at, name), folder) for at, _, names in os.walk(folder) for name in names)


def state_of(folder):
    """Each file below a folder with what it holds or leads to, and each folder."""
    found = {os.path.relpath(at, folder): "folder" for at, _, _ in os.walk(folder)}
    for name in files_in(folder):
        path = os.path.join(folder, name)
        if os.path.islink(path):
            found[name] = os.readlink(path)
        else:
            with open(path, "rb") as file:
                found[name] = (os.stat(path).st_mode, file.read())
    return found


def read(path):
    with open(path, encoding="utf-8") as file:
        return file.read()


def write(path, text):
    os.makedirs(os.path.dirname(path), exist_ok=True)
    with open(path, "w", encoding="utf-8") as file:
        file.write(text)


# ---- the version


def found_in(path, pattern):
    with open(os.path.join(TOP, path), encoding="utf-8") as file:
        return re.search(pattern, file.read(), re.M)[1]


def try_version(folder):
    version = found_in("CHANGELOG.md", r"^## (\d+\.\d+\.\d+),")
    for path in ("python/pyproject.toml", "processes/pyproject.toml", "hold/pyproject.toml", "rust/Cargo.toml", "node/package.json"):
        found = found_in(f"clients/{path}", r'^ *"?version"?(?: =|:) "(.*?)"')
        same(f"the version of clients/{path}", found, version)
    for page in ("README.md", "docs/packages.md"):
        same(f"the version of the package in {page}", found_in(page, r"rme_([\d.]+)_amd64\.deb"), version)
    if not shutil.which("rt"):
        skip("what the program says", "there is no rt, to name the toolchain")
        return
    toolchain = subprocess.run(["rt", "version"], check=True, stdout=subprocess.PIPE, text=True).stdout
    same("what the program says", told_by(built(), "--version"), f"rme {version}\n{toolchain}")


# ---- the manual page and the completions


def words_of(text):
    return re.findall(r"\w+", text.replace("`", ""))


def has_in_order(words, wanted):
    """The first of the wanted words that does not stand there in turn, or None."""
    rest = iter(words)
    return next((word for word in wanted if word not in rest), None)


def try_manual(folder):
    page = script("manual")
    same("manual ends well", (page.returncode, page.stderr), (0, ""))
    if not shutil.which("groff"):
        skip("the page as it is shown", "there is no groff")
        return
    groff = ["groff", "-man", "-ww", "-Tutf8", "-P-cbou"]
    for other in ("c/rme.3", "clients/hold/rme-hold.1"):
        ran = subprocess.run([*groff, os.path.join(TOP, other)], capture_output=True, text=True)
        same(f"groff has no warning of {other}", (ran.returncode, ran.stderr), (0, ""))
    ran = subprocess.run(groff, input=page.stdout, capture_output=True, text=True)
    same("groff has no warning", (ran.returncode, ran.stderr), (0, ""))
    shown = words_of(ran.stdout)
    whole, commands = helps_of(built())
    for told in [whole, *commands]:
        wanted = words_of(" ".join(told.body))
        check(f"the text of rme {told.name}", has_in_order(shown, wanted) is None, has_in_order(shown, wanted))
        for option in told.options:
            check(f"{option.long} of rme {told.name}", option.long in ran.stdout, quiet=True)
    for heading in ("NAME", "SYNOPSIS", "DESCRIPTION", "OPTIONS", "COMMANDS", "EXIT STATUS", "REFUSALS", "SEE ALSO"):
        check(f"the heading {heading}", f"\n{heading}\n" in ran.stdout, quiet=True)


ASKS = """\
. "$1"
shift
COMP_WORDS=("$@")
COMP_CWORD=$(($# - 1))
_rme
printf '%s\\n' "${COMPREPLY[@]}"
"""


def try_completions(folder):
    path = os.path.join(folder, "rme.bash")
    write(path, script("completions").stdout)
    for name in ("one.state", "other.text"):
        write(os.path.join(folder, "files", name), "")
    write(os.path.join(folder, "files", "old", "spaces"), "")
    commands = "run check draw explain threads serve look move ask help".split()
    cases = {
        ("",): [*commands, "-h", "--help", "-V", "--version"],
        ("s",): ["serve"],
        ("--v",): ["--version"],
        ("help", ""): commands,
        ("serve", "--s"): ["--socket", "--state", "--spaces", "--sync", "--sections"],
        ("serve", "--spaces", ""): ["old"],
        ("serve", "--c"): ["--cells", "--close-after", "--connections"],
        ("serve", "--close-after", ""): [],
        ("serve", "--sync", ""): ["always", "never"],
        ("serve", "--sync", "al"): ["always"],
        ("serve", "--waiting", ""): ["keep", "withdraw"],
        ("serve", "--state", "o"): ["old", "one.state", "other.text"],
        ("serve", "--keys", "o"): ["old", "one.state", "other.text"],
        ("ask", "--key"): ["--key-file"],
        ("ask", "--sp"): ["--space"],
        ("ask", "--space", ""): [],
        ("ask", "--port", ""): [],
        ("ask", "--socket", "one"): ["one.state"],
        ("ask", "--key-file", "one"): ["one.state"],
        ("serve", "--port", ""): [],
        ("serve", "--port", "7000", "--wo"): ["--workers"],
        ("run", "--image", "one"): ["one.state"],
        ("look", "oth"): ["other.text"],
        ("look", "--c"): ["--check"],
        ("look", "--l"): ["--lines"],
        ("look", "--engine", ""): [],
        ("look", "--password-file", "one"): ["one.state"],
        ("move", "oth"): ["other.text"],
        ("move", "--p"): ["--password-file", "--patience"],
        ("serve", "--e"): ["--engine"],
        ("serve", "--t"): ["--take"],
        ("explain", "TooM"): ["TooManyJobs"],
        ("explain", "sta"): ["status"],
        ("check", ""): [],
        ("nothing", ""): [],
    }
    for words, wanted in cases.items():
        ran = subprocess.run(
            ["bash", "--norc", "-c", ASKS, "bash", path, "rme", *words],
            cwd=os.path.join(folder, "files"), capture_output=True, text=True, stdin=subprocess.DEVNULL,
        )  # fmt: skip
        told = sorted(line for line in ran.stdout.splitlines() if line)
        same(f"rme {' '.join(words)}<TAB>", (told, ran.stderr), (sorted(wanted), ""))


# ---- what is installed


def packages(*names):
    found = []
    for client, package in PACKAGES.items():
        if package in names:
            held = os.listdir(os.path.join(TOP, "clients", client, package))
            found += [f"{SITE}/{package}/{name}" for name in held if not name.startswith("__pycache__")]
    return found


def try_whole(folder):
    """All of it, used from where it is."""
    if not shutil.which(COMPILER):
        skip("all of it", f"there is no C compiler {COMPILER}")
        return
    prefix = os.path.join(folder, "with a space")
    ran = install(prefix)
    if not check("it is installed", ran[0] == 0, ran):
        return
    library = "/".join([SITE, "rme_shared", "librme.so"])
    wanted = [*PROGRAM, *LIBRARY, *HOLD, *packages(*PACKAGES.values()), library, "share/rme/manifest"]
    same("what is there", files_in(prefix), sorted(wanted))
    program = subprocess.run([os.path.join(prefix, "bin/rme"), "--version"], capture_output=True, text=True)
    check("the program", program.returncode == 0 and program.stdout.startswith("rme "), program)
    same("its mode", os.stat(os.path.join(prefix, "bin/rme")).st_mode & 0o777, 0o755)
    try_library(folder, prefix)
    try_packages(folder, prefix)
    same("it is removed", (install("--remove", prefix)[0], os.listdir(prefix)), (0, []))


def try_library(folder, prefix):
    """A program that is built over the header and each of the libraries, and run."""
    lib = os.path.join(prefix, "lib")
    ways = {"librme.a": [os.path.join(lib, "librme.a")], "librme.so": ["-L", lib, f"-Wl,-rpath,{lib}", "-lrme"]}
    for name, words in ways.items():
        made = os.path.join(folder, f"over-{name}")
        source = os.path.join(TOP, "c", "example.c")
        ran = subprocess.run([COMPILER, "-I", os.path.join(prefix, "include"), "-o", made, source, *words], capture_output=True)
        if check(f"a program is built over {name}", ran.returncode == 0, ran.stderr):
            told = subprocess.run([made, os.path.join(folder, name), "1"], capture_output=True, text=True)
            same(f"and run over {name}", (told.stdout, told.stderr), ("inside\njob 1 counted as section 0, reply 5\n", ""))


USES = """
import rme_client, rme_shared, sys
rme_shared.create(sys.argv[1], ["bank"], workers=2)
with rme_shared.Worker(sys.argv[1], 0) as worker:
    print(worker.run("bank", [("add", 0, 5)]).reply, rme_client.Worker.__name__)
"""


def try_packages(folder, prefix):
    environment = {name: value for name, value in os.environ.items() if name != "RME_LIBRARY"}
    environment["PYTHONPATH"] = os.path.join(prefix, SITE)
    words = [sys.executable, "-c", USES, os.path.join(folder, "by-python")]
    told = subprocess.run(words, capture_output=True, text=True, env=environment, cwd=folder)
    same("the packages", (told.stdout, told.stderr), ("5 Worker\n", ""))
    words = [os.path.join(prefix, "bin/rme-hold"), "--file", os.path.join(folder, "by-python"), "--worker", "1", "bank", "--"]
    told = subprocess.run([*words, "sh", "-c", "echo $RME_SECTION"], capture_output=True, text=True, cwd=folder)
    same("rme-hold", (told.stdout, told.stderr, told.returncode), ("1\n", "", 0))


def try_pip(folder):
    """What pip installs into a fresh environment, without a network and with nothing beside it."""
    backends = [read(os.path.join(TOP, "clients", client, "build_backend.py")) for client in PACKAGES]
    same("the packages are built alike", {*backends}, {backends[0]})
    there = os.path.join(folder, "environment")
    if subprocess.run([sys.executable, "-m", "venv", there], capture_output=True).returncode != 0:
        skip("what pip installs", "python3 makes no environment that has pip")
        return
    python = os.path.join(there, "bin", "python")
    for client, package in PACKAGES.items():
        source = os.path.join(folder, client)
        shutil.copytree(os.path.join(TOP, "clients", client), source, ignore=shutil.ignore_patterns("__pycache__"))
        words = [python, "-m", "pip", "--disable-pip-version-check", "--no-cache-dir", "install", "--no-index", source]
        ran = subprocess.run(words, capture_output=True, text=True, cwd=folder)
        check(f"pip installs clients/{client}", ran.returncode == 0, ran)
        found = glob.glob(os.path.join(there, "lib", "python*", "site-packages", package, "*.py"))
        names = [os.path.basename(path) for path in glob.glob(os.path.join(TOP, "clients", client, package, "*.py"))]
        same(f"all modules of {package}", sorted(map(os.path.basename, found)), sorted(names))
        told = subprocess.run([python, "-c", f"import {package}; print({package}.__file__)"], capture_output=True, text=True, cwd=folder)
        check(f"{package} is imported from there", told.stdout.startswith(there), told)
    told = subprocess.run([os.path.join(there, "bin", "rme-hold"), "--help"], capture_output=True, text=True, cwd=folder)
    check("rme-hold is there", told.returncode == 0 and "RME_SECTION" in told.stdout, told)


def try_destdir(folder):
    built()
    dest = os.path.join(folder, "dest")
    how = {"env": {**os.environ, "DESTDIR": dest}}
    ran = install("--without-c", "/opt/rme", preexec_fn=lambda: os.umask(0o077), **how)
    wanted = [*PROGRAM, *HOLD, *packages("rme_client", "rme_hold"), "share/rme/manifest"]
    check("it is installed", ran[0] == 0, ran)
    same("it says how long it takes, and nothing else", ran[2], "install: all is built; this takes seconds\n")
    same("what is there", files_in(dest), sorted(f"opt/rme/{name}" for name in wanted))
    modes = {at: os.stat(os.path.join(dest, "opt/rme", at)).st_mode & 0o777 for at in ("share/man/man1", "bin/rme", PROGRAM[2])}
    same("all may read it", modes, {"share/man/man1": 0o755, "bin/rme": 0o755, PROGRAM[2]: 0o644})
    check("python3 is told where", f"PYTHONPATH=/opt/rme/{SITE}\n" in ran[1], ran)
    same("nothing names the folder", dest in open(f"{dest}/opt/rme/share/rme/manifest", encoding="utf-8").read(), False)
    ran = install("--without-c", "opt/rme", **how)
    check("a prefix that is no whole path", ran[0] == 1 and "from the root on" in ran[2], ran)
    same("it is removed", (install("--remove", "/opt/rme", **how)[0], files_in(dest)), (0, []))


def try_again(folder):
    """A second install over the first, with less; what is not ours stays."""
    prefix = os.path.join(folder, "prefix")
    own = os.path.join(prefix, "bin", "own")
    write(own, "its user's\n")
    words = ["--without-c", prefix]
    install(*words)
    first = state_of(prefix)
    same("a second time", (install(*words)[0], state_of(prefix)), (0, first))
    install("--without-c", "--without-python", prefix)
    same("with less", files_in(prefix), sorted([*PROGRAM, "bin/own", "share/rme/manifest"]))
    check("an empty folder of ours goes at the end", install("--remove", prefix)[0] == 0)
    same("what is left", (files_in(prefix), os.listdir(prefix)), (["bin/own"], ["bin"]))
    ran = install("--remove", prefix)
    check("a second removal", ran[0] == 1 and "nothing is installed there" in ran[2], ran)
    write(os.path.join(prefix, "share/man/man1/rme.1"), "another page\n")
    before = state_of(prefix)
    ran = install(*words)
    check("a file in the way", ran[0] == 1 and "share/man/man1/rme.1 is there, and no earlier install left it" in ran[2], ran)
    same("nothing is installed beside it", state_of(prefix), before)


def try_changed(folder):
    prefix = os.path.join(folder, "prefix")
    install("--without-c", prefix)
    page = os.path.join(prefix, "share/man/man1/rme.1")
    compiled = os.path.join(prefix, SITE, "rme_client", "__pycache__", "worker.cpython-39.pyc")
    write(compiled, "")
    write(page, "changed\n")
    ran = install("--remove", prefix)
    check("a file that was changed", ran[0] == 1 and f"{page} was changed since, and is left" in ran[2], ran)
    same("what is left", files_in(prefix), ["share/man/man1/rme.1"])


def try_failures(folder):
    """If a step fails, what stood there before stands there again."""
    prefix = os.path.join(folder, "new", "prefix")

    def short_files():
        resource.setrlimit(resource.RLIMIT_FSIZE, (100_000, 100_000))

    ran = install("--without-c", prefix, preexec_fn=short_files)
    check("a file that can't be written", ran[0] == 1 and "bin/rme can't be written: File too large" in ran[2], ran)
    same("nothing is left", os.listdir(folder), [])
    write(os.path.join(prefix, "lib"), "a file where a folder belongs\n")
    before = state_of(folder)
    ran = install("--without-c", prefix)
    check("a file where a folder belongs", ran[0] == 1 and "can't be written: File exists" in ran[2], ran)
    same("nothing is installed", state_of(folder), before)
    os.remove(os.path.join(prefix, "lib"))
    install("--without-c", prefix)
    write(os.path.join(prefix, "share/rme/manifest"), "sha256 0 ../other\n")
    ran = install("--remove", prefix)
    check("a malformed manifest", ran[0] == 1 and "line 1 is not a line of a manifest" in ran[2], ran)
    check("nothing was removed", os.path.exists(os.path.join(prefix, "bin/rme")))


def try_an_update(folder):
    """An update that fails, at one of its last files."""
    prefix = os.path.join(folder, "prefix")
    install("--without-c", "--without-python", prefix)
    write(os.path.join(prefix, "lib"), "a file where a folder belongs\n")
    before = state_of(prefix)
    ran = install("--without-c", prefix)
    check("an update that fails", ran[0] == 1 and "can't be written" in ran[2], ran)
    same("the older one stands", state_of(prefix), before)


def try_words(folder):
    for words in ((), ("--remove",), ("a", "b"), ("--other", "a"), ("--remove", "--without-c", "a")):
        ran = script("install", *words, cwd=folder)
        check(f"install {' '.join(words)}", ran.returncode == 1 and "install --remove PREFIX" in ran.stderr, ran)
    same("--help", install("--help")[0], 0)
    same("nothing is made", os.listdir(folder), [])


def part():
    # What is not proved and built yet takes none of the minutes.
    built()
    if shutil.which(COMPILER):
        libraries()
    main_in_folders(
        try_version,
        try_manual,
        try_completions,
        try_whole,
        try_pip,
        try_destdir,
        try_again,
        try_changed,
        try_failures,
        try_an_update,
        try_words,
        minutes=10,
    )
