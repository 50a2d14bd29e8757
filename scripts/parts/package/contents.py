"""contents: the words of scripts/package, and what is in the packages that it makes.

The files are the same in both, below a prefix, and as scripts/install puts them. Two runs give the same bytes, also
with another umask, time zone and folder; so does the Debian package without dpkg-deb, by its contents. The provenance
names the commit, the toolchain and the gate's last line. The wheels work without the rest. The units are hardened
(`systemd-analyze security`), and name the program where the package puts it."""

import hashlib
import os
import re
import shutil
import stat
import subprocess
import sys
import tarfile
import zipfile

from lib import archives
from lib.checks import check, main, main_in_folders, same, skip
from lib.help import told_by
from lib.packages import LONG_AGO, can_be_made, one, run_package
from lib.programs import SCRIPTS, TOP, built
from lib.units import UNITS, values_of

MOST_EXPOSED = 20  # in tenths, of 100
OWN = ("lib/sysusers.d/", "lib/systemd/", "share/rme/", "share/doc/")  # what scripts/install does not install


def write(path, text):
    with open(path, "w", encoding="utf-8") as file:
        file.write(text)


def held(path):
    with open(path, "rb") as file:
        return file.read()


def digest(data):
    return hashlib.sha256(data).hexdigest()


def all_in(folder):
    """The bytes of each file of a folder."""
    return {name: held(os.path.join(folder, name)) for name in sorted(os.listdir(folder))}


def unpacked_tar(folder, packages):
    """Unpacks the archive for a prefix; answers the folder that is the prefix."""
    with tarfile.open(one(packages, "*.tar.gz")) as archive:
        archive.extractall(folder)
    return one(folder, "rme-*-x86_64-linux")


def files_in(folder):
    """Each file below a folder with its mode and its bytes, and each link with where it leads."""
    found = {}
    for path in archives.paths_in(folder):
        whole = os.path.join(folder, path)
        if os.path.islink(whole):
            found[path] = os.readlink(whole)
        elif os.path.isfile(whole):
            found[path] = (stat.S_IMODE(os.stat(whole).st_mode), held(whole))
    return found


# ---- the words


def try_words(folder):
    for words in (("a", "b"), ("--other",), ("--gate",), ("",), ("a", "--gate", "b")):
        ran = run_package(*words, cwd=folder)
        told = ran.returncode, ran.stdout, "package --help says what they are" in ran.stderr
        same(f"package {' '.join(words)}", told, (2, "", True))
    ran = run_package("--help")
    same("--help", (ran.returncode, "SHA256SUMS" in ran.stdout, ran.stderr), (0, True, ""))
    ran = run_package("--gate", os.path.join(folder, "none"), folder)
    check("a file of the gate that is not there", ran.returncode == 1 and "none can't be read" in ran.stderr, ran)
    ran = run_package(folder, env={**os.environ, "RME_CORE": "/other.a"})
    told = ran.returncode, "RME_CORE names another archive" in ran.stderr
    same("a library that is not the proved one", told, (1, True))
    same("nothing is made", os.listdir(folder), [])


def copy_of_scripts(folder):
    skipped = shutil.ignore_patterns("__pycache__", "try-*", "parts")
    shutil.copytree(SCRIPTS, os.path.join(folder, "scripts"), ignore=skipped)
    return os.path.join(folder, "scripts", "package")


def try_not_built(folder):
    """A small tree of crates: nothing is built, then the program, then of other sources than there are."""
    package, source = copy_of_scripts(folder), os.path.join(folder, "crates", "rme_cli", "src")
    for crate in ("rme_cli", "rme_process_abi"):
        os.makedirs(os.path.join(folder, "crates", crate, "src"))
        write(os.path.join(folder, "crates", crate, "src", "lib.rt"), crate)
    write(os.path.join(folder, "crates.txt"), "rme_cli:\nrme_process_abi staticlib:\n")

    def says(name, wanted):
        ran = subprocess.run([package], capture_output=True, text=True, stdin=subprocess.DEVNULL)
        check(name, ran.returncode == 1 and ran.stderr.startswith(f"package: crates/{wanted}"), ran)

    says("nothing is built", "rme_cli is not built; `scripts/build rme_cli` proves and builds it")
    os.mkdir(os.path.join(folder, "crates", "rme_cli", "out"))
    write(os.path.join(folder, "crates", "rme_cli", "out", "rme_cli"), "a program")
    says("the program is built", "rme_process_abi is not built; `scripts/build-c` proves and builds it")
    write(os.path.join(source, "lib.rt"), "edited")
    says("of other sources", "rme_cli is made of other sources than there are; `scripts/build rme_cli` proves")
    check("nothing is made", not os.path.exists(os.path.join(folder, "dist")))


# ---- the bytes


GATE = "rt: one proved\nprocessor minutes: 1\n12 passed, 0 failed\n\n"


def commit():
    """The commit and its time, or None where this is no clone."""
    if not shutil.which("git") or not os.path.exists(os.path.join(TOP, ".git")):
        return None
    words = ["git", "-c", f"safe.directory={TOP}", "-C", TOP, "log", "-1", "--format=%H %ct"]
    return subprocess.run(words, check=True, stdout=subprocess.PIPE, text=True).stdout.split()


def try_packages(folder):
    gate = os.path.join(folder, "gate.log")
    write(gate, GATE)
    first = os.path.join(folder, "first")
    known = commit()
    time = known[1] if known else LONG_AGO
    environment = {name: value for name, value in os.environ.items() if name != "SOURCE_DATE_EPOCH"}
    # In a clone files get the time of the commit by themselves.
    ran = run_package("--gate", gate, first, env=environment if known else {**environment, "SOURCE_DATE_EPOCH": time})
    check("packages are made", ran.returncode == 0, ran)
    names = [re.sub(r"\d+\.\d+\.\d+", "V", name) for name in sorted(os.listdir(first))]
    same("their names", names, ["SHA256SUMS", "rme-V-x86_64-linux.tar.gz", "rme-V.provenance", "rme_V_amd64.deb"])
    sums = {f"{digest(data)}  {name}" for name, data in all_in(first).items() if name != "SHA256SUMS"}
    same("the checksums", {*held(os.path.join(first, "SHA256SUMS")).decode().splitlines()}, sums)
    try_again(folder, first, gate, {**environment, "SOURCE_DATE_EPOCH": time})
    prefix = unpacked_tar(os.path.join(folder, "tar"), first)
    try_files(folder, first, prefix)
    try_wheels(folder, prefix)
    try_units(folder, prefix)
    try_user(folder, prefix)
    try_provenance(first, prefix, known)


def try_again(folder, first, gate, environment):
    """A second run, in another folder, time zone and language, and with a umask that keeps others out."""
    second = os.path.join(folder, "a folder", "second")
    environment = {**environment, "TZ": "Asia/Tokyo", "TMPDIR": folder, "LC_ALL": "C"}
    ran = run_package("--gate", gate, second, env=environment, cwd=folder, preexec_fn=lambda: os.umask(0o077))
    check("a second run, elsewhere", ran.returncode == 0, ran)
    for name, data in all_in(first).items():
        check(f"the same bytes: {name}", held(os.path.join(second, name)) == data)


def bytes_of(what):
    """What a file has, or where a link leads."""
    return what.encode() if isinstance(what, str) else what[1]


def try_files(folder, packages, prefix):
    """The files of both packages, and those that scripts/install puts."""
    of_tar, installed = files_in(prefix), os.path.join(folder, "installed")
    ran = subprocess.run([os.path.join(SCRIPTS, "install"), installed], capture_output=True, text=True)
    check("scripts/install, to compare", ran.returncode == 0, ran)
    site = re.compile(r"^lib/python[^/]*/[^/]*")
    wanted = {site.sub("lib/python3/dist-packages", path) for path in files_in(installed)} - {"share/rme/manifest"}
    same("the files are those of scripts/install", {path for path in of_tar if not path.startswith(OWN)}, wanted)
    same("the program", of_tar["bin/rme"], (0o755, held(built())))
    named = [path for path, what in of_tar.items() if TOP.encode() in bytes_of(what) and path != "bin/rme"]
    same("nothing names this clone", named, [])
    if not shutil.which("dpkg-deb"):
        skip("the Debian package", "there is no dpkg-deb")
        return
    unpacked = os.path.join(folder, "deb")
    subprocess.run(["dpkg-deb", "-x", one(packages, "*.deb"), unpacked], check=True)
    of_deb = files_in(os.path.join(unpacked, "usr"))
    same("nothing is outside of /usr", os.listdir(unpacked), ["usr"])
    same("both have the same files", {*of_deb}, {*of_tar} - {"lib/sysusers.d/rme.conf"})
    differ = sorted(path for path in of_deb if of_deb[path] != of_tar.get(path))
    same("but for the units", differ, sorted(f"lib/systemd/system/{name}.service" for name in UNITS))
    try_without_dpkg(folder, packages, unpacked)


def told_of(deb):
    """What dpkg-deb says of a package: its control file, and its files with modes, owners and times."""
    how = {"check": True, "stdout": subprocess.PIPE, "text": True}
    listed = subprocess.run(["dpkg-deb", "--contents", deb], **how).stdout
    return subprocess.run(["dpkg-deb", "--field", deb], **how).stdout, sorted(listed.splitlines())


def try_without_dpkg(folder, packages, tree):
    """The same tree, packed where dpkg-deb is not there."""
    deb, made = one(packages, "*.deb"), os.path.join(folder, "by-hand.deb")
    control, time = os.path.join(tree, archives.CONTROL), int(os.stat(os.path.join(tree, "usr")).st_mtime)
    subprocess.run(["dpkg-deb", "-e", deb, control], check=True)
    archives.settle(tree, time)
    archives.deb_by_hand(tree, made, time)
    same("without dpkg-deb the package says the same", told_of(made), told_of(deb))
    by_hand = os.path.join(folder, "control")
    subprocess.run(["dpkg-deb", "-e", made, by_hand], check=True)
    same("and has the same scripts", files_in(by_hand), files_in(control))


WITH_WHEELS = """
import rme_client, rme_hold.main, rme_shared, sys
rme_shared.create(sys.argv[1], ["bank"], workers=2)
with rme_shared.Worker(sys.argv[1], 0) as worker:
    print(worker.run("bank", [("add", 0, 5)]).reply, rme_client.__file__)
"""


def try_wheels(folder, prefix):
    """The packages of the wheels, with nothing else of this repository in reach: a job over a file, by the C library in
    the wheel of rme_shared."""
    wheels, there = os.path.join(prefix, "share", "rme", "wheels"), os.path.join(folder, "unpacked wheels")
    for name in os.listdir(wheels):
        with zipfile.ZipFile(os.path.join(wheels, name)) as wheel:
            wheel.extractall(there)
    environment = {name: value for name, value in os.environ.items() if name != "RME_LIBRARY"}
    words = [sys.executable, "-c", WITH_WHEELS, os.path.join(folder, "by-wheels")]
    ran = subprocess.run(words, capture_output=True, text=True, cwd=folder, env={**environment, "PYTHONPATH": there})
    same("the wheels", (ran.stdout, ran.stderr), (f"5 {there}/rme_client/__init__.py\n", ""))


# ---- the units


def try_units(folder, prefix):
    for name in UNITS:
        path = os.path.join(prefix, "lib", "systemd", "system", f"{name}.service")
        text = held(path).decode()
        told = values_of(text, "User"), values_of(text, "ExecStart")[0][:2], values_of(text, "StateDirectory")[0][0]
        same(f"{name}: its user, its program, its state", told, ([["rme"]], ["/usr/local/bin/rme", "serve"], "rme"))
        if shutil.which("systemd-analyze"):
            try_by_systemd(folder, name, path, text)
    if not shutil.which("systemd-analyze"):
        skip("how hardened the units are", "there is no systemd-analyze (scripts/set-up installs it)")


def try_by_systemd(folder, name, path, text):
    """What systemd says of a unit: how hardened it is, and of each of its words, for a program that is there."""
    how = {"capture_output": True, "text": True, "stdin": subprocess.DEVNULL}
    words = ["systemd-analyze", "security", "--offline=true", "--no-pager", f"--threshold={MOST_EXPOSED}", path]
    ran = subprocess.run(words, **how)
    check(f"{name}: it is hardened", ran.returncode == 0 and "exposure level" in ran.stdout, ran)
    known = os.path.join(folder, f"{name}.service")
    write(known, text.replace("/usr/local/bin/rme ", f"{shutil.which('true')} "))
    ran = subprocess.run(["systemd-analyze", "verify", known], **how)
    same(f"{name}: systemd knows its words", (ran.returncode, ran.stderr), (0, ""))


def try_user(folder, prefix):
    """The user that systemd makes for the archive."""
    if not shutil.which("systemd-sysusers") or os.geteuid() != 0:
        skip("the user of the archive", "there is no systemd-sysusers, or this is not root")
        return
    root = os.path.join(folder, "root of users")
    os.makedirs(os.path.join(root, "etc"))
    words = ["systemd-sysusers", f"--root={root}", os.path.join(prefix, "lib", "sysusers.d", "rme.conf")]
    ran = subprocess.run(words, capture_output=True, text=True)
    line = re.sub(r"\d+", "N", held(os.path.join(root, "etc", "passwd")).decode())
    same("the user of the archive", line, "rme:x:N:N:rme lock service:/var/lib/rme:/usr/sbin/nologin\n")
    check("systemd-sysusers ends well", ran.returncode == 0, ran)


# ---- the provenance


def try_provenance(packages, prefix, known):
    lines = held(one(packages, "*.provenance")).decode().splitlines()
    told = dict(line.split(": ", 1) for line in lines if ": " in line)
    version, toolchain = told_by(built(), "--version").splitlines()
    same("the version", f"rme {told['version']}", version)
    same("the toolchain", told["toolchain"], toolchain)
    if shutil.which("rt"):
        ran = subprocess.run(["rt", "version"], check=True, stdout=subprocess.PIPE, text=True)
        same("it is that of this machine", ran.stdout.strip(), toolchain)
    same("the gate's last line", told["gate"], "12 passed, 0 failed")
    check("the program's checksum", f"sha256 {digest(held(built()))} bin/rme" in lines, lines)
    same("the packages have it", held(os.path.join(prefix, "share/doc/rme/provenance")).decode().splitlines(), lines)
    if known:
        same("the commit, and its time", [told["commit"], told["time of files"]], known)
    else:
        skip("the commit", "this is no clone, or there is no git")


def part():
    if not can_be_made():
        main()
    main_in_folders(try_words, try_not_built, try_packages, minutes=10)
