"""installed: the Debian package in a fresh root, which has what dpkg needs, with its libraries, and no toolchain.

dpkg installs it there, `rme --version` runs, and the command of each unit serves as the user rme, with its state in
/var/lib/rme: a job by the Python package that was installed, and one more after a restart. A removal leaves the state
and nothing else, neither a file nor the user; the state is root's then, and a later install goes on with it, though its
user has another number. An upgrade keeps the user, and owners and modes that its administrator changed. A user rme that
the package did not make is left."""

import json
import os
import re
import shutil
import subprocess
import sys

from lib.checks import Stop, check, main, main_in_folders, same, skip
from lib.clusters import Cluster
from lib.fresh_roots import Root, why_none
from lib.help import told_by
from lib.packages import can_be_made, made_in, one
from lib.programs import built
from lib.servers import HOST, Server
from lib.units import UNITS, values_of

MODULES = "usr/lib/python3/dist-packages"
STATE = "var/lib/rme"
# A job by the installed package; its reply is printed.
JOB = """
import json, sys
from rme_client import Spaces, Worker
place, key, space = json.loads(sys.argv[1])
if space:
    Spaces(place["host"], place["port"], **key).create(space, ["bank"])
with Worker(worker=0, connect_timeout=20, space=space, **place, **key) as worker:
    print(worker.submit("bank", [["add", 0, 5]])["reply"])
"""


def dpkg(root, *words):
    # Nothing here need outlive a stop of the machine.
    ran = root.run("dpkg", "--force-unsafe-io", *words)
    return check(f"dpkg {' '.join(words)}", ran.returncode == 0 and "warning" not in ran.stderr, ran)


def fresh_root(folder):
    """A root, and the path of the package in it; dpkg knows there what the package depends on."""
    packages = os.path.join(folder, "packages")
    made_in(packages)
    with open(one(packages, "*.provenance"), encoding="utf-8") as file:
        text = file.read()
    check("the gate is not known where nothing tells of it", "\ngate: not known: no --gate was given\n" in text, text)
    deb = one(packages, "*.deb")
    told = subprocess.run(["dpkg-deb", "--field", deb, "Depends"], check=True, stdout=subprocess.PIPE, text=True).stdout
    depends = re.findall(r"(?:^|, )([\w.+-]+)", told.strip())
    check("it depends on few packages", {"libc6", "passwd"} <= {*depends} <= {"libc6", "libgcc-s1", "passwd"}, told)
    root = Root(os.path.join(folder, "root"), depends)
    # They are of the packages that it depends on.
    root.copy_libraries(built())
    shutil.copy(deb, root.at("rme.deb"))
    return root, "/rme.deb"


class Unit:
    """A unit as it lies in the root: its command, and the folders that systemd would make for it."""

    def __init__(self, root, name):
        self.root, self.name = root, name
        text = root.read(f"usr/lib/systemd/system/{name}.service")
        self.user = values_of(text, "User")[0][0]
        # A port that is in use here is in nobody's way.
        self.words = re.sub(r"--port 7000\b", "--port 0", " ".join(values_of(text, "ExecStart")[0])).split()
        # What systemd would put there; a start in place of a server that was ended waits for nobody.
        own = {"%H:7443": "here:7443", "$RME_TAKE": "--take"}
        self.words = [own.get(word, word) for word in self.words]
        self.folders = [f"var/lib/{path}" for it in values_of(text, "StateDirectory") for path in it]
        self.runtime = [f"run/{path}" for it in values_of(text, "RuntimeDirectory") for path in it]

    def ask_cluster(self, engines):
        """It is to find its log there."""
        self.words[self.words.index("--engine") + 1] = engines

    def make_folders(self):
        for path in (*self.folders, *self.runtime):
            os.makedirs(self.root.at(path), exist_ok=True)
            os.chmod(self.root.at(path), 0o700)
            os.chown(self.root.at(path), *self.root.user(self.user))

    def serve(self):
        self.make_folders()
        return Server(program=self.words[0], words=self.words[1:], how=self.root.how(self.user))

    def place_of(self, server):
        if server.path:
            return {"host": HOST, "port": 1, "socket_path": self.root.at(server.path)}
        if not server.port:
            raise Stop(f"{self.name} does not listen: {server.first!r} {server.program.stderr.read(2000)!r}")
        return {"host": HOST, "port": server.port}

    def job(self, key, space):
        """Starts the unit's command, makes a job, and ends it as systemd does: the reply, and the server's user."""
        server = self.serve()
        words = [sys.executable, "-c", JOB, json.dumps([self.place_of(server), key, space])]
        environment = {**os.environ, "PYTHONPATH": self.root.at(MODULES)}
        environment.pop("PYTHONDONTWRITEBYTECODE", None)
        ran = subprocess.run(words, capture_output=True, text=True, env=environment, timeout=60)
        with open(f"/proc/{server.program.pid}/status", encoding="utf-8") as file:
            user = int(re.search(r"^Uid:\t(\d+)", file.read(), re.M)[1])
        server.program.terminate()
        server.program.wait(20)
        for path in self.runtime:
            shutil.rmtree(self.root.at(path))
        return ran.stdout.strip() or ran.stderr, user


def put_keys(root):
    """A key for all workers and all spaces, by the installed new-key; answers the words of a client that has it."""
    words = [sys.executable, root.at("usr/share/rme/new-key"), "ops", "*", "+*"]
    secret, line = subprocess.run(words, check=True, stdout=subprocess.PIPE, text=True).stdout.splitlines()
    root.write("etc/rme/keys", line + "\n")
    os.chmod(root.at("etc/rme/keys"), 0o640)
    os.chown(root.at("etc/rme/keys"), 0, root.user("rme")[1])
    return {"secret": secret}


def try_user(root):
    line = next((line for line in root.read("etc/passwd").splitlines() if line.startswith("rme:")), "")
    told = line.split(":")[4:]
    same("the user", told, ["rme lock service", "/var/lib/rme", "/usr/sbin/nologin"])
    check("it is none of people", root.user("rme")[0] < 1000, line)
    entry = os.stat(root.at("etc/rme"))
    same("the folder of keys", (entry.st_mode & 0o777, entry.st_uid, entry.st_gid), (0o750, 0, root.user("rme")[1]))


def try_cluster_unit(root, folder, secret):
    """The command of the unit whose state lies in a cluster, twice."""
    name = "rme-replica"
    if missing := next((name for name in ("etcd", "setpriv") if not shutil.which(name)), None):
        skip(f"{name}: jobs", f"there is no {missing}")
        return
    unit = Unit(root, name)
    with Cluster(os.path.join(folder, "cluster"), nodes=1) as cluster:
        unit.ask_cluster(cluster.engines)
        found = [unit.job(secret, None) for _ in range(2)]
    user = root.user("rme")[0]
    same(f"{name}: two jobs, as the user rme", found, [("5", user), ("10", user)])


def try_units(root, folder):
    """Each unit's command, twice: its state outlives it."""
    secret, user = put_keys(root), root.user("rme")[0]
    try_cluster_unit(root, folder, secret)
    for name in (name for name in UNITS if name != "rme-replica"):
        unit = Unit(root, name)
        key, space = ({} if name == "rme" else secret), ("tenant-7" if name == "rme-spaces" else None)
        # rme and rme-keys serve the same state.
        replies = ("15", "20") if name == "rme-keys" else ("5", "10")
        found = [unit.job(key, space) for _ in replies]
        same(f"{name}: two jobs, as the user rme", found, [(reply, user) for reply in replies])
    owners = {root.told_of(path)[1] for path in root.tree() if path.startswith(STATE)}
    same("the state is the user's", owners, {root.user("rme")[0]})
    os.remove(root.at("etc/rme/keys"))


def try_removal(root, before):
    dpkg(root, "--remove", "rme")
    after = root.tree()
    state = {path: told for path, told in after.items() if path == STATE or path.startswith(f"{STATE}/")}
    rest = {path: told for path, told in after.items() if path not in state}
    differ = sorted(path for path in {*before, *rest} if before.get(path) != rest.get(path))
    same("a removal leaves the state, and nothing else", differ, [])
    same("the state is root's", {told[1:3] for told in state.values()}, {(0, 0)})
    same("only root may read it", state[STATE][0], oct(0o40700))
    check("the files of the state are there", f"{STATE}/bank.state" in state, sorted(state))
    told = root.run("dpkg-query", "-W", "-f", "${Status}", "rme")
    left = [name for name in os.listdir(root.at("var/lib/dpkg/info")) if name.startswith("rme")]
    same("dpkg knows nothing of it", (told.returncode, left), (1, []))


def try_again(root, deb):
    """A later install, whose user has another number, since a user came in between; and an upgrade."""
    root.run("useradd", "--system", "other")
    dpkg(root, "--install", deb)
    check("the user has another number", root.user("rme") != root.user("other"), root.read("etc/passwd"))
    unit = Unit(root, "rme")
    same("it goes on with the state", unit.job({}, None), ("25", root.user("rme")[0]))
    number, keys = root.user("rme"), root.at("etc/rme")
    os.chmod(keys, 0o700)
    os.chown(keys, *root.user("other"))
    before = root.told_of("etc/rme")
    dpkg(root, "--install", deb)
    same("an upgrade keeps the user, and the state", (root.user("rme"), unit.job({}, None)[0]), (number, "30"))
    same("and what its administrator changed", root.told_of("etc/rme"), before)
    dpkg(root, "--remove", "rme")


def try_other_user(root, deb):
    root.run("useradd", "--system", "--comment", "of its administrator", "rme")
    number = root.user("rme")
    dpkg(root, "--install", deb)
    dpkg(root, "--remove", "rme")
    same("a user that the package did not make is left", root.user("rme"), number)


def try_installed(folder):
    root, deb = fresh_root(folder)
    before = root.tree()
    if not dpkg(root, "--install", deb):
        return
    ran = root.run("rme", "--version")
    same("rme --version", (ran.stdout, ran.stderr), (told_by(built(), "--version"), ""))
    try_user(root)
    try_units(root, folder)
    try_removal(root, before)
    try_again(root, deb)
    try_other_user(root, deb)


def part():
    why = why_none()
    if why:
        skip("the Debian package in a fresh root", why)
        main()
    if not can_be_made():
        main()
    main_in_folders(try_installed, minutes=10)
