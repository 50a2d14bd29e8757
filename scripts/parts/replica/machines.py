"""machines: the files of examples/ for several machines, as docs/replicas.md names them: a node of etcd and a server with a tunnel
between, whose certificates are of one authority; and the unit of systemd."""

import os
import re
import shutil
import subprocess
import time

from lib.checks import check, same, skip
from lib.clusters import ENVIRONMENT, asked, main_with_etcd, text64
from lib.programs import TOP
from lib.replicas import Replica, Worker, status_in
from lib.storms import free_port

EXAMPLES = os.path.join(TOP, "examples")
HOSTS = "lock1.example", "lock2.example", "lock3.example"  # of the files; here each is localhost


def text_of(*names):
    with open(os.path.join(EXAMPLES, *names), encoding="utf-8") as file:
        return file.read()


class Machine:
    """One machine for all: a folder with certificates, a node of etcd and stunnel, on free ports."""

    def __init__(self, folder):
        self.folder, self.started = folder, []
        self.client, self.peer, self.near = free_port(), free_port(), free_port()
        self.run(["sh", os.path.join(EXAMPLES, "tunnel", "certificates"), "localhost"])

    def run(self, words):
        subprocess.run(words, cwd=self.folder, check=True, capture_output=True, timeout=60)

    def begin(self, words, environment, log):
        """A program that ends with this one."""
        with open(os.path.join(self.folder, log), "ab") as file:
            how = {"stdin": subprocess.DEVNULL, "stdout": file, "stderr": file, "env": environment, "cwd": self.folder}
            self.started.append(subprocess.Popen(["setpriv", "--pdeathsig", "KILL", *words], **how))

    def begin_etcd(self):
        """The node of the example, alone, on this machine."""
        held = dict(line.split("=", 1) for line in text_of("replica", "etcd").splitlines() if line and not line.startswith("#"))
        held["ETCD_INITIAL_CLUSTER"] = held["ETCD_INITIAL_CLUSTER"].split(",")[0]
        changes = {"2379": str(self.client), "2380": str(self.peer), "/etc/etcd": self.folder, "/var/lib/etcd": self.folder}
        changes |= {HOSTS[0]: "localhost"}
        for name, value in held.items():
            for old, new in changes.items():
                value = value.replace(old, new)
            held[name] = value
        self.begin(["etcd"], {**ENVIRONMENT, **held}, "etcd.log")

    def begin_tunnel(self, certificate="localhost"):
        """The tunnel of the example to this one node."""
        held = text_of("replica", "engine.conf").split("[lock2]")[0]
        for old, new in {f"{HOSTS[0]}.pem": f"{certificate}.pem", HOSTS[0]: "localhost", "2379": str(self.client), "2381": str(self.near)}.items():
            held = held.replace(old, new)
        path = os.path.join(self.folder, "engine.conf")
        with open(path, "w", encoding="utf-8") as file:
            file.write(held)
        self.begin(["stunnel", path], ENVIRONMENT, "stunnel.log")

    def end(self):
        for program in self.started:
            program.kill()
            program.wait()

    def log(self, name):
        with open(os.path.join(self.folder, name), encoding="utf-8", errors="replace") as file:
            return file.read()[-600:]


def answers(port, seconds=20):
    """Whether a node answers at this port before the time is over."""
    latest = time.monotonic() + seconds
    while time.monotonic() < latest:
        try:
            return asked(port, "/v3/kv/range", {"key": text64(b"ready")})[0] == 200
        except OSError:
            time.sleep(0.1)
    return False


def try_tunnel(folder):
    if not (shutil.which("stunnel") and shutil.which("openssl")):
        skip("certificates between machines", "there is no stunnel or no openssl (scripts/set-up installs them)")
        return
    machine = Machine(folder)
    try:
        machine.begin_etcd()
        machine.begin_tunnel()
        check("the node answers behind the tunnel", answers(machine.near), (machine.log("etcd.log"), machine.log("stunnel.log")))
        engine, worker = f"127.0.0.1:{machine.near}", Worker()
        with Replica(engine, workers=2) as server:
            check("a server leads, and makes jobs", server.leads() and worker.work(server, 5), server.told())
        same("each is answered as it should be", worker.wrong, [])
        same("a look", status_in(engine)["workers"][0]["number"], 5)
        check("nothing is answered without TLS", not answers(machine.client, 1))
        strange(machine)
    finally:
        machine.end()


def strange(machine):
    """A tunnel with a certificate of another authority gets no answer."""
    authority = os.path.join(machine.folder, "ca.pem")
    os.rename(authority, authority + ".own")
    machine.run(["sh", os.path.join(EXAMPLES, "tunnel", "certificates"), "stranger"])
    os.rename(authority + ".own", authority)
    machine.near = free_port()
    machine.begin_tunnel("stranger")
    check("nothing is answered to another authority's certificate", not answers(machine.near, 2))


def try_unit(folder):
    """The unit's command, with a cluster of this machine."""
    unit = text_of("rme-replica.service")
    command = re.search(r"^ExecStart=((?:.*\\\n)*.*)", unit, re.M)[1].replace("\\\n", " ").split()
    same("the program, and what it is to do", command[:4], ["/usr/local/bin/rme", "serve", "--state", "etcd:bank"])
    options = dict(zip(command[4:-2:2], command[5:-2:2]))
    same("the nodes are those of the tunnel", options["--engine"].split(","), re.findall(r"^accept = (.*)$", text_of("replica", "engine.conf"), re.M))
    same("its name", options["--name"], "%H:7443")
    same("the last words", command[-2:], ["--log", "bank"])
    if not shutil.which("systemd-analyze"):
        skip("what systemd says of the unit", "there is no systemd-analyze")
        return
    program, copy = os.path.join(folder, "rme"), os.path.join(folder, "rme-replica.service")
    shutil.copy("/bin/true", program)
    with open(copy, "w", encoding="utf-8") as file:
        file.write(unit.replace("/usr/local/bin/rme", program).replace("User=rme", "User=root"))
    ran = subprocess.run(["systemd-analyze", "verify", copy], capture_output=True, text=True, timeout=60)
    same("systemd takes each line of the unit", (ran.returncode, [line for line in ran.stderr.splitlines() if copy in line]), (0, []))


def part():
    main_with_etcd(try_tunnel, try_unit, minutes=2)
