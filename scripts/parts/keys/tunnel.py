"""tunnel: the files of examples/ for servers with keys, as docs/keys.md names them: clients of another machine by stunnel with
certificates, whose commands are those of the page, and the words of the unit of systemd."""

import os
import pwd
import re
import shutil
import socket
import subprocess
import time

from lib.asks import free_port
from lib.checks import Stop, check, main_in_folders, same, skip
from lib.clients import Worker
from lib.keys import begun, key_line, put, put_keys, serve
from lib.orders import attach, job, stands
from lib.programs import TOP, ends_with, run
from lib.servers import HOST, Server

PAGE = os.path.join(TOP, "docs", "keys.md")
EXAMPLES = os.path.join(TOP, "examples")
NAME = "lock1.example"  # the page's name of the server's machine; here it is localhost


def commands():
    """The commands of the page that this part runs: those that make certificates, and those of the two machines."""
    with open(PAGE, encoding="utf-8") as file:
        return re.findall(r"^```sh skip: scripts/try-keys tunnel runs it\n(.*?)^```$", file.read(), re.M | re.S)


class Machines:
    """A folder for each machine, and the processes on them; ports are replaced by free ones."""

    def __init__(self, folder, server):
        self.folder, self.started = folder, []
        self.front, self.near = free_port(), free_port()
        self.ports = {"7000": str(server.port), "7443": str(self.front), "7001": str(self.near)}
        make, *self.stunnels = commands()
        self.run("authority", make)

    def place(self, machine):
        """The machine's folder, which has the examples."""
        path = os.path.join(self.folder, machine)
        if not os.path.isdir(path):
            os.mkdir(path)
            tunnel = os.path.join(path, "examples", "tunnel")
            shutil.copytree(os.path.join(EXAMPLES, "tunnel"), tunnel)
            for name in os.listdir(tunnel):
                self.replace(os.path.join(tunnel, name))
        return path

    def replace(self, path):
        with open(path, encoding="utf-8") as file:
            held = file.read()
        for old, new in {**self.ports, NAME: "localhost"}.items():
            held = held.replace(old, new)
        with open(path, "w", encoding="utf-8") as file:
            file.write(held)

    def run(self, machine, command):
        ran = subprocess.run(
            ["sh", "-ec", command.replace(NAME, "localhost")], cwd=self.place(machine), capture_output=True, text=True, timeout=60
        )
        check(f"{machine}: {command.strip()}", ran.returncode == 0, ran.stderr)

    def give(self, machine, *names, authority="authority"):
        """Copies files of the authority to a machine."""
        for name in names:
            shutil.copy(os.path.join(self.place(authority), name), self.place(machine))

    def start(self, machine, which, port):
        """Starts stunnel there, by the page's command, and waits until it listens."""
        how = {"stdin": subprocess.DEVNULL, "stdout": subprocess.DEVNULL, "stderr": subprocess.PIPE, "text": True}
        log = open(os.path.join(self.place(machine), "log"), "w", encoding="utf-8")
        started = subprocess.Popen(["sh", "-ec", "exec " + self.stunnels[which]], cwd=self.place(machine), **{**how, "stderr": log})
        log.close()
        self.started.append(started)
        for _ in range(100):
            if is_listening(port):
                return started
            if started.poll() is not None:
                break
            time.sleep(0.1)
        with open(os.path.join(self.place(machine), "log"), encoding="utf-8") as file:
            raise Stop(f"stunnel of {machine} does not listen: {file.read()[-600:]}")

    def stop(self, *these):
        for started in these or self.started:
            started.terminate()
            started.wait(20)


def is_listening(port):
    """Whether somebody listens, by the kernel's table: a connection would count as a session."""
    for table in ("/proc/net/tcp", "/proc/net/tcp6"):
        with open(table, encoding="ascii") as file:
            if any(line.split()[1].endswith(f":{port:04X}") and line.split()[3] == "0A" for line in list(file)[1:]):
                return True
    return False


def try_tunnel(folder):
    if not (shutil.which("stunnel") and shutil.which("openssl")):
        skip("clients of other machines", "there is no stunnel or no openssl (scripts/set-up installs them)")
        return
    keys = put_keys(os.path.join(folder, "keys"), key_line("ops", "apple"))
    server = serve("state", folder, keys, "--log")
    machines = Machines(folder, server)
    same("the authority's files are its own", {os.stat(os.path.join(machines.place("authority"), name)).st_mode & 0o77
                                              for name in ("ca.key", "client.pem", "localhost.pem")}, {0})
    machines.give("server", "ca.pem", "localhost.pem")
    machines.give("client", "ca.pem", "client.pem")
    try:
        front = machines.start("server", 0, machines.front)
        near = machines.start("client", 1, machines.near)
        try_client(folder, machines.near)
        try_strangers(folder, machines, server)
        try_broken(machines, near, server)
        machines.stop(front)
    finally:
        machines.stop()
    server.kill()


def try_client(folder, port):
    """A client with a certificate: rme ask, lines, and the Python client with a block."""
    path = put(os.path.join(folder, "secret"), b"apple\n")
    told = ends_with(run(["ask", "--port", port, "--key-file", path, "owner", "bank"]))
    same("rme ask", told, (0, b"LOCK  OWNER\nbank  nobody\n", b""))
    told = ends_with(run(["ask", "--port", port, "ping"]))
    check("without a secret", told[:2] == (1, b"") and b"25 NotAllowed" in told[2], told)
    began = time.monotonic()
    wrong = put(os.path.join(folder, "wrong"), b"melon\n")
    told = ends_with(run(["ask", "--port", port, "--key-file", wrong, "ping"]))
    check("with a wrong one", told[:2] == (1, b"") and b"25 NotAllowed" in told[2] and time.monotonic() - began >= 1, told)
    with Worker("localhost", port, 0, key_file=path) as worker:
        with worker.inside("bank", [["add", 0, 5]]) as held:
            pass
        same("a block of the Python client", (held.receipt["reply"], worker.submit("bank", [["add", 0, 1]])["reply"]), (5, 6))


def answer_at(port, words=b'{"do":"hello","secret":"apple"}\n{"do":"ping"}\n'):
    """What is answered at a port, up to the end."""
    told = b""
    try:
        with socket.create_connection(("localhost", port), 20) as connection:
            connection.sendall(words)
            connection.settimeout(5)
            while told.count(b"\n") < words.count(b"\n") and (more := connection.recv(4096)):
                told += more
    except OSError:
        pass
    return told


def try_strangers(folder, machines, server):
    """A client without a certificate, or with one of another authority, is told nothing; nor does a client talk to a
    peer that is not the server."""
    same("a client without TLS", b'"ok"' in answer_at(machines.front), False)
    front = machines.front
    words = ["openssl", "s_client", "-connect", f"localhost:{front}", "-quiet", "-no_ign_eof"]
    ran = subprocess.run(words, input=b'{"do":"hello","secret":"apple"}\n{"do":"ping"}\n', capture_output=True, timeout=30)
    same("a client without a certificate", b'"ok"' in ran.stdout, False)
    # An authority of somebody else, whose client has a good secret.
    machines.run("another authority", commands()[0])
    machines.near = free_port()
    machines.ports["7001"] = str(machines.near)
    machines.give("stranger", "client.pem", authority="another authority")
    machines.give("stranger", "ca.pem")
    stranger = machines.start("stranger", 1, machines.near)
    same("a client of another authority", answer_at(machines.near), b"")
    machines.stop(stranger)
    # Another client's certificate is no server's.
    machines.front, machines.near = free_port(), free_port()
    machines.ports.update({"7443": str(machines.front), "7001": str(machines.near)})
    machines.give("false server", "ca.pem", "client.pem")
    shutil.copy(os.path.join(machines.place("false server"), "client.pem"), os.path.join(machines.place("false server"), "localhost.pem"))
    machines.give("deceived", "ca.pem", "client.pem")
    false = machines.start("false server", 0, machines.front)
    deceived = machines.start("deceived", 1, machines.near)
    same("a client tells no secret to a peer that is not the server", answer_at(machines.near), b"")
    machines.stop(false, deceived)
    session = begun(server, "apple")
    same("the server has answered none of them", session.ask(attach(1)), stands("ready", 0))
    session.close()


def try_broken(machines, near, server):
    """The client's machine is gone while it is inside: its worker is down and keeps the lock."""
    session = begun_at(int(near_port(machines)))
    session.sendall(b'{"do":"hello","secret":"apple"}\n{"do":"attach","worker":2}\n'
                    b'{"do":"enter","lock":"bank","number":1,"script":[]}\n')
    told = b""
    session.settimeout(20)
    while told.count(b"\n") < 3 and (more := session.recv(4096)):
        told += more
    check("a client is inside", b'"stance":"held"' in told, told)
    machines.stop(near)
    session.close()
    other = begun(server, "apple")
    same("its machine is gone: its worker is down, inside", other.attach(2), {"number": 1, "ok": "attach", "stance": "held"})
    told = other.told(do="commit")
    same("its job counts", told["receipt"]["number"], 1)
    same("and the next", b'"receipt"' in other.ask(job("submit", "bank", 2)), True)
    other.close()


def near_port(machines):
    """The port of the first client's stunnel."""
    with open(os.path.join(machines.place("client"), "examples", "tunnel", "client.conf"), encoding="utf-8") as file:
        return re.search(r"^accept = 127\.0\.0\.1:(\d+)$", file.read(), re.M)[1]


def begun_at(port):
    return socket.create_connection((HOST, port), 20)


def try_unit(folder):
    """The unit's command, in this folder in place of the system's: it serves, and its keys are known."""
    path = os.path.join(EXAMPLES, "rme-keys.service")
    with open(path, encoding="utf-8") as file:
        unit = file.read()
    command = re.search(r"^ExecStart=((?:.*\\\n)*.*)", unit, re.M)[1].replace("\\\n", " ").split()
    same("the program", command[0], "/usr/local/bin/rme")
    state = os.path.join(folder, "bank.state")
    keys = put_keys(os.path.join(folder, "keys"), key_line("ops", "apple"), mode=0o640)
    replaced = {"/var/lib/rme/bank.state": state, "/etc/rme/keys": keys, "7000": "0"}
    same("it has the words that are replaced here", [word for word in replaced if word not in command], [])
    server = Server(words=[replaced.get(word, word) for word in command[1:]])
    session = begun(server, "apple")
    same("and knows its keys", session.ask(attach(7)), stands("ready", 0))
    session.close()
    server.kill()
    if not shutil.which("systemd-analyze"):
        skip("what systemd says of the unit", "there is no systemd-analyze")
        return
    program = os.path.join(folder, "rme")
    shutil.copy("/bin/true", program)
    copy = os.path.join(folder, "rme-keys.service")
    with open(copy, "w", encoding="utf-8") as file:
        file.write(unit.replace("/usr/local/bin/rme", program).replace("User=rme", f"User={pwd.getpwuid(os.geteuid()).pw_name}"))
    ran = subprocess.run(["systemd-analyze", "verify", copy], capture_output=True, text=True, timeout=60)
    same("systemd takes each line of the unit", (ran.returncode, [line for line in ran.stderr.splitlines() if copy in line]), (0, []))


def part():
    main_in_folders(try_tunnel, try_unit, minutes=5)
