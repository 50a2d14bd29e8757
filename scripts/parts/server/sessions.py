"""sessions [SEED]: sessions over connections that fail.

Clients of clients/python behind a proxy that cuts their connections at random bytes, and connections that send what they
have up to a random byte and are reset: at the end each job has counted once, by its receipt, by its lock's cells and by the
number of entries. Then clients that are slow, that never read, or that send a line of 100 MB beside one that does
none of these. At last the example's own run, and the sessions of docs/server.md.
"""

import json
import os
import random
import signal
import socket
import subprocess
import sys
import threading
import time

from lib import servers
from lib.checks import Stop, check, fail, main, note
from lib.programs import TOP
from lib.servers import HOST, RESET, line_of, reset

CLIENTS = os.path.join(TOP, "clients", "python")
sys.path.insert(0, CLIENTS)
from rme_client import Done, Overtaken, Worker  # noqa: E402

MOST_CONNECTIONS = 1000
SEED = int(sys.argv[1]) if len(sys.argv) > 1 else random.randrange(10**6)


def read_text(connection):
    """The next answer, byte by byte, so that nothing behind it is read."""
    held = b""
    while not held.endswith(b"\n"):
        byte = connection.recv(1)
        if not byte:
            raise OSError("closed")
        held += byte
    return held


def in_threads(parts):
    """Runs all of these calls beside each other. What one of them raises is a failure."""

    def run(part):
        try:
            part()
        except Exception as error:
            fail("a client ended", repr(error))

    threads = [threading.Thread(target=run, args=(part,), daemon=True) for part in parts]
    for thread in threads:
        thread.start()
    for thread in threads:
        thread.join()


class Server(servers.Server):
    """A server of many connections; those that are not needed are used up at the end."""

    def __init__(self, workers, cells, *locks, connections=MOST_CONNECTIONS):
        super().__init__(locks, workers=workers, cells=cells, jobs=100_000, connections=connections)
        if not self.port:
            raise Stop(f"the server said {self.first}, {self.program.stderr.read()}")

    def close(self):
        """Ends the server, which must end well, and answers the cells and the number of entries of each lock."""
        status, told, said = self.use_up()
        served = said.startswith(b"[INFO") and said.endswith(b" served %d\n" % self.connections) and said.count(b"\n") == 1
        check("the server ended well", status == 0 and served, (status, told, said))
        closed = {}
        for line in told.decode().splitlines():
            words = line.split()
            closed[words[1]] = ([int(cell) for cell in words[3:-2]], int(words[-1]))
        return closed


# ---- clients behind a proxy that cuts


class Proxy:
    """Passes bytes on between clients and a server, and cuts each connection after this number of bytes one way or the
    other."""

    def __init__(self, server, numbers):
        self.server, self.numbers = server, numbers
        self.listener = socket.create_server((HOST, 0), backlog=64)
        self.port = self.listener.getsockname()[1]
        self.cut = 0
        threading.Thread(target=self.accept, daemon=True).start()

    def accept(self):
        while True:
            try:
                client, _ = self.listener.accept()
            except OSError:
                return
            # The last connections are not cut: each client may need one to end on.
            cuts = (None, None)
            if self.server.left > 8:
                cuts = (self.numbers.randrange(1, 600), self.numbers.randrange(1, 600))
            self.pass_on(client, self.server.connect(), cuts)

    def pass_on(self, client, inner, cuts):
        client.setsockopt(socket.IPPROTO_TCP, socket.TCP_NODELAY, 1)
        hard = self.numbers.random() < 0.5
        for way in ((client, inner, cuts[0], hard), (inner, client, cuts[1], hard)):
            threading.Thread(target=self.pump, args=way, daemon=True).start()

    def pump(self, giver, taker, cut, hard):
        """Passes bytes one way up to the cut, and ends both ways: by a reset, or by a close."""
        try:
            while True:
                held = giver.recv(4096 if cut is None else min(4096, cut))
                if not held:
                    break
                taker.sendall(held)
                if cut is not None:
                    cut -= len(held)
                    if cut == 0:
                        self.cut += 1
                        break
        except OSError:
            pass
        for end in (giver, taker):
            self.end(end, hard)

    @staticmethod
    def end(connection, hard):
        try:
            if hard:
                connection.setsockopt(socket.SOL_SOCKET, socket.SO_LINGER, RESET)
            connection.shutdown(socket.SHUT_RDWR)
        except OSError:
            pass
        connection.close()


def enter(worker, lock, script, inside):
    """The receipt of a job in whose lock no other worker may be: `inside` has the worker inside each lock."""
    number = None
    while True:
        try:
            return entered(worker, lock, script, number, inside)
        except Done as done:
            return done.receipt
        except Overtaken as overtaken:  # the answer to its own coming back was lost
            if overtaken.found is not None:
                raise
            number = overtaken.number


def entered(worker, lock, script, number, inside):
    with worker.inside(lock, script, number) as held:
        others = inside.setdefault(lock, worker.worker)
        if others != worker.worker:
            fail("only one worker inside", f"{worker.worker} beside {others}")
        time.sleep(0.0002)
        del inside[lock]
    return held.receipt


def try_cut_clients(numbers):
    """Eight clients with 125 jobs each, on two locks, of which some are entered. Each job adds a number of its own."""
    server = Server(8, 1, "bank", "shop")
    proxy = Proxy(server, numbers)
    added = numbers.sample(range(1, 10**9), 1000)
    receipts, inside = [], {}

    def client(worker):
        own = Worker(HOST, proxy.port, worker)
        for job in range(worker, 1000, 8):
            lock, script = ("bank", "shop")[numbers.randrange(2)], [["add", 0, added[job]]]
            receipt = enter(own, lock, script, inside) if job % 3 == 0 else own.submit(lock, script)
            receipts.append((receipt, worker, added[job], lock))
        own.close()

    in_threads([lambda worker=worker: client(worker) for worker in range(8)])
    proxy.listener.close()
    told = f"{proxy.cut} cuts, {MOST_CONNECTIONS - server.left} connections"
    closed = server.close()
    check(f"1,000 jobs of 8 clients have their receipts: {told}", len(receipts) == 1000 and proxy.cut > 100, len(receipts))
    check_receipts(receipts, closed)


def check_receipts(receipts, closed):
    """By their places, the receipts of each lock are its whole history: each reply is the sum up to there."""
    wrong = []
    for lock, (cells, entries) in closed.items():
        own = sorted((receipt["place"], receipt, worker, value) for receipt, worker, value, asked in receipts if asked == lock)
        total = 0
        for place, (_, receipt, worker, value) in enumerate(own):
            total += value
            if (receipt["place"], receipt["reply"], receipt["worker"], receipt["lock"]) != (place, total, worker, lock):
                wrong.append((receipt, place, total))
        if (cells, entries) != ([total], len(own)):
            wrong.append((lock, cells, entries, total, len(own)))
    check("each job is at one place of its lock, the cell is the sum, and no entry is left over", not wrong, wrong[:3])


# ---- connections that are reset

WORKERS, AT_ONCE = 48, 64
LOCKS = ["a", "b", "c", "d"]


def job_of(worker, number):
    """Each job adds 1 to the first cell of a lock, and its number to the second."""
    return LOCKS[(worker + number) % len(LOCKS)], [["add", 0, 1], ["add", 1, number]]


def submit_line(worker, number):
    lock, script = job_of(worker, number)
    return line_of(do="submit", lock=lock, number=number, script=script, tries=50)


def attach_some(connection, numbers):
    """Attaches a worker that no other session has, and answers it and its next number, or the pending one."""
    while True:
        worker = numbers.randrange(WORKERS)
        connection.sendall(line_of(do="attach", worker=worker))
        answer = json.loads(read_text(connection))
        if "code" not in answer:
            return worker, answer["number"] + (answer["stance"] == "ready")
        time.sleep(0.002)


def broken_session(server, numbers, known):
    """Attaches a worker, sends some jobs up to a random byte, reads some bytes or none, and resets the connection.
    `known` has the numbers that were seen last: a third of the sessions go by these, and wait for no answer."""
    connection = server.connect()
    try:
        if numbers.random() < 0.67:
            worker, number = attach_some(connection, numbers)
            known[worker] = number
            text = b""
        else:
            worker = numbers.randrange(WORKERS)
            text = line_of(do="attach", worker=worker)
        if numbers.random() < 0.3:
            text += line_of(do="crash_after", steps=numbers.randrange(200))
        for further in range(numbers.randrange(1, 12)):
            text += submit_line(worker, known[worker] + further)
        connection.sendall(text[: numbers.randrange(len(text) + 1)])
        if numbers.random() < 0.7:
            connection.settimeout(0.02)
            connection.recv(numbers.randrange(1, 1000))
    except OSError:
        pass
    finally:
        reset(connection)


def finish(server, worker, last):
    """Attaches the worker, makes it finish what it has pending, and keeps the number of its last job."""
    client = server.session()
    answer = client.attach(worker)
    last[worker] = answer["number"]
    while answer.get("stance", "ready") != "ready" or "waiting" in answer:
        answer = client.told(do="resume", tries=20)
    client.close()
    if "code" in answer or "fell" in answer:
        raise ValueError(answer)


def try_resets(numbers):
    server = Server(WORKERS, 2, *LOCKS)
    known = [1] * WORKERS
    # Each worker is attached once more, and as many clients may begin their last session at once.
    spare = WORKERS + AT_ONCE

    def client():
        while server.left > spare:
            broken_session(server, numbers, known)

    in_threads([client] * AT_ONCE)
    broken = MOST_CONNECTIONS - server.left
    # All at once: a worker that is down in its lock is waited for by the others.
    last = [0] * WORKERS
    in_threads([lambda worker=worker: finish(server, worker, last) for worker in range(WORKERS)])
    closed = server.close()
    wanted = {lock: ([0, 0], 0) for lock in LOCKS}
    for worker in range(WORKERS):
        for number in range(1, last[worker] + 1):
            lock, _ = job_of(worker, number)
            (count, total), _ = wanted[lock]
            wanted[lock] = ([count + 1, total + number], count + 1)
    told = f"{broken} sessions reset, {sum(last)} jobs made"
    check(f"each number of each worker has counted once: {told}", closed == wanted and sum(last) > 0, (closed, wanted))


# ---- clients that others must not feel


def hundred_jobs(session, number):
    """Makes jobs from this number on, and answers the seconds that they took."""
    began = time.monotonic()
    for further in range(100):
        answer = session.told(do="submit", lock="a", number=number + further, script=[["add", 0, 1]])
        if "receipt" not in answer:
            raise Stop(f"a job beside slow clients: {answer}")
    return time.monotonic() - began


def long_line(server, told):
    """A line of 100 MB, and one more line behind it."""
    client = server.session()
    piece = b"x" * 2**20
    for _ in range(100):
        client.connection.sendall(piece)
    client.connection.sendall(b"\n")
    told.append(json.loads(client.lines.readline()))
    told.append(client.told(do="attach", worker=1))
    client.close()


def slow_line(server, told):
    """A byte a second."""
    client = server.connect()
    for byte in line_of(do="last"):
        client.sendall(bytes([byte]))
        time.sleep(1)
    told.append(json.loads(read_text(client)))
    client.close()


def unread_answers(server):
    """A thousand lines at once, and then as many as the server takes; no answer is read."""
    client = server.connect()
    client.setsockopt(socket.SOL_SOCKET, socket.SO_RCVBUF, 4096)
    first = line_of(do="attach", worker=2) + line_of(do="submit", lock="a", number=1, script=[["add", 0, 1]])
    client.sendall(first + line_of(do="last") * 998)
    client.settimeout(2)
    sent = 1000
    try:
        while sent < 1_000_000:
            client.sendall(line_of(do="last") * 1000)
            sent += 1000
    except TimeoutError:
        pass
    return client, sent


def try_slow_clients():
    server = Server(4, 1, "a", connections=4)
    long, slow, seconds = [], [], []
    unread, sent = unread_answers(server)
    check("a client that reads nothing is waited for, once the buffers are full", sent < 1_000_000, sent)
    threads = [threading.Thread(target=long_line, args=(server, long)), threading.Thread(target=slow_line, args=(server, slow))]
    for thread in threads:
        thread.start()
    session = server.session()
    number = session.attach(0)["number"]
    while any(thread.is_alive() for thread in threads):
        seconds.append(hundred_jobs(session, number + 1))
        number += 100
        time.sleep(0.05)
    wanted = [{"code": 2, "error": "LineTooLong"}, {"number": 0, "ok": "attach", "stance": "ready"}]
    check("a line of 100 MB is too long, and the session goes on", long == wanted, long)
    check("the line is not kept", server.most_memory() < 65_536, server.most_memory())
    check("a line that comes byte by byte is answered", slow == [{"code": 19, "error": "NotAttached"}], slow)
    told = f"at most {max(seconds) * 1000:.0f} ms, {len(seconds)} times"
    check(f"100 jobs beside these take less than a second: {told}", max(seconds) < 1, told)
    reset(unread)
    session.close()
    closed = server.close()
    check("their jobs are counted", closed == {"a": ([number + 1], number + 1)}, (closed, number))


# ---- what the documents show


def try_example():
    """The client's own run: three jobs that add 5, 10 and 20."""
    server = Server(2, 1, "bank", connections=1)
    server.left -= 1
    words = [sys.executable, os.path.join(CLIENTS, "three_jobs.py"), str(server.port), "1"]
    ran = subprocess.run(words, capture_output=True, text=True, timeout=60)
    jobs = enumerate((5, 15, 35))
    wanted = [{"lock": "bank", "number": place + 1, "place": place, "reply": reply, "worker": 1} for place, reply in jobs]
    told = ran.stdout == "".join(f"{receipt}\n" for receipt in wanted)
    check("the example's run", (ran.returncode, ran.stderr, told) == (0, "", True), ran)
    check("its jobs are counted", server.close() == {"bank": ([35], 3)})


# After 20 of the job's 28 own steps the worker is down and still owns the lock.
SUBMIT_1 = '{"do":"submit","lock":"bank","number":1,"script":[["add",0,5]]}'
RECEIPT_1 = '{"ok":"submit","receipt":{"lock":"bank","number":1,"place":0,"reply":5,"worker":0}}'
PLANNED_CRASH = [
    ('{"do":"attach","worker":0}', '{"number":0,"ok":"attach","stance":"ready"}'),
    ('{"do":"crash_after","steps":20}', '{"ok":"crash_after"}'),
    (SUBMIT_1, '{"fell":true,"ok":"submit"}'),
    ('{"do":"attach","worker":0}', '{"number":1,"ok":"attach","stance":"held"}'),
    (SUBMIT_1, RECEIPT_1),
    (SUBMIT_1, RECEIPT_1),
    (SUBMIT_1.replace('"number":1', '"number":3'), '{"code":16,"error":"WrongNumber","expected":2}'),
    ('{"do":"detach"}', '{"ok":"detach"}'),
]


def of_page(heading):
    """The lines of a session of docs/server.md, and the answers that stand beside them."""
    with open(os.path.join(TOP, "docs", "server.md"), encoding="utf-8") as page:
        part = page.read().split(f"# {heading}\n")[1].split("\n## ")[0]
    return [tuple(line.split("`")[1:4:2]) for line in part.splitlines() if line.startswith("| `{")]


def try_lines(name, rows):
    """The lines of a session have these answers."""
    server = Server(2, 1, "bank", connections=1)
    client = server.connect()
    wrong = []
    for line, answer in rows:
        client.sendall(line.encode() + b"\n")
        told = read_text(client)
        if told != answer.encode() + b"\n":
            wrong.append((line, told))
    client.close()
    check(f"{name}, {len(rows)} lines", rows and not wrong, wrong)
    server.close()


def too_long(*_):
    print("FAIL no end after 5 minutes", flush=True)
    os._exit(1)


def begin():
    note(f"seed {SEED}")
    signal.signal(signal.SIGALRM, too_long)
    signal.alarm(300)


def part():
    main(
        begin,
        lambda: try_cut_clients(random.Random(SEED)),
        lambda: try_resets(random.Random(SEED)),
        try_slow_clients,
        try_example,
        lambda: try_lines("a planned crash", PLANNED_CRASH),
        lambda: try_lines("work of your own inside a lock", of_page("Work of your own inside a lock")),
    )
