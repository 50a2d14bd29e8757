"""crowd: a thousand wrong secrets at once do not stop a client that has a key, even if they fill all sessions of the
server."""

import os
import threading
import time

from lib.checks import check, main_in_folders, note, same
from lib.clients import Worker
from lib.keys import KINDS, REFUSED, begun, greeting, hello, key_line, put_keys, serve
from lib.limits import raise_files
from lib.orders import attach, job, stands
from lib.servers import HOST, line_of

MOST = 1000
PLENTY = 4096  # files of this process, and of each server


def wrong_ones(server, count):
    """Sessions that have sent a wrong secret, and wait for the answer."""
    sessions = [server.session() for _ in range(count)]
    for at, session in enumerate(sessions):
        session.send(line_of(**hello(f"wrong {at}")))
    return sessions


def try_beside(folder):
    """There is room for all: the client is served as if they were not there."""
    raise_files(PLENTY)
    keys = put_keys(os.path.join(folder, "keys"), key_line("ops", "apple"))
    for kind in KINDS:
        server = serve(kind, folder, keys, "--at-once", "1100")
        old = begun(server, "apple")
        old.ask(attach(0))
        began = time.monotonic()
        crowd = wrong_ones(server, MOST)
        note(f"{kind}: {MOST} wrong secrets were sent in {time.monotonic() - began:.1f} seconds")
        began = time.monotonic()
        same(f"{kind}: a session that runs", b'"receipt"' in old.ask(job("submit", "bank", 1)), True)
        new = server.session()
        same(f"{kind}: one that begins", new.ask_all(hello("apple"), attach(1)), [greeting("ops"), stands("ready", 0)])
        took = time.monotonic() - began
        # One after another they would take 1,000 seconds.
        check(f"{kind}: neither waits for the others", took < 100, f"{took:.1f} seconds")
        note(f"{kind}: both were served within {took:.2f} seconds")
        told = {(session.hear().rstrip(b"\n"), session.hear()) for session in crowd}
        same(f"{kind}: each wrong secret is refused, and its session ended", told, {(REFUSED, b"")})
        for session in (old, new, *crowd):
            session.close()
        server.kill()


def try_full(folder):
    """They take all sessions, and each tries again after a tenth of a second: a client that tries on is served meanwhile.
    Nothing is said of strangers that try on without a pause: whoever tries most often is served first."""
    keys = put_keys(os.path.join(folder, "keys"), key_line("ops", "apple"))
    for kind in KINDS:
        server = serve(kind, folder, keys, "--at-once", "50")
        over = threading.Event()

        def knock():
            while not over.is_set():
                try:
                    session = server.session()
                    session.send(line_of(**hello("wrong")))
                    session.hear()
                    session.close()
                except OSError:
                    pass
                time.sleep(0.1)

        threads = [threading.Thread(target=knock, daemon=True) for _ in range(60)]
        for thread in threads:
            thread.start()
        time.sleep(2)
        began = time.monotonic()
        with Worker(HOST, server.port, 0, connect_timeout=200, secret="apple") as worker:
            same(f"{kind}: a job counts", worker.submit("bank", [["add", 0, 5]])["number"], 1)
        note(f"{kind}: it took {time.monotonic() - began:.1f} seconds")
        over.set()
        for thread in threads:
            thread.join(30)
        server.kill()


def part():
    main_in_folders(try_beside, try_full, minutes=10)
