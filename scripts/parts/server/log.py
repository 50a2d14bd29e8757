"""log: `rme serve --log` has a line for each attachment, each take-over, and each worker that a session lets go or leaves, in
their order, with the time; and nothing else. Without the option there is no log."""

import datetime
import threading

from lib.checks import check, main, same
from lib.logs import lines_of, sentences_of
from lib.servers import Server, words_of


def logged(*further, **options):
    return Server(words=[*words_of(without="connections", **options), *further])


def now():
    """The time in UTC, as a log writes it."""
    return datetime.datetime.now(datetime.timezone.utc).strftime("%Y-%m-%dT%H:%M:%S.%f")[:-3] + "Z"


def leave(server, session, worker):
    """Ends a session, and waits until its worker is free: another session has attached it, which lets it go again."""
    session.close()
    other = server.session()
    other.attach(worker)
    other.ask({"do": "detach"})
    return other


def try_sessions():
    """Workers that come and go, with orders that are refused, and a session that has no worker."""
    began, server = now(), logged("--log")
    first = server.session()
    first.ask_all({"do": "attach", "worker": 0}, {"do": "attach", "worker": 1}, {"do": "detach"}, {"do": "attach", "worker": 9})
    first.ask_all({"do": "attach", "worker": 1}, {"do": "ping"})
    server.session().say({"do": "ping"}, {"do": "attach", "worker": 1})
    leave(server, first, 1)
    _, _, told = server.kill()
    wanted = [
        "connection 1 attached worker 0", "connection 1 let worker 0 go", "connection 1 attached worker 1",
        "connection 1 ended, worker 1 is free", "connection 3 attached worker 1", "connection 3 let worker 1 go",
    ]  # fmt: skip
    same("who had which worker", sentences_of(told), wanted)
    times = [time for time, _ in lines_of(told)]
    check("the times rise, and are between the start and the end", sorted([began, *times, now()]) == [began, *times, now()], times)


def try_crash():
    """A planned crash lets the worker go, and the session goes on."""
    server = logged("--log")
    session = server.session()
    session.attach(0)
    session.ask_all({"do": "crash_after", "steps": 20}, {"do": "submit", "lock": "bank", "number": 1, "script": [["add", 0, 1]]})
    session.attach(0)
    _, _, told = server.kill()
    wanted = ["connection 1 attached worker 0", "connection 1 let worker 0 go", "connection 1 attached worker 0"]
    same("a planned crash", sentences_of(told), wanted)


def try_take_over():
    """The session that had the worker ends before the other attaches it; one that is refused ends nobody's session."""
    server = logged("--log")
    owner, other = server.session(), server.session()
    owner.attach(0)
    same("one that was overtaken", other.told(do="attach", worker=0, take=True, after=0)["code"], 26)
    same("one that does not take over", other.told(do="attach", worker=0)["code"], 18)
    same("one that does", other.told(do="attach", worker=0, take=True), {"number": 0, "ok": "attach", "stance": "ready"})
    _, _, told = server.kill()
    wanted = [
        "connection 1 attached worker 0", "connection 2 takes over worker 0", "connection 1 ended, worker 0 is free",
        "connection 2 attached worker 0",
    ]  # fmt: skip
    same("a take-over", sentences_of(told), wanted)


def try_many():
    """Lines of many threads are whole, and each worker's are in their order."""
    server = logged("--log", workers=16)

    def come_and_go(worker):
        session = server.session()
        for _ in range(50):
            session.ask_all({"do": "attach", "worker": worker}, {"do": "detach"})

    threads = [threading.Thread(target=come_and_go, args=(worker,)) for worker in range(16)]
    # A pipe that nobody reads loses lines, so this one is read meanwhile.
    told = []
    reader = threading.Thread(target=lambda: told.extend(server.program.stderr))
    reader.start()
    for thread in threads:
        thread.start()
    for thread in threads:
        thread.join()
    server.program.terminate()
    reader.join()
    sentences = [sentence.split(" ", 2)[-1] for sentence in sentences_of(b"".join(told))]
    for worker in range(16):
        pair = [f"attached worker {worker}", f"let worker {worker} go"]
        same(f"worker {worker}", [sentence for sentence in sentences if sentence in pair], pair * 50)
    same("and there is no other line", len(sentences), 16 * 100)


def try_without():
    """Without the option nothing is said."""
    server = logged()
    session = server.session()
    session.ask_all({"do": "attach", "worker": 0}, {"do": "detach"}, {"do": "attach", "worker": 1})
    leave(server, session, 1)
    same("without --log", server.kill()[2], b"")


def part():
    main(try_sessions, try_crash, try_take_over, try_many, try_without)
