"""Rows of sessions: `rme serve`, and clients that say their lines by turns."""

from lib.servers import Server
from rows.program import check, difference
from rows.reading import Client, Ends, Line, Serve, text_of


def started(words, connections):
    """A server with these words, and this number of connections."""
    return Server(words=["serve", *words, "--port", "0", "--connections", str(connections)])


def closing(server, connections):
    """What the server says of its locks, and behind that what it remarks on those with a worker inside. It must end by
    itself, and well."""
    status, closed, told = server.end()
    served, *remarks = told.splitlines(keepends=True) or [b""]
    if (status, served) == (0, f"[INFO  rme] served {connections}\n".encode()):
        return closed + b"".join(remarks)
    return f"the server ended with {status}, {told!r}\n".encode()


def heard(words, turns):
    """The answers to the clients, which wait for each answer before the next line, and what the server says at its end.
    Without a line a client ends, and the server has seen that before the next turn."""
    count = max(client for client, _ in turns)
    server = started(words, count)
    clients = {number: server.session() for number in range(1, count + 1)}
    answers = []
    for client, line in turns:
        if line is None:
            answers.append(clients.pop(client).hang_up())
        else:
            clients[client].send(line)
            answers.append(clients[client].hear())
    answers += [client.hang_up() for client in clients.values()]
    return b"".join(answers) + closing(server, count)


def check_session(name, words, turns, wanted):
    found = heard(words, turns)
    check(name, found == wanted, difference(found, wanted))


def turns_of(items):
    """Each line with the number of the client that says it; none if the client ends."""
    client, turns = 1, []
    for item in items:
        if isinstance(item, Client):
            client = item.number
        elif isinstance(item, Ends):
            turns.append((item.number, None))
        elif isinstance(item, Line):
            turns.append((client, item.text))
    return turns


def words_of(row):
    return next(item.words for item in row.items if isinstance(item, Serve))


def try_session(name, words, items, wanted):
    check_session(name, words, turns_of(items), wanted)


def try_cut_session(row):
    """The row's client goes after each byte of its lines. The job is made if its last brace was read: the next
    session sees it, and so does the lock."""
    text = text_of(row.items)
    made_from = text.index(b"]]}") + len(b"]]}")
    attach = text.split(b"\n")[0] + b"\n"
    for length in range(len(text) + 1):
        server = started(words_of(row), 2)
        first, second = server.session(), server.session()
        first.send(text[:length])
        first.hang_up()
        second.send(attach)
        found = second.hear() + second.hang_up() + closing(server, 2)
        made = int(length >= made_from)
        wanted = b'{"number":%d,"ok":"attach","stance":"ready"}\n' % made
        wanted += b"lock a cells %d entries %d\n" % (5 * made, made)
        check(f"{row.name}, after {length} bytes", found == wanted, difference(found, wanted))
