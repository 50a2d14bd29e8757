"""A gateway between a server and a node of etcd, which passes requests and answers of HTTP on, or does worse.

What it does with a request is its manner, which may be changed at any time: a function of the request's number from 1, of its
bytes, and of a function that has the node answer it. The manner gives the bytes that are sent back. While a gateway is frozen
nothing passes; what came meanwhile goes on to the node when that is over."""

import socket
import threading
import time

from lib.peers import Peer
from lib.servers import HOST


class Ended(Exception):
    """The connection is closed, after these bytes were sent back."""

    def __init__(self, last=b""):
        super().__init__()
        self.last = last


def message_of(lines):
    """The bytes of the next request or answer; none at the end of the connection."""
    head = []
    while (line := lines.readline()) not in (b"\r\n", b""):
        head.append(line)
    if not line:
        return b""
    fields = dict(line.rstrip().lower().split(b": ", 1) for line in head[1:])
    held = b"".join(head) + line
    if fields.get(b"transfer-encoding") == b"chunked":
        return held + chunks_of(lines)
    return held + lines.read(int(fields.get(b"content-length", 0)))


def chunks_of(lines):
    """A body in chunks, up to the empty one."""
    held = []
    while not held or int(held[-2], 16):
        size = lines.readline()
        held += size, lines.read(int(size, 16) + 2)
    return b"".join(held)


# ---- manners


def whole(_number, request, answer):
    return answer(request)


def delayed(seconds):
    """Each request goes on to the node after this time, whether anybody still waits for its answer."""

    def manner(_number, request, answer):
        time.sleep(seconds)
        return answer(request)

    return manner


def each_third(worse):
    """Does this to every third request, and passes the others on."""

    def manner(number, request, answer):
        return (whole if number % 3 else worse)(number, request, answer)

    return manner


def unanswered(_number, request, answer):
    """The node does what it was asked, and nobody is told."""
    answer(request)
    raise Ended


def unsent(_number, _request, _answer):
    raise Ended


def halved(_number, request, answer):
    told = answer(request)
    raise Ended(told[: len(told) // 2])


def doubled(_number, request, answer):
    """The answer comes twice."""
    return 2 * answer(request)


def asked_twice(_number, request, answer):
    """The node is asked twice, and its second answer is passed on."""
    answer(request)
    return answer(request)


def answering(held, is_asked=False):
    """These bytes come in place of the node's answer, whether or not the node is asked."""

    def manner(_number, request, answer):
        if is_asked:
            answer(request)
        raise Ended(held)

    return manner


def body_of(held, status=b"200 OK"):
    return b"HTTP/1.1 %s\r\nContent-Type: application/json\r\nContent-Length: %d\r\n\r\n%s" % (status, len(held), held)


# What no node answers. None of it says that anything was made, or by whom.
GARBAGE = {
    "nothing": b"",
    "no HTTP": b"SSH-2.0-OpenSSH_9.2\r\n",
    "zeros": bytes(5000),
    "another version": b"HTTP/9.9 200 OK\r\n\r\n{}",
    "no length": b"HTTP/1.1 200 OK\r\nContent-Length: many\r\n\r\n{}",
    "two lengths": b"HTTP/1.1 200 OK\r\nContent-Length: 2\r\nContent-Length: 3\r\n\r\n{}}",
    "a great length": b"HTTP/1.1 200 OK\r\nContent-Length: 18446744073709551616\r\n\r\n{}",
    "a bad chunk": b"HTTP/1.1 200 OK\r\nTransfer-Encoding: chunked\r\n\r\nxyz\r\n{}\r\n0\r\n\r\n",
    "no last chunk": b"HTTP/1.1 200 OK\r\nTransfer-Encoding: chunked\r\n\r\n2\r\n{}\r\n",
    "a long header": b"HTTP/1.1 200 OK\r\nX: " + b"x" * 200_000 + b"\r\n\r\n",
    "many headers": b"HTTP/1.1 200 OK\r\n" + b"X: x\r\n" * 1000 + b"\r\n",
    "no object": body_of(b"made"),
    "half an object": body_of(b'{"header":{"cluster_id":"1"},"succ'),
    "a number": body_of(b"1"),
    "a list": body_of(b"[" * 10_000),
    "no UTF-8": body_of(b'{"succeeded":"\xff\xfe"}'),
    "a member of another kind": body_of(b'{"succeeded":"yes","responses":7}'),
    "status 500": body_of(b"", b"500 Internal Server Error"),
    "status 503": body_of(b'{"error":"etcdserver: request timed out","code":14}', b"503 Service Unavailable"),
    "status 404": body_of(b"404 page not found\n", b"404 Not Found"),
    "status 302": b"HTTP/1.1 302 Found\r\nLocation: http://127.0.0.1:1/\r\nContent-Length: 0\r\n\r\n",
    "status 204": b"HTTP/1.1 204 No Content\r\n\r\n",
}


class Gateway(Peer):
    """Listens, and passes on to the node at this port."""

    def __init__(self, node_port, manner=whole):
        self.node_port, self.manner, self.count = node_port, manner, 0
        self.is_open, self.counting = threading.Event(), threading.Lock()
        self.is_open.set()
        super().__init__(Gateway.pass_on)

    @property
    def engine(self):
        return f"{HOST}:{self.port}"

    def freeze(self):
        self.is_open.clear()

    def thaw(self):
        self.is_open.set()

    def pass_on(self, connection, lines, _number):
        with socket.create_connection((HOST, self.node_port), 30) as node, node.makefile("rb") as answers:

            def answer(request):
                node.sendall(request)
                if not (told := message_of(answers)):
                    raise Ended
                return told

            try:
                while request := message_of(lines):
                    self.is_open.wait()
                    with self.counting:
                        self.count += 1
                        number = self.count
                    told = self.manner(number, request, answer)
                    self.is_open.wait()
                    connection.sendall(told)
            except Ended as ended:
                connection.sendall(ended.last)

    def __enter__(self):
        return self

    def __exit__(self, *_):
        self.close()
        self.thaw()
