"""Servers with keys: the file of `--keys`, and sessions that begin with a secret."""

import hashlib
import os

from lib.servers import Server, line_of

LOCKS = ("bank",)
WORKERS = 4
KINDS = "plain", "state"
REFUSED = b'{"code":25,"error":"NotAllowed"}'
BAD_LINE = b'{"code":1,"error":"BadLine"}'


def digest_of(secret):
    """The SHA-256 of a secret, which is a text or its bytes."""
    return hashlib.sha256(secret.encode() if isinstance(secret, str) else secret).hexdigest()


def key_line(name, secret, *words):
    """A line of the file; `words` are those after the digest, by default all workers."""
    return " ".join((name, digest_of(secret), *(words or ("*",))))


def keys_text(*lines):
    return "".join(line + "\n" for line in lines).encode()


def put_keys(path, *lines, mode=0o600):
    """Writes the file under another name, and then puts it in its place, as an editor does."""
    return put(path, keys_text(*lines), mode)


def put(path, held, mode=0o600):
    with open(path + ".next", "wb") as file:
        file.write(held)
    os.chmod(path + ".next", mode)
    os.rename(path + ".next", path)
    return path


def words_for(kind, folder, keys=None, workers=WORKERS):
    """The words after `rme` for a server of this kind, whose state lies in this folder; with these keys, if any."""
    if kind == "state":
        words = ["serve", "--state", os.path.join(folder, "keys.state"), "--workers", str(workers)]
    else:
        words = ["serve", "--workers", str(workers), "--cells", "1", "--jobs", "1000"]
    return [*words, "--port", "0", *LOCKS, *(["--keys", keys] if keys is not None else [])]


def serve(kind, folder, keys=None, *further, workers=WORKERS, how=()):
    return Server(words=[*words_for(kind, folder, keys, workers), *further], how=how)


def hello(secret):
    return {"do": "hello", "secret": secret}


def greeting(name):
    """The answer to the secret of the key of this name."""
    return f'{{"name":"{name}","ok":"hello"}}'.encode()


def begun(server, secret):
    """A session that has sent its secret, whatever the answer was."""
    session = server.session()
    session.ask(hello(secret))
    return session


def lines_of(*orders):
    """The bytes of orders; orders that are bytes already stay as they are."""
    return b"".join(order if isinstance(order, bytes) else line_of(**order) for order in orders)


def rest_of(session):
    """The further answers up to the session's end, if the server ends it."""
    try:
        return session.lines.read()
    except ConnectionResetError:
        return b""
