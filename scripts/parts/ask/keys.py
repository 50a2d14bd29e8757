"""keys: `rme ask --key-file`, at servers with keys and without."""

import os

from lib.asks import ask, free_port
from lib.checks import check, main_in_folders, same
from lib.keys import KINDS, key_line, put, put_keys, serve
from lib.programs import ends_with, run


def keyed(kind, folder):
    place = os.path.join(folder, kind)
    os.mkdir(place)
    keys = put_keys(os.path.join(place, "keys"), key_line("ops", "apple"), key_line("looks", "banana", "-"))
    return serve(kind, place, keys, "--socket", os.path.join(place, "socket"))


def secret_in(folder, held):
    return ["--key-file", put(os.path.join(folder, "secret"), held)]


def try_right(folder):
    """The first line of the file, without the spaces around it."""
    files = {"a line": b"apple\n", "no newline": b"apple", "CRLF": b"apple\r\n", "spaces": b" \tapple \n", "two lines": b"apple\nx\n"}
    for kind in KINDS:
        server = keyed(kind, folder)
        for name, held in files.items():
            told = ask(server, *secret_in(folder, held), "ping")
            same(f"{kind}: a file with {name}", told, (0, "the server answers\n", ""))
        told = ask((free_port(), server), *secret_in(folder, b"apple\n"), "ping")
        same(f"{kind}: the second of two servers", told, (0, "the server answers\n", ""))
        told = ends_with(run(["ask", "--socket", server.path, "ping", *secret_in(folder, b"apple\n")]))
        same(f"{kind}: over a Unix socket", told, (0, b"the server answers\n", b""))
        lines = b'{"do":"attach","worker":3}\n{"do":"hello","secret":"apple"}\n'
        wanted = '{"number":0,"ok":"attach","stance":"ready"}\n{"code":1,"error":"BadLine"}\n'
        same(f"{kind}: lines behind it", ask(server, *secret_in(folder, b"apple\n"), given=lines), (0, wanted, ""))
        lines = b'{"do":"hello","secret":"apple"}\n{"do":"ping"}\n'
        wanted = '{"name":"ops","ok":"hello"}\n{"ok":"ping"}\n'
        same(f"{kind}: or the secret as a line", ask(server, given=lines), (0, wanted, ""))
        status, told, _ = ask(server, *secret_in(folder, b"apple\n"), "finish", "2")
        check(f"{kind}: finish", status == 0 and told.startswith("worker 2 has no pending job"), (status, told))
        if kind == "state":
            told = ask(server, *secret_in(folder, b"banana\n"), "owner", "bank")
            same("a look-up by a key without workers", told, (0, "LOCK  OWNER\nbank  nobody\n", ""))
            status, told, _ = ask(server, *secret_in(folder, b"banana\n"), "top", "--count", "1")
            check("top", status == 0 and told.startswith("LOCK"), (status, told))
        server.kill()


def try_refused(folder):
    """A refusal is explained, status 1; nothing is asked behind it."""
    for kind in KINDS:
        server = keyed(kind, folder)
        rows = {
            "no secret": (["ping"], []),
            "a wrong secret": (["ping"], secret_in(folder, b"melon-secret\n")),
            "a worker that the key does not allow": (["finish", "0"], ["--key-file", put(os.path.join(folder, "looks"), b"banana\n")]),
            "an empty file": (["ping"], ["--key-file", put(os.path.join(folder, "empty"), b"")]),
        }
        for name, (words, key) in rows.items():
            status, told, why = ask(server, *key, *words)
            known = why.startswith("rme: refused: 25 NotAllowed: ") and "secret" in why
            check(f"{kind}: {name}", (status, told) == (1, "") and known, (status, told, why))
            check(f"{kind}: {name}: no secret is said", "melon" not in why and "banana" not in why, why)
        told = ask(server, "--json", *secret_in(folder, b"melon\n"), "ping")
        same(f"{kind}: as a line", told[:2], (1, '{"code":25,"error":"NotAllowed"}\n'))
        server.kill()
        server = serve(kind, folder)
        status, _, why = ask(server, *secret_in(folder, b"apple\n"), "ping")
        check(f"{kind}: a server without keys", status == 1 and "1 BadLine" in why, (status, why))
        server.kill()


def try_files(folder):
    """Files that cannot be read: before anything is connected to."""
    for name, status in {"gone": 3, "": 2}.items():
        told = ends_with(run(["ask", "--key-file", os.path.join(folder, name) if name else "", "--port", "1", "ping"]))
        check(f"a file {name or 'of no name'}", told[:2] == (status, b"") and told[2], told)
    for name, held in {"bytes": b"\xff\xfe\n"}.items():
        told = ends_with(run(["ask", "--key-file", put(os.path.join(folder, name), held), "--port", "1", "ping"]))
        check("a file that is no text", told[0] in (2, 3) and told[1] == b"" and told[2], told)
    told = ends_with(run(["ask", "--key-file", folder, "--port", "1", "ping"]))
    check("a folder", told[0] in (2, 3) and told[2], told)
    told = ends_with(run(["ask", "--key-file", os.path.join(folder, "a\x1bb"), "--port", "1", "ping"]))
    check("a name that steers no terminal", told[0] == 3 and b"\x1b" not in told[2], told)


def part():
    main_in_folders(try_right, try_refused, try_files, minutes=4)
