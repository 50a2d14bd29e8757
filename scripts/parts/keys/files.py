"""files: the file of `--keys` at a start of both servers. What is no such file ends the start with a status and a sentence, and
nothing is changed; each bad line is named by its number."""

import os

from lib.checks import check, main_in_folders, same
from lib.kept import end_of, without_count
from lib.keys import KINDS, REFUSED, begun, digest_of, greeting, hello, key_line, keys_text, put, put_keys, serve, words_for

APPLE, BANANA = digest_of("apple"), digest_of("banana")
GOOD = key_line("first", "cherry").encode()


def refusal(kind, folder, keys, **how):
    """How a start ends that these keys keep from serving."""
    return end_of(words_for(kind, folder, keys), **how)


def check_refused(name, kind, folder, keys, status, *words, **how):
    """The start must end so, with one line on the standard error that has these words, and must leave nothing behind."""
    there = sorted(os.listdir(folder))
    ended = refusal(kind, folder, keys, **how)
    told = ended[2].decode("utf-8", "replace")
    is_told = told.startswith("rme: --keys: ") and all(word in told for word in words) and told.count("\n") == 1
    check(f"{kind}: {name}", (ended[0], ended[1]) == (status, b"") and is_told, ended)
    same(f"{kind}: {name}, nothing is changed", sorted(os.listdir(folder)), there)


def check_served(name, kind, folder, keys, *greeted):
    """The start must serve, and greet each of these secrets by the name of its key; one whose name is None is refused."""
    server = serve(kind, folder, keys)
    for secret, key in greeted:
        session = server.session()
        same(f"{kind}: {name}", session.ask(hello(secret)), REFUSED if key is None else greeting(key))
        session.close()
    same(f"{kind}: {name}, and says nothing", without_count(server.kill()[2]), b"")


def each_kind(folder, checks):
    for kind in KINDS:
        place = os.path.join(folder, kind)
        os.mkdir(place)
        checks(kind, place)


def try_modes(folder):
    """Who may read and write the file: other users may not."""

    def checks(kind, place):
        keys = os.path.join(place, "keys")
        for mode in (0o604, 0o602, 0o606, 0o644, 0o666, 0o004, 0o646, 0o777):
            put_keys(keys, key_line("ops", "apple"), mode=mode)
            check_refused(f"mode {mode:04o}", kind, place, keys, 2)
        for mode in (0o600, 0o640, 0o660, 0o601, 0o700):
            put_keys(keys, key_line("ops", "apple"), mode=mode)
            check_served(f"mode {mode:04o}", kind, place, keys, ("apple", "ops"))
        os.symlink(keys, os.path.join(place, "link"))
        put_keys(keys, key_line("ops", "apple"))
        check_served("a link to it", kind, place, os.path.join(place, "link"), ("apple", "ops"))
        os.chmod(keys, 0o644)
        check_refused("a link to one that others read", kind, place, os.path.join(place, "link"), 2)

    each_kind(folder, checks)


def try_others(folder):
    """What is no file, or cannot be read. No pipe is waited for."""

    def checks(kind, place):
        path = os.path.join(place, "thing")
        os.mkdir(path)
        check_refused("a folder", kind, place, path, 2)
        os.rmdir(path)
        os.mkfifo(path)
        check_refused("a pipe", kind, place, path, 2)
        os.remove(path)
        check_refused("a device", kind, place, "/dev/null", 2)
        check_refused("nothing of this name", kind, place, path, 3)
        os.symlink(os.path.join(place, "gone"), path)
        check_refused("a link to nothing", kind, place, path, 3)
        os.remove(path)
        check_refused("no folder of this name", kind, place, os.path.join(place, "no", "keys"), 3)
        check_refused("a path through a file", kind, place, "/etc/passwd/keys", 3)
        check_refused("a name that is too long", kind, place, os.path.join(place, "k" * 300), 3)
        try_unreadable(kind, place)
        ended = refusal(kind, place, "")
        check(f"{kind}: no name", ended[0] in (2, 3) and ended[2], ended)

    each_kind(folder, checks)


def try_unreadable(kind, place):
    """A file that the server may not read; root may read each, so that its server runs as somebody else then."""
    keys = put_keys(os.path.join(place, "unread"), key_line("ops", "apple"), mode=0o200)
    how = {}
    if os.geteuid() == 0:
        for folder in (place, os.path.dirname(place), os.path.dirname(os.path.dirname(place))):
            os.chmod(folder, 0o711)
        how = {"user": "nobody"}
    check_refused("a file that it may not read", kind, place, keys, 3, **how)


def try_beside(folder):
    """A start that is refused has not listened: a socket's path and the state are as they were."""
    keys = os.path.join(folder, "keys")
    put_keys(keys, "no key")
    for kind in KINDS:
        path = os.path.join(folder, "socket")
        ended = end_of([*words_for(kind, folder, keys), "--socket", path])
        same(f"{kind}: a bad line", (ended[0], ended[1], sorted(os.listdir(folder))), (2, b"", ["keys"]))
    put_keys(keys, key_line("ops", "apple"))
    serve("state", folder, keys).kill()
    with open(os.path.join(folder, "keys.state"), "rb") as file:
        held = file.read()
    put_keys(keys, "no key")
    same("with more workers than the state has", end_of(words_for("state", folder, keys, workers=6))[0], 2)
    with open(os.path.join(folder, "keys.state"), "rb") as file:
        same("the state does not grow", file.read(), held)


def try_good(folder):
    """Good files, and the keys that they have."""

    def checks(kind, place):
        keys = os.path.join(place, "keys")
        rows = {
            "an empty file": (b"", ("apple", None)),
            "only blank lines and comments": (b"\n \t\n# apple\n  #\n#" + APPLE.encode() + b"\n", ("apple", None)),
            "no newline at the end": (key_line("ops", "apple").encode(), ("apple", "ops")),
            "tabs, spaces and a comment": (f"\t ops \t{APPLE}\t\t0-3,7  +tenant-7,team-*  # the team".encode(), ("apple", "ops")),
            "a comment that touches": (f"ops {APPLE} *#the team\n#ops".encode(), ("apple", "ops")),
            "a comment of all bytes": (b"#" + bytes(set(range(256)) - {10}) + f"\nops {APPLE} * #\xff\n".encode("latin-1"), ("apple", "ops")),
            "capital digits": (f"ops {APPLE.upper()} -\n".encode(), ("apple", "ops")),
            "two keys": (f"#\n\na {APPLE} 0\n\nb {BANANA} -\n".encode(), ("apple", "a"), ("banana", "b"), ("cherry", None)),
            "names by case": (f"a {APPLE} 0\nA {BANANA} 0\n".encode(), ("apple", "a"), ("banana", "A")),
            "a carriage return in a comment": (f"ops {APPLE} * #\r\n#\r\n".encode(), ("apple", "ops")),
            "255 keys": (keys_text(*(key_line(f"n{at}", f"s{at}") for at in range(255))), ("s0", "n0"), ("s254", "n254")),
        }
        for name, (held, *greeted) in rows.items():
            check_served(name, kind, place, put(keys, held), *greeted)
        workers = ("0", "255", "0-255", "7-7,7,0-3", "007", "0,0", "-", "*")
        spaces = ("*", "+*", "a", "+a-b_c,d*", "a*", "0" * 64, "0" * 64 + "*", "-", "_", "a,b,c")
        lines = [f"ops {APPLE} {word}" for word in workers] + [f"ops {APPLE} * {word}" for word in spaces]
        for line in lines:
            check_served(line.replace(APPLE, "..")[:60], kind, place, put(keys, line.encode()), ("apple", "ops"))

    each_kind(folder, checks)


# Lines that are no keys, by a word of the sentence that says why.
BAD = {
    "NAME SHA256 WORKERS": {
        "only a name": b"ops",
        "no workers": f"ops {APPLE}".encode(),
        "no workers before a comment": f"ops {APPLE} #*".encode(),
        "five words": f"ops {APPLE} * * *".encode(),
        "only a carriage return": b"\r",
        "a byte of zero": b"\0",
        "other blanks": f"ops\v{APPLE}\f*".encode(),
        "blanks of other scripts": f"ops\u00a0{APPLE}\u2003*".encode(),
    },
    "UTF-8": {
        "a name that is no text": b"\xff " + APPLE.encode() + b" *",
        "half a letter": b"o\xc3 " + APPLE.encode() + b" *",
        "a surrogate": b"\xed\xa0\x80 " + APPLE.encode() + b" *",
    },
    "SHA-256 is not": {
        "63 digits": f"ops {APPLE[:63]} *".encode(),
        "65 digits": f"ops {APPLE}0 *".encode(),
        "an invalid digit": f"ops {APPLE[:63]}g *".encode(),
        "a digest of another form": f"ops 0x{APPLE} *".encode(),
        "a secret in the place of its digest": b"ops apple *",
    },
    "the workers are not": {
        "worker 256": f"ops {APPLE} 256".encode(),
        "a range that falls": f"ops {APPLE} 3-2".encode(),
        "a range to 256": f"ops {APPLE} 0-256".encode(),
        "an empty piece": f"ops {APPLE} 1,,2".encode(),
        "a comma behind": f"ops {APPLE} 1,".encode(),
        "a comma before": f"ops {APPLE} ,1".encode(),
        "half a range": f"ops {APPLE} 1-".encode(),
        "another half": f"ops {APPLE} -1".encode(),
        "three ends": f"ops {APPLE} 1-2-3".encode(),
        "all and one": f"ops {APPLE} *,1".encode(),
        "none and one": f"ops {APPLE} -,1".encode(),
        "a sign": f"ops {APPLE} +1".encode(),
        "a large number": f"ops {APPLE} 99999999999999999999".encode(),
        "2^32": f"ops {APPLE} 4294967296".encode(),
        "a letter": f"ops {APPLE} a".encode(),
        "a digit of another script": f"ops {APPLE} \u0663".encode(),
        "a carriage return behind": f"ops {APPLE} *\r".encode(),
        "bad spaces behind": f"ops {APPLE} 256 A".encode(),
    },
    "the spaces are not": {
        "nothing behind the plus": f"ops {APPLE} * +".encode(),
        "two pluses": f"ops {APPLE} * ++a".encode(),
        "a plus inside": f"ops {APPLE} * a,+b".encode(),
        "a capital": f"ops {APPLE} * A".encode(),
        "a star inside": f"ops {APPLE} * a*b".encode(),
        "two stars": f"ops {APPLE} * a**".encode(),
        "a comma behind": f"ops {APPLE} * a,".encode(),
        "a name of 65 bytes": f"ops {APPLE} * {'0' * 65}".encode(),
        "a beginning of 65 bytes": f"ops {APPLE} * {'0' * 65}*".encode(),
        "a slash": f"ops {APPLE} * a/b".encode(),
        "a carriage return behind": f"ops {APPLE} * *\r".encode(),
    },
    "line has this name": {
        "the same name": f"a {APPLE} *\na {BANANA} *".encode(),
        "the name of the line before": f"first {APPLE} -".encode(),
    },
    "line has this SHA-256": {
        "the same digest": f"a {APPLE} *\nb {APPLE.upper()} -".encode(),
        "the digest of the line before": f"b {digest_of('cherry')} -".encode(),
    },
}


def try_bad(folder):
    """Each bad line is named by its number, behind good lines and before other bad ones."""

    def checks(kind, place):
        keys = os.path.join(place, "keys")
        for why, lines in BAD.items():
            for name, line in lines.items():
                number = 4 + line.count(b"\n")
                put(keys, b"# keys\n\n" + GOOD + b"\n" + line + b"\nno key\n")
                check_refused(f"{why}: {name}", kind, place, keys, 2, f"line {number}: ", why)
        # Only the first line: that of a file with CRLF is bad, unless it ends with a comment.
        put(keys, keys_text(key_line("a", "apple"), key_line("b", "banana")).replace(b"\n", b"\r\n"))
        check_refused("CRLF", kind, place, keys, 2, "line 1: ")
        put(keys, b"no key")
        check_refused("no newline at the end", kind, place, keys, 2, "line 1: ")
        put(keys, b"#\n" * 9_999 + b"no key\n")
        check_refused("line 10000", kind, place, keys, 2, "line 10000: ")

    each_kind(folder, checks)


def try_options(folder):
    """The option asks for a file, and stands once."""
    for kind in KINDS:
        ended = end_of([*words_for(kind, folder), "--keys"])
        check(f"{kind}: no file", ended[0] == 2 and ended[2], ended)
        keys = put_keys(os.path.join(folder, "keys"), key_line("ops", "apple"))
        ended = end_of([*words_for(kind, folder, keys), "--keys", keys])
        check(f"{kind}: twice", ended[0] == 2 and ended[2], ended)
        server = serve(kind, folder, None)
        session = begun(server, "apple")
        told = session.ask({"do": "attach", "worker": 0})
        same(f"{kind}: without keys anybody is served", told, b'{"number":0,"ok":"attach","stance":"ready"}')
        session.close()
        server.kill()


def part():
    main_in_folders(try_modes, try_others, try_beside, try_good, try_bad, try_options, minutes=12)
