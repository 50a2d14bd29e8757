"""new-key: `scripts/new-key` makes a secret and its line, which a server takes; words that the file could not have are refused,
status 2."""

import os
import re
import subprocess

from lib.checks import check, main_in_folders, same
from lib.keys import KINDS, begun, digest_of, greeting, hello, put, serve
from lib.orders import attach, stands
from lib.programs import SCRIPTS

GOOD = (
    ("ops", "*"), ("runner-a", "0-3,7"), ("looks", "-"), ("a", "007,0-255,9-9"), ("a", "*", "*"), ("a", "0", "+tenant-7,team-*"),
    ("a", "0", "+*"), ("a", "0", "0" * 64), ("a", "0", "0" * 64 + "*"), ("caf\u00e9", "1"), ("-", "1"), ("--", "1"), ("a:b/c@d", "1"),
)  # fmt: skip
BAD = (
    (), ("ops",), ("ops", "*", "*", "*"), ("", "*"), ("a b", "*"), ("a\tb", "*"), ("a#", "*"), ("a\nb", "*"), ("a\x1b[2J", "*"),
    ("a\r", "*"), ("a", ""), ("a", "256"), ("a", "3-2"), ("a", "1,,2"), ("a", "1-"), ("a", "-1"), ("a", "1-2-3"), ("a", "*,1"),
    ("a", "+1"), ("a", "9" * 5000), ("a", "\u0663"), ("a", "1 2"), ("a", "1\n"), ("a", "0", ""), ("a", "0", "+"), ("a", "0", "++a"),
    ("a", "0", "a,+b"), ("a", "0", "A"), ("a", "0", "a*b"), ("a", "0", "a,"), ("a", "0", "0" * 65), ("a", "0", "a b"), ("a", "0", "a\n"),
    ("--loud", ), (b"\xff", "*"), ("a", b"\xff"), ("a", "0", b"\xff"),
)  # fmt: skip


def new_key(*words, **how):
    ran = subprocess.run([os.path.join(SCRIPTS, "new-key"), *words], capture_output=True, timeout=60, **how)
    return ran.returncode, ran.stdout, ran.stderr


def try_words(_folder):
    secrets = set()
    for words in GOOD:
        status, told, why = new_key(*words)
        lines = told.decode().splitlines()
        is_secret = len(lines) == 2 and re.fullmatch(r"[A-Za-z0-9_=-]{43,64}", lines[0]) is not None
        if check(f"{' '.join(words)[:60]}: a secret and a line", (status, why) == (0, b"") and is_secret, (status, told, why)):
            secrets.add(lines[0])
            same("the line", lines[1].split(" "), [words[0], digest_of(lines[0]), *words[1:]])
    same("each secret is new", len(secrets), len(GOOD))
    for words in BAD:
        status, told, why = new_key(*words)
        name = ascii(words)[:60]
        check(f"{name} is refused", (status, told) == (2, b"") and why.startswith(b"new-key: ") and why.count(b"\n") == 1, (status, why))
        check(f"{name}: nothing in the sentence steers a terminal", b"\x1b" not in why and b"Traceback" not in why, why)


def try_help(_folder):
    for word in ("--help", "-h"):
        status, told, why = new_key(word)
        has_all = all(each in told for each in (b"NAME", b"WORKERS", b"SPACES", b"--keys", b"--key-file"))
        check(f"{word} teaches", (status, why) == (0, b"") and has_all, (status, told, why))
    for locale in ("C", "C.UTF-8"):
        status, told, _ = new_key("caf\u00e9".encode(), "1", env={**os.environ, "LC_ALL": locale})
        same(f"a name of UTF-8 in the locale {locale}", (status, told.split()[1]), (0, "caf\u00e9".encode()))


def try_served(folder):
    """The lines of all good words, under names of their own, are a file that each server takes, and its secrets are known."""
    made = []
    for at, words in enumerate(GOOD):
        _, told, _ = new_key(f"n{at}", *words[1:])
        made.append(told.decode().splitlines())
    keys = put(os.path.join(folder, "keys"), "".join(line + "\n" for _, line in made).encode())
    for kind in KINDS:
        server = serve(kind, folder, keys)
        told = []
        for secret, _ in made:
            session = server.session()
            told.append(session.ask(hello(secret)))
            session.close()
        same(f"{kind}: each secret is known", told, [greeting(f"n{at}") for at in range(len(made))])
        session = begun(server, made[0][0])
        same(f"{kind}: and has its workers", session.ask(attach(3)), stands("ready", 0))
        session.close()
        server.kill()


def try_example(folder):
    """The example of its help, as a shell runs it."""
    _, told, _ = new_key("--help")
    command = re.search(r"^Example: (.*), under umask 077\.$", told.decode(), re.M)
    if not check("there is an example", command is not None, told):
        return
    words = ["sh", "-c", f"umask 077; {command[1].replace('scripts/', SCRIPTS + '/')}"]
    subprocess.run(words, check=True, cwd=folder)
    server = serve("plain", folder, os.path.join(folder, "keys"))
    with open(os.path.join(folder, "runner-a.secret"), encoding="ascii") as file:
        session = server.session()
        same("its key", session.ask(hello(file.read().strip())), greeting("runner-a"))
    same("other users can read neither", {os.stat(os.path.join(folder, name)).st_mode & 0o77 for name in os.listdir(folder)}, {0})
    session.close()
    server.kill()


def part():
    main_in_folders(try_words, try_help, try_served, try_example, minutes=3)
