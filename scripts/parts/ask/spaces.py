"""Spaces: `--space` and the words `create`, `drop` and `spaces`, with what they send, print and say. The server is a stand-in;
one with a state refuses all of them."""

import json
import os

from lib.asks import StandIn, ask, with_state
from lib.checks import check, main_in_folders, same
from lib.keys import put
from lib.programs import run

USE = b'{"do":"use","space":"team-7"}\n'
USED = b'{"ok":"use"}\n'
NO_SPACE = b'{"code":23,"error":"NoSpace"}\n'
OWNER = b'{"ok":"owner","owner":null}\n'


def page(*names, more=False):
    return json.dumps({"more": more, "ok": "spaces", "spaces": names}, separators=(",", ":")).encode() + b"\n"


def exchange(answers, *words, **how):
    """A command at a stand-in with these answers: how it ended, and the lines that it sent."""
    server = StandIn(*answers)
    ended = ask(server, *words, **how)
    return ended, server.end()


def try_create_and_drop(_folder):
    rows = {
        ("create", "team-7", "bank"): (b'{"do":"create","space":"team-7","locks":["bank"]}\n', "space team-7 is there\n"),
        ("create", "a", "bank", "shop", "--workers", "20"): (
            b'{"do":"create","space":"a","locks":["bank","shop"],"workers":20}\n',
            "space a is there\n",
        ),
        ("create", "--cells", "3", "--workers", "0", "a", 'b"'): (
            b'{"do":"create","space":"a","locks":["b\\""],"workers":0,"cells":3}\n',
            "space a is there\n",
        ),
        ("drop", "team-7"): (b'{"do":"drop","space":"team-7"}\n', "space team-7 is gone\n"),
    }
    for words, (line, told) in rows.items():
        word = words[0]
        answer = json.dumps({"ok": word}, separators=(",", ":")) + "\n"
        found = exchange([answer.encode()], *words)
        same(" ".join(words), found, ((0, told, ""), [line]))
        found = exchange([answer.encode()], "--json", *words)
        same(f"--json {' '.join(words)}", found, ((0, answer, ""), [line]))


def try_list(_folder):
    """All pages, each name on a line."""
    ask_first, ask_next = b'{"do":"spaces"}\n', b'{"do":"spaces","after":"b"}\n'
    rows = {
        "no space": ([page()], "", [ask_first]),
        "two spaces": ([page("a", "b")], "a\nb\n", [ask_first]),
        "two pages": ([page("a", "b", more=True), page("c")], "a\nb\nc\n", [ask_first, ask_next]),
        "a last page without a name": ([page("a", "b", more=True), page()], "a\nb\n", [ask_first, ask_next]),
        "a name that steers no terminal": ([page("a\x1b[2J")], "a\\u{1b}[2J\n", [ask_first]),
    }
    for name, (answers, told, lines) in rows.items():
        same(name, exchange(answers, "spaces"), ((0, told, ""), lines))
        same(f"{name}: as lines", exchange(answers, "spaces", "--json"), ((0, b"".join(answers).decode(), ""), lines))
    many = [f"space-{number:04}" for number in range(2500)]
    pages = [many[:1000], many[1000:2000], many[2000:]]
    ended, lines = exchange([page(*names, more=names is not pages[-1]) for names in pages], "spaces")
    same("2500 spaces", ended, (0, "".join(f"{name}\n" for name in many), ""))
    asked = [{"do": "spaces"}, *({"do": "spaces", "after": names[-1]} for names in pages[:-1])]
    same("and what was asked", [json.loads(line) for line in lines], asked)


def try_space(folder):
    """`--space` is used first, and a refusal of it ends the command."""
    key = ["--key-file", put(os.path.join(folder, "secret"), b"apple\n")]
    hello, greeted = b'{"do":"hello","secret":"apple"}\n', b'{"name":"ops","ok":"hello"}\n'
    owner, told = b'{"do":"owner","lock":"bank"}\n', "LOCK  OWNER\nbank  nobody\n"
    words = ["--space", "team-7", "owner", "bank"]
    same("a look-up in a space", exchange([USED, OWNER], *words), ((0, told, ""), [USE, owner]))
    same("with a key", exchange([greeted, USED, OWNER], *key, *words), ((0, told, ""), [hello, USE, owner]))
    same("--json", exchange([USED, OWNER], "--json", *words), ((0, OWNER.decode(), ""), [USE, owner]))
    lines = owner + b'{"do":"ping"}\n'
    found = exchange([USED, OWNER, b'{"ok":"ping"}\n'], "--space", "team-7", given=lines)
    same("lines", found, ((0, OWNER.decode() + '{"ok":"ping"}\n', ""), [USE, *lines.splitlines(True)]))
    same("no lines", exchange([USED], "--space", "team-7"), ((0, "", ""), [USE]))
    ways = {"a word": (["owner", "bank"], b""), "--json": (["-j", "ping"], NO_SPACE), "lines": ([], NO_SPACE)}
    for name, (rest, printed) in ways.items():
        ended, heard = exchange([NO_SPACE], "--space", "team-7", *rest, given=lines)
        same(f"there is no such space: {name}", (*ended[:2], heard), (1, printed.decode(), [USE]))
        known = ended[2].startswith("rme: refused: 23 NoSpace: there is no space of that name") and "`spaces` lists" in ended[2]
        check(f"it is explained: {name}", known, ended[2])


def try_refused(folder):
    """A refusal is explained, with what to do here."""
    rows = {
        "another space": (["create", "a", "bank"], 24, "SpaceDiffers", "create one under another"),
        "an invalid name": (["create", "A", "bank"], 5, "BadShape", "1 to 64 of a-z 0-9 _ and -"),
        "no space": (["drop", "a"], 23, "NoSpace", "`spaces` lists"),
        "a space that is used": (["drop", "a"], 9, "Busy", "a job is pending in it"),
        "no key": (["spaces"], 25, "NotAllowed", "secret"),
        "a look-up in no space": (["status"], 23, "NoSpace", "--space NAME says"),
        "a worker in no space": (["finish", "0"], 23, "NoSpace", "--space NAME says"),
    }
    for name, (words, code, refusal, hint) in rows.items():
        (status, told, why), _ = exchange([json.dumps({"code": code, "error": refusal}).encode() + b"\n"], *words)
        known = why.startswith(f"rme: refused: {code} {refusal}: ") and hint in why
        check(name, (status, told) == (1, "") and known, (status, told, why))
    (status, told, why), _ = exchange([page("a", more=True), b'{"code":20,"error":"NoMemory"}\n'], "spaces")
    check("a second page is refused", (status, told) == (1, "a\n") and "20 NoMemory" in why, (status, told, why))
    server = with_state(folder)
    for words in (["create", "a", "bank"], ["drop", "a"], ["spaces"], ["--space", "a", "status"]):
        status, told, why = ask(server, *words)
        known = why.startswith("rme: refused: 1 BadLine: ") and "`rme serve --spaces DIR`" in why
        check(f"a server without spaces: {words[0]}", (status, told) == (1, "") and known, (status, told, why))
    server.kill()


def try_answers(_folder):
    """Malformed answers."""
    rows = {
        "no names": (b'{"more":false,"ok":"spaces"}\n', "no `spaces`"),
        "names that are no list": (b'{"more":false,"ok":"spaces","spaces":"a"}\n', "no `spaces`"),
        "a name that is no text": (b'{"more":false,"ok":"spaces","spaces":["a",1]}\n', "no `spaces`"),
        "no word on more": (b'{"ok":"spaces","spaces":["a"]}\n', "no `more`"),
        "more behind nothing": (page(more=True), "no `spaces`"),
        "another's answer": (b'{"ok":"create"}\n', "another request"),
    }
    for name, (answer, wanted) in rows.items():
        (status, _, why), _ = exchange([answer], "spaces")
        check(name, status == 1 and why.startswith("rme: ") and wanted in why, (status, why))
    (status, told, why), _ = exchange([b'{"ok":"use"}\n'], "create", "a", "bank")
    check("an answer to another word", (status, told) == (1, "") and "another request" in why, (status, told, why))


def try_wrong_words(_folder):
    """Words that are refused, status 2, before anything is connected to."""
    rows = {
        "create of nothing": ["create"],
        "create without a lock": ["create", "a"],
        "drop of nothing": ["drop"],
        "drop of two": ["drop", "a", "b"],
        "spaces of something": ["spaces", "a"],
        "a lock of another word": ["owner", "bank", "shop"],
        "workers of another word": ["drop", "a", "--workers", "1"],
        "cells of no word": ["--cells", "1"],
        "workers that are no number": ["create", "a", "bank", "--workers", "some"],
        "take of create": ["create", "a", "bank", "--take"],
        "a space of no name": ["ping", "--space"],
    }
    for name, words in rows.items():
        ended = run(["ask", *words])
        check(name, (ended.returncode, ended.stdout) == (2, b"") and ended.stderr.startswith(b"error: "), ended)
    told = run(["ask", "--help"])
    check("help", told.returncode == 0 and b"rme ask create NAME LOCK.." in told.stdout, told)


def part():
    main_in_folders(try_create_and_drop, try_list, try_space, try_refused, try_answers, try_wrong_words, minutes=3)
