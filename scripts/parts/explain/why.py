"""why: `rme run --why` and `rme serve --why` say why a line is answered `BadLine`, and of no other line anything.

The look at a line is made apart from its readers. Here the two are held together: over all inputs of rows/ and examples/,
and over lines that differ from good ones in one key, a reason is given exactly if the answer is `BadLine`, and the
answers are what they are without the option. What the reasons say is worked out by hand.
"""

import json
import os
import re
import tempfile

from lib.checks import check, main, same
from lib.programs import TOP, run
from lib.servers import Server
from rows.reading import all_rows, read

REFUSED = b'{"code":1,"error":"BadLine"}'
OPEN = b'{"do":"open","workers":2,"locks":["bank"],"cells":1,"jobs":10}\n'

NUMBERS = [None, "1", -1, 1.5, [1], 2**32, 2**64, True]
TEXTS = [None, 0, ["a"], {}, False]
SCRIPTS = [None, "add", {}, [["add"]], [["add", 0]], [["add", "0", 5]], [["fly", 0]], [[]], [5], [["add", 0, 5], ["get", 2**32]]]
WRONG = {
    "worker": NUMBERS, "number": NUMBERS, "cells": NUMBERS, "jobs": NUMBERS, "workers": NUMBERS,
    "lock": TEXTS, "image": TEXTS, "locks": [None, "bank", {}, ["bank", 1], [None]],
    "script": SCRIPTS, "until": [*TEXTS, "blocked", "quiet", "soon"], "max": [*NUMBERS, 0, 10_001],
    "tries": [*NUMBERS, 0, 1_000_001], "wait": [*NUMBERS, 3_600_001], "steps": [*NUMBERS, 1_000_001],
    "take": [None, 0, "true", []], "after": [None, "1", -1, 1.5, [1], 2**53 + 1, 2**64, True],
    "as": [*TEXTS, "a" * 65, "ü" * 33],
}  # fmt: skip
GOOD = {
    "worker": 0, "number": 1, "cells": 1, "jobs": 10, "workers": 2, "lock": "bank", "locks": ["bank"], "image": "00",
    "script": [["add", 0, 5]], "until": "entered", "max": 10_000, "tries": 1, "wait": 0, "steps": 1_000_000, "take": False,
    "after": 2**53, "as": "ü" * 32,
}  # fmt: skip
# Each word with the keys that it needs and those that it may have.
COMMANDS = {
    "open": ("workers locks cells jobs", ""), "submit": ("worker lock script", ""), "step": ("worker", ""),
    "walk": ("worker", "until max"), "crash": ("worker", ""), "restart": ("worker", ""), "withdraw": ("worker", ""),
    "owner": ("lock", ""), "cells": ("lock", ""), "last": ("worker", ""), "history": ("", ""), "report": ("", ""),
    "save": ("", ""), "load": ("image locks", ""),
}  # fmt: skip
ORDERS = {
    "attach": ("worker", "take after as"), "submit": ("number lock script", "tries wait"), "resume": ("", "tries wait"),
    "enter": ("number lock script", "tries wait"), "commit": ("", ""), "withdraw": ("", ""), "last": ("", ""),
    "crash_after": ("steps", ""), "detach": ("", ""), "ping": ("", ""), "pending": ("", ""),
}  # fmt: skip

# Lines that are no commands, and what is said of them.
TOLD = {
    b"": "it is empty",
    b" \r": "it is empty",
    b"{": "it ends before its JSON does",
    b'{"do":"save"} x': "it is no JSON at column 15",
    b"[1]": "it is no JSON object",
    b'{"worker":0}': 'it has no key "do" with a text',
    b'{"do":null}': 'it has no key "do" with a text',
    b'{"do":"stpe","worker":0}': 'there is no word "stpe" of "do" here',
    b'{"do":"attach","worker":0}': 'there is no word "attach" of "do" here',
    b'{"do":"step","worke":0}': '"step" takes no key "worke"',
    b'{"do":"step"}': '"step" needs the key "worker"',
    b'{"do":"step","worker":"0"}': 'the key "worker" must be a whole number from 0 to 4294967295',
    b'{"do":"walk","max":0,"worker":0}': 'the key "max" must be a whole number from 1 to 10000',
    b'{"do":"open","workers":1,"locks":[1],"cells":1,"jobs":1}': 'the key "locks" must be a list of texts',
    b'{"do":"owner","lock":0}': 'the key "lock" must be a text',
    b'{"do":"save","\\u001b' + b"a" * 40 + b'":0}': '"save" takes no key "\\u{1b}' + "a" * 39 + '.."',
}
OF_ORDERS = {
    b'{"do":"step","worker":0}': 'there is no word "step" of "do" here',
    b'{"do":"attach","worker":0,"take":1}': 'the key "take" must be true or false',
    b'{"after":9007199254740993,"do":"attach","worker":0}':
        'the key "after" must be a whole number from 0 to 9007199254740992',
    b'{"as":7,"do":"attach","worker":0}': 'the key "as" must be a text of at most 64 bytes',
    b'{"any":"ready","as":7,"do":"attach"}': 'the key "as" must be a text of at most 64 bytes',
    b'{"as":"host7:cron","do":"detach"}': '"detach" takes no key "as"',
    b'{"after":0,"any":"ready","do":"attach"}': 'the key "after" may not stand beside the key "any"',
    b'{"any":"idle","do":"attach"}': 'the key "any" must be "pending" or "ready"',
    b'{"any":"ready","do":"attach","worker":0}': 'the key "worker" may not stand beside the key "any"',
    b'{"do":"ping","worker":0}': '"ping" takes no key "worker"',
    b'{"do":"resume","tries":1,"wait":1}': 'only one of the keys "tries" and "wait" may stand',
    b'{"do":"resume","wait":3600001}': 'the key "wait" must be a whole number from 0 to 3600000',
    b'{"do":"enter","number":1,"lock":"bank"}': '"enter" needs the key "script"',
}


def variants(words):
    """Lines of each word, good ones and such as differ from these in one key."""
    for word, (needed, free) in words.items():
        whole = {"do": word, **{key: GOOD[key] for key in needed.split()}}
        yield whole
        yield {**whole, **{key: GOOD[key] for key in free.split()}}
        yield {**whole, "do": word.upper()}
        for key in needed.split():
            yield {name: value for name, value in whole.items() if name != key}
        for key in GOOD:
            for value in [GOOD[key], *WRONG[key]]:
                yield {**whole, key: value}


def bytes_of(words):
    return [json.dumps(line).encode() for line in variants(words)]


def refused(answers):
    """The numbers of the lines that were answered BadLine."""
    return [number for number, answer in enumerate(answers, 1) if answer == REFUSED]


def explained(told, before="rme: line "):
    """The numbers of the lines of which something was said, or what was said if that is of another form."""
    found = [re.fullmatch(re.escape(before) + r"(\d+): (.+)", line) for line in told.decode().splitlines()]
    return [int(line.group(1)) for line in found] if all(found) else told


def try_run(name, given):
    plain, why = run(["run"], given), run(["run", "--why"], given)
    same(f"{name}: answered as without it", (why.returncode, why.stdout), (plain.returncode, plain.stdout))
    same(f"{name}: said of lines that are no commands", explained(why.stderr), refused(plain.stdout.splitlines()))


def inputs():
    """The rows and examples, as they stand in their files."""
    for row in all_rows():
        if path := row.files.get(".jsonl") or row.files.get(".bin"):
            yield os.path.relpath(path, TOP), read(path)


def try_rows():
    for name, given in inputs():
        try_run(name, given)


def try_variants():
    lines = bytes_of(COMMANDS)
    try_run(f"{len(lines)} lines that differ in a key", OPEN + b"\n".join(lines))
    try_run("orders", OPEN + b"\n".join(bytes_of(ORDERS)))


def try_texts():
    ran = run(["run", "--why"], b"".join(line + b"\n" for line in TOLD))
    wanted = "".join(f"rme: line {number}: {text}\n" for number, text in enumerate(TOLD.values(), 1))
    same("what is said of lines", ran.stderr.decode(), wanted)
    same("nothing is said without it", run(["run"], b"\n").stderr, b"")


def try_lengths():
    """Lines around the longest that is read, of which the longer is no BadLine, and a last one without its end."""
    for length in (65_535, 65_536, 65_537, 200_000):
        try_run(f"{length} bytes", b"x" * length + b"\n" + b'{"do":"save"}' + b" " * (length - 13) + b"\nx")


def try_transcript():
    given = OPEN + b'{"do":"load","image":"00","locks":["bank"]}\n{"do":"step"}\n{"do":"owner","lock":"shop"}\n'
    ran = run(["run", "--transcript", "--why"], given)
    told = b'rme: line 2: there is no word "load" of "do" here\nrme: line 3: "step" needs the key "worker"\n'
    same("a transcript", (ran.returncode, ran.stdout.count(b"\n"), ran.stderr), (0, 1, told))


def try_image():
    ran = run(["run", "--why", "--image", os.path.join(TOP, "nothing"), "--locks", "bank"], b"[]\n")
    same("with an image", (ran.stdout, ran.stderr.splitlines()[1:]), (REFUSED + b"\n", [b"rme: line 1: it is no JSON object"]))



def try_sessions():
    """The reasons of two sessions, each with its connection's number."""
    lines = [*TOLD, *OF_ORDERS, *bytes_of(ORDERS), *bytes_of(COMMANDS)]
    options = ["--workers", "2", "--cells", "1", "--jobs", "10", "--port", "0", "--connections", "2", "bank"]
    wanted, told = {}, {}
    # A pipe that nobody reads would hold the sessions up once it is full.
    errors = tempfile.TemporaryFile()
    server = Server(words=["serve", "--why", *options], how={"stderr": errors})
    plain = Server(words=["serve", *options])
    for number, sent in enumerate((lines, list(OF_ORDERS)), 1):
        answers = [one.session() for one in (server, plain)]
        for session in answers:
            session.send(b"".join(line + b"\n" for line in sent))
        heard, unasked = [session.hang_up() for session in answers]
        same(f"session {number}: answered as without it", heard, unasked)
        wanted[number] = refused(heard.splitlines())
    status = server.end()[0]
    errors.seek(0)
    written = errors.read()
    remarks = [line for line in written.splitlines(True) if line.startswith(b"rme: connection ")]
    for number in wanted:
        told[number] = explained(b"".join(line for line in remarks if b" %d, line" % number in line), f"rme: connection {number}, line ")
    same("said of lines that are no orders", (status, told), (0, wanted))
    texts = [line.split(b": ", 2)[2].rstrip(b"\n").decode() for line in remarks if line.startswith(b"rme: connection 2,")]
    same("what is said of them", texts, list(OF_ORDERS.values()))
    check("and else nothing", written.count(b"\n") == len(remarks) + 1, written[-300:])
    same("nothing is said without it", plain.end()[2].count(b"\n"), 1)


# Lines of a server with a state, which has look-ups and no keys, and what is said of them.
OF_A_STATE = {
    b'{"do":"status"}': None,
    b'{"do":"owner","lock":"bank"}': None,
    b'{"do":"cells","lock":"bank"}': None,
    b'{"do":"ping"}': None,
    b'{"do":"status","lock":"bank"}': '"status" takes no key "lock"',
    b'{"do":"owner"}': '"owner" needs the key "lock"',
    b'{"do":"hello","secret":"apple"}': 'there is no word "hello" of "do" here',
}


def try_state():
    """Look-ups are lines of a server with a state."""
    with tempfile.TemporaryDirectory() as folder:
        server = Server(words=["serve", "--why", "--state", os.path.join(folder, "state"), "--port", "0", "bank"])
        session = server.session()
        session.send(b"".join(line + b"\n" for line in OF_A_STATE))
        heard = session.hang_up().splitlines()
        remarks = [line for line in server.kill()[2].decode().splitlines() if line.startswith("rme: connection ")]
        wanted = [f"rme: connection 1, line {number}: {why}" for number, why in enumerate(OF_A_STATE.values(), 1) if why]
        same("a state: what is said", remarks, wanted)
        same("a state: of what is refused", [answer == REFUSED for answer in heard], [why is not None for why in OF_A_STATE.values()])


def part():
    main(try_texts, try_lengths, try_variants, try_transcript, try_image, try_rows, try_sessions, try_state)
