"""Inputs that are too long for a test: 1,000,001 lines are all answered, and a history of 2,000 sections by lines."""

from lib.checks import fail, main, same
from lib.programs import run

LINES = 1_000_000
SECTIONS = 2_000


def expect(name, lines, wanted):
    """The answers to these lines; the first that is another is said."""
    ran = run(["run"], b"".join(lines), timeout=600)
    found = ran.stdout.splitlines(keepends=True)
    at = next((at for at, pair in enumerate(zip(found, wanted)) if pair[0] != pair[1]), None)
    if at is not None:
        fail(name, f"answer {at + 1} is {found[at]!r} in place of {wanted[at]!r}")
    else:
        same(name, (ran.returncode, len(found)), (0, len(wanted)))


def many_lines():
    opening = b'{"cells":1,"do":"open","jobs":10,"locks":["bank"],"workers":2}\n'
    lines = [opening] + [b'{"do":"owner","lock":"bank"}\n'] * LINES
    wanted = [b'{"ok":"open"}\n'] + [b'{"ok":"owner","owner":null}\n'] * LINES
    expect(f"{LINES + 1} lines", lines, wanted)


def long_history():
    lines = [b'{"cells":1,"do":"open","jobs":2000,"locks":["bank"],"workers":1}\n']
    wanted = [b'{"ok":"open"}\n']
    entries = []
    for number in range(1, SECTIONS + 1):
        lines.append(b'{"do":"submit","lock":"bank","script":[["add",0,1]],"worker":0}\n')
        wanted.append(b'{"number":%d,"ok":"submit"}\n' % number)
        lines.append(b'{"do":"walk","worker":0}\n')
        wanted.append(
            b'{"end":"ready","notes":[["asked",%d],["entered","bank"],["finished","bank",%d,%d,%d],["left","bank"]],"ok":"walk"}\n'
            % (number, number, number - 1, number)
        )
        entries.append(
            b'{"lock":"bank","number":%d,"place":%d,"reply":%d,"script":[["add",0,1]],"worker":0}'
            % (number, number - 1, number)
        )
    lines.append(b'{"do":"history"}\n')
    wanted.append(b'{"entries":[' + b",".join(entries) + b'],"ok":"history"}\n')
    expect(f"a history of {SECTIONS} sections", lines, wanted)


def part():
    main(many_lines, long_history)
