"""Lines of the most bytes that a line may have, and of one byte more."""

from rows.program import check_output
from rows.sessions import check_session

MOST = 65_536
OPENING = b'{"cells":1,"do":"open","jobs":10,"locks":["bank"],"workers":2}\n'
OPENED = b'{"ok":"open"}\n'
TOO_LONG = b'{"code":2,"error":"LineTooLong"}\n'


def line_of(text, length):
    """The text followed by spaces, in all this number of bytes."""
    return text.ljust(length)


def try_commands():
    """With a newline and, as the last piece of the input, without one."""
    for length, wanted in ((MOST, b'{"ok":"owner","owner":null}\n'), (MOST + 1, TOO_LONG)):
        line = line_of(b'{"do":"owner","lock":"bank"}', length)
        for end in (b"\n", b""):
            name = f"a {'line' if end else 'last piece'} of {length} bytes"
            check_output(name, ["run"], OPENING + line + end, OPENED + wanted)


def try_event_lines():
    for length, wanted in ((MOST, b"yes\n"), (MOST + 1, b"bad 2\n")):
        line = line_of(b'{"do":"crash","worker":1}', length)
        name = f"an event line of {length} bytes"
        check_output(name, ["check"], OPENING + line + b"\n", wanted, int(wanted != b"yes\n"))


def try_orders():
    words = "--workers 1 --cells 1 --jobs 1 a".split()
    for length, wanted in ((MOST, b'{"code":19,"error":"NotAttached"}\n'), (MOST + 1, TOO_LONG)):
        line = line_of(b'{"do":"last"}', length) + b"\n"
        check_session(f"an order of {length} bytes", words, [(1, line)], wanted + b"lock a cells 0 entries 0\n")
