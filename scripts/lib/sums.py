"""The sums of a state file of version 2: what a server writes after each write, and which part of such a file a start
takes.

A file is writes. A write is whole lines, and then its sum line `{"kept":K,"seq":N,"sum":"XXXXXXXX"}`: N is its number in the
file, from 1, K the number of the last write that was known to be with the disk when it was made, and the sum is CRC-32C over
its lines and its sum line up to the sum. A file of version 1 has only lines.
"""

import re
from typing import NamedTuple, Optional

MARK = b'{"kept":'  # no other line begins so
SUM_LINE = re.compile(rb'{"kept":(0|[1-9]\d*),"seq":([1-9]\d*),"sum":"([0-9a-f]{8})"}\n')
SUM_FRONT = re.compile(rb'^{"kept":(0|[1-9]\d*),"seq":(0|[1-9]\d*),"sum":"', re.MULTILINE)  # a sum line up to its sum
NUMBERS = 2**64  # of a sum line, from 0
FIRST, SECOND = b'"version":1}', b'"version":2}'  # the end of the first line


def table_of(polynomial):
    """The table of a reflected CRC: the result for each byte."""
    table = []
    for value in range(256):
        for _ in range(8):
            value = value >> 1 ^ (polynomial if value & 1 else 0)
        table.append(value)
    return table


CASTAGNOLI = table_of(0x82F63B78)


def crc32c(told):
    """CRC-32C of these bytes."""
    value, table = 0xFFFFFFFF, CASTAGNOLI
    for byte in told:
        value = table[value & 0xFF ^ byte] ^ value >> 8
    return value ^ 0xFFFFFFFF


def sealed(lines, kept, number):
    """A write: these lines, and their sum line."""
    front = lines + b'{"kept":%d,"seq":%d,"sum":"' % (kept, number)
    return front + b'%08x"}\n' % crc32c(front)


class Write(NamedTuple):
    """A write as it stands in a file: its lines, and the numbers of its sum line, or none if that line has another
    form."""

    lines: bytes
    sum_line: bytes
    number: Optional[int]
    kept: Optional[int]
    is_good: bool  # the sum is right over these lines
    last: int  # the number of its sum line in the file
    end: int  # the number of the file's bytes up to its end

    @property
    def bytes(self):
        return self.lines + self.sum_line


def writes_of(held):
    """The writes of a file's bytes, good or not: each up to a line that begins as a sum line. The bytes after the last
    one belong to no write."""
    found, begin, at = [], 0, 0
    for count, line in enumerate(held.split(b"\n")[:-1], 1):
        if line.startswith(MARK):
            found.append(write_of(held[begin:at], line + b"\n", count, at + len(line) + 1))
            begin = found[-1].end
        at += len(line) + 1
    return found


def write_of(lines, sum_line, last, end):
    form = SUM_LINE.fullmatch(sum_line)
    if not form:
        return Write(lines, sum_line, None, None, False, last, end)
    kept, number = int(form[1]), int(form[2])
    return Write(lines, sum_line, number, kept, sealed(lines, kept, number) == lines + sum_line, last, end)


# ---- the part of a file that a start takes


class Start(NamedTuple):
    """What a start does with a file: it takes the good writes in order, and cuts off what is after them, so many bytes
    apart from room; or it refuses the file if something that was durable has changed up to this line."""

    writes: tuple
    behind: int
    changed: Optional[int]

    @property
    def verdicts(self):
        """What `rme look --check` may say, if all lines of these writes are accepted. If the first write is bad, its
        header may be malformed."""
        if self.changed:
            return {b"no %d\n" % self.changed, *([] if self.writes else [b"no 1\n"])}
        line = self.writes[-1].last
        up_to = b", up to line %d: %d bytes behind it were never known to be with the disk" % (line, self.behind)
        return {b"yes" + up_to * bool(self.behind) + b"\n"}


def start_of(held):
    """What a start does with the bytes of a file of version 2, apart from the contents of its lines."""
    writes = writes_of(held)
    wrong = (at for at, write in enumerate(writes) if not (write.is_good and write.number == at + 1))
    count = next(wrong, len(writes))
    good, rest = tuple(writes[:count]), writes[count:]
    behind = held[good[-1].end :] if good else held
    is_refused = count == 0 or greatest_kept(behind) > count
    line = rest[0].last if rest else last_line(held)
    return Start(good, len(without_room(behind)), line if is_refused else None)


def without_room(held):
    """Bytes without the zeros at their end, which are room for further writes."""
    return held.rstrip(b"\0")


def greatest_kept(lines):
    """The greatest K of these lines. Each line that begins as a sum line does counts, whatever its sum is: its K was true when it
    was made, whatever happened to its write since."""
    numbers = ([int(number) for number in form.groups()] for form in SUM_FRONT.finditer(lines))
    return max((kept for kept, number in numbers if max(kept, number) < NUMBERS), default=0)


def last_line(held):
    """The number of a file's last line, whole or not."""
    return max(1, held.count(b"\n") + (not held.endswith(b"\n")))


def durable(held):
    """The number of the last write of which a file's bytes say that it is with the disk; the first one always is."""
    return max(1, greatest_kept(held))


# ---- files


def is_sealed(held):
    """Whether the first line is that of a file with sums."""
    return held.split(b"\n", 1)[0].endswith(SECOND)


def payload_of(held):
    """The lines that a start takes of a file, without sum lines."""
    if is_sealed(held):
        return b"".join(write.lines for write in start_of(held).writes)
    return held[: held.rfind(b"\n") + 1]


def whole(held):
    """The bytes of a file that a start leaves."""
    return b"".join(write.bytes for write in start_of(held).writes) if is_sealed(held) else payload_of(held)


def resealed(payload):
    """A file of version 2 with these lines, as one write."""
    first, newline, rest = payload.partition(b"\n")
    return sealed(re.sub(re.escape(FIRST) + rb"\Z", SECOND, first) + newline + rest, 0, 1)


def first_version(held):
    """The same lines as a file of version 1."""
    first, newline, rest = payload_of(held).partition(b"\n")
    return re.sub(re.escape(SECOND) + rb"\Z", FIRST, first) + newline + rest


def mended(held):
    """A file that was changed, with the sums of its writes made right; numbers stay as they are."""
    writes = writes_of(held)
    made = (sealed(it.lines, it.kept, it.number) if it.number else it.bytes for it in writes)
    return b"".join(made) + held[len(b"".join(it.bytes for it in writes)) :]


def line_in_file(held, number):
    """The number in a file of the line that has this number among the lines without the sum lines, both from 1."""
    lines = held.split(b"\n")
    places = [place for place, line in enumerate(lines, 1) if not (is_sealed(held) and line.startswith(MARK))]
    return places[number - 1]
