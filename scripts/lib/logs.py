"""What `rme serve --log` writes on the standard error."""

import re

LINE = re.compile(r"rme: (\d{4}-\d\d-\d\dT\d\d:\d\d:\d\d\.\d{3}Z) (.+)")


def lines_of(told):
    """The times and the sentences of a log, in order; a line of another form stands as it is, without a time."""
    found = [(LINE.fullmatch(line), line) for line in told.decode().splitlines()]
    return [(line[1], line[2]) if line else ("", other) for line, other in found]


def sentences_of(told):
    return [sentence for _, sentence in lines_of(told)]
