"""The units of systemd of examples/, for a program that a package installed below a prefix."""

import os
import re

from lib.programs import TOP

UNITS = ("rme", "rme-keys", "rme-spaces", "rme-replica")
PROGRAM = "/usr/local/bin/rme"  # as the examples name it
# What stands above each unit, in the place of how an example is installed.
HEADS = {
    "rme": """\
# A server that keeps its state, for clients of the user rme and for root: a Unix socket.
#
#   systemctl enable --now rme
""",
    "rme-keys": """\
# A server with keys that keeps its state, for any users of this machine. Once, as root:
#
#   {prefix}/share/rme/new-key runner-a 0-3    # the secret is for the client, and the line for /etc/rme/keys
#   install -D -m 640 -g rme keys /etc/rme/keys
#   systemctl enable --now rme-keys
""",
    "rme-spaces": """\
# A server of spaces with keys, for any users of this machine. Once, as root:
#
#   {prefix}/share/rme/new-key ops '*' '+*'    # the secret is for who creates spaces, and the line for /etc/rme/keys
#   install -D -m 640 -g rme keys /etc/rme/keys
#   systemctl enable --now rme-spaces
""",
    "rme-replica": """\
# One of the servers of a log in an etcd cluster, whose nodes are at ports 2381 to 2383 of this machine. Once, as root:
#
#   {prefix}/share/rme/new-key runner-a 0-3    # the secret is for the client, and the line for /etc/rme/keys of all machines
#   install -D -m 640 -g rme keys /etc/rme/keys
#   systemctl enable --now rme-replica
""",
}
TAIL = """\
#
# `systemctl edit {name}` changes it: an empty ExecStart= and then a whole one has other locks and sizes.
"""


def unit(name, prefix):
    """The text of a unit, for the program of this prefix."""
    with open(os.path.join(TOP, "examples", f"{name}.service"), encoding="utf-8") as file:
        head, _, body = file.read().partition("\n\n")
    if not all(line.startswith("#") for line in head.splitlines()) or PROGRAM not in body:
        raise ValueError(f"examples/{name}.service has another form")
    told = (HEADS[name] + TAIL).format(prefix=prefix, name=name)
    return f"{told}\n{body.replace(PROGRAM, f'{prefix}/bin/rme')}"


def values_of(text, key):
    """The words of each line `KEY=..` of a unit, whose lines may go on in the next."""
    lines = re.sub(r"\\\n", " ", text).splitlines()
    return [line.partition("=")[2].split() for line in lines if line.startswith(f"{key}=")]
