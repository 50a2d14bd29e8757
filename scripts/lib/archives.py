"""Trees of files, and archives of them that have the same bytes each time: fixed times, sorted names, owner root.

A Debian package is an `ar` archive of three members: `debian-binary`, `control.tar.gz` and `data.tar.gz`."""

import gzip
import io
import os
import shutil
import subprocess
import tarfile

CONTROL = "DEBIAN"  # the folder of a tree that dpkg-deb takes for the control archive


def put_tree(folder, items):
    """Puts the files of a table of lib/installed.py below a folder."""
    for path, item in items.items():
        whole = os.path.join(folder, path)
        os.makedirs(os.path.dirname(whole), exist_ok=True)
        if item.link:
            os.symlink(item.link, whole)
        else:
            shutil.copyfile(item.source, whole)
            os.chmod(whole, item.mode)


def paths_in(folder):
    """The paths of all folders, files and links below a folder, in order."""
    found = []
    for at, folders, names in os.walk(folder):
        found += [os.path.relpath(os.path.join(at, name), folder) for name in (*folders, *names)]
    return sorted(found)


def settle(folder, time):
    """Gives all below a folder, and the folder, this time, and the modes that do not depend on a umask."""
    for path in (*paths_in(folder), "."):
        whole = os.path.join(folder, path)
        if os.path.isdir(whole) and not os.path.islink(whole):
            os.chmod(whole, 0o755)
        os.utime(whole, (time, time), follow_symlinks=False)


def tar_gz(folder, time, names, above):
    """The bytes of a compressed archive of these paths of a folder, below a folder of this name."""
    made = io.BytesIO()
    with gzip.GzipFile(fileobj=made, mode="wb", filename="", mtime=time) as packed:
        with tarfile.open(fileobj=packed, mode="w", format=tarfile.GNU_FORMAT) as archive:
            for name in names:
                entry = archive.gettarinfo(os.path.join(folder, name), above if name == "." else f"{above}/{name}")
                entry.uid = entry.gid = 0
                entry.uname = entry.gname = "root"
                entry.mtime = time
                add(archive, entry, os.path.join(folder, name))
    return made.getvalue()


def add(archive, entry, path):
    if not entry.isreg():
        archive.addfile(entry)
        return
    with open(path, "rb") as file:
        archive.addfile(entry, file)


def ar(members, time):
    """The bytes of an `ar` archive of these members, each with its name and its bytes."""
    made = b"!<arch>\n"
    for name, held in members:
        made += f"{name:<16}{time:<12}{0:<6}{0:<6}{'100644':<8}{len(held):<10}`\n".encode() + held
        made += b"\n" * (len(held) % 2)
    return made


def deb_by_hand(tree, made, time):
    """Writes the Debian package of a tree without dpkg-deb."""
    control = os.path.join(tree, CONTROL)
    data = [name for name in paths_in(tree) if name.split(os.sep)[0] != CONTROL]
    members = [
        ("debian-binary", b"2.0\n"),
        ("control.tar.gz", tar_gz(control, time, [".", *paths_in(control)], ".")),
        ("data.tar.gz", tar_gz(tree, time, [".", *data], ".")),
    ]
    with open(made, "wb") as file:
        file.write(ar(members, time))


def deb_by_dpkg(tree, made, time):
    """Writes the Debian package of a tree with dpkg-deb."""
    words = ["dpkg-deb", "--root-owner-group", "-Zgzip", "--build", tree, made]
    how = {"stdin": subprocess.DEVNULL, "stdout": subprocess.DEVNULL, "check": True}
    subprocess.run(words, env={**os.environ, "SOURCE_DATE_EPOCH": str(time)}, **how)


def write_deb(tree, made, time):
    """Writes the Debian package of a tree that was settled: by dpkg-deb where it is there."""
    (deb_by_dpkg if shutil.which("dpkg-deb") else deb_by_hand)(tree, made, time)
