"""The sources of a program of this repository, and whether a built program is still up to date with them.

This goes by contents, not by times. Beside the built file lies a stamp, `NAME.made-of`: the toolchain's version, the
lines of crates.txt and a digest of each source, all as they were when its build began. The stamp also has the size and
the times of each source, so that only a source whose size or times changed is read again, and those of the built file
itself. A file without a stamp of its own, as one that `rt ci` built, is fresh if it is newer than its sources; it then
gets one.
"""

import json
import os
import time

TOP = os.path.dirname(os.path.dirname(os.path.dirname(os.path.realpath(__file__))))
NOT_BUILT_FROM = ("out", "must-fail", "README.md", "stdin", "stdout", "args", "status", "data")
# Some file systems keep times in steps of up to two seconds, so the times of a source that changed just now tell nothing.
JUST_NOW = 2_000_000_000


def listed():
    """Each crate of crates.txt with its line and the crates of the repository that it names."""
    with open(os.path.join(TOP, "crates.txt"), encoding="utf-8") as file:
        lines = [" ".join(line.split("#")[0].split()) for line in file]
    lines = {line.replace(":", " ").split()[0]: line for line in lines if line}
    return {name: (line, [word for word in line.split(":")[1].split() if word in lines]) for name, line in lines.items()}


def below(crates, name):
    """The crates that a crate stands on, lowest first."""
    found = []

    def find(it):
        for used in crates[it][1]:
            if used not in found:
                find(used)
                found.append(used)

    find(name)
    return found


def folder_of(name):
    return os.path.join(TOP, "crates", name)


def entries_in(folder):
    """The sources below a folder, as entries of the system."""
    with os.scandir(folder) as held:
        for entry in held:
            if entry.name in NOT_BUILT_FROM:
                continue
            if entry.is_dir(follow_symlinks=False):
                yield from entries_in(entry.path)
            else:
                yield entry


def sources_of(name):
    """The paths of the sources of a crate."""
    return (entry.path for entry in entries_in(folder_of(name)))


def changed(name):
    """When the newest source of a crate was changed."""
    return max(entry.stat().st_mtime for entry in entries_in(folder_of(name)))


def time_of(path):
    return os.stat(path).st_mtime if os.path.exists(path) else 0


def mark_of(stat):
    """The attributes of a file that change if its contents change."""
    return [stat.st_size, stat.st_mtime_ns, stat.st_ctime_ns]


def digest_of(path):
    import hashlib  # Imported here since it is seldom needed, and each `./rme` runs this module.

    with open(path, "rb") as file:
        return hashlib.sha256(file.read()).hexdigest()


def mark_of_built(path):
    """The size and the time of a built file, or None if no file is there that can be run or linked."""
    if not os.path.isfile(path):
        return None
    stat = os.stat(path)
    return [stat.st_size, stat.st_mtime_ns]


def library_of(name):
    """The file of a crate's library that the toolchain writes last."""
    return os.path.join(folder_of(name), "out", "rlib", "stamp")


def toolchain():
    """The command `rt` and its times, or None if it is not there."""
    for folder in os.environ.get("PATH", os.defpath).split(os.pathsep):
        path = os.path.realpath(os.path.join(folder or os.curdir, "rt"))
        if os.access(path, os.X_OK) and os.path.isfile(path):
            return [path, *mark_of(os.stat(path))]
    return None


def version_of(command):
    import subprocess  # As above.

    return subprocess.run([command[0], "version"], check=True, stdout=subprocess.PIPE, text=True).stdout


def digests_in(stamp):
    """The digest of each source, by its path."""
    return {path: held[1] for path, held in stamp["sources"].items()}


class MadeOf:
    """The sources of a built file as they are now, and those that its stamp names."""

    def __init__(self, built, crates, names):
        self.built, self.names = built, names
        self.stamp = f"{built}.made-of"
        self.old = self._read()
        self.now = {
            "toolchain": self._toolchain(),
            "crates": {name: crates[name][0] for name in sorted(names)},
            "sources": dict(self._sources()),
        }

    def _read(self):
        """The contents of the stamp, if it is the stamp of this very file; else nothing."""
        try:
            with open(self.stamp, encoding="utf-8") as file:
                old = json.load(file)
            return old if old["built"] == mark_of_built(self.built) else {}
        except (OSError, ValueError, KeyError, TypeError):
            return {}

    def _toolchain(self):
        """The command and its version. Without the command nothing can be built, so what was built stays good."""
        command, old = toolchain(), self.old.get("toolchain", [None, None])
        return old if command in (None, old[0]) else [command, version_of(command)]

    def _sources(self):
        """Each source with its mark and its digest. A mark that may still stand for other contents is left out."""
        old, began = self.old.get("sources", {}), time.time_ns()
        for name in self.names:
            for entry in entries_in(folder_of(name)):
                mark, path = mark_of(entry.stat()), entry.path[len(TOP) + 1 :]
                was = old.get(path, [None, None])
                digest = was[1] if was[0] == mark else digest_of(entry.path)
                yield path, [mark if max(mark[1:]) + JUST_NOW < began else None, digest]

    def is_of_this_toolchain(self):
        """Whether the stamp is one of this version of the toolchain, as far as both are known."""
        versions = [stamp.get("toolchain", [None, None])[1] for stamp in (self.old, self.now)]
        return None in versions or versions[0] == versions[1]

    def is_fresh(self):
        """Whether the built file is there, and is made of the present sources."""
        if not mark_of_built(self.built):
            return False
        if self.old:
            is_fresh = self.is_of_this_toolchain() and self.old["crates"] == self.now["crates"]
            is_fresh = is_fresh and digests_in(self.old) == digests_in(self.now)
        else:
            newest = max(time_of(os.path.join(TOP, "crates.txt")), *(changed(it) for it in self.names))
            is_fresh = time_of(self.built) >= newest
        if is_fresh:
            self._keep(self.old.get("libraries", {}))
        return is_fresh

    def is_library_fresh(self, name):
        """Whether the library of a crate, the one that the built file was made over, would be built the same now. For
        another library only its time tells that."""
        if not self.is_of_this_toolchain():
            return False
        library = mark_of_built(library_of(name))
        if library is None or library != self.old.get("libraries", {}).get(name):
            return time_of(library_of(name)) >= changed(name)
        prefix = os.path.join("crates", name, "")
        digests = [{path: it for path, it in digests_in(stamp).items() if path.startswith(prefix)} for stamp in (self.old, self.now)]
        return self.old["crates"].get(name) == self.now["crates"][name] and digests[0] == digests[1]

    def was_built(self):
        """Writes the stamp of a file that was built from the sources read before."""
        self._keep({name: mark_of_built(library_of(name)) for name in self.names})

    def _keep(self, libraries):
        """Writes the stamp if it says something new. One that cannot be written is left out: it only saves work."""
        stamp = {**self.now, "built": mark_of_built(self.built), "libraries": libraries}
        if stamp == self.old:
            return
        aside = f"{self.stamp}.{os.getpid()}"
        try:
            with open(aside, "w", encoding="utf-8") as file:
                json.dump(stamp, file)
            os.replace(aside, self.stamp)
        except OSError:
            pass
