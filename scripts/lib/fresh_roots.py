"""A fresh root: a folder with the programs that dpkg and a package's scripts need, with their libraries, and nothing
else of this machine. What runs in it runs by chroot."""

import hashlib
import os
import re
import shutil
import stat
import subprocess

from lib.archives import paths_in

PATH = "/usr/sbin:/usr/bin:/sbin:/bin"
PROGRAMS = (
    "sh", "chgrp", "chmod", "chown", "cut", "diff", "getent", "groupadd", "groupdel", "ldconfig", "mkdir", "rm",
    "rmdir", "start-stop-daemon", "stat", "tar", "useradd", "userdel", "dpkg", "dpkg-deb", "dpkg-query", "dpkg-split",
)  # fmt: skip
FOLDERS = ("dev", "etc", "proc", "root", "run", "tmp", "usr/bin", "usr/sbin", "usr/lib", "var/lib", "var/log")
FILES = {
    "etc/passwd": "root:x:0:0:root:/root:/bin/sh\nnobody:x:65534:65534:nobody:/nonexistent:/usr/sbin/nologin\n",
    "etc/group": "root:x:0:\nnogroup:x:65534:\n",
    "etc/shadow": "root:*:19000:0:99999:7:::\nnobody:*:19000:0:99999:7:::\n",
    "etc/gshadow": "root:*::\nnogroup:*::\n",
    "etc/nsswitch.conf": "passwd: files\ngroup: files\nshadow: files\n",
    "etc/login.defs": "SYS_UID_MIN 100\nSYS_UID_MAX 999\nSYS_GID_MIN 100\nSYS_GID_MAX 999\nUSERGROUPS_ENAB yes\n",
}
# What dpkg and useradd keep for themselves, and devices.
KEPT_APART = re.compile(r"(var/lib/dpkg|var/log|dev|proc|tmp)(/|$)|etc/(\w+-|\.pwd\.lock)$")


def found(name):
    return shutil.which(name, path=f"{os.environ.get('PATH', '')}:{PATH}")


def why_none():
    """Why there can be no fresh root here, or None."""
    if os.geteuid() != 0:
        return "only root may chroot"
    missing = [name for name in (*PROGRAMS, "ldd") if not found(name)]
    return f"there is no {', '.join(missing)}" if missing else None


class Root:
    def __init__(self, folder, depends):
        """A root in this folder, with the packages named here, which dpkg calls installed there."""
        self.folder = folder
        for path in FOLDERS:
            os.makedirs(self.at(path), exist_ok=True)
        self.link_folders()
        for path, text in FILES.items():
            self.write(path, text)
        for name in PROGRAMS:
            self.copy(found(name))
            self.copy_libraries(found(name))
        self.make_null()
        self.register(depends)

    def link_folders(self):
        """/bin, /lib and so on, which are links where they are links on this machine."""
        for name in ("bin", "sbin", "lib", "lib32", "lib64", "libx32"):
            if os.path.islink(f"/{name}"):
                os.makedirs(self.at(f"usr/{name}"), exist_ok=True)
                os.symlink(f"usr/{name}", self.at(name))

    def at(self, path):
        return os.path.join(self.folder, path.lstrip("/"))

    def read(self, path):
        with open(self.at(path), encoding="utf-8") as file:
            return file.read()

    def write(self, path, text):
        os.makedirs(os.path.dirname(self.at(path)), exist_ok=True)
        with open(self.at(path), "w", encoding="utf-8") as file:
            file.write(text)

    def copy(self, path):
        """Copies a file to where it lies on this machine."""
        if not os.path.exists(self.at(path)):
            os.makedirs(os.path.dirname(self.at(path)), exist_ok=True)
            shutil.copy(os.path.realpath(path), self.at(path))

    def copy_libraries(self, program):
        """Copies the libraries that a program needs."""
        told = subprocess.run(["ldd", program], stdout=subprocess.PIPE, stderr=subprocess.DEVNULL, text=True).stdout
        for path in re.findall(r"(?:=> |^\s+)(/\S+) \(0x", told, re.M):
            self.copy(path)

    def make_null(self):
        """/dev/null, or a file where no device can be made or used."""
        null = self.at("dev/null")
        try:
            os.mknod(null, stat.S_IFCHR | 0o666, os.makedev(1, 3))
            with open(null, "wb") as file:
                file.write(b"x")
        except OSError:
            if os.path.exists(null):
                os.remove(null)
            self.write("dev/null", "")
        os.chmod(null, 0o666)

    def register(self, depends):
        """Tells dpkg of what was copied: the packages that others depend on, with their versions of this machine."""
        for folder in ("info", "updates", "triggers"):
            os.makedirs(self.at(f"var/lib/dpkg/{folder}"))
        text = ""
        for name in depends:
            words = ["dpkg-query", "-W", "-f", "${Package} ${Version} ${Architecture}\n", name]
            told = subprocess.run(words, check=True, stdout=subprocess.PIPE, text=True).stdout.splitlines()[0].split()
            text += "Package: {}\nVersion: {}\nArchitecture: {}\n".format(*told)
            text += "Status: install ok installed\nMaintainer: Debian\nDescription: copied\n\n"
            self.write(f"var/lib/dpkg/info/{name}.list", "")
        # Some package has each folder that was there before.
        folders = [at[len(self.folder) :] or "/." for at, _, _ in os.walk(self.folder)]
        self.write(f"var/lib/dpkg/info/{depends[0]}.list", "".join(f"{path}\n" for path in folders))
        self.write("var/lib/dpkg/status", text)

    def user(self, name):
        """The numbers of a user and of its group, or None."""
        lines = [line.split(":") for line in self.read("etc/passwd").splitlines()]
        return next(((int(line[2]), int(line[3])) for line in lines if line[0] == name), None)

    def enter(self, user=None):
        """What a process does first that is to run in this root, as this user."""
        numbers = self.user(user) if user else None

        def call():
            os.chroot(self.folder)
            os.chdir("/")
            if numbers:
                os.setgroups([])
                os.setgid(numbers[1])
                os.setuid(numbers[0])

        return call

    def how(self, user=None):
        """The arguments of Popen for it."""
        return {"preexec_fn": self.enter(user), "env": {"PATH": PATH, "LC_ALL": "C"}, "cwd": "/"}

    def run(self, *words, user=None):
        how = {"stdin": subprocess.DEVNULL, "capture_output": True, "text": True, "timeout": 60}
        # The shell finds the program in this root, and not in that of this process.
        return subprocess.run(["/bin/sh", "-c", 'exec "$0" "$@"', *words], **how, **self.how(user))

    def tree(self):
        """Each path of the root with its mode, its owner, and what it holds or leads to."""
        return {path: self.told_of(path) for path in paths_in(self.folder) if not KEPT_APART.match(path)}

    def told_of(self, path):
        whole = self.at(path)
        entry, held = os.lstat(whole), ""
        if os.path.islink(whole):
            held = os.readlink(whole)
        elif stat.S_ISREG(entry.st_mode):
            with open(whole, "rb") as file:
                held = hashlib.sha256(file.read()).hexdigest()
        return oct(entry.st_mode), entry.st_uid, entry.st_gid, held
