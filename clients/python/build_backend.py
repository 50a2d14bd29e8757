"""Builds this package without a network: pip needs no other package. The folders of clients/ have copies of this file.

It is what pyproject.toml names as the build backend. A package is the folder of its name beside this file; a wheel has its
modules, `py.typed`, and a library if the folder has one.
"""

import base64
import hashlib
import io
import os
import re
import sysconfig
import tarfile
import zipfile

HERE = os.path.dirname(os.path.realpath(__file__))
IN_PACKAGE = (".py", ".so", "py.typed")
IN_SOURCES = ("pyproject.toml", "README.md", "build_backend.py")
LONG_AGO = (1980, 1, 1, 0, 0, 0)


def read(path):
    with open(os.path.join(HERE, path), "rb") as file:
        return file.read()


def project():
    """The name, the version and so on of pyproject.toml: the lines of [project] that are texts."""
    return table("project")


def table(name):
    """The lines of a table of pyproject.toml that are texts."""
    lines = read("pyproject.toml").decode().partition(f"[{name}]\n")[2].partition("\n[")[0]
    return dict(re.findall(r'^([\w-]+) = "(.*)"$', lines, re.M))


def files_of(name):
    return sorted(f"{name}/{it}" for it in os.listdir(os.path.join(HERE, name)) if it.endswith(IN_PACKAGE))


def metadata():
    told = project()
    lines = [
        "Metadata-Version: 2.1", f"Name: {told['name']}", f"Version: {told['version']}", f"Summary: {told['description']}",
        f"Requires-Python: {told['requires-python']}", "Description-Content-Type: text/markdown", "", read("README.md").decode(),
    ]  # fmt: skip
    return "\n".join(lines).encode()


def write_wheel(folder, files):
    """Makes a wheel with these files and its metadata, and returns its name."""
    told = project()
    name, version = told["name"], told["version"]
    platform = re.sub(r"[-.]", "_", sysconfig.get_platform()) if any(it.endswith(".so") for it in files) else "any"
    tag, about = f"py3-none-{platform}", f"{name}-{version}.dist-info"
    kind = f"Wheel-Version: 1.0\nGenerator: build_backend\nRoot-Is-Purelib: {str(platform == 'any').lower()}\nTag: {tag}\n"
    files = {**files, f"{about}/METADATA": metadata(), f"{about}/WHEEL": kind.encode()}
    if programs := table("project.scripts"):
        starts = "".join(f"{program} = {function}\n" for program, function in programs.items())
        files[f"{about}/entry_points.txt"] = f"[console_scripts]\n{starts}".encode()
    record = ""
    with zipfile.ZipFile(os.path.join(folder, f"{name}-{version}-{tag}.whl"), "w", zipfile.ZIP_DEFLATED) as wheel:
        for path, held in files.items():
            put(wheel, path, held)
            digest = base64.urlsafe_b64encode(hashlib.sha256(held).digest()).rstrip(b"=").decode()
            record += f"{path},sha256={digest},{len(held)}\n"
        put(wheel, f"{about}/RECORD", f"{record}{about}/RECORD,,\n".encode())
    return f"{name}-{version}-{tag}.whl"


def put(wheel, path, held):
    entry = zipfile.ZipInfo(path, LONG_AGO)
    entry.compress_type, entry.external_attr = zipfile.ZIP_DEFLATED, 0o644 << 16
    wheel.writestr(entry, held)


# ---- what pip calls


def build_wheel(wheel_directory, config_settings=None, metadata_directory=None):
    return write_wheel(wheel_directory, {path: read(path) for path in files_of(project()["name"])})


def build_editable(wheel_directory, config_settings=None, metadata_directory=None):
    return write_wheel(wheel_directory, {f"{project()['name']}.pth": HERE.encode() + b"\n"})


def build_sdist(sdist_directory, config_settings=None):
    told = project()
    name = f"{told['name']}-{told['version']}"
    with tarfile.open(os.path.join(sdist_directory, f"{name}.tar.gz"), "w:gz", format=tarfile.PAX_FORMAT) as sources:
        for path, held in [("PKG-INFO", metadata()), *((it, read(it)) for it in (*IN_SOURCES, *files_of(told["name"])))]:
            entry = tarfile.TarInfo(f"{name}/{path}")
            entry.size, entry.mode = len(held), 0o644
            sources.addfile(entry, io.BytesIO(held))
    return f"{name}.tar.gz"
