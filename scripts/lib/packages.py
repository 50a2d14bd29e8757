"""Packages that scripts/package makes for checks."""

import glob
import os
import shutil
import subprocess

from lib.checks import Stop, skip
from lib.processes import compiler, libraries
from lib.programs import SCRIPTS, built

LONG_AGO = "1700000000"


def run_package(*words, **how):
    how = {"stdin": subprocess.DEVNULL, "capture_output": True, "text": True, "timeout": 300, **how}
    return subprocess.run([os.path.join(SCRIPTS, "package"), *words], **how)


def made_in(folder, *words):
    """Makes the packages in a folder, with files of a fixed time."""
    ran = run_package(*words, folder, env={**os.environ, "SOURCE_DATE_EPOCH": LONG_AGO})
    if ran.returncode != 0:
        raise Stop(f"scripts/package ended with status {ran.returncode}: {ran.stderr}")
    return ran


def one(folder, pattern):
    """The path of the file of this form in a folder."""
    found = glob.glob(os.path.join(folder, pattern))
    if len(found) != 1:
        raise Stop(f"{pattern} in {folder} is {found}")
    return found[0]


def can_be_made():
    """Whether packages can be made here; what is not proved and built yet is built first."""
    if not shutil.which(compiler()) or not shutil.which("objdump"):
        skip("packages", "there is no C compiler, or no objdump (scripts/set-up installs them)")
        return False
    built()
    libraries()
    return True
