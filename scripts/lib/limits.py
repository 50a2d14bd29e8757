"""Limits of this process, and of those that it starts."""

import resource

from lib.checks import Stop


def raise_files(count):
    """Lets this process, and what it starts, have this many files open. `Stop` if the machine does not."""
    soft, hard = resource.getrlimit(resource.RLIMIT_NOFILE)
    if hard != resource.RLIM_INFINITY and hard < count:
        raise Stop(f"a process may have {hard} files here")
    resource.setrlimit(resource.RLIMIT_NOFILE, (max(soft, count), hard))
