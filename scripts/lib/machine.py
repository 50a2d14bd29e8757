"""The machine of a benchmark, and its other load meanwhile."""

import os
import re
import time

TICKS = os.sysconf("SC_CLK_TCK")


def processor():
    """The model of the processor, by the kernel."""
    with open("/proc/cpuinfo", encoding="utf-8", errors="replace") as file:
        found = re.search(r"^model name\s*: (.*)$", file.read(), re.M)
    return " ".join(found[1].split()) if found else "a processor without a name"


def description():
    return f"{os.cpu_count()} processors, {processor()}"


def seconds_in(stat):
    """The processor's seconds in a line of /proc/PID/stat: those of the process, and of the children that it waited for.

    >>> seconds_in(b"7 (a) b) c) S 1 7 7 0 -1 4 0 0 0 0 300 50 20 30 20 0 1 0") * TICKS
    400.0
    """
    return sum(map(int, stat.rpartition(b")")[2].split()[11:15])) / TICKS


def stolen():
    """The seconds that other machines on the same processors took from this one."""
    with open("/proc/stat", "rb") as file:
        words = file.readline().split()
    return int(words[8]) / TICKS if len(words) > 8 else 0


def seconds_of_others():
    """The processor's seconds that all other processes have used, and that were stolen. The time of a process that
    ended counts for the process that waited for it, so the children of this process do not count."""
    total = stolen()
    for name in os.listdir("/proc"):
        if name.isdigit() and int(name) != os.getpid():
            try:
                with open(f"/proc/{name}/stat", "rb") as file:
                    total += seconds_in(file.read())
            except (FileNotFoundError, ProcessLookupError):
                pass
    return total


class Load:
    """The machine's load from here on. All children of this process must have ended when the load is read."""

    def __init__(self):
        self.before, self.began, self.used = os.getloadavg()[0], time.monotonic(), seconds_of_others()

    def end(self):
        """The load averages of a minute before and after, and how many processors others had used meanwhile."""
        used = max(0.0, seconds_of_others() - self.used)
        return self.before, os.getloadavg()[0], used / max(0.01, time.monotonic() - self.began)


def told(load):
    """The load as words.

    >>> told((0.314, 2.1, 0.04)), told((0.3, 2.1, 0.5))
    (('0.31, 2.10', '0.04'), ('0.30, 2.10', '**0.50**'))
    """
    before, after, others = load
    return f"{before:.2f}, {after:.2f}", f"**{others:.2f}**" if others > 0.1 else f"{others:.2f}"
