"""The processes of this machine, as /proc shows them."""

import os
from pathlib import Path

TICK = os.sysconf("SC_CLK_TCK")


class Process:
    """A process by its line in /proc/PID/stat."""

    def __init__(self, pid):
        # The name, in parentheses, may have spaces.
        rest = Path(f"/proc/{pid}/stat").read_text().rpartition(")")[2].split()
        self.pid, self.parent = pid, int(rest[1])
        self.seconds = (int(rest[11]) + int(rest[12])) / TICK
        self.start = rest[19]

    def words(self):
        return Path(f"/proc/{self.pid}/cmdline").read_text(errors="replace").split("\0")

    def folder(self):
        return os.readlink(f"/proc/{self.pid}/cwd")


def processes():
    """All processes that can be read, by number."""
    found = {}
    for name in os.listdir("/proc"):
        if name.isdigit():
            try:
                found[int(name)] = Process(int(name))
            except (OSError, IndexError):
                continue
    return found
