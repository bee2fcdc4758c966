#!/usr/bin/env python3
"""Measures what proofs cost, in processor time, by crate and phase:

    tests/costs.py [--table FILE] COMMAND..
                                       runs a command, and writes the table to FILE or standard error once it has ended
    tests/costs.py --beside PID        the same of what a process that runs already starts, until it ends
    tests/costs.py --functions [--tests] [--libraries FOLDER] CRATE
                                       the longest functions of a crate, or of its tests, by a check from nothing in one job

A command is watched by looking at /proc twice a second, so what a process used after the last look is not in the table;
the last line has the processor time of the whole command too, where it is known. Seconds of different machines, or of a
machine that does other work, cannot be compared: more threads on a core make each of them slower. FOLDER has the
libraries below CRATE; where it is not given, they are those that `rt` or `./build` made here.
"""

import os
import re
import subprocess
import sys
import time
from collections import defaultdict
from pathlib import Path

import wrong_bodies
from processes import Process, processes

PHASES = ("proof", "tests' proof", "wrong bodies", "program", "other")
# The longest functions that are printed.
MOST = 25


def is_below(pid, top, every):
    """Whether a process is one that another started, at one remove or more."""
    while pid in every:
        pid = every[pid].parent
        if pid == top:
            return True
    return False


def purpose(process, every):
    """The crate and the phase that a process works for, by its words or those of the process that started it."""
    try:
        words, folder = process.words(), process.folder()
    except OSError:
        return None
    if "--crate-name" not in words[:-1]:
        parent = every.get(process.parent)
        return parent and purpose(parent, every)
    crate = words[words.index("--crate-name") + 1]
    if Path(folder).name.startswith("wrong-body-") or "must-fail" in folder:
        return crate, "wrong bodies"
    if "--test" in words:
        return crate, "tests' proof"
    return crate, "program" if any(it.endswith("main.rt") for it in words) else "proof"


class Table:
    """The processor time of each process that was seen, by crate and phase."""

    def __init__(self):
        self.seconds, self.purposes = {}, {}

    def look(self, top):
        """Notes what has been used so far. Answers whether the process at the top is still there."""
        every = processes()
        for pid, process in every.items():
            if not is_below(pid, top, every):
                continue
            key = pid, process.start
            # What it runs is asked again until it is a check, since a process begins as a copy of the one that starts it.
            if self.purposes.get(key) is None:
                self.purposes[key] = purpose(process, every)
            self.seconds[key] = process.seconds
        return top in every

    def rows(self):
        rows = defaultdict(lambda: dict.fromkeys(PHASES, 0.0))
        for key, seconds in self.seconds.items():
            crate, phase = self.purposes[key] or ("all else", "other")
            rows[crate][phase] += seconds
        return rows

    def print(self, whole, out):
        rows = self.rows()
        lines = [("crate", *PHASES, "sum")]
        for crate, row in sorted(rows.items(), key=lambda it: -sum(it[1].values())):
            lines.append((crate, *(f"{row[it]:.0f}" if row[it] else "" for it in PHASES), f"{sum(row.values()):.0f}"))
        sums = [sum(row[it] for row in rows.values()) for it in PHASES]
        lines.append(("in all", *(f"{it:.0f}" for it in sums), f"{sum(sums):.0f}"))
        widths = [max(len(line[at]) for line in lines) for at in range(len(lines[0]))]
        print("Processor time in seconds, by crate and phase:", file=out)
        for line in lines:
            row = "  ".join(text.rjust(width) for text, width in zip(line[1:], widths[1:]))
            print(f"{line[0]:{widths[0]}}  {row}", file=out)
        if whole is not None:
            print(f"The command used {whole:.0f} s.", file=out)


def run(words, out):
    table, begun = Table(), subprocess.Popen(words)
    while begun.poll() is None:
        table.look(os.getpid())
        time.sleep(0.5)
    used = os.times()
    table.print(used.children_user + used.children_system, out)
    return begun.returncode


def watch(pid):
    table = Table()
    while table.look(pid):
        time.sleep(0.5)
    table.print(None, sys.stdout)
    return 0


def functions(words):
    """Prints the longest functions of a crate."""
    build = wrong_bodies.build
    folders, more = [build.CRATES, build.PROVED], ["--progress"]
    if words[:1] == ["--tests"]:
        more, words = [*more, "--test"], words[1:]
    if words[:1] == ["--libraries"] and len(words) > 1:
        folders, words = [Path(words[1]).resolve()], words[2:]
    crate = next((it for it in wrong_bodies.all_crates(folders) if [it.name] == words), None)
    if crate is None:
        print(f"no crate: {' '.join(words)}", file=sys.stderr)
        return 2
    took, last = [], 0.0
    with subprocess.Popen(
        [*crate.words(), *more],
        cwd=crate.folder,
        stdin=subprocess.DEVNULL,
        stdout=subprocess.PIPE,
        stderr=subprocess.STDOUT,
        text=True,
        errors="replace",
    ) as check:
        for line in check.stdout:
            found = re.match(r"checked (.*), \d+ of \d+", line)
            if found:
                now = Process(check.pid).seconds
                took.append((now - last, found[1]))
                last = now
    for seconds, function in sorted(took, reverse=True)[:MOST]:
        print(f"{seconds:8.1f}  {function}")
    print(f"{sum(it for it, _ in took):8.1f}  in all, of {len(took)} functions")
    if check.returncode != 0:
        print(line.rstrip(), file=sys.stderr)
    return check.returncode


def main(words):
    if not words or words[0] in ("--help", "-h"):
        print(__doc__)
        return 0 if words else 2
    if words[0] == "--beside" and len(words) == 2:
        return watch(int(words[1]))
    if words[0] == "--functions":
        return functions(words[1:])
    if words[0] == "--table" and len(words) > 2:
        with open(words[1], "w") as out:
            return run(words[2:], out)
    return run(words, sys.stderr)


if __name__ == "__main__":
    sys.exit(main(sys.argv[1:]))
