#!/usr/bin/env python3
"""Plants one bug after another in a second implementation of a running site, and says which check of ./conformance finds it:
tests/bugs.py [WORD].

With a WORD, only the bugs whose names, or the names of whose files, contain it. The inputs of the checks are first given
to the model with the bug in it, in this process: where what it says differs from what the model says, the check finds it.
Bugs that no such check finds, as those of connections, are tried by ./conformance itself, on tests/model_site.py; those of
a clock by its checks of clocks alone, and those of a journal by its checks of restarts. A line for each bug names the check
that finds it. Then comes a table by the files in which the bugs are. The last line is 'N passed, M failed': how many were
found, and how many were not.
"""

import os
import subprocess
import sys
import time
from collections import Counter
from concurrent.futures import ThreadPoolExecutor
from contextlib import suppress
from multiprocessing import get_context

HERE = os.path.dirname(os.path.abspath(__file__))
sys.path.insert(0, HERE)

import site_checks  # noqa: E402
from bug_kit import MODULE_OF, all_bugs  # noqa: E402
from key_model import USUAL_KEYS  # noqa: E402
from model_process import Limits  # noqa: E402
from site_model import RunningSite  # noqa: E402
from site_trial import Trial  # noqa: E402

AT_ONCE = 6
SECONDS = 30
# What does not come at once does not come: a bug that makes a site silent is found sooner.
PATIENCE = 10

# The words of ./conformance for bugs of some files. Those of the others are tried by all that `run` has.
USUAL_PART = ["run"]
PARTS = {
    "word_bugs": ["words"], "clock_bugs": ["run", "--only=clock_checks"],
    "restart_bugs": ["run", "--journal", "--only=restart_checks"],
}  # fmt: skip

# How a bug is found.
WAYS = IN_PROCESS, BY_CONFORMANCE, NOT_FOUND = "in process", "by ./conformance", "not found"


class Recorder:
    """A model alone, in the place of a process beside its model: it notes all that it says."""

    def __init__(self, count, number, keys):
        self.model, self.said = RunningSite(number, count, keys=keys), []

    def give_commands(self, lines, cuts=(), pause=0):
        self.said += map(self.model.reply, lines)

    def give_lines(self, number, lines, cuts=(), pause=0):
        for line in [*lines, b"Q %d %d 1 1" % (number, self.model.number)]:
            self.model.hear(number, line)

    def settle(self):
        self.said += [self.model.take(peer) for peer in self.model.peers]
        self.said.append(self.model.reply(b"status"))

    def close(self):
        pass


class Recording(Trial):
    def __init__(self, count, number, keys):
        self.node, self.time = Recorder(count, number, keys), 0


def said_by_check(bug=None):
    """What a model says to the inputs of each check that needs no connection, with a bug in it where one is named."""
    if bug is not None:
        all_bugs()[bug](Limits())
    said = {}
    for name, check in site_checks.all_checks():
        if check.__module__ not in site_checks.OF_CONNECTIONS:
            trial = Recording(*site_checks.system_of(name), site_checks.KEYS.get(name, USUAL_KEYS))
            # With a bug the model may fail, and says no more then.
            with suppress(*([Exception] if bug else [])):
                check(trial)
            said[name] = trial.node.said
    return said


def by_conformance(name):
    """The check of ./conformance that finds the bug, or None."""
    words = [os.path.join(HERE, "..", "conformance"), *PARTS.get(MODULE_OF[name], USUAL_PART)]
    words += ["--ours=none", "--fail-fast", f"--seconds={SECONDS}", f"--patience={PATIENCE}"]
    ended = subprocess.run([*words, os.path.join(HERE, "model_site.py"), "--bug", name], capture_output=True, text=True)
    lines = [line for line in ended.stdout.splitlines() if ": FAILED: " in line]
    if not lines and ended.returncode != 0:
        raise RuntimeError(f"{name}: ./conformance ended with status {ended.returncode}: {ended.stderr}")
    return lines[0].split(": FAILED", 1)[0] if lines else None


def in_process(name, right, fork):
    """The check whose inputs show the bug in this process, or None."""
    # A planted bug stays in its process.
    with fork.Pool(1) as pool:
        said = pool.apply(said_by_check, (name,))
    return next((check for check in right if said[check] != right[check]), None)


def found_by(name, right, fork):
    """How the bug is found, and by which check."""
    # A model in this process keeps no journal.
    if MODULE_OF[name] != "restart_bugs" and (check := in_process(name, right, fork)) is not None:
        return IN_PROCESS, check
    check = by_conformance(name)
    return (NOT_FOUND, None) if check is None else (BY_CONFORMANCE, check)


def print_table(names, ways):
    """How many bugs of each file were found, and how."""
    files = [MODULE_OF[name] for name in names]
    rows = [("in", "bugs", *WAYS)]
    for shown in [*sorted(set(files)), "all"]:
        count = Counter(way for file, way in zip(files, ways) if shown in (file, "all"))
        rows.append((shown, count.total(), *(count[way] for way in WAYS)))
    for first, *others in rows:
        print(f"{first:<10}" + "".join(f"{other:>{len(title) + 3}}" for other, title in zip(others, rows[0][1:])))


def main(words):
    begun = time.monotonic()
    right, fork = said_by_check(), get_context("fork")
    names = [name for name in all_bugs() if not words or words[0] in name or words[0] in MODULE_OF[name]]
    ways = []
    with ThreadPoolExecutor(AT_ONCE) as pool:
        for name, (way, check) in zip(names, pool.map(lambda name: found_by(name, right, fork), names)):
            ways.append(way)
            print(f"{name}: {check or 'NOT FOUND'}", flush=True)
    print_table(names, ways)
    print(f"{time.monotonic() - begun:.0f} seconds")
    missed = ways.count(NOT_FOUND)
    print(f"{len(names) - missed} passed, {missed} failed")
    return 1 if missed else 0


if __name__ == "__main__":
    sys.exit(main(sys.argv[1:]))
