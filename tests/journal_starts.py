"""How long a site takes to start with a journal of many records, and how much memory, for tests/journal_rates.py."""

import os
import statistics
import subprocess
import tempfile
from collections import namedtuple
from contextlib import contextmanager
from time import perf_counter

from cluster import Cluster, Site, at, expect, free_ports
from rates import exchange_with, spent_by

# Seconds that a start may take.
PATIENCE = 600
# What a site issues first.
STOCK = 1_000_000_000

# Seconds, and seconds of processor time.
Took = namedtuple("Took", "seconds processor")
# The peak memory of a site with a journal after so many spends, of one without, and of one that was started with that
# journal, in bytes; the length of the journal; what each start and each `sim` took.
Starts = namedtuple("Starts", "peaks journal starts sims")


@contextmanager
def site(*options):
    """One site of two, whose peer is not there."""
    own, other = free_ports(2)
    one = Site(1, 2, at(own), {2: at(other)}, [Cluster.program, "run", *options], timeout=PATIENCE)
    try:
        yield one
    finally:
        one.kill()


def peak_memory(pid):
    """The most bytes of memory that a process had so far."""
    with open(f"/proc/{pid}/status") as status:
        return next(int(line.split()[1]) for line in status if line.startswith("VmHWM:")) * 1024


def filled(spends, *options):
    """A site carries out so many spends: its peak memory."""
    with site(*options) as one:
        expect(one.ask(f"issue {STOCK}"), "number 1")
        exchange_with(one.process, b"spend 1 0\n" * spends, spends)
        return peak_memory(one.process.pid)


def started(spends, *options):
    """A site starts with the journal of so many: what it took until it answers, and its peak memory."""
    begun = perf_counter()
    with site(*options) as one:
        took = perf_counter() - begun
        expect(one.status()["number"], spends + 1, "the number of the last entry")
        return Took(took, sum(spent_by(one.process.pid)[:2])), peak_memory(one.process.pid)


def simulated(script):
    """What `sim` takes for a script."""
    with open(script, "rb") as commands:
        begun = perf_counter()
        process = subprocess.Popen([Cluster.program, "sim"], stdin=commands, stdout=subprocess.DEVNULL)
        _, status, used = os.wait4(process.pid, 0)
        took = perf_counter() - begun
    expect(status, 0, "the status of sim")
    return Took(took, used.ru_utime + used.ru_stime)


def measured(spends, runs):
    """A site makes a journal of so many spends. Then starts with it and `sim` on as many take turns."""
    with tempfile.TemporaryDirectory() as room:
        journal, script = os.path.join(room, "journal"), os.path.join(room, "script")
        with open(script, "wb") as file:
            file.write(b"sites 2\nissue 1 %d\n" % STOCK + b"spend 1 1 0\n" * spends)
        peaks = filled(spends, "--journal", journal), filled(spends)
        found = [(*started(spends, "--journal", journal), simulated(script)) for _ in range(runs)]
        starts, again, sims = zip(*found)
        return Starts((*peaks, max(again)), os.path.getsize(journal), starts, sims)


def rows(found):
    """A table of starts beside `sim`: its rows."""
    for what, name in (("seconds", "seconds"), ("processor", "seconds of processor time")):
        times = [[getattr(took, what) for took in each] for each in (found.starts, found.sims)]
        yield [f"{name}: best, median", *(f"{min(each):.2f}, {statistics.median(each):.2f}" for each in times)]


def megabytes(count):
    return f"{count / 1e6:,.0f} MB"
