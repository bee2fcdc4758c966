#!/usr/bin/env python3
"""Measures a site with a journal, for `./bench journal`, beside the same site without one, Redis, PostgreSQL, and the disk.

    tests/journal_rates.py [--program PATH] [--folder PATH] [--runs N] [--seconds N] [--records N] [--write] [PART..]

All that is written goes to one disk, that of the folder. Each load on a site and on Redis is by one load program
(tests/http_load.c), as for `./bench http`; PostgreSQL has its own, pgbench. The systems take turns. What is lacking on this
machine is said, and not measured. A PART is a text: what has it in its name is measured, all without one. `--write` puts
the tables into docs/PERFORMANCE.md.
"""

import argparse
import os
import shutil
import statistics
import sys
import tempfile
import time
from contextlib import ExitStack, nullcontext

sys.path.insert(0, os.path.dirname(os.path.abspath(__file__)))

import journal_starts  # noqa: E402
import postgres_server  # noqa: E402
import redis_server  # noqa: E402
from cluster import PROGRAM, TOP, Cluster  # noqa: E402
from http_rates import Load, redis_rate, site_rate  # noqa: E402
from journal_kit import Journaled, batch  # noqa: E402
from page_tables import put, table  # noqa: E402
from rates import carried_entries, gives, local_spends  # noqa: E402
from redis_rates import local_takes  # noqa: E402
from web_driver import WebCluster  # noqa: E402

# By its name: the connections, the requests that go out together, and the commands of a body.
LOADS = {
    "1 connection, one command a request": (1, 1, 1),
    "8 connections, one command a request": (8, 1, 1),
    "50 connections, one command a request": (50, 1, 1),
    "1 connection, 16 requests pipelined": (1, 16, 1),
    "50 connections, 16 requests pipelined": (50, 16, 1),
    "1 connection, bodies of 200": (1, 1, 200),
    "8 connections, bodies of 200": (8, 1, 200),
    "50 connections, bodies of 200": (50, 1, 200),
}
PIPE, GIFTS, ENTRIES, STARTS = "standard input, replies not awaited", "gifts", "entries to another site", "start"
JOURNAL, NO_JOURNAL = "with a journal", "without"
KINDS = {JOURNAL: Journaled, NO_JOURNAL: WebCluster}
ALWAYS, EVERYSEC = "Redis, always", "Redis, everysec"
ONE_ROW, ROWS = "PostgreSQL, one row", "PostgreSQL, a row each"
DISK = "the disk alone, syncs"
# How many commands go through a pipe, how many gifts are timed, and how many entries are sent, in a run.
PIPE_COUNT, GIFT_COUNT, ENTRY_COUNT = 300_000, 300, 200_000
PEAKS = "with a journal, after these spends", "without, after these spends", "started with that journal"
# A batch of one spend, as a journal has it.
APPENDED = batch("E 1 1000000 1000001 S:1")
IN_MEMORY = ("tmpfs", "ramfs")
# This program writes what is between these in docs/PERFORMANCE.md.
BEGIN, END = "<!-- made by ./bench journal --write -->\n", "<!-- end of what ./bench journal made -->\n"


# ---- systems


def disk_rate(seconds):
    """Appends of a record a second: one write and one sync for each."""
    with tempfile.TemporaryFile(buffering=0) as file:
        count, until = 0, time.monotonic() + seconds
        while time.monotonic() < until:
            os.write(file.fileno(), APPENDED)
            os.fdatasync(file.fileno())
            count += 1
    return count / seconds


def lasting_redis(load, when, *shape):
    """Redis that appends each change to a file, and syncs it so."""
    with tempfile.TemporaryDirectory() as folder:
        return redis_rate(load, folder, *shape, True, [*redis_server.ALWAYS, "--appendfsync", when])


def systems(load, postgres):
    """By its name, what measures a system under a load. `postgres` is the port of its server, if there is one. It is
    not measured with what is pipelined: there each transaction would be one of several commands."""
    found = {name: lambda *shape, kind=kind: site_rate(load, *shape, kind) for name, kind in KINDS.items()}
    if shutil.which("redis-server"):
        found[ALWAYS] = lambda *shape: lasting_redis(load, "always", *shape)
        found[EVERYSEC] = lambda *shape: lasting_redis(load, "everysec", *shape)
    if postgres is not None:
        for name, row in ((ONE_ROW, "0"), (ROWS, ":client_id")):
            found[name] = lambda clients, at_once, commands, row=row: at_once == 1 and postgres_server.postgres_rate(
                postgres, clients, commands, load.seconds, row
            )
    found[DISK] = lambda *_: disk_rate(load.seconds / 2)
    return found


def piped(measured):
    """The same of a pipe, for the systems that have one; of Redis it is a connection."""

    def journaled():
        with tempfile.TemporaryDirectory() as folder:
            return local_spends(PIPE_COUNT, ["--journal", os.path.join(folder, "journal")])

    found = {
        JOURNAL: journaled,
        NO_JOURNAL: lambda: local_spends(PIPE_COUNT),
        ALWAYS: lambda: local_takes(PIPE_COUNT, *redis_server.ALWAYS),
        EVERYSEC: lambda: local_takes(PIPE_COUNT, *redis_server.ALWAYS, "--appendfsync", "everysec"),
    }  # fmt: skip
    return {it: found.get(it, lambda: False) for it in measured}


def by_turns(runs, measures):
    """What each of these finds, in so many rounds. One that does not apply finds nothing."""
    found = {name: [] for name in measures}
    for _ in range(runs):
        for name, measure in measures.items():
            value = measure()
            if value is not False:
                found[name].append(value)
    return found


def best(rates):
    return f"{max(rates):,.0f}, {statistics.median(rates):,.0f}" if rates else ""


# ---- what is measured


def spends(given, load, measured):
    """The table of rates."""
    rows = []
    for name in filter(given.wants, [*LOADS, PIPE]):
        shape = LOADS.get(name)
        measures = {it: lambda rate=rate: rate(*shape) for it, rate in measured.items()} if shape else piped(measured)
        cells = {it: best(rates) for it, rates in by_turns(given.runs, measures).items()}
        row = "; ".join(f"{it} {cell}" for it, cell in cells.items() if cell)
        print(f"journal {name}: {row} a second (best, median of {given.runs})", flush=True)
        rows.append([name, *cells.values()])
    return [table(["spends a second", *measured], rows)] if rows else []


def between_sites(given):
    """The table of what two sites do, with journals and without."""
    rows = []
    if given.wants(GIFTS):
        found = by_turns(given.runs, {it: lambda kind=kind: gives(GIFT_COUNT, kind) for it, kind in KINDS.items()})
        cells = [percentiles(sorted(sum(times, []))) for times in found.values()]
        rows.append([f"a gift until the other site holds it, of {GIFT_COUNT * given.runs:,}: us, median and 99th of 100", *cells])
    if given.wants(ENTRIES):
        rates = {it: lambda kind=kind: carried_entries(ENTRY_COUNT, kind) for it, kind in KINDS.items()}
        cells = map(best, by_turns(given.runs, rates).values())
        rows.append([f"{ENTRIES}, of {ENTRY_COUNT:,}: a second, best and median", *cells])
    for what, *cells in rows:
        print(f"journal {what}: " + "; ".join(f"{kind} {cell}" for kind, cell in zip(KINDS, cells)), flush=True)
    return [table(["two sites", *KINDS], rows)] if rows else []


def percentiles(times):
    return f"{statistics.median(times):,.0f}, {times[len(times) * 99 // 100]:,.0f}"


def start(given):
    """The table of a start with a journal of many records."""
    if not given.wants(STARTS):
        return []
    found = journal_starts.measured(given.records, given.runs)
    rows = list(journal_starts.rows(found))
    for what, start, sim in rows:
        print(f"journal start with {given.records:,} spends: {what}: {start}; sim {sim}", flush=True)
    peaks = list(map(journal_starts.megabytes, found.peaks))
    print("journal peak memory: " + "; ".join(map(": ".join, zip(PEAKS, peaks))), flush=True)
    length = journal_starts.megabytes(found.journal)
    head = f"a start with a journal of {given.records:,} spends ({length}), and `sim` with as many", "start", "sim"
    return [table(head, rows), table(["peak memory", *PEAKS], [["", *peaks]])]


# ---- the whole


def file_system(folder):
    """The kind of the file system that a folder is on, and what that is on."""
    number = os.stat(folder).st_dev
    with open("/proc/self/mountinfo") as mounts:
        for line in mounts:
            words, _, kind = line.partition(" - ")
            if words.split()[2] == f"{os.major(number)}:{os.minor(number)}":
                return kind.split()[:2]
    return ["a file system that is not listed", "?"]


def words_of(program):
    words = argparse.ArgumentParser(prog=program, description=__doc__.splitlines()[0])
    words.add_argument("--program", default=PROGRAM)
    words.add_argument("--folder", default=os.path.join(TOP, "out", "tmp"), help="on the disk that is measured")
    words.add_argument("--runs", type=int, default=5)
    words.add_argument("--seconds", type=float, default=0.6, help="of each run of a load")
    words.add_argument("--records", type=int, default=10_000_000, help="of the journal that a site starts with")
    words.add_argument("--write", action="store_true", help="put the tables into docs")
    words.add_argument("parts", nargs="*", metavar="PART", help="what has one of these texts in its name; all without it")
    return words


def main():
    words = words_of(None)
    given = words.parse_args()
    given.wants = lambda name: not given.parts or any(text in name for text in given.parts)
    if given.write and given.parts:
        words.error("--write is of all parts")
    if shutil.which("cc") is None:
        sys.exit("journal: the load program is made by a C compiler, and there is no cc")
    os.makedirs(given.folder, exist_ok=True)
    kind, device = file_system(given.folder)
    if kind in IN_MEMORY:
        sys.exit(f"journal: {given.folder} is in memory ({kind}): name one on a disk by --folder")
    Cluster.program = given.program
    # All that is made here is made there.
    tempfile.tempdir = os.path.abspath(given.folder)
    where = f"on {kind} ({device}), with {os.cpu_count()} processors, and a load average of {os.getloadavg()[0]:.1f} before"
    print(f"journal: {tempfile.tempdir} is {where}", flush=True)
    tables = measure(given)
    print("\n" + "\n".join(tables))
    if given.write:
        head = f"Measured on {time.strftime('%Y-%m-%d')} {where}; best and median of {given.runs} runs:\n"
        put(BEGIN, "\n".join([head, *tables]), END)


def measure(given):
    has_redis, lacks = shutil.which("redis-server") is not None, postgres_server.lacks(tempfile.tempdir)
    for what in (not has_redis and "redis-server is not here", lacks):
        if what:
            print(f"journal: {what}, so it is not measured")
    wants_loads = any(map(given.wants, LOADS))
    with ExitStack() as stack:
        folder = stack.enter_context(tempfile.TemporaryDirectory())
        postgres = stack.enter_context(nullcontext() if lacks or not wants_loads else postgres_server.postgres())
        load = Load(folder, given.seconds)
        tables = spends(given, load, systems(load, postgres))
    return tables + between_sites(given) + start(given)


if __name__ == "__main__":
    main()
