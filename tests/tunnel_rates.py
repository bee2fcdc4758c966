#!/usr/bin/env python3
"""Measures what TLS costs, by turns with and without it: gifts and entries between two sites through stunnel, and commands
to one site through nginx.

    tests/tunnel_rates.py [--program PATH]
"""

import argparse
import os
import statistics
import sys
import time

sys.path.insert(0, os.path.dirname(os.path.abspath(__file__)))

import cases  # noqa: E402

cases.choose_program()

from behind_nginx import TOKEN, Nginx  # noqa: E402
from cluster import PROGRAM, processor_seconds  # noqa: E402
from exchanges import exchange  # noqa: E402
from journal_kit import Journaled  # noqa: E402
from preloaded import built  # noqa: E402
from tunnel_kit import Tunneled  # noqa: E402
from web_driver import alone  # noqa: E402

import rights_http  # noqa: E402

GIVES = 1_000
ENTRIES = 300_000
TAKES = 2_000
# After so many spends comes a tick, and without what is waited for after so many seconds.
TICK_AFTER, PATIENCE = 200, 0.02


class InMemory:
    """Sites without journals: the disk is not measured."""

    def words(self, number):
        return [built(self.program), "run"]


class Plain(InMemory, Journaled):
    """The same words as those of the other kind, but for the addresses of peers."""


class Through(InMemory, Tunneled):
    pass


def processor(sites):
    """The seconds of processor time of the sites so far, and of their tunnels."""
    tunnels = getattr(sites, "tunnels", {})
    return sum(map(processor_seconds, sites.sites.values())), sum(map(processor_seconds, tunnels.values()))


def wait(sites, condition):
    until = time.perf_counter() + PATIENCE
    while not condition():
        if time.perf_counter() > until:
            sites[1].ask("tick 1")
            until = time.perf_counter() + PATIENCE


def gifts(kind):
    """The microseconds from each give, with its tick, until the other site holds it."""
    with kind(2) as sites:
        sites[1].ask(f"issue {GIVES + 100}")
        times = []
        for held in range(1, GIVES + 101):
            begun = time.perf_counter()
            sites[1].ask_all(["give 2 1", "tick 1"])
            wait(sites, lambda: sites[2].status()["held"] >= held)
            times.append((time.perf_counter() - begun) * 1e6)
        return times[100:]


def entries(kind):
    """Entries a second from one site's spends to the book of another one, and the microseconds of processor time for each,
    of both sites and of both tunnels."""
    with kind(2) as sites:
        sites[1].ask_all([f"issue {ENTRIES}", "tick 1"])
        wait(sites, lambda: sites[2].status()["peers"][0]["applied"] == 1)
        batch, count = b"spend 1 0\n" * TICK_AFTER + b"tick 1\n", ENTRIES // TICK_AFTER
        before, begun, process = processor(sites), time.perf_counter(), sites[1].process
        exchange(process.stdin.fileno(), process.stdout.fileno(), batch * count, (TICK_AFTER + 1) * count)
        wait(sites, lambda: sites[2].status()["peers"][0]["applied"] > ENTRIES)
        took = time.perf_counter() - begun
        return ENTRIES / took, *((after - start) * 1e6 / ENTRIES for after, start in zip(processor(sites), before))


def takes(through_nginx):
    """The microseconds of each command of one client that keeps its connection."""
    with alone() as sites:
        sites[1].ask(f"issue {TAKES}")
        if not through_nginx:
            return takes_by(rights_http.SiteClient(sites.address()))
        with Nginx(sites.address()) as nginx:
            return takes_by(nginx.client(TOKEN))


def takes_by(client):
    times = []
    with client:
        for _ in range(TAKES):
            begun = time.perf_counter()
            client.take(1)
            times.append((time.perf_counter() - begun) * 1e6)
    return times


def row(name, found):
    """The values of one measure, of all turns, in their order."""
    values = ", ".join(f"{value:,.1f}" if value < 100 else f"{value:,.0f}" for value in found)
    print(f"{name}: median {statistics.median(found):,.1f}, of {values}", flush=True)


def main():
    words = argparse.ArgumentParser(description=__doc__.splitlines()[0])
    words.add_argument("--program", default=PROGRAM)
    words.add_argument("--rounds", type=int, default=4)
    rounds = words.parse_args().rounds
    # What runs second may find the machine otherwise than what runs first. So each is the first and the last as often.
    turns = [False, True, True, False] * rounds
    found = {with_tls: [] for with_tls in (False, True)}
    for with_tls in turns:
        kind = Through if with_tls else Plain
        times, waits = sorted(gifts(kind)), sorted(takes(with_tls))
        ends = [part for each in (times, waits) for part in (statistics.median(each), each[len(each) * 99 // 100])]
        found[with_tls].append([*ends, *entries(kind)])
    names = [
        "a gift, us: median", "a gift, us: 99th of 100", "a command, us: median", "a command, us: 99th of 100", "entries/s",
        "an entry, us of processor time of the sites", "an entry, us of processor time of the tunnels",
    ]  # fmt: skip
    for place, name in enumerate(names):
        for with_tls, rows in found.items():
            row(f"{'with TLS   ' if with_tls else 'without TLS'} {name}", [each[place] for each in rows])


if __name__ == "__main__":
    main()
