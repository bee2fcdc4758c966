#!/usr/bin/env python3
"""Measures sites that run as processes on loopback, for `./bench run`, and a Redis server with a replica beside them,
where there is Redis. Each rate is the best of three runs."""

import os
import shutil
import socket
import statistics
import subprocess
import sys
import time
from contextlib import suppress

sys.path.insert(0, os.path.dirname(os.path.abspath(__file__)))

import redis_rates  # noqa: E402
from cluster import Cluster, at, free_ports  # noqa: E402
from exchanges import exchange  # noqa: E402

RUNS = 3
SPENDS = 2_000_000
ENTRIES = 1_000_000
SENT = 400_000
MISSED = 1_000_000
GIVES = 1_000
UNSENT = 1_000_000, 3_000_000
# After so many spends comes a tick. An outbox has room for their entries, if the earlier ones were sent.
TICK_AFTER = 200
# After so many seconds without what is waited for, one tick more.
PATIENCE = 0.02
HAS_REDIS = shutil.which("redis-server") is not None


def best(measure, *words):
    return max(measure(*words) for _ in range(RUNS))


def beside(measure, count, what):
    """The rate of Redis, as a part of a line, where there is Redis."""
    return f"; {what}: {best(measure, count):,.0f} commands/s" if HAS_REDIS else ""


def local_spends(spends=SPENDS, options=()):
    """Spends a second through the standard streams of one process, whose peer is not there."""
    commands = b"issue 1000000000\n" + b"spend 1 0\n" * spends + b"quit\n"
    own, other = free_ports(2)
    words = [Cluster.program, "run", "--id", "1", "--sites", "2", "--listen", at(own), *options, f"2={at(other)}"]
    site = subprocess.Popen(words, stdin=subprocess.PIPE, stdout=subprocess.PIPE)
    begun = time.perf_counter()
    exchange_with(site, commands, spends + 1)
    took = time.perf_counter() - begun
    site.wait()
    return spends / took


def exchange_with(process, commands, replies):
    """Writes commands to a process as fast as it reads them, and reads this number of replies."""
    exchange(process.stdin.fileno(), process.stdout.fileno(), commands, replies)


def carried_entries(entries=ENTRIES, kind=Cluster):
    """Entries a second from one process's spends to the book of another one. The commands are written as fast as the
    site reads them."""
    with kind(2) as sites:
        sites[1].ask(f"issue {entries}")
        sites[1].ask("tick 1")
        wait_for_applied(sites, 1)
        batch = b"spend 1 0\n" * TICK_AFTER + b"tick 1\n"
        begun = time.perf_counter()
        count = entries // TICK_AFTER
        exchange_with(sites[1].process, batch * count, (TICK_AFTER + 1) * count)
        wait_for_applied(sites, entries + 1)
        return entries / (time.perf_counter() - begun)


def applied(sites):
    return sites[2].status()["peers"][0]["applied"]


def wait_for_applied(sites, number):
    wait(sites, lambda: applied(sites) >= number)


def wait(sites, condition):
    """Asks again and again. Lines that found no room are told of by the beat of a further tick."""
    until = time.perf_counter() + PATIENCE
    while not condition():
        if time.perf_counter() > until:
            sites[1].ask("tick 1")
            until = time.perf_counter() + PATIENCE


def sent_entries():
    """Entries of a peer, which sends them without a pause, into one site: how many a second; the microseconds of the
    site's processor time for each, in the program and in the system; and how often a thread of the site slept."""
    lines = b"".join(b"E 2 %d %d I:1\n" % (number, number + 1) for number in range(SENT))
    with Cluster(2, started=[1]) as sites:
        site = sites[1]
        with socket.create_connection(("127.0.0.1", sites.ports[0])) as stream:
            stream.sendall(b"H 2\n")
            before = spent_by(site.process.pid)
            begun = time.perf_counter()
            stream.sendall(lines)
            while site.status()["peers"][0]["applied"] < SENT:
                time.sleep(0.005)
            took = time.perf_counter() - begun
            used = [after - start for after, start in zip(spent_by(site.process.pid), before)]
        program, system = (seconds * 1e6 / SENT for seconds in used[:2])
        return SENT / took, program, system, used[2]


def spent_by(pid):
    """The processor seconds of a process so far, in the program and in the system, and how often its threads slept."""
    folder = f"/proc/{pid}"
    with open(f"{folder}/stat") as stat:
        ticks = stat.read().rpartition(")")[2].split()[11:13]
    sleeps = 0
    for task in os.listdir(f"{folder}/task"):
        # A thread may end meanwhile, such as one that read a first line.
        with suppress(OSError), open(f"{folder}/task/{task}/status") as status:
            sleeps += int(status.read().partition("\nvoluntary_ctxt_switches:")[2].split()[0])
    return *(int(count) / os.sysconf("SC_CLK_TCK") for count in ticks), sleeps


def caught_up():
    """Entries a second that a site catches up with by queries, after it missed so many."""
    with Cluster(2, started=[1]) as sites:
        sites[1].ask(f"issue {MISSED}")
        exchange_with(sites[1].process, b"spend 1 0\n" * (MISSED - 1), MISSED - 1)
        # Nobody listens yet: what this tick sends is lost.
        sites[1].ask("tick 1")
        time.sleep(0.5)
        sites.start(2)
        begun = time.perf_counter()
        while applied(sites) < MISSED:
            sites[1].ask("tick 1")
            time.sleep(0.01)
        return MISSED / (time.perf_counter() - begun)


def gives(count=GIVES, kind=Cluster):
    """The microseconds from each of many gives, with its tick, to its being held at the other site."""
    with kind(2) as sites:
        sites[1].ask(f"issue {count}")
        times = []
        for held in range(1, count + 1):
            begun = time.perf_counter()
            sites[1].ask_all(["give 2 1", "tick 1"])
            wait(sites, lambda: sites[2].status()["held"] >= held)
            times.append((time.perf_counter() - begun) * 1e6)
        return sorted(times)


def late_gift(spends):
    """Seconds from a give until it is held at the other site, behind so many spends that no tick has sent."""
    with Cluster(2) as sites:
        sites[1].ask(f"issue {spends + 1}")
        exchange_with(sites[1].process, b"spend 1 0\n" * spends, spends)
        begun = time.perf_counter()
        sites[1].ask_all(["give 2 1", "tick 1"])
        wait(sites, lambda: sites[2].status()["held"] >= 1)
        return time.perf_counter() - begun


def middle(times):
    return f"{statistics.median(times):,.0f} us (median), {times[len(times) * 99 // 100]:,.0f} us (99th of 100)"


def main():
    if not HAS_REDIS:
        print("run: redis-server is not here, so it is not measured")
    redis = beside(redis_rates.local_takes, SPENDS, "a Redis server")
    print(f"run spends: {best(local_spends):,.0f} spends/s through one process ({SPENDS} spends){redis}", flush=True)
    redis = beside(redis_rates.carried_takes, ENTRIES, "from a Redis server to a replica")
    rate = best(carried_entries)
    print(f"run entries: {rate:,.0f} entries/s to another process ({ENTRIES} entries){redis}", flush=True)
    for _ in range(RUNS):
        rate, program, system, sleeps = sent_entries()
        spent = f"{program:.2f} us in the program and {system:.2f} us in the system for each, {sleeps} sleeps"
        print(f"run entries of a peer: {rate:,.0f} entries/s into one site ({SENT} entries); {spent}", flush=True)
    redis = beside(redis_rates.caught_up, MISSED, "a replica of a Redis server")
    rate = best(caught_up)
    each = f"{16e6 / rate:,.0f} us for each answer of 16"
    print(f"run catch-up: {rate:,.0f} entries/s by queries, {each} ({MISSED} entries){redis}", flush=True)
    redis = f"; Redis, till a replica confirms it: {middle(redis_rates.gives(GIVES))}" if HAS_REDIS else ""
    print(f"run give: till it is held at the other site: {middle(gives())}, of {GIVES}{redis}", flush=True)
    for spends in UNSENT:
        print(f"run give behind {spends} spends without a tick: {late_gift(spends):.2f} s till it is held", flush=True)


if __name__ == "__main__":
    main()
