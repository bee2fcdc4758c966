#!/usr/bin/env python3
"""Measures many sites on one machine: so many stocks, each with a site at two places, started by examples/many-stocks.

    tests/stock_rates.py [--program PATH] [--sites 500] [--tick 100] [--seconds 30] [--alone]
"""

import argparse
import os
import subprocess
import sys
import tempfile
import time

sys.path.insert(0, os.path.dirname(os.path.abspath(__file__)))

import cases  # noqa: E402

cases.choose_program()

from cluster import PROGRAM  # noqa: E402
from many_stocks import SCRIPT  # noqa: E402
from preloaded import built  # noqa: E402

# Below the ports of connections that go out, and far enough from each other for so many stocks.
PORTS = {"east": (12_000, 16_000), "west": (20_000, 24_000)}


def table(stocks, tick, is_together):
    """A table of so many stocks: with a site at each of two places, or with one whose peer is not there."""
    places = [f"place {name} 127.0.0.1 {peers} {web}" for name, (peers, web) in PORTS.items()]
    sites = "east west" if is_together else "east -"
    return "\n".join([*places, f"tick {tick}", *(f"stock s{number} {number} {sites}" for number in range(1, stocks + 1))])


def call(room, *words):
    """Calls the script, and returns how many seconds that took."""
    begun = time.monotonic()
    subprocess.run([sys.executable, SCRIPT, os.path.join(room, "table"), *words], check=True, stdout=subprocess.DEVNULL)
    return time.monotonic() - begun


def processes(room):
    """The numbers of the processes, by the files in which they were noted."""
    found = []
    for folder, _, names in os.walk(room):
        if "pid" in names:
            with open(os.path.join(folder, "pid")) as file:
                found.append(int(file.read()))
    return found


def field(pid, file, name):
    """The number behind a name in a file of the system about a process."""
    with open(f"/proc/{pid}/{file}") as text:
        return int(next(line for line in text if line.startswith(f"{name}:")).split()[1])


def seconds_of(pid):
    """Processor time so far, in the program and in the system."""
    with open(f"/proc/{pid}/stat") as stat:
        return [int(count) / os.sysconf("SC_CLK_TCK") for count in stat.read().rpartition(")")[2].split()[11:13]]


def switches_of(pid):
    """How often each thread of a process slept, by the number of the thread."""
    found = {}
    for task in os.listdir(f"/proc/{pid}/task"):
        found[task] = field(pid, f"task/{task}/status", "voluntary_ctxt_switches")
    return found


def measure(room, seconds):
    pids = processes(room)
    before, slept = [seconds_of(pid) for pid in pids], switches_of(pids[0])
    time.sleep(seconds)
    used = [[after - start for after, start in zip(seconds_of(pid), first)] for pid, first in zip(pids, before)]
    program, system = (sum(each[place] for each in used) / seconds for place in (0, 1))
    rest = [(after - slept.get(task, 0)) / seconds for task, after in switches_of(pids[0]).items()]
    print(f"  {sum(field(pid, 'status', 'Threads') for pid in pids):,} threads, {field(pids[0], 'status', 'Threads')} of one site")
    for name, file in (("Pss", "smaps_rollup"), ("RssAnon", "status"), ("VmRSS", "status"), ("VmSize", "status")):
        total = sum(field(pid, file, name) for pid in pids)
        print(f"  {name}: {total / 1024:,.0f} MB in all, {total / len(pids):,.0f} kB for each site")
    print(f"  idle for {seconds} s: {program:.2f} processors in the program and {system:.2f} in the system")
    print(f"  wakes a second of the threads of one site: {', '.join(f'{value:.1f}' for value in sorted(rest, reverse=True))}")


def main():
    words = argparse.ArgumentParser(description=__doc__.splitlines()[0])
    words.add_argument("--program", default=PROGRAM)
    words.add_argument("--sites", type=int, default=500)
    words.add_argument("--tick", type=int, default=100)
    words.add_argument("--seconds", type=int, default=30)
    words.add_argument("--alone", action="store_true", help="the peers of all sites are not there")
    given = words.parse_args()
    with tempfile.TemporaryDirectory(prefix="stock-rates-") as room:
        with open(os.path.join(room, "table"), "w") as file:
            file.write(table(given.sites if given.alone else given.sites // 2, given.tick, not given.alone))
        print(f"{given.sites} sites, {'alone' if given.alone else 'two of a stock'}, a tick every {given.tick} ms", flush=True)
        try:
            took = call(room, "start", room, "--program", built(given.program))
            print(f"  started in {took:.1f} s")
            measure(room, given.seconds)
        finally:
            print(f"  ended in {call(room, 'stop', room):.1f} s")


if __name__ == "__main__":
    main()
