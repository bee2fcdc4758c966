#!/usr/bin/env python3
"""Measures a site over HTTP beside a Redis server, for `./bench http`: rates of commands that take one from a stock.

    tests/http_rates.py [--program PATH] [--runs N] [--seconds N] [LOAD..]

One load program (tests/http_load.c, which the C compiler makes) talks to both. A command is `spend 1 0` at the site, and
at Redis a script that takes one where there is enough, and plain DECR, which does not look. The three take turns, each
with a server of its own that was just started. Each load is a row: the best and the median of the runs. Where `wrk` is
here, it measures the site too. What is lacking on this machine is said, and not measured.
"""

import argparse
import os
import shutil
import statistics
import subprocess
import sys
import tempfile

sys.path.insert(0, os.path.dirname(os.path.abspath(__file__)))

from cluster import PROGRAM, Cluster  # noqa: E402
from redis_server import SCRIPT, STOCK, redis, redis_script, redis_words  # noqa: E402
from web_driver import WebCluster, alone, post  # noqa: E402

HERE = os.path.dirname(os.path.abspath(__file__))
# How often the site ticks meanwhile, in milliseconds.
TICK = 100
# By its name: the connections, the requests that go out together, and the commands of a body.
LOADS = {
    "1 connection, one command a request": (1, 1, 1),
    "8 connections, one command a request": (8, 1, 1),
    "50 connections, one command a request": (50, 1, 1),
    "1 connection, 16 requests pipelined": (1, 16, 1),
    "8 connections, 16 requests pipelined": (8, 16, 1),
    "50 connections, 16 requests pipelined": (50, 16, 1),
    "1 connection, bodies of 200": (1, 1, 200),
    "4 connections, bodies of 200": (4, 1, 200),
    "8 connections, bodies of 200": (8, 1, 200),
    "50 connections, bodies of 200": (50, 1, 200),
}


class Load:
    """The load program, and how long it runs."""

    def __init__(self, folder, seconds):
        self.program = os.path.join(folder, "http_load")
        self.seconds = seconds
        source = os.path.join(HERE, "http_load.c")
        subprocess.run(["cc", "-O2", "-pthread", "-D_GNU_SOURCE", "-o", self.program, source], check=True)

    def rate(self, port, connections, at_once, commands, request, expected):
        threads = min(2, connections)
        words = [port, threads, connections, at_once, commands, self.seconds, expected]
        done = subprocess.run([self.program, *map(str, words)], input=request, capture_output=True, timeout=60)
        if done.returncode != 0:
            sys.exit(done.stderr.decode().strip())
        return float(done.stdout)


# ---- servers


def site_rate(load, connections, at_once, commands, kind=WebCluster):
    with kind(2, started=[1], tick=TICK) as sites:
        sites.command(f"issue {STOCK}")
        request = post(*["spend 1 0"] * commands)
        return load.rate(sites.web_ports[0], connections, at_once, commands, request, "spent ")


def redis_rate(load, folder, connections, at_once, commands, is_script, options=()):
    """As many commands go out together as a body has, since Redis knows no bodies."""
    with redis(folder, *options) as port:
        request = redis_words(b"DECR", b"stock")
        if is_script:
            request = redis_words(b"EVALSHA", redis_script(port, SCRIPT), b"1", b"stock", b"1")
        return load.rate(port, connections, at_once * commands, 1, request, ":")


def wrk_rate(folder, connections, seconds):
    """Requests a second by wrk, each of one command."""
    path = os.path.join(folder, "spend.lua")
    with open(path, "w") as script:
        script.write('wrk.method = "POST"\nwrk.body = "spend 1 0\\n"\n')
    with alone(tick=TICK) as sites:
        sites.command(f"issue {STOCK}")
        words = ["wrk", f"-t{min(2, connections)}", f"-c{connections}", f"-d{max(1, round(seconds))}s", "-s", path]
        done = subprocess.run([*words, f"http://{sites.address()}/"], capture_output=True, text=True, timeout=60)
        if "Non-2xx" in done.stdout or "Requests/sec:" not in done.stdout:
            sys.exit(f"wrk: {done.stdout}{done.stderr}")
        return float(done.stdout.split("Requests/sec:")[1].split()[0])


def memory_of_idle_connections(count=60):
    """The bytes of memory that an idle connection takes, after one request."""
    with alone() as sites:
        def resident():
            with open(f"/proc/{sites[1].process.pid}/status") as status:
                return next(int(line.split()[1]) for line in status if line.startswith("VmRSS:")) * 1024

        first = sites.client()
        first.command("issue 1")
        before = resident()
        clients = [sites.client() for _ in range(count)]
        for client in clients:
            client.command("status")
        took = (resident() - before) / count
        for client in [first, *clients]:
            client.close()
        return took


def main():
    words = argparse.ArgumentParser(description=__doc__.splitlines()[0])
    words.add_argument("--program", default=PROGRAM)
    words.add_argument("--runs", type=int, default=5)
    words.add_argument("--seconds", type=float, default=1.5)
    words.add_argument("loads", nargs="*", metavar="LOAD", help="loads whose names have one of these texts in them; all without it")
    given = words.parse_args()
    Cluster.program = given.program
    if shutil.which("cc") is None:
        sys.exit("http: the load program is made by a C compiler, and there is no cc")
    has_redis, has_wrk = shutil.which("redis-server") is not None, shutil.which("wrk") is not None
    for name, is_here in (("redis-server", has_redis), ("wrk", has_wrk)):
        if not is_here:
            print(f"http: {name} is not here, so it is not measured")
    with tempfile.TemporaryDirectory() as folder:
        load = Load(folder, given.seconds)
        for name, (connections, at_once, commands) in LOADS.items():
            if given.loads and not any(text in name for text in given.loads):
                continue
            rates = {"site": lambda: site_rate(load, connections, at_once, commands)}
            if has_redis:
                rates["redis script"] = lambda: redis_rate(load, folder, connections, at_once, commands, True)
                rates["redis DECR"] = lambda: redis_rate(load, folder, connections, at_once, commands, False)
            if has_wrk and at_once == commands == 1:
                rates["site by wrk"] = lambda: wrk_rate(folder, connections, given.seconds)
            measured = {it: [] for it in rates}
            for _ in range(given.runs):
                for it, rate in rates.items():
                    measured[it].append(rate())
            row = "; ".join(f"{it} {max(found):,.0f}, {statistics.median(found):,.0f}" for it, found in measured.items())
            print(f"http {name}: {row} commands/s (best, median of {given.runs})", flush=True)
    print(f"http memory: {memory_of_idle_connections():,.0f} bytes for an idle connection")


if __name__ == "__main__":
    main()
