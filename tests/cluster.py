"""Sites as processes on loopback, for those who drive them."""

import os
import socket
import struct
import sys
import time

HERE = os.path.dirname(os.path.abspath(__file__))
TOP = os.path.dirname(HERE)
for folder in ("python", os.path.join("examples", "ticket-sale")):
    sys.path.insert(0, os.path.join(TOP, folder))

import proxies  # noqa: E402
from proxies import free_ports  # noqa: E402, F401
from rights_site import Site, SiteEnded  # noqa: E402, F401

# The program that is tried: what suite.py says, or else ./rights-site, which builds it where it is not fresh.
PROGRAM = os.environ.get("RIGHTS_SITE") or os.path.join(TOP, "rights-site")
# What that builds, and then calls.
BUILT = os.path.join(TOP, "crates", "rights_site", "out", "rights_site")


# How many seconds a test waits for what comes at some time. It goes on as soon as that is there, so only what never comes
# takes so long, on however busy a machine.
PATIENCE = 60


def at(port):
    return f"127.0.0.1:{port}"


def expect(actual, expected, what=""):
    if actual != expected:
        raise AssertionError(f"{what}: expected {expected!r}; actual {actual!r}")


def wait_for(what, condition, seconds=PATIENCE):
    """Asks again and again, 10 ms apart, and fails where the time is over."""
    until = time.monotonic() + seconds
    while True:
        value = condition()
        if value:
            return value
        if time.monotonic() > until:
            raise AssertionError(f"{what}: not within {seconds} seconds")
        time.sleep(0.01)


class Cluster:
    """Sites on loopback that know each other, some of them by way of a proxy."""

    program = PROGRAM
    # The class of its sites.
    kind = Site

    def __init__(self, count, started=None, routes=None, programs=None):
        """`started` are the sites that are started here, all without it; `routes` has the address that site
        s is told for site p, by (s, p); `programs` has the program of a site that is not of this one."""
        self.ports = free_ports(count)
        self.count = count
        self.routes = routes or {}
        self.programs = programs or {}
        self.sites = {}
        for number in range(1, count + 1) if started is None else started:
            self.start(number)

    def start(self, number):
        peers = {
            peer: self.routes.get((number, peer), at(self.ports[peer - 1]))
            for peer in range(1, self.count + 1)
            if peer != number
        }
        program = self.programs.get(number, self.program)
        site = self.kind(number, self.count, self.listens_at(number), peers, program, **self.options(number))
        self.sites[number] = site
        return site

    def listens_at(self, number):
        """Where a site listens for all its peers. None if it does not."""
        return at(self.ports[number - 1])

    def options(self, number):
        """The options of a site, but for those that all have."""
        return {}

    def __getitem__(self, number):
        return self.sites[number]

    def __enter__(self):
        return self

    def __exit__(self, *_):
        self.kill_all()
        return False

    def kill_all(self):
        for site in list(self.sites.values()):
            site.kill()


class Proxy(proxies.Proxy):
    """Passes lines on from one site to another, but for those that `drops` says yes to, and keeps them all."""

    def __init__(self, target, drops=lambda line: False):
        self.drops = drops
        self.lines = []
        super().__init__(target)

    def passes(self, line):
        self.lines.append(line)
        return not self.drops(line)


def reset_at_its_end(stream):
    """From now on, to close it is to reset it."""
    stream.setsockopt(socket.SOL_SOCKET, socket.SO_LINGER, struct.pack("ii", 1, 0))


def processor_seconds(site):
    """The processor time that a site has used."""
    with open(f"/proc/{site.process.pid}/stat") as stat:
        return sum(map(int, stat.read().rpartition(")")[2].split()[11:13])) / os.sysconf("SC_CLK_TCK")


def all_sleep(site):
    """Whether all threads of a site sleep at each of fifty looks."""
    for _ in range(50):
        if set(states_of_threads(site)) != {"S"}:
            return False
        time.sleep(0.01)
    return True


def states_of_threads(site):
    folder = f"/proc/{site.process.pid}/task"
    for thread in os.listdir(folder):
        with open(f"{folder}/{thread}/stat") as stat:
            yield stat.read().rpartition(")")[2].split()[0]


def sees(site, peer, **values):
    """Whether the site's status says these values, of a peer where one is named."""

    def condition():
        status = site.status()
        if peer is not None:
            status = next(each for each in status["peers"] if each["site"] == peer)
        return all(status[key] == value for key, value in values.items())

    return condition
