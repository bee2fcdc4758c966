"""Tests of a site with a fault around it: nobody reads its log, or it gets no memory. Each would hang, and not be slow, if
the site did not go on or end by itself."""

import fcntl
import os
import signal
import socket
import subprocess
import tempfile
import threading
from contextlib import suppress

from cluster import PATIENCE, TOP, Cluster, at, expect, free_ports, sees, wait_for
from loopback import connect, limited
from rights_site import SiteEnded
from web_driver import Client, WebCluster, request, samples

DROPPED = "rights_log_lines_dropped_total"


# ---- a log that nobody reads


class Unread:
    """A pipe that takes little, for the standard error of sites."""

    def __init__(self):
        self.reader, self.writer = os.pipe()
        fcntl.fcntl(self.writer, fcntl.F_SETPIPE_SZ, 4096)
        self.text = b""

    def read(self):
        """Reads it from now on, until its end."""
        os.close(self.writer)
        self.thread = threading.Thread(target=self.run, daemon=True)
        self.thread.start()

    def run(self):
        while part := os.read(self.reader, 1 << 16):
            self.text += part

    def lines(self):
        return self.text.decode().splitlines()

    def counts(self):
        """How many lines are said to be missing, each time."""
        return [int(line.split(" ")[1]) for line in self.lines() if line.endswith(" log lines were dropped")]


def fill_log(port, peer, dropped):
    """Connects as this peer, again and again, until log lines are dropped: each connection makes some."""

    def is_full():
        for _ in range(100):
            with suppress(ConnectionError), socket.create_connection(("127.0.0.1", port)) as stream:
                stream.sendall(b"H %d\n" % peer)
        return dropped() > 0

    wait_for("log lines are dropped", is_full)


def a_log_that_nobody_reads():
    """Links go on, and entries arrive; what is dropped is counted. A site ends while nobody reads its log. Who reads it at
    last finds how many lines are missing, and after that the report."""
    log = Unread()
    with WebCluster(2, log=True, errors=log.writer, tick=50) as sites:
        for number, peer in ((1, 2), (2, 1)):
            fill_log(sites.ports[number - 1], peer, lambda: sites.metrics(number)[DROPPED])
        expect(sites.command("issue 9", number=2), (200, ["number 1"]))
        wait_for("site 1 applied it", sees(sites[1], 2, applied=1))
        expect(sites.command("issue 5", "give 2 5"), (200, ["number 1", "number 2"]))
        wait_for("site 2 got 5", sees(sites[2], None, held=14))
        expect(sites[2].end(timeout=PATIENCE), 0, "site 2, whose log is full")
        dropped = sites.metrics()[DROPPED]
        log.read()
        wait_for("it says that lines are missing", log.counts)
        expect(sites[1].end(timeout=PATIENCE), 0)
        log.thread.join(PATIENCE)
        expect(dropped <= sum(log.counts()), True, f"{dropped} were dropped, and {log.counts()} said")
        expect(log.lines()[-1].startswith("rights-site: ended: issued 5 spent 0 given 5 "), True, log.lines()[-1])


def a_service_whose_log_nobody_reads():
    """SIGTERM to the whole group ends it too."""
    wrapper, log = os.path.join(TOP, "systemd", "rights-site-run"), Unread()
    own, peer, web = free_ports(3)
    with tempfile.TemporaryDirectory() as room:
        stay = {**os.environ, "RIGHTS_SITE": Cluster.program, "RIGHTS_STATE": room, "RIGHTS_SITES": "2", "RIGHTS_LISTEN": at(own),
                "RIGHTS_HTTP": at(web), "RIGHTS_TICK": "50", "RIGHTS_PEERS": f"2={at(peer)}"}
        process = subprocess.Popen([wrapper, "1"], env=stay, stderr=log.writer, stdin=subprocess.DEVNULL, start_new_session=True)
        try:
            fill_log(own, 2, lambda: dropped_at(at(web)))
            os.killpg(process.pid, signal.SIGTERM)
            expect(process.wait(PATIENCE), 0)
        finally:
            with suppress(ProcessLookupError):
                os.killpg(process.pid, signal.SIGKILL)


def dropped_at(address):
    with suppress(OSError), Client(address) as client:
        return samples(client.ask(request("GET", "/metrics")).body)[DROPPED]
    return 0


# ---- an applier without memory


def ends_at_a_take_back(kibibytes):
    """Whether a site that found no memory ends by itself, when what was on the way to a closed peer is to be taken back by
    an entry. Its input stays open and silent."""
    with suppress(SiteEnded), WebCluster(2, started=[1], programs={1: limited(kibibytes)}) as sites, sites.client() as client:
        with connect(sites, 1, b"H 2\nE 2 0 1 I:1\n") as stream:
            gifts = fill_memory(client)
            # The peer applied all before the last gift, and closes.
            stream.sendall(b"E 2 1 2 K:%d:0\n" % (gifts[-1] - 1))
            with suppress(subprocess.TimeoutExpired):
                status = sites[1].process.wait(5)
                expect((status, sites[1].said().splitlines()[-1]), (1, "rights-site: out of memory"))
                return True
    return False


def fill_memory(client):
    """Gives and spends until there is no memory. The numbers of the gifts."""
    client.command("issue 1000000000")
    gifts = []
    while True:
        status, replies = client.command("give 2 1", *["spend 1 9"] * 500)
        gifts += [int(reply[7:]) for reply in replies if reply.startswith("number ")]
        if status != 200 or "error OutOfMemory" in replies:
            return gifts


def an_applier_without_memory():
    """It ends the program, whichever way commands come. With some limits it is the reader that finds none first."""
    if not any(ends_at_a_take_back(kibibytes) for kibibytes in range(90000, 98000, 777)):
        raise AssertionError("no applier ended the program")


TESTS = [a_log_that_nobody_reads, a_service_whose_log_nobody_reads, an_applier_without_memory]
