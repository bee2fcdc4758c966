"""Checks of one site that talks with two sites of another program, over connections whose lines may be lost."""

import re
import threading
import time

from cluster import Cluster, Proxy, at, expect, sees, wait_for
from site_driver import comparable

CHECK_SECONDS = 240

# The number of the site that is tried; the other two are ours.
THEIRS = 1

LATE = 1_000_000


class Trio:
    """Their site 1 and our sites 2 and 3. Each line between theirs and ours passes a proxy, which loses those that
    `drops` says yes to."""

    def __init__(self, command, drops=lambda line: False):
        self.time = 0
        self.cluster = Cluster(3, started=[], programs={THEIRS: command})
        self.proxies = {}
        for sender, receiver in [(1, 2), (1, 3), (2, 1), (3, 1)]:
            self.proxies[sender, receiver] = Proxy(at(self.cluster.ports[receiver - 1]), drops)
        self.cluster.routes.update((way, proxy.address) for way, proxy in self.proxies.items())
        # What never answers is killed, and then its check fails.
        self.watch = threading.Timer(CHECK_SECONDS, self.cluster.kill_all)

    def __enter__(self):
        self.watch.start()
        try:
            for number in (3, 2, THEIRS):
                self.cluster.start(number)
        except BaseException:
            self.__exit__()
            raise
        return self

    def __exit__(self, *_):
        self.watch.cancel()
        self.cluster.kill_all()
        for proxy in self.proxies.values():
            proxy.server.close()
        return False

    def __getitem__(self, number):
        return self.cluster[number]

    def tick(self, number):
        """The counts of a tick, at a time of its own: expired, served, asks and sent."""
        self.time += 1
        reply = self[number].ask(f"tick {self.time}")
        counts = re.fullmatch(r"tick expired (\d+) served (\d+) asks (\d+) sent (\d+)", reply)
        if not counts:
            raise AssertionError(f"the reply to tick: {reply!r}")
        return [int(count) for count in counts.groups()]

    def reaches(self, what, ticking, condition):
        """Waits for the condition, while these sites tick: a lost line is asked for after a later beat."""

        def after_ticks():
            for number in ticking:
                self.tick(number)
            time.sleep(0.05)
            return condition()

        wait_for(what, after_ticks)

    def passed(self, sender, receiver, start):
        """Whether a line that begins so went from one to the other."""
        return lambda: any(line.startswith(start) for line in self.proxies[sender, receiver].lines)


def replies(command):
    with Trio(command) as sites:
        peers = '{"applied":0,"buffering":false,"held":0,"site":2},{"applied":0,"buffering":false,"held":0,"site":3}'
        expect(comparable(sites[1].ask("status").encode()).decode(), '{"closed":false,"held":0,"issued":0,"number":0,"peers":[' + peers
               + '],"queued":0,"received":0,"site":1,"spent":0}', "status")
        for line, reply in [
            ("issue 10", "number 1"), ("spend 4 9", "spent 2"), ("give 2 1", "number 3"), ("spend 9 9", "queued 1"),
            ("outcome 1", "waiting"), ("close", "error QueueBusy"), ("give 1 1", "error SameSite"),
            ("give 4 1", "error NoSuchSite"), ("give 2 9", "error Short"), ("issue 0", "error BadAmount"),
            ("issue 01", "error BadCommand"), ("", "error BadCommand"), ("x" * 20000, "error BadCommand"),
            ("tick 10", None), ("tick 9", "error TimeWentBack"), ("outcome 1", "expired"), ("outcome 1", "unknown"),
        ]:
            actual = sites[1].ask(line)
            if reply is not None:
                expect(actual, reply, f"the reply to {line[:20]!r}")
        expect(sites[1].end(), 0, "the exit status after quit")


def a_batch_leaves(command):
    with Trio(command) as sites:
        expect(sites[1].ask_all(["issue 10", "give 2 4", "give 3 5"]), ["number 1", "number 2", "number 3"])
        sites.reaches("our site 2 holds 4", [1], sees(sites[2], None, held=4, received=4))
        sites.reaches("our site 3 holds 5", [1], sees(sites[3], None, held=5, received=5))


def a_batch_arrives(command):
    with Trio(command) as sites:
        sites[2].ask_all(["issue 10", "give 1 4"])
        sites.reaches("theirs holds 4", [2], sees(sites[1], None, held=4, received=4))
        expect(sites[1].ask("spend 4 1"), "spent 1")


def loses_first(start):
    """Says yes to the first line that begins so, and to no other."""
    lost = []

    def drops(line):
        if line.startswith(start) and not lost:
            lost.append(line)
            return True
        return False

    return drops


def their_lost_entry_is_given_again(command):
    with Trio(command, loses_first(b"E 1 0 ")) as sites:
        sites[1].ask_all(["issue 10", "give 2 3"])
        sites.reaches("our site 2 holds 3", [1], sees(sites[2], 1, applied=2, buffering=False, held=0))
        sites.reaches("our site 3 has all", [1], sees(sites[3], 1, applied=2, buffering=False, held=0))
        asked = [site for site in (2, 3) if sites.passed(site, 1, b"Q %d 1 " % site)()]
        expect(len(asked), 1, "sites that asked")
        expect(sites.passed(1, asked[0], b"A 1 %d;E 1 0 1 I:10" % asked[0])(), True, "an answer with the entry")


def our_lost_entry_is_asked_for(command):
    with Trio(command, loses_first(b"E 2 0 ")) as sites:
        sites[2].ask_all(["issue 10", "give 1 3"])
        sites.reaches("theirs holds 3", [2], sees(sites[1], 2, applied=2, buffering=False, held=0))
        expect(sites[1].status()["held"], 3, "held")
        expect(sites.passed(1, 2, b"Q 1 2 1 ")(), True, "a query of theirs")


def their_ask_is_granted(command):
    with Trio(command) as sites:
        sites[2].ask("issue 10")
        sites.reaches("theirs knows of 10", [2], sees(sites[1], 2, applied=1))
        expect(sites[1].ask(f"spend 6 {LATE}"), "queued 1")
        expect(sites.tick(1)[1:3], [0, 1], "served and asks")
        wait_for("an ask", sites.passed(1, 2, b"W 1 2 1 6\n"))
        sites.reaches("theirs spent 6", [2, 1], sees(sites[1], None, spent=6, queued=0, received=6))
        expect(sites[1].ask("outcome 1"), "spent 1")


def our_ask_is_granted(command):
    with Trio(command) as sites:
        sites[1].ask("issue 10")
        sites.reaches("our site 2 knows of 10", [1], sees(sites[2], 1, applied=1))
        expect(sites[2].ask(f"spend 6 {LATE}"), "queued 1")
        sites.reaches("our site 2 spent 6", [2, 1], sees(sites[2], None, spent=6, received=6))
        expect(sites[1].status()["held"], 4, "held")
        expect(sites.passed(1, 2, b"E 1 1 2 G:2:6:1\n")(), True, "a grant")


def their_ask_is_denied(command):
    with Trio(command) as sites:
        sites[2].ask("issue 5")
        sites.reaches("theirs knows of 5", [2], sees(sites[1], 2, applied=1))
        sites[2].ask("spend 5 1")
        expect(sites[1].ask(f"spend 5 {LATE}"), "queued 1")
        # The denial ends the ask: a later plan asks again.
        sites.reaches("a second ask", [1], sites.passed(1, 2, b"W 1 2 2 5\n"))
        expect(sites.passed(2, 1, b"D 2 1 1\n")(), True, "our denial")


def our_ask_is_denied(command):
    with Trio(command) as sites:
        sites[1].ask("issue 5")
        sites.reaches("our site 2 knows of 5", [1], sees(sites[2], 1, applied=1))
        expect(sites[1].ask("spend 5 1"), "spent 2")
        sites[2].ask(f"spend 5 {LATE}")
        sites.reaches("a denial", [2], sites.passed(1, 2, b"D 1 2 1\n"))
        sites.reaches("our second ask", [2], sites.passed(2, 1, b"W 2 1 2 5\n"))


def theirs_takes_back(command):
    """Our site 3 closes, and had not applied what theirs gave to it."""
    with Trio(command, lambda line: line.startswith((b"E 1", b"A 1 3"))) as sites:
        expect(sites[1].ask_all(["issue 10", "give 3 4"]), ["number 1", "number 2"])
        sites.tick(1)
        expect(sites[3].ask("close"), "number 1")
        sites.reaches("theirs took 4 back", [3], sees(sites[1], None, held=10, number=3))
        sites.reaches("an entry that takes back", [1], sites.passed(1, 2, b"E 1 2 3 V:3:4\n"))
        expect(sites[1].ask("give 3 1"), "error PeerClosed")


def ours_takes_back(command):
    """Theirs closes, and had not applied what our site 2 gave to it. What it holds goes to our site 3."""
    with Trio(command, lambda line: line.startswith((b"E 2", b"A 2 1"))) as sites:
        sites[2].ask_all(["issue 10", "give 1 4"])
        sites.tick(2)
        expect(sites[1].ask_all(["issue 7", "close 3"]), ["number 1", "number 3"])
        expect(sites[1].ask("issue 1"), "error Closed")
        sites.reaches("our site 2 took 4 back", [1], sees(sites[2], None, held=10))
        sites.reaches("our site 3 holds 7", [1], sees(sites[3], None, held=7))
        expect(sites.passed(1, 2, b"E 1 1 3 R:3:7 K:0:0:0\n")(), True, "a closing entry with its frontier")


CHECKS = [
    replies,
    a_batch_leaves,
    a_batch_arrives,
    their_lost_entry_is_given_again,
    our_lost_entry_is_asked_for,
    their_ask_is_granted,
    our_ask_is_granted,
    their_ask_is_denied,
    our_ask_is_denied,
    theirs_takes_back,
    ours_takes_back,
]
