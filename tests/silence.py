"""Peers that fall silent: sites that tick by themselves go on selling what the others hold."""

import os
import signal
import time
from contextlib import ExitStack

from cases import case
from cluster import PATIENCE, expect, sees, wait_for
from web_driver import WebCluster, post

TICK, SILENT = 50, 1000


def now():
    return int(time.time() * 1000)


def three_sites():
    """Site 1 holds 400 rights. Site 2 holds 600, and is the richest to site 3, which holds none."""
    sites = WebCluster(3, tick=TICK, silent=SILENT, log=True)
    expect(sites.command("issue 1000", "give 2 600"), (200, ["number 1", "number 2"]))
    wait_for("site 2 holds 600", sees(sites[2], None, held=600))
    wait_for("site 3 knows", sees(sites[3], 1, applied=2))
    return sites


def is_silent(sites, number, peer):
    return lambda: sites.metrics(number)["rights_peer_silent_seconds", str(peer)] >= SILENT // 1000


def buy(sites, number, count):
    """So many buyers at a site, each of one ticket. All of them wait for the outcome."""
    with ExitStack() as stack:
        buyers = [stack.enter_context(sites.client(number)) for _ in range(count)]
        for buyer in buyers:
            buyer.send(post(f"spend 1 {now() + 1000 * PATIENCE}", target="/wait"))
        return {buyer.read().body[:6] for buyer in buyers}


def silences(sites, number, peer):
    """What the log of a site says of the silence of a peer."""
    lines = [line.partition(f"peer {peer}: ")[2] for line in sites[number].said().splitlines()]
    return [line.partition(":")[0] for line in lines if line.startswith("silent")]


def a_sale_goes_on_without_a_dead_peer():
    with three_sites() as sites:
        sites[2].kill()
        expect(buy(sites, 3, 10), {b"spent "})
        wait_for("site 2 is silent", is_silent(sites, 3, 2))
        expect(sites.metrics(3)["rights_peer_silent_seconds", "1"], 0, "the peer that is heard")
        expect((silences(sites, 3, 2), silences(sites, 3, 1)), (["silent"], []))


def a_sale_goes_on_without_a_peer_that_stands_still():
    """What it grants once it goes on is applied as ever: the site then holds more than it needed."""
    with three_sites() as sites:
        os.kill(sites[2].process.pid, signal.SIGSTOP)
        try:
            expect(buy(sites, 3, 10), {b"spent "})
            wait_for("site 2 is silent", is_silent(sites, 3, 2))
            held = sites[3].status()["held"]
        finally:
            os.kill(sites[2].process.pid, signal.SIGCONT)
        wait_for("site 2 is heard", lambda: sites.metrics(3)["rights_peer_silent_seconds", "2"] == 0)
        wait_for("what it was asked for comes", lambda: sites[3].status()["held"] > held)
        expect(buy(sites, 3, 10), {b"spent "})
        expect(silences(sites, 3, 2), ["silent", "silent no more"])


def a_peer_that_was_never_heard():
    """It is silent from so long after the start of the site, if the site counts peers as silent."""
    with WebCluster(2, started=[1], tick=TICK, silent=SILENT) as sites:
        wait_for("site 2 is silent", is_silent(sites, 1, 2))
    for options in ({"tick": TICK, "silent": 0}, {}):
        with WebCluster(2, started=[1], **options) as sites:
            time.sleep(1.5 * SILENT / 1000)
            expect(sites.metrics()["rights_peer_silent_seconds", "2"], 0, f"with {options}")


CASES = [case("Silence", [
    a_sale_goes_on_without_a_dead_peer, a_sale_goes_on_without_a_peer_that_stands_still, a_peer_that_was_never_heard,
])]  # fmt: skip
