"""How fast sites that are far apart make up for what was lost between them, for tests/wan.py."""

import threading
import time

from cluster import Proxy
from web_driver import Client
from wan_systems import CENTRE, PLACES, Sites, status_of

# Seconds: a sale goes on for so long, from here to there what it tells others is lost, and then is looked for so long.
SALE, LOST_FROM, LOST_TO, LOOK = 3.0, 1.0, 2.5, 4.0
# Spends that a request carries at most.
BATCH = 50


class LossySites(Sites):
    """Sites whose lines may be lost, after they left and before they are held back."""

    def __init__(self, phase):
        super().__init__(phase)
        self.loses = False
        for pair, address in list(self.sites.routes.items()):
            self.sites.routes[pair] = Proxy(address, lambda line: self.loses and not line.startswith(b"H")).address

    def behind(self, place):
        """How many entries of the centre's log a place has not applied yet."""
        number = status_of(self.sites, CENTRE)["number"]
        (peer,) = [peer for peer in status_of(self.sites, place)["peers"] if peer["site"] == CENTRE]
        return number - peer["applied"]


def caught_up(phase, rate):
    """A sale at the centre, at so many a second, of which some is lost on the way. By each other place: how many entries it
    then was behind at the end of the sale, and how many it catches up with in a second once nothing is sold."""
    with LossySites(phase) as system:
        sale = threading.Thread(target=sell, args=(system, rate), daemon=True)
        sale.start()
        time.sleep(LOST_FROM)
        system.loses = True
        time.sleep(LOST_TO - LOST_FROM)
        system.loses = False
        sale.join()
        others = [place for place in PLACES if place != CENTRE]
        began, first = time.monotonic(), {place: system.behind(place) for place in others}
        last = {}
        while time.monotonic() < began + LOOK and len(last) < len(others):
            time.sleep(0.02)
            for place in others:
                if place not in last and system.behind(place) == 0:
                    last[place] = (0, time.monotonic())
        for place in others:
            last.setdefault(place, (system.behind(place), time.monotonic()))
        return {place: (first[place], (first[place] - last[place][0]) / (last[place][1] - began)) for place in others}


def sell(system, rate):
    client = Client(system.sites.address(CENTRE))
    begin, count = time.monotonic(), 0
    while (now := time.monotonic() - begin) < SALE:
        due = min(BATCH, int(now * rate) - count)
        if due > 0:
            client.command(*["spend 1 0"] * due)
            count += due
        time.sleep(0.01)
