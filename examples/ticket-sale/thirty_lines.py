#!/usr/bin/env python3
"""Two sites, one stock of a hundred tickets, and four processes that sell them: an example to copy."""

import multiprocessing
import os
import sys
import tempfile
import time

sys.path.insert(0, os.path.join(os.path.dirname(os.path.abspath(__file__)), "..", "..", "python"))
from rights_http import SiteClient, Spent  # noqa: E402
from rights_site import Site  # noqa: E402

HTTP = {1: "127.0.0.1:8001", 2: "127.0.0.1:8002"}


def seller(number):
    """Sells one by one at a site, until no right arrives there within two seconds. Returns how many it sold."""
    sold = 0
    with SiteClient(HTTP[number]) as site:
        # A lost answer is asked for again, by the key that each spend gets.
        while isinstance(site.spend(1, within=2.0), Spent):
            sold += 1
    return sold


if __name__ == "__main__":
    # The files of `once` prevent a second start of a site while the other one runs.
    with tempfile.TemporaryDirectory() as room:
        one = Site(1, 2, "127.0.0.1:7001", {2: "127.0.0.1:7002"}, http=HTTP[1], tick=50, once=f"{room}/1")
        two = Site(2, 2, "127.0.0.1:7002", {1: "127.0.0.1:7001"}, http=HTTP[2], tick=50, once=f"{room}/2")
        with one, two, multiprocessing.Pool(4) as sellers:
            one.ask_all(["issue 100", "give 2 50"])
            while two.status()["held"] < 50:
                time.sleep(0.01)  # until the gift has come, by the next tick
            sold = sellers.map(seller, [1, 1, 2, 2], chunksize=1)
            held = one.status()["held"] + two.status()["held"]
            print(f"sold {sum(sold[:2])} at site 1 and {sum(sold[2:])} at site 2, {sum(sold)} in all; held {held}")
