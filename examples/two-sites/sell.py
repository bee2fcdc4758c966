#!/usr/bin/env python3
"""Sells at two sites: at the first one, and at the second one while the first one is down. An example to copy."""

import os
import sys
import tempfile

sys.path.insert(0, os.path.join(os.path.dirname(os.path.abspath(__file__)), "..", "..", "python"))
from rights_http import SiteClient  # noqa: E402
from rights_shop import Records, Shop  # noqa: E402
from rights_site import Site  # noqa: E402

PEERS, HTTP = {1: "127.0.0.1:7001", 2: "127.0.0.1:7002"}, {1: "127.0.0.1:8001", 2: "127.0.0.1:8002"}


def start(number, room):
    """A site with a journal: the same call starts it again."""
    other = 3 - number
    return Site(number, 2, PEERS[number], {other: PEERS[other]}, http=HTTP[number], tick=50, journal=f"{room}/site-{number}")


with tempfile.TemporaryDirectory() as room:
    sites = {number: start(number, room) for number in (1, 2)}
    sites[1].ask_all(["issue 100", "give 2 40"])
    shop = Shop([SiteClient(HTTP[1], tries=1), SiteClient(HTTP[2], tries=1)], Records(f"{room}/sales.jsonl"))
    sales = [shop.sell(2, within=5.0) for _ in range(10)]
    sites[1].end()
    sales += [shop.sell(2) for _ in range(10)]
    print("without site 1:", sorted({sale.site for sale in sales[10:]}))
    sites[1] = start(1, room)
    print("refunded by entry", shop.refund(sales[0], "sent back"), "of a site:", shop.records.totals())
    print("sold by the sites:", sum(site.status()["spent"] for site in sites.values()))
    for site in sites.values():
        site.end()
