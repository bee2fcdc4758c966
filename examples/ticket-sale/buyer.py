#!/usr/bin/env python3
"""A buyer, as a process of its own: buys tickets at one site over HTTP, and prints the result of each purchase.

    examples/ticket-sale/buyer.py ADDRESS --seed N --pace N

It prints that it is ready, and reads a line with a number T. Then it buys about N times a second, more often in the
middle of the sale than at its ends, until T, in seconds since 1970. Each line that it prints is a word (`sold` or
`refused`) and the number of tickets.

Its connections break now and then. Each purchase has a key, and is asked again under it, so the buyer knows what became of
it. Only if no answer comes for half a minute does it not know, and ends with an error.
"""

import argparse
import os
import random
import sys
import time

HERE = os.path.dirname(os.path.abspath(__file__))
sys.path.insert(0, os.path.join(HERE, "..", "..", "python"))

from rights_http import CommandRefused, Queued, SiteClient, SiteUnreachable, Spent  # noqa: E402


def buy(site, amount, patience):
    """Buys this many tickets. If the site has too few, waits up to `patience` seconds for them, or until the connection
    breaks. Returns the result."""
    try:
        result = site.spend(amount, within=patience)
    except SiteUnreachable:
        return "refused"
    except CommandRefused as refusal:
        if refusal.name in ("QueueFull", "Closed"):
            return "refused"
        raise
    if isinstance(result, Queued):
        raise SystemExit(f"the site ended before it sold to a buyer: {result}")
    return "sold" if isinstance(result, Spent) else "refused"


def rush(part):
    """The rate of purchases at this part of the sale, from 0 to 1, relative to the average."""
    return 0.4 + 1.8 * max(0.0, 1 - abs(part - 0.5) / 0.35)


def main():
    words = argparse.ArgumentParser(description=__doc__.splitlines()[0])
    words.add_argument("address")
    words.add_argument("--seed", type=int, required=True)
    words.add_argument("--pace", type=float, required=True)
    given = words.parse_args()
    chance = random.Random(given.seed)
    print("ready 0", flush=True)
    until, begun = float(sys.stdin.readline()), time.time()
    with SiteClient(given.address, connections=1) as site:
        while True:
            part = (time.time() - begun) / (until - begun)
            pause = chance.expovariate(given.pace * rush(part))
            time.sleep(max(0.0, min(pause, until - time.time())))
            if time.time() >= until:
                return
            amount = chance.choice((1, 1, 2, 2, 2, 3, 4))
            print(buy(site, amount, chance.uniform(0.3, 1.5)), amount, flush=True)


if __name__ == "__main__":
    main()
