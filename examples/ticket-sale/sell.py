#!/usr/bin/env python3
"""Sells a stock of tickets at three sites of the real program, one of which is cut off in the middle of the rush.

    examples/ticket-sale/sell.py [--seed N] [--seconds N] [--program PATH] [--picture FILE]

The buyers are processes of their own, which buy over HTTP, and whose connections break now and then. It prints a line each
second and a table at the end. If more was ever sold than issued, if buyers were told more or less than was sold, or if any
other sum is wrong, it prints an error and exits with status 1. The seed determines the buyers and the plan, not how
processes and the threads of the sites are scheduled.
"""

import argparse
import os
import random
import re
import subprocess
import sys
import tempfile
import threading
import time

HERE = os.path.dirname(os.path.abspath(__file__))
sys.path.insert(0, os.path.join(HERE, "..", "..", "python"))

from picture import draw  # noqa: E402
from proxies import Front, Link, Witness, free_ports  # noqa: E402
from rights_http import AnswerLost, SiteClient, SiteUnreachable  # noqa: E402
from rights_site import PROGRAM, Site, SiteEnded  # noqa: E402

SITES = (1, 2, 3)

# How many buyers come to each site. Most come to site 3, which is also the one that is cut off.
BUYERS = {1: 2, 2: 3, 3: 7}
# How often each of them buys per second, on average.
PACE = 3
# The connection of a buyer breaks at one of so many blocks of bytes. A purchase takes three: head, body and answer.
ODDS = 30
# The milliseconds between two ticks of a site.
TICK = 40
# The seconds between two checks of all sites.
LOOK = 0.1

ENDED = re.compile(r"rights-site: ended: issued (\d+) spent (\d+) .*; told issued (\d+) spent (\d+) served (\d+)")


class WrongSum(Exception):
    """Something does not add up."""


class Office:
    """The buyers of one site, and what its replies reported to them."""

    def __init__(self, site):
        self.site = site
        self.sums = {"sold": 0, "refused": 0}
        self.ready = threading.Semaphore(0)
        self.buyers = []
        self.readers = []

    def open(self, address, seed):
        """Starts the buyers, which wait for the sale to begin."""
        for place in range(BUYERS[self.site]):
            words = [sys.executable, os.path.join(HERE, "buyer.py"), address, "--pace", str(PACE)]
            words += ["--seed", str(seed * 100 + self.site * 10 + place)]
            buyer = subprocess.Popen(words, stdin=subprocess.PIPE, stdout=subprocess.PIPE, text=True)
            self.buyers.append(buyer)
            self.readers.append(threading.Thread(target=self.listen, args=(buyer,), daemon=True))
            self.readers[-1].start()

    def listen(self, buyer):
        for line in buyer.stdout:
            word, amount = line.split()
            if word == "ready":
                self.ready.release()
            else:
                self.sums[word] += int(amount)

    def wait_for_buyers(self):
        for _ in self.buyers:
            if not self.ready.acquire(timeout=60):
                raise WrongSum(f"a buyer at site {self.site} did not start")

    def begin(self, until):
        for buyer in self.buyers:
            buyer.stdin.write(f"{until}\n")
            buyer.stdin.close()

    def is_open(self):
        """Whether any buyer still buys."""
        return any(buyer.poll() is None for buyer in self.buyers)

    def close(self):
        """Waits for the buyers, each of which ends by itself."""
        for buyer, reader in zip(self.buyers, self.readers):
            status = buyer.wait(30)
            reader.join(30)
            buyer.stdout.close()
            if status != 0:
                raise WrongSum(f"a buyer at site {self.site} ended with status {status}")

    def kill(self):
        for buyer in self.buyers:
            buyer.kill()


class Moment:
    """The status of all sites while none of them changed."""

    def __init__(self, seconds, statuses, issued, witness):
        self.seconds = seconds
        self.statuses = statuses
        self.issued = issued
        self.spent = sum(status["spent"] for status in statuses.values())
        self.held = {site: status["held"] for site, status in statuses.items()}
        self.waiting = {site: status["queued"] for site, status in statuses.items()}
        # What is neither held nor spent.
        self.way = issued - self.spent - sum(self.held.values())
        self.way_to = witness.ways({site: status["number"] for site, status in statuses.items()}, {
            (site, peer["site"]): peer["applied"] for site, status in statuses.items() for peer in status["peers"]
        })

    def check(self):
        if self.spent > self.issued:
            raise WrongSum(f"OVERSOLD: {self.spent} sold of {self.issued} issued")
        if self.way < 0:
            raise WrongSum(f"{-self.way} rights too many: held {self.held}, sold {self.spent} of {self.issued}")
        if self.way_to is not None and sum(self.way_to.values()) != self.way:
            raise WrongSum(f"in transit: {self.way_to} according to the lines, {self.way} according to the sums")


class Sale:
    """Three sites, a proxy for each direction between them, and their offices."""

    def __init__(self, program, seed):
        ports = dict(zip(SITES, free_ports(len(SITES))))
        web = dict(zip(SITES, free_ports(len(SITES))))
        self.seed = seed
        self.witness = Witness()
        self.proxies = {
            (site, peer): Link(f"127.0.0.1:{ports[peer]}", self.witness)
            for site in SITES for peer in SITES if site != peer
        }
        self.folder = tempfile.TemporaryDirectory()
        self.addresses = {site: f"127.0.0.1:{web[site]}" for site in SITES}
        self.sites = {}
        for site in SITES:
            routes = {peer: self.proxies[site, peer].address for peer in SITES if peer != site}
            self.sites[site] = Site(
                site, len(SITES), f"127.0.0.1:{ports[site]}", routes, program, http=self.addresses[site], tick=TICK,
                # A number is used once.
                once=os.path.join(self.folder.name, f"site-{site}.started"),
            )
        self.clients = {site: SiteClient(self.addresses[site]) for site in SITES}
        self.offices = {site: Office(site) for site in SITES}
        self.fronts = {site: Front(self.addresses[site], random.Random(seed * 10 + site), ODDS) for site in SITES}
        self.issued = 0
        for site, office in self.offices.items():
            office.open(self.fronts[site].address, seed)
        self.start = time.monotonic()
        self.moments = []
        self.notes = []
        self.cuts = []
        self.known = 0
        self.told = 0

    def seconds(self):
        return time.monotonic() - self.start

    def note(self, text):
        self.notes.append((self.seconds(), text))
        print(f"{self.seconds():5.1f} s  {text}", flush=True)

    def cut(self, pairs, text):
        for pair in pairs:
            self.proxies[pair].is_cut = True
        self.cuts.append([self.seconds(), None, text])
        print(f"{self.seconds():5.1f} s  {text}", flush=True)

    def heal(self):
        for proxy in self.proxies.values():
            proxy.is_cut = False
        self.cuts[-1][1] = self.seconds()
        print(f"{self.seconds():5.1f} s  all links are restored", flush=True)

    def issue(self, site, amount):
        self.issued += amount
        self.expect(site, f"issue {amount}")

    def expect(self, site, command):
        reply = self.clients[site].ask(command)
        if not reply.startswith("number "):
            raise WrongSum(f"site {site} replied {reply!r} to {command!r}")

    def look(self):
        """Asks all sites twice. Numbers only grow, so if both rounds are equal, all of them held at one moment."""
        before = self.statuses()
        for _ in range(5):
            after = self.statuses()
            if before == after:
                moment = Moment(self.seconds(), after, self.issued, self.witness)
                moment.check()
                self.known += moment.way_to is not None
                self.moments.append(moment)
                return moment
            before = after
        return None

    def statuses(self):
        told = {site: office.sums["sold"] for site, office in self.offices.items()}
        statuses = {number: client.status() for number, client in self.clients.items()}
        for site, status in statuses.items():
            # What was reported to buyers before was spent before.
            if told[site] > status["spent"]:
                raise WrongSum(f"site {site} reported {told[site]} as sold, but spent {status['spent']}")
            # These two describe the links, not rights.
            for peer in status["peers"]:
                peer.pop("buffering"), peer.pop("held")
        # Only this program issues, so at no moment more than this may be spent.
        spent = sum(status["spent"] for status in statuses.values())
        if spent > self.issued:
            raise WrongSum(f"OVERSOLD: {spent} sold of {self.issued} issued")
        self.progress(statuses)
        return statuses

    def progress(self, statuses):
        """A line each second."""
        if self.seconds() < self.told:
            return
        self.told = int(self.seconds()) + 1
        sums = {name: sum(office.sums[name] for office in self.offices.values()) for name in ("sold", "refused")}
        sites = "  ".join(f"{site}: {status['held']:4} held {status['queued']:3} wait" for site, status in statuses.items())
        print(f"{self.seconds():5.1f} s  sold {sums['sold']:5,} of {self.issued:5,}  refused {sums['refused']:4,}  {sites}", flush=True)

    def balance(self):
        """The site with the most free rights gives a third of the difference to the site with the fewest, as an
        operator would who sees all sites but not the lines between them."""
        free = {number: max(0, status["held"] - status["queued"]) for number, status in self.statuses().items()}
        rich, poor = max(free, key=free.get), min(free, key=free.get)
        amount = (free[rich] - free[poor]) // 3
        if amount > 0:
            # It may hold too little by now, because of buyers and grants in between.
            reply = self.clients[rich].ask(f"give {poor} {amount}")
            if not reply.startswith("number ") and reply != "error Short":
                raise WrongSum(f"site {rich} replied {reply!r} to a gift")

    def rest(self, seconds):
        """Only checks the sites, for this many seconds."""
        until = time.monotonic() + seconds
        while time.monotonic() < until:
            self.look()
            time.sleep(LOOK)

    def wait_until(self, condition, what, seconds=20):
        """Checks the sites until the condition holds for their statuses."""
        until = time.monotonic() + seconds
        while time.monotonic() < until:
            moment = self.look()
            if moment and condition(moment.statuses):
                return
            time.sleep(LOOK)
        raise WrongSum(f"not within {seconds} seconds: {what}")

    def end(self):
        """Ends all sites, and checks the report of each against what it replied."""
        for number, site in self.sites.items():
            status = site.end()
            said = site.said()
            report = ENDED.search(said)
            if status != 0 or not report:
                raise WrongSum(f"site {number} ended with status {status} and wrote {said!r}")
            issued, spent, told_issued, told_spent, told_served = map(int, report.groups())
            if issued != told_issued or spent != told_spent + told_served:
                raise WrongSum(f"the report of site {number} differs from what it replied: {said!r}")

    def kill(self):
        for office in self.offices.values():
            office.kill()
        for site in self.sites.values():
            site.kill()
        self.folder.cleanup()


def applied_all(statuses, receivers=SITES):
    """Whether each of these sites has applied every entry of each other site."""
    return all(
        peer["applied"] == statuses[peer["site"]]["number"]
        for site in receivers for peer in statuses[site]["peers"]
    )


def sell(sale, chance, seconds):
    """The sale: two lots, gifts between the sites, and a cut in the middle of the rush."""
    stock = int(seconds * sum(BUYERS.values()) * PACE * 1.7)
    second_lot = seconds * chance.uniform(0.26, 0.30)
    cut, heal = seconds * chance.uniform(0.36, 0.42), seconds * chance.uniform(0.60, 0.66)
    plan = [(second_lot, "lot"), (cut, "cut"), (heal, "heal"), *((seconds * (part + 0.5) / 8, "balance") for part in range(8))]

    for office in sale.offices.values():
        office.wait_for_buyers()
    sale.start = time.monotonic()
    sale.note("site 1 issues")
    sale.issue(1, stock * 6 // 10)
    for site in (2, 3):
        sale.expect(site=1, command=f"give {site} {stock * 2 // 10}")
    begun, until = sale.seconds(), time.time() + seconds
    for office in sale.offices.values():
        office.begin(until)
    for moment, what in sorted(plan):
        sale.rest(begun + moment - sale.seconds())
        match what:
            case "lot":
                sale.note("site 2 issues")
                sale.issue(2, stock * 4 // 10)
            case "cut":
                sale.cut((pair for pair in sale.proxies if 3 in pair), "site 3 is cut off")
            case "heal":
                sale.heal()
            case "balance":
                sale.balance()
    sale.rest(begun + seconds - sale.seconds())
    while any(office.is_open() for office in sale.offices.values()):
        sale.rest(LOOK)
    for office in sale.offices.values():
        office.close()


def close_site_3(sale, seconds):
    """Site 3 closes while nothing reaches it: sites 1 and 2 reclaim what they gave and it never applied."""
    pause = seconds / 16
    sale.cut(((1, 3), (2, 3)), "nothing reaches site 3")
    sale.note("sites 1 and 2 give")
    for site, amount in ((1, 90), (2, 60)):
        sale.issue(site, amount)
        sale.expect(site, f"give 3 {amount}")
    sale.rest(pause)
    sale.note("site 3 closes")
    sale.expect(3, "close 1")
    sale.wait_until(
        lambda statuses: statuses[3]["closed"] and applied_all(statuses, (1, 2)), "all sites know that site 3 closed"
    )
    sale.rest(pause)
    sale.heal()
    sale.rest(pause / 2)
    if sale.witness.taken_back() != {(1, 3): 90, (2, 3): 60}:
        raise WrongSum(f"reclaimed: {sale.witness.taken_back()}, of 90 and 60 given")


def last_look(sale):
    """The sums once nothing is in transit: then all of them can be known."""
    last = sale.look()
    if last is None or last.way_to is None:
        raise WrongSum("the sites did not come to rest")
    for site, office in sale.offices.items():
        spent, sums = last.statuses[site]["spent"], office.sums
        if sums["sold"] != spent:
            raise WrongSum(f"site {site} reported {sums} to its buyers, but spent {spent}")
    if sum(last.held.values()) + last.spent + sum(last.way_to.values()) != last.issued:
        raise WrongSum("held + sold + in transit is not what was issued")
    return last


def table(sale, last):
    """What was wanted and the result, for each site and in total. In transit: to that site."""
    heads = ["", "issued", "wanted", "sold", "refused", "held", "in transit"]
    rows = [
        [
            last.statuses[site]["issued"], sum(office.sums.values()), office.sums["sold"], office.sums["refused"],
            last.held[site], last.way_to[site],
        ]
        for site, office in sale.offices.items()
    ]
    names = [f"site {site}" for site in SITES] + ["sum"]
    rows.append([sum(column) for column in zip(*rows)])
    lines = ["".join(f"{head:>11}" for head in heads)]
    lines += [f"{name:>11}" + "".join(f"{value:>11,}" for value in row) for name, row in zip(names, rows)]
    return "\n".join(lines)


def main():
    words = argparse.ArgumentParser(description=__doc__.splitlines()[0])
    words.add_argument("--seed", type=int, default=1)
    words.add_argument("--seconds", type=float, default=20, help="how long the sale takes; closing site 3 takes some more")
    words.add_argument("--program", default=PROGRAM)
    words.add_argument("--picture", help="write an SVG picture of the run to this file")
    given = words.parse_args()

    sale = Sale(given.program, given.seed)
    try:
        sell(sale, random.Random(given.seed), given.seconds)
        sale.note("the sale ends")
        sale.wait_until(
            lambda statuses: applied_all(statuses) and not any(status["queued"] for status in statuses.values()),
            "no spend waits and nothing is in transit",
        )
        close_site_3(sale, given.seconds)
        last = last_look(sale)
        sale.end()
    except (WrongSum, SiteEnded, SiteUnreachable, AnswerLost, OSError, subprocess.TimeoutExpired) as error:
        print(f"\n*** ticket sale, seed {given.seed}: {type(error).__name__}: {error} ***\n", file=sys.stderr)
        return 1
    finally:
        sale.kill()
        if given.picture and sale.moments:
            with open(given.picture, "w", encoding="utf-8") as file:
                file.write(draw(sale.moments, sale.cuts, sale.notes, SITES))
    print(f"\n{table(sale, last)}")
    back = sum(sale.witness.taken_back().values())
    print(f"\nlines lost in cuts: {sum(proxy.lost for proxy in sale.proxies.values()):,}; "
          f"reclaimed from site 3, which closed: {back}")
    print(f"connections of buyers that broke: {sum(front.broken for front in sale.fronts.values()):,}; "
          "each buyer was told what it has")
    print(f"held + sold + in transit = issued: seen at {len(sale.moments):,} moments, "
          f"and from the lines too at {sale.known:,} of them")
    print("all sums are right")
    return 0


if __name__ == "__main__":
    sys.exit(main())
