"""Upgrades in the middle of a sale: three sites as the unit runs them, ended and started by the same command, one after
another. Buyers go on at whatever sites run, and ask for answers that were lost, each by its key, once their site is back."""

import os
import shutil
import signal
import subprocess
import tempfile
import threading
import time
from contextlib import ExitStack, suppress

from cases import case
from cluster import PATIENCE, PROGRAM, TOP, at, expect, free_ports, wait_for
from journal_kit import Holdings, at_rest, records_of
from preloaded import built

from rights_http import CommandRefused, SiteClient, SiteUnreachable, Spent

SITES = (1, 2, 3)
STOCK = 1_000_000


class Service:
    """A site as the unit runs it: by its script, in a process group of its own."""

    def __init__(self, number, ports, web, room):
        self.number, self.web, self.log = number, at(web[number]), os.path.join(room, f"log-{number}")
        self.journal = os.path.join(room, f"site-{number}.journal")
        self.settings = {
            "PATH": os.environ["PATH"], "RIGHTS_SITES": "3", "RIGHTS_SYSTEM": "sale", "RIGHTS_LISTEN": at(ports[number]),
            "RIGHTS_PEERS": " ".join(f"{peer}={at(ports[peer])}" for peer in SITES if peer != number),
            "RIGHTS_HTTP": self.web, "RIGHTS_TICK": "20", "RIGHTS_STATE": room, "RIGHTS_SITE": os.path.join(room, "rights-site"),
        }  # fmt: skip
        self.client = SiteClient(self.web, tries=1)
        self.start()

    def start(self):
        """By the same command each time. Its port may be in use for a moment, by a connection that goes out."""
        until = time.monotonic() + PATIENCE
        while True:
            with open(self.log, "a") as log:
                words = [os.path.join(TOP, "systemd", "rights-site-run"), str(self.number)]
                self.process = subprocess.Popen(words, env=self.settings, stdin=subprocess.DEVNULL, stderr=log, start_new_session=True)
            wait_for("it serves or has ended", lambda: self.process.poll() is not None or self.status())
            if self.process.poll() is None:
                return
            expect("cannot listen" in self.said() and time.monotonic() < until, True, self.said())
            time.sleep(0.1)

    def status(self):
        with suppress(SiteUnreachable):
            return self.client.status()
        return None

    def end(self):
        """As `systemctl stop` does. It ends in order."""
        os.killpg(self.process.pid, signal.SIGTERM)
        expect(self.process.wait(PATIENCE), 0, self.said())

    def kill(self):
        os.killpg(self.process.pid, signal.SIGKILL)
        self.process.wait(PATIENCE)

    def said(self):
        with open(self.log) as log:
            return log.read()


class Sale:
    """Three sites and their buyers."""

    def __init__(self):
        self.room = tempfile.TemporaryDirectory(prefix="upgrades-")
        self.install()
        ports, web = (dict(zip(SITES, free_ports(3))) for _ in range(2))
        self.sites = {number: Service(number, ports, web, self.room.name) for number in SITES}
        # What buyers were told that it was sold, by site.
        self.told = dict.fromkeys(SITES, 0)
        self.failed, self.is_over, self.lock = [], threading.Event(), threading.Lock()
        self.buyers = [threading.Thread(target=self.buy, args=(number, turn)) for number in SITES for turn in range(2)]

    def install(self):
        """Puts a copy of the program in the place of the one that runs, as a package does."""
        path = os.path.join(self.room.name, "rights-site")
        shutil.copy(built(PROGRAM), f"{path}.new")
        os.replace(f"{path}.new", path)

    def buy(self, number, turn):
        """Buys at one site, and goes on when it is back."""
        with SiteClient(self.sites[number].web, tries=1, retry_for=PATIENCE) as client:
            try:
                while not self.is_over.is_set():
                    self.buy_once(client, number, turn)
            except BaseException as error:
                self.failed.append(error)

    def buy_once(self, client, number, turn):
        try:
            sold = client.take(1) if turn else client.spend(1, within=0.5)
            self.count(number, isinstance(sold, Spent))
        except SiteUnreachable:
            time.sleep(0.02)
        except CommandRefused as refusal:
            expect(refusal.name, "Short")
            time.sleep(0.02)

    def count(self, number, amount):
        with self.lock:
            self.told[number] += amount

    def goes_on_without(self, number):
        """Buyers buy at each of the other sites."""
        before = dict(self.told)
        others = [other for other in SITES if other != number]
        wait_for("the others sell", lambda: self.failed or all(self.told[other] > before[other] + 20 for other in others))

    def run(self, change):
        """Starts the sale, changes something at each site in turn, and ends it. The statuses once all is at rest."""
        first = self.sites[1].client
        first.issue(STOCK)
        for peer in (2, 3):
            first.give(peer, STOCK // 4)
        for buyer in self.buyers:
            buyer.start()
        for number in SITES:
            self.goes_on_without(None)
            change(self.sites[number])
        self.goes_on_without(None)
        self.is_over.set()
        for buyer in self.buyers:
            buyer.join(PATIENCE)
        expect(self.failed, [], "buyers")
        return at_rest(Statuses(self.sites))

    def adds_up(self, found):
        """Nothing is lost, and nothing is sold twice: by the statuses, by what buyers were told, and by the journals."""
        expect(sum(status["held"] + status["spent"] for status in found.values()), STOCK)
        for number, status in found.items():
            expect(status["spent"], self.told[number], f"what site {number} sold, and what buyers were told")
            with open(self.sites[number].journal, "rb") as journal:
                values = Holdings(records_of(journal.read())).values()
            expect({key: status[key] for key in values}, values, f"site {number} and its journal")

    def __enter__(self):
        return self

    def __exit__(self, *_):
        self.is_over.set()
        for site in self.sites.values():
            with suppress(ProcessLookupError):
                site.kill()
        self.room.cleanup()


class Statuses:
    """The sites in the form in which `at_rest` asks them."""

    def __init__(self, sites):
        self.sites = {number: site.client for number, site in sites.items()}


def an_upgrade_of_all_sites_in_the_middle_of_a_sale():
    """Each ends by SIGTERM and starts by the same command, with another copy of the program."""
    with Sale() as sale:

        def upgrade(site):
            sale.install()
            site.end()
            sale.goes_on_without(site.number)
            site.start()

        sale.adds_up(sale.run(upgrade))
        for site in sale.sites.values():
            expect(site.said().count("rights-site: ended: "), 1, f"reports of site {site.number}")


def a_kill_in_the_middle_of_an_upgrade():
    """The second site is killed while the first one is down. Both start by the same command."""
    with Sale() as sale:

        def change(site):
            site.end()
            with ExitStack() as stack:
                if site.number == 1:
                    sale.sites[2].kill()
                    stack.callback(sale.sites[2].start)
                time.sleep(0.2)
            site.start()

        sale.adds_up(sale.run(change))


CASES = [case("Upgrades", [an_upgrade_of_all_sites_in_the_middle_of_a_sale, a_kill_in_the_middle_of_an_upgrade])]
