"""Numbers that are kept free: a system of sixteen sites of which some never start, and a place that is added in the middle
of a sale."""

import time

from cases import case
from cluster import expect, processor_seconds, sees, wait_for
from journal_kit import Journaled

# Where nobody listens.
NOBODY = "127.0.0.1:9"
COUNT = 16


class Spared(Journaled):
    """A system of sixteen, of which some sites are there. The others have addresses at which nobody listens."""

    def __init__(self, started, **others):
        self.there = set(started)
        routes = {(s, p): NOBODY for s in range(1, COUNT + 1) for p in range(1, COUNT + 1) if p not in self.there}
        super().__init__(COUNT, started=sorted(started), routes=routes, **others)

    def add(self, number):
        """The site starts; then each of the others is started again in turn, with its address."""
        self.there.add(number)
        for site in range(1, COUNT + 1):
            del self.routes[site, number]
        self.start(number)
        for site in sorted(self.there - {number}):
            self.again(site, "quit")


def rest_of(sites, count):
    """Waits until all sites that are there applied all logs. Their statuses."""

    def rest():
        found = {number: sites[number].status() for number in sites.there}
        numbers = {number: status["number"] for number, status in found.items()}
        peers = [peer for status in found.values() for peer in status["peers"]]
        return found if all(peer["applied"] == numbers.get(peer["site"], 0) for peer in peers) else None

    found = wait_for("all applied all", rest)
    expect(sum(status["held"] + status["spent"] for status in found.values()), count)
    return found


def a_system_sells_with_numbers_that_are_free():
    """They hold nothing and are asked for nothing, and cost no time to speak of."""
    with Spared([1, 2, 3], tick=50) as sites:
        sites[1].ask_all(["issue 100", "give 2 20"])
        rest_of(sites, 100)
        expect(sites.command("spend 30 +60000", number=3, target="/wait"), (200, ["spent 1"]))
        expect(sites.metrics(3)["rights_peer_lines_total", "9"], 0)
        before, since = processor_seconds(sites[1]), time.monotonic()
        time.sleep(1)
        expect(processor_seconds(sites[1]) - before < 0.5 * (time.monotonic() - since), True, "an idle site works all the time")
        expect(rest_of(sites, 100)[3]["spent"], 30)


def a_place_is_added_in_the_middle_of_a_sale():
    with Spared([1, 2], tick=20) as sites:
        sites[1].ask_all(["issue 1000", "give 2 300"])
        sites[1].ask_all(["take 1"] * 200)
        rest_of(sites, 1000)
        # Rights may be given before the place is there. It gets them once it is.
        expect(sites[2].ask("give 16 50"), "number 1")
        sites.add(16)
        wait_for("site 16 holds 50", sees(sites[16], None, held=50))
        expect(sites.command("spend 70 +60000", number=16, target="/wait"), (200, ["spent 1"]))
        sites.add(3)
        sites[1].ask("give 3 10")
        found = rest_of(sites, 1000)
        expect((found[3]["held"], found[16]["spent"], found[1]["spent"]), (10, 70, 200))


CASES = [case("Spares", [a_system_sells_with_numbers_that_are_free, a_place_is_added_in_the_middle_of_a_sale])]
