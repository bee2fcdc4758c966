"""Many clients of three sites at once, over HTTP, while links between the sites are cut and healed.

Each client process has connections of its own, and counts what it was told. Some clients die in the middle of a request,
which is then carried out by nobody. Once all have ended and the links are healed, what they were told is compared with what
the sites report, to the unit.
"""

import json
import multiprocessing
import random
import threading
import time
import traceback
from collections import Counter

from cluster import Proxy, at, expect, wait_for
from web_driver import Client, WebCluster, post, request

SITES = (1, 2, 3)
# So long a spend may wait, in milliseconds, at most.
LONGEST_WAIT = 400
# Milliseconds between two ticks of a site.
TICK = 15


class Buyer:
    """One connection, and what was told over it."""

    def __init__(self, site, address, seed):
        self.site, self.address = site, address
        self.chance = random.Random(seed)
        self.client = Client(address)
        self.told = Counter()
        # The amount that waits under a ticket.
        self.waiting = {}

    def run(self, until):
        steps = [self.spend, self.spend, self.spend, self.wait, self.wait, self.batch, self.batch, self.issue, self.give, self.look,
                 self.mistake, self.die]
        while time.monotonic() < until:
            self.chance.choice(steps)()
            if len(self.waiting) > 1:
                self.settle()
        self.until_settled()
        self.client.close()

    # ---- what it does

    def note(self, command, reply):
        """Counts what a reply to a command tells."""
        self.told["commands"] += 1
        name, *words = command.split(" ")
        if reply.startswith("error "):
            self.told[reply] += 1
            return
        amount = int(words[-1] if name == "give" else words[0])
        if name == "spend":
            self.told["wanted"] += amount
        kind, number = reply.split(" ") if " " in reply else (reply, "0")
        match name, kind:
            case "issue", "number":
                self.told["issued"] += amount
            case "give", "number":
                self.told["given"] += amount
            case "spend", "spent":
                self.told["spent"] += amount
            case "spend", "queued":
                self.waiting[int(number)] = amount
            case "spend", "expired":
                self.told["expired"] += amount
            case _:
                raise AssertionError(f"{reply!r} to {command!r}")

    def answer(self, data):
        return wait_for("a place among the clients of a site", lambda: self.answer_once(data))

    def answer_once(self, data):
        """The answer to a request. None where the site says that it has too many clients: then it has carried nothing out, and
        the next request goes over a new connection."""
        answer = self.client.ask(data)
        if answer.status == 503 and "retry-after" in answer.headers:
            self.client.close()
            self.client = Client(self.address)
            return None
        return answer

    def ask(self, *commands, target="/"):
        answer = self.answer(post(*commands, target=target))
        replies = answer.body.decode().splitlines()
        expect(len(replies), len(commands), "the count of replies")
        for command, reply in zip(commands, replies):
            self.note(command, reply)

    def spending(self):
        deadline = int(time.time() * 1000) + self.chance.randrange(LONGEST_WAIT)
        return f"spend {self.chance.randint(1, 4)} {deadline}"

    def spend(self):
        self.ask(self.spending())

    def wait(self):
        self.ask(self.spending(), target="/wait")

    def batch(self):
        makers = [self.spending, self.spending, self.issuing, self.giving]
        self.ask(*(self.chance.choice(makers)() for _ in range(self.chance.randint(1, 8))))

    def issuing(self):
        return f"issue {self.chance.randint(1, 6)}"

    def giving(self):
        peer = self.chance.choice([site for site in SITES if site != self.site])
        return f"give {peer} {self.chance.randint(1, 3)}"

    def issue(self):
        self.ask(self.issuing())

    def give(self):
        self.ask(self.giving())

    def look(self):
        for target in ("/status", "/metrics", "/healthz"):
            expect(self.answer(request("GET", target)).status, 200, target)

    def mistake(self):
        """A command that is refused, one that a web page sends, and another target."""
        self.ask("issue 0")
        expect(self.answer(request("POST", "/", b"issue 9\n", "origin: http://elsewhere")).status, 403)
        expect(self.answer(request("POST", "/issue", b"issue 9\n")).status, 404)

    def die(self):
        """Another client sends a part of a request, and goes."""
        whole = post(self.issuing(), self.spending())
        client = Client(self.address)
        client.send(whole[: self.chance.randrange(len(whole))])
        if self.chance.random() < 0.5:
            client.reset()
        else:
            client.close()

    # ---- what became of spends that waited

    def settle(self):
        tickets = list(self.waiting)
        answer = self.answer(post(*(f"outcome {ticket}" for ticket in tickets)))
        for ticket, reply in zip(tickets, answer.body.decode().splitlines(), strict=True):
            self.told["commands"] += 1
            if reply == "waiting":
                continue
            kind = reply.split(" ")[0]
            if kind not in ("spent", "expired"):
                raise AssertionError(f"{reply!r} of ticket {ticket}")
            self.told[kind] += self.waiting.pop(ticket)

    def until_settled(self):
        until = time.monotonic() + 20
        while self.waiting:
            self.settle()
            time.sleep(0.01)
            if time.monotonic() > until:
                raise AssertionError(f"{self.waiting} wait for good")


def buy(addresses, place, connections, seed, until, results):
    """A client process: what its connections were told, by site, or what failed."""
    buyers = []
    failed = []

    def run(buyer):
        try:
            buyer.run(until)
        except Exception:
            failed.append(traceback.format_exc(limit=3))

    try:
        for number in range(connections):
            site = SITES[(place + number) % len(SITES)]
            buyers.append(Buyer(site, addresses[site], seed * 1000 + place * 10 + number))
        threads = [threading.Thread(target=run, args=(buyer,), daemon=True) for buyer in buyers]
        for thread in threads:
            thread.start()
        for thread in threads:
            thread.join()
    except Exception:
        failed.append(traceback.format_exc(limit=3))
    results.put(("\n".join(failed), [(buyer.site, dict(buyer.told)) for buyer in buyers]))


def sell(program, processes, connections, seconds, seed):
    """Runs such a sale, and compares."""
    chance = random.Random(seed)
    with WebCluster(len(SITES), started=[], tick=TICK) as sites:
        sites.program = program
        is_cut = dict.fromkeys(((a, b) for a in SITES for b in SITES if a != b), False)
        for (sender, receiver) in is_cut:
            proxy = Proxy(at(sites.ports[receiver - 1]), cuts(is_cut, (sender, receiver)))
            sites.routes[sender, receiver] = proxy.address
        for site in SITES:
            sites.start(site)
        sites.command("issue 400", "give 2 100", "give 3 100")
        told = run_clients(sites, is_cut, processes, connections, seconds, seed, chance)
        told[1]["issued"] += 400
        told[1]["given"] += 200
        told[1]["commands"] += 3
        check(sites, told, seed)


def cuts(is_cut, pair):
    return lambda line: is_cut[pair] and not line.startswith(b"H")


def run_clients(sites, is_cut, processes, connections, seconds, seed, chance):
    """Cuts and heals links while clients buy. What they were told, by site."""
    fork = multiprocessing.get_context("fork")
    results = fork.Queue()
    addresses = {site: sites.address(site) for site in SITES}
    until = time.monotonic() + seconds
    clients = [
        fork.Process(target=buy, args=(addresses, place, connections, seed, until, results), daemon=True) for place in range(processes)
    ]
    for client in clients:
        client.start()
    while time.monotonic() < until:
        away = chance.choice(SITES)
        for pair in is_cut:
            is_cut[pair] = away in pair or chance.random() < 0.2
        time.sleep(chance.uniform(0.1, 0.6))
        for pair in is_cut:
            is_cut[pair] = False
        time.sleep(chance.uniform(0.05, 0.3))
    told = {site: Counter() for site in SITES}
    for _ in clients:
        failed, counts = results.get(timeout=60)
        if failed:
            raise AssertionError(f"seed {seed}: a client failed: {failed}")
        for site, count in counts:
            told[site].update(count)
    for client in clients:
        client.join(10)
    return told


def check(sites, told, seed):
    """All links stand again. What clients were told is what the sites say, and nothing is left over."""

    def at_rest():
        statuses = {site: status_of(sites, site) for site in SITES}
        numbers = {site: status["number"] for site, status in statuses.items()}
        applied = all(peer["applied"] == numbers[peer["site"]] for status in statuses.values() for peer in status["peers"])
        return statuses if applied and not any(status["queued"] for status in statuses.values()) else None

    statuses = wait_for(f"seed {seed}: all sites know all logs", at_rest, 30)
    for site in SITES:
        count, found = told[site], sites.metrics(site)
        what = f"seed {seed}, site {site}"
        expect((found["rights_requests_waiting"], found["rights_outcomes_unread"]), (0, 0), f"{what}: slots that are taken")
        wait_for(f"{what}: all seats are back", lambda site=site: sites.metrics(site)["rights_clients"] == 1)
        # The site was asked for its status at its start.
        expect(found["rights_commands_total"], count["commands"] + 1, f"{what}: commands")
        refused = {key[1]: n for key, n in found.items() if key[0] == "rights_commands_refused_total" and n}
        expect(refused, {name.split(" ")[1]: n for name, n in count.items() if name.startswith("error ")}, f"{what}: refusals")
        expect(count["spent"] + count["expired"], count["wanted"], f"{what}: spends and what became of them")
    expect(sum(status["held"] + status["spent"] for status in statuses.values()), sum(told[site]["issued"] for site in SITES),
           f"seed {seed}: held + spent = issued")
    for site in SITES:
        report, count, what = sites.end(site), told[site], f"seed {seed}, site {site}"
        expect((report.issued, report.told_issued), (count["issued"], count["issued"]), f"{what}: issued")
        expect((report.spent, report.told_spent + report.told_served), (count["spent"], count["spent"]), f"{what}: spent")
        expect((report.held, report.received), (statuses[site]["held"], statuses[site]["received"]), f"{what}: held")
        if report.given < count["given"]:
            raise AssertionError(f"{what}: given {report.given}, and clients were told of {count['given']}")
    if min(told[site]["spent"] for site in SITES) == 0:
        raise AssertionError(f"seed {seed}: nothing was sold")


def status_of(sites, site):
    with sites.client(site) as client:
        return json.loads(client.ask(request("GET", "/status")).body)
