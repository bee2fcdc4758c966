#!/usr/bin/env python3
"""Journals of random runs, cut at every record: what the program says that they hold, beside a model.

    tests/journal_runs.py [--seeds FIRST COUNT] [--program PATH]

A script that is made from a seed leads the model of all sites through a run: 2 to 16 sites, every kind of entry,
spends that wait, asks, closings in any order. The journal of each site is written here by docs/JOURNAL.md, by what changed
at the site, and `check-journal` must say of each of its beginnings what the model had there. A site that is started
with the whole of it must report the same. tests/suite.py does so with a few seeds.
"""

import argparse
import itertools
import json
import os
import sys
import tempfile
from concurrent.futures import ThreadPoolExecutor

sys.path.insert(0, os.path.dirname(os.path.abspath(__file__)))

from cases import case, choose_program  # noqa: E402

choose_program()

from cluster import PROGRAM, expect  # noqa: E402
from desk_model import end, total  # noqa: E402
from journal_kit import batch, shown as reported  # noqa: E402
from journal_refusals import started  # noqa: E402
from preloaded import built  # noqa: E402
from program import ended  # noqa: E402
from script_maker import script  # noqa: E402
from script_model import Model, lines_of  # noqa: E402

FIRST_SEED, SEEDS, COMMANDS = 1, 20, 90


# ---- the records of a run


def sums(site):
    """What the site holds, in the words of `check-journal`."""
    applied = [entry for peer in site.peers.values() for entry in peer.applied]
    return {
        "back": total(site.log, "V"), "closed": site.is_closed, "given": total(site.log, "GR"), "held": site.held,
        "issued": total(site.log, "I"), "number": end(site.log),
        "peers": [{"applied": end(peer.applied), "site": other} for other, peer in site.peers.items()],
        "received": total(applied, "GR", site.number), "site": site.number, "sites": len(site.peers) + 1,
        "spent": total(site.log, "S"),
    }  # fmt: skip


class Journal:
    """The journal of a site of the model, and what it held after each record."""

    def __init__(self, site):
        self.site, self.written = site, 0
        self.applied = dict.fromkeys(site.peers, 0)
        self.asks = dict.fromkeys(site.peers, 0)
        self.records, self.held = [f"J 1 {site.number} {len(site.peers) + 1}"], [sums(site)]

    def note(self):
        """The records of what changed since the last time: an entry, or asks. What is taken back has none."""
        found = []
        for other, peer in self.site.peers.items():
            found += [str(entry) for entry in peer.applied[self.applied[other] :]]
            self.applied[other] = len(peer.applied)
        own = self.site.log[self.written :]
        found += [str(entry) for entry in own if entry.moves[-1].letter != "V"]
        self.written = len(self.site.log)
        for other, peer in self.site.peers.items():
            if peer.asks > self.asks[other]:
                found.append(f"W {self.site.number} {other} {peer.asks} {peer.outstanding.amount}")
                self.asks[other] = peer.asks
        if found:
            self.records += found
            self.held += [sums(self.site)] * len(found)


class Run:
    """A run of all sites, with their journals."""

    def __init__(self):
        self.model, self.journals = Model(), []

    def reply(self, line):
        told = self.model.reply(line)
        if self.model.world and not self.journals:
            self.journals = [Journal(site) for site in self.model.world.sites.values()]
        for journal in self.journals:
            journal.note()
        return told.decode()

    def do(self, *words):
        """The reply to a command, which must not be refused."""
        line = " ".join(map(str, words))
        told = self.reply(line.encode())
        if told.startswith("error"):
            raise AssertionError(f"{line}: {told}")
        return told

    def deliver(self, origin, site):
        """The site applies all that the origin wrote and did not publish to it."""
        while (sent := self.do("publish", origin, site)) != "nothing":
            self.do("arrive", site, sent.split(" ")[1])
        while self.do("take", site, origin) != "nothing":
            pass


def random_run(seed):
    run = Run()
    for line in lines_of(script(seed, COMMANDS)):
        run.reply(line)
    return run


def random_runs(first, count):
    """Those of these seeds whose scripts say how many sites there are."""
    runs = map(random_run, range(first, first + count))
    return [run for run in runs if run.journals]


def closing_run(order, heirs, heard):
    """Each of these sites has rights from each other one. They close in this order; the next one inherits, if `heirs`. What
    a site writes goes to those that have not closed, at once if `heard`, and else in the end."""
    run, sites = Run(), sorted(order)
    run.do("sites", len(sites))
    for site in sites:
        run.do("post", site, "I:9000", "S:3")
        run.do("post", site, *(f"R:{other}:{10 * site + other}" for other in sites if other != site))
    pairs = list(itertools.permutations(sites, 2))
    for origin, site in pairs:
        if (origin + site) % 2 or heard:
            run.deliver(origin, site)
    for place, site in enumerate(order):
        left = order[place + 1 :]
        run.do("close", site, *(left[:1] if heirs else []))
        for other in left if heard else ():
            run.deliver(site, other)
    for origin, site in pairs:
        run.deliver(origin, site)
    return run


# ---- what the program says of them


def check(journal, count):
    """The program says of the first records what the site held behind them."""
    with tempfile.TemporaryDirectory() as folder:
        path = os.path.join(folder, "journal")
        with open(path, "wb") as file:
            file.write(b"".join(map(batch, journal.records[:count])))
        status, said, errors = ended(["check-journal", path, "--json"])
    none = {"damaged": None, "records": count, "refused": None, "rest": False, "system": None, "why": None}
    expect((status, json.loads(said), errors), (0, {**journal.held[count - 1], **none}, b""), journal.records[:count])


def start(journal):
    """A site that is started with the journal reports what it held in the end."""
    site = journal.site
    with tempfile.TemporaryDirectory() as folder:
        path = os.path.join(folder, "journal")
        with open(path, "wb") as file:
            file.write(batch(*journal.records))
        count = len(site.peers) + 1
        status, said, errors = started(path, text=b"status\nquit\n", site=site.number, count=count, system=None)
    expect((status, b"" if status == 0 else errors), (0, b""), journal.records)
    wanted = {key: journal.held[-1][key] for key in ("closed", "held", "issued", "number", "received", "site", "spent")}
    applied = {peer["site"]: peer["applied"] for peer in journal.held[-1]["peers"]}
    expect(reported(json.loads(said)), (wanted, applied), journal.records)


def check_all(runs):
    """All journals of these runs, at each record; of each run the longest one is started too."""
    built(PROGRAM)
    journals = [journal for run in runs for journal in run.journals]
    cuts = [(journal, count) for journal in journals for count in range(1, len(journal.records) + 1)]
    with ThreadPoolExecutor(os.cpu_count()) as pool:
        for _ in pool.map(lambda cut: check(*cut), cuts):
            pass
    for run in runs:
        # One after another, since each looks for ports that are free.
        start(max(run.journals, key=lambda journal: len(journal.records)))
    return len(cuts)


# ---- tests


def random_journals():
    check_all(random_runs(FIRST_SEED, SEEDS))


def runs_have_everything():
    """The random runs have each kind of record and of move, systems of several sizes, and sites that close."""
    runs = random_runs(FIRST_SEED, SEEDS)
    texts = [record for run in runs for journal in run.journals for record in journal.records]
    expect({text[0] for text in texts}, set("JEW"))
    moves = {word[0] for text in texts if text[0] == "E" for word in text.split(" ")[4:]}
    taken = {entry.moves[0].letter for run in runs for journal in run.journals for entry in journal.site.log}
    expect(moves | taken, set("IGRSKV"))
    sizes = {len(run.journals) for run in runs}
    expect(len(sizes) > 3, True, f"sizes {sorted(sizes)}")
    expect({journal.site.is_closed for run in runs for journal in run.journals}, {False, True})


def closings_in_every_order():
    """With heirs and without, and with peers that know of them at once or only in the end."""
    ways = itertools.product(itertools.permutations((1, 2, 3)), (False, True), (False, True))
    check_all([closing_run(*way) for way in ways])


def systems_of_each_size():
    """Of 2 to 16 sites, the journals of the first and of the last one."""
    runs = [closing_run(tuple(range(1, count + 1)), True, count % 2 == 0) for count in range(2, 17)]
    for run in runs:
        run.journals = [run.journals[0], run.journals[-1]]
    check_all(runs)


CASES = [case("JournalRuns", [runs_have_everything, random_journals, closings_in_every_order, systems_of_each_size])]


def main(words):
    parser = argparse.ArgumentParser(description=__doc__.split("\n")[0])
    parser.add_argument("--seeds", nargs=2, type=int, metavar=("FIRST", "COUNT"), default=(FIRST_SEED, SEEDS))
    parser.add_argument("--program", metavar="PATH")
    options = parser.parse_args(words)
    first, count = options.seeds
    journals = checks = 0
    for seed in range(first, first + count):
        runs = random_runs(seed, 1)
        try:
            checks += check_all(runs)
        except AssertionError as fault:
            print(f"seed {seed}: {fault}")
            return 1
        journals += sum(len(run.journals) for run in runs)
    print(f"{journals} journals of {count} runs, cut at {checks} records: 0 failed")
    return 0


if __name__ == "__main__":
    sys.exit(main(sys.argv[1:]))
