#!/usr/bin/env python3
"""Sites with journals that are killed at any moment and started again by the same command, while clients of all kinds
use them and the connections between them break. In the end all that was told is in their journals, and the rights add
up.

    tests/kills.py [--seeds FIRST COUNT] [--seconds SECONDS] [--sites N] [--program PATH]
"""

import argparse
import itertools
import os
import random
import re
import shutil
import socket
import sys
import tempfile
import threading
import time
from contextlib import suppress

from cases import case_of_pairs, choose_program

if __name__ == "__main__":
    choose_program()

from cluster import HERE, PATIENCE, PROGRAM, at, expect
from journal_kit import at_rest, fault_of_keys, read_batches
from power_cuts import Recorded
from preloaded import ROOM, built
from proxies import Proxy
from told import REPLY, fault_of_asks, fault_of_calls, fault_of_entries, fault_of_replies, fault_of_totals, parted
from web_driver import Client, post

from rights_site import SiteEnded, SiteSilent

# How long a run of the suite kills, in seconds.
SECONDS = 2.5


class RoughLink(Proxy):
    """Passes lines on, or loses them, or ends the connection, within a line too; each after some time. What a connection
    still had is lost once there is a newer one, as it would be where a site itself hears of both."""

    def __init__(self, target, run, chance):
        self.run, self.chance = run, chance
        super().__init__(target)

    def carry(self, stream):
        host, port = self.target.split(":")
        with stream, suppress(OSError), socket.create_connection((host, int(port))) as out:
            out.setsockopt(socket.IPPROTO_TCP, socket.TCP_NODELAY, 1)
            for line in stream.makefile("rb"):
                self.run.see(line)
                fate = self.chance.random() if self.run.is_rough else 1
                if fate < 0.04:
                    time.sleep(self.chance.random() * 0.05)
                if self.newest is not stream:
                    return
                if fate < 0.01:
                    out.sendall(line[: self.chance.randrange(len(line))])
                    return
                if fate > 0.08 or line.startswith(b"H"):
                    out.sendall(line)


class Run:
    """One run. `replies` has, by site, the commands of all clients, each with its reply or None."""

    def __init__(self, seed, options):
        self.chance = random.Random(seed)
        self.count = options.sites or 2 + seed % 4
        self.seconds, self.patience = options.seconds, options.patience
        self.programs = {number: options.wrong for number in range(1, self.count + 1) if options.wrong}
        self.lock, self.stop, self.is_rough = threading.Lock(), threading.Event(), True
        self.lines, self.faults = set(), []
        self.replies = {number: [] for number in range(1, self.count + 1)}
        # The amounts of commands under keys, which have no other ones.
        self.amounts = itertools.count(1000)
        self.kills = 0

    def see(self, line):
        """Notes the entries and asks of a line that a site sent."""
        if line[:1] in b"EAW" and line.endswith(b"\n"):
            first, *entries = line.decode("ascii").rstrip("\n").split(";")
            with self.lock:
                self.lines.update(entries if line[:1] == b"A" else [first])

    def note(self, number, commands, replies):
        with self.lock:
            self.replies[number] += zip(commands, [*replies, *[None] * (len(commands) - len(replies))])

    def fault(self, text):
        with self.lock:
            self.faults.append(text)

    def some_commands(self, chance, number, most):
        peer = chance.choice([it for it in range(1, self.count + 1) if it != number])
        amount = chance.randint(1, 9)
        forms = [
            f"issue {amount}", f"give {peer} {amount}", f"give {peer} 1", f"take {amount}", f"take {amount}",
            f"spend {amount} +{chance.randint(0, 500)}", f"spend {10 * amount} +{chance.randint(0, 300)}", "status",
            "queue",
        ]  # fmt: skip
        return [chance.choice(forms) for _ in range(chance.randint(1, most))]

    # ---- clients

    def web_client(self, number, chance):
        """Over HTTP, on connections that last as long as the site does."""
        while not self.stop.is_set():
            with suppress(ConnectionError, EndedEarly), Client(self.sites.address(number)) as client:
                while not self.stop.is_set():
                    self.web_exchange(client, number, chance)
            time.sleep(0.02)

    def web_exchange(self, client, number, chance):
        waits = chance.random() < 0.3
        commands = self.some_commands(chance, number, 1 if waits else 5)
        replies = []
        try:
            status, replies = client.command(*commands, target="/wait" if waits else "/")
            if len(replies) != len(commands):
                self.fault(f"site {number}: {commands} were answered {status} {replies}")
        except TimeoutError:
            self.fault(f"site {number}: no answer to {commands} within {PATIENCE} seconds")
            raise ConnectionError from None
        except AssertionError:
            raise EndedEarly from None
        finally:
            self.note(number, commands, replies)
        time.sleep(chance.random() * 0.02)

    def stream_client(self, number, chance):
        """On the standard streams. It reads outcomes later, and tickets of an earlier process too."""
        tickets = []
        while not self.stop.is_set():
            site, commands, replies = self.sites[number], self.some_commands(chance, number, 8), []
            commands += [f"outcome {ticket}" for ticket in tickets[-4:]]
            if site.process.poll() is not None:
                time.sleep(0.02)
                continue
            try:
                replies = site.ask_all(commands)
            except SiteSilent as silent:
                self.fault(str(silent))
                return
            except (SiteEnded, OSError, ValueError):
                pass
            self.note(number, commands, replies)
            tickets += [reply[7:] for reply in replies if reply.startswith("queued ")]
            time.sleep(chance.random() * 0.03)

    def command_under_key(self, chance, number):
        """With a key and an amount of its own, so that each entry of its move is one of it."""
        peer, amount = number % self.count + 1, next(self.amounts)
        forms = [
            f"issue {amount}", f"issue {amount}", f"give {peer} {amount}", f"take {amount}", f"spend {amount} +{chance.randint(0, 400)}",
        ]  # fmt: skip
        return f"key {number}/{amount} {chance.choice(forms)}"

    def keyed_client(self, number, chance):
        """Over HTTP. It repeats each command until it is answered, and some of them later, when it may be another process
        that answers."""
        commands = []
        while not self.stop.is_set():
            if not commands or chance.random() < 0.6:
                commands.append(self.command_under_key(chance, number))
            command, replies = chance.choice(commands[-chance.choice([1, 5, 50]) :]), []
            while not replies and not self.stop.is_set():
                with suppress(ConnectionError, AssertionError, TimeoutError), Client(self.sites.address(number)) as client:
                    replies = self.exchange_under_key(client, command, chance)
                self.note(number, [command], replies)
                time.sleep(chance.random() * 0.01)

    def exchange_under_key(self, client, command, chance):
        """The reply, unless the client leaves before it."""
        target = "/wait" if chance.random() < 0.3 else "/"
        if chance.random() < 0.8:
            return client.command(command, target=target)[1]
        client.send(post(command, target=target))
        time.sleep(chance.random() * 0.005)
        client.reset()
        return []

    def closing_client(self, number, chance):
        """Waits for a while, and then closes the site, which it may only do while no spend waits."""
        self.stop.wait(chance.random() * self.seconds)
        while not self.stop.is_set():
            command, replies = chance.choice(["close", f"close {number % self.count + 1}"]), []
            with suppress(ConnectionError, AssertionError, TimeoutError), Client(self.sites.address(number)) as client:
                replies = client.command(command)[1]
            self.note(number, [command], replies)
            if replies and replies[0] in ("error Closed", "error PeerClosed"):
                return
            time.sleep(0.01)

    # ---- kills

    def kill_some(self):
        until = time.monotonic() + self.seconds
        while time.monotonic() < until:
            time.sleep(self.chance.random() ** 2 * 0.6)
            numbers = self.chance.sample(range(1, self.count + 1), self.chance.choice([1, 1, 1, 2, self.count]))
            for number in numbers:
                self.sites[number].kill()
                self.kills += 1
            for number in numbers:
                time.sleep(self.chance.random() ** 3 * 0.4)
                self.sites.start(number)

    def carry_out(self):
        links = {}
        # In half of the runs it is written down what each process does, and disks are slow. That needs a compiler.
        options = {
            "recorded": range(1, self.count + 1) if self.chance.random() < 0.5 and shutil.which("cc") else (),
            "settings": {"DISK_SLOW": self.chance.choice([0, 2, 10])},
            "tick": self.chance.choice([5, 20, 50]),
        }
        self.sites = Recorded(self.count, [], system="kills", programs=self.programs, **options)
        with self.sites as sites:
            for number, peer in itertools.permutations(range(1, self.count + 1), 2):
                links[number, peer] = RoughLink(at(sites.ports[peer - 1]), self, random.Random(self.chance.random()))
                sites.routes[number, peer] = links[number, peer].address
            for number in range(1, self.count + 1):
                self.sites.start(number)
            kinds = (self.web_client, self.web_client, self.stream_client, self.keyed_client, self.keyed_client)
            threads = [self.client(kind, number) for number in sites.sites for kind in kinds]
            if self.count > 2 and self.chance.random() < 0.5:
                threads.append(self.client(self.closing_client, self.chance.randint(1, self.count)))
            try:
                self.kill_some()
            finally:
                self.stop.set()
            for thread in threads:
                thread.join(PATIENCE + 10)
                expect(thread.is_alive(), False, "a client waits for ever")
            expect(self.faults, [])
            self.is_rough = False
            self.check(sites)
            for link in links.values():
                link.server.close()

    def client(self, kind, number):
        thread = threading.Thread(target=kind, args=(number, random.Random(self.chance.random())), daemon=True)
        thread.start()
        return thread

    # ---- the end

    def check(self, sites):
        found = at_rest(sites, self.patience)
        holdings = {number: sites.holdings(number) for number in found}
        for number in found:
            sites.agrees(number)
        logs = {number: [entry.text for entry in of.log] for number, of in holdings.items()}
        for number, of in holdings.items():
            expect(fault_of_replies(self.replies[number], of.log), None, f"site {number}")
            expect(fault_of_keys(read_batches(sites.content(number))[0]), None, f"site {number}")
            for origin, log in of.applied.items():
                # A site that has closed applies nothing more.
                whole = logs[origin][: len(log)] if found[number]["closed"] else logs[origin]
                expect([entry.text for entry in log], whole, f"what site {number} applied of site {origin}")
            for key, value in sites.metrics(number).items():
                if key[0] in ("rights_peer_number_went_back_total", "rights_peer_lines_refused_total"):
                    expect(value, 0, f"site {number}: {key}")
        entries = {line for line in self.lines if line[0] == "E"}.union(*logs.values())
        expect(fault_of_entries(entries), None)
        asks = set().union(*map(lines_of_asks, holdings.values()))
        sent = {line for line in self.lines if line[0] == "W"}
        expect(sorted(sent - asks), [], "asks that are in no journal")
        expect(fault_of_asks(self.lines | asks | entries), None)
        expect(fault_of_totals(found.values()), None)
        self.check_repeats(sites)
        self.check_again(sites, found)
        self.check_repeats(sites)
        for number, before, calls in sites.calls():
            expect(fault_of_calls(calls, before), None, f"site {number}")

    def check_repeats(self, sites):
        """What was told of commands under keys is in the journal, and is told once more."""
        for number, replies in self.replies.items():
            keys, site = sites.holdings(number).keys, sites[number]
            told = {parted(command)[0]: (command, reply) for command, reply in replies if command.startswith("key ") and REPLY.fullmatch(reply or "")}
            expect({key: int(reply.split(" ")[1]) for key, (_, reply) in told.items()}.items() <= keys.items(), True, f"site {number}: keys that are told")
            again = site.ask_all([command for command, _ in told.values()])
            expect(again, [reply for _, reply in told.values()], f"site {number}: repeats")

    def check_again(self, sites, before):
        """All are killed once more. What was denied may be granted then, so rights may move, and no others be there."""
        for number in before:
            sites[number].kill()
        for number in before:
            self.sites.start(number)
        found = at_rest(sites)
        expect(fault_of_totals(found.values()), None, "once more")
        for number, status in found.items():
            for key in ("issued", "spent", "closed"):
                expect(status[key], before[number][key], f"site {number}, started once more: {key}")
            expect(status["number"] >= before[number]["number"], True, f"site {number}, started once more: its number")


def lines_of_asks(holdings):
    return {f"W {holdings.site} {peer} {ask} {it}" for peer, asks in holdings.asks.items() for ask, it in asks.items()}


class EndedEarly(Exception):
    """The connection ended before an answer came."""


def fault(seed, options):
    """Why the run of a seed fails, or None."""
    run = Run(seed, options)
    try:
        run.carry_out()
    except (AssertionError, SiteEnded, OSError) as error:
        return f"seed {seed}, {run.count} sites: {type(error).__name__}: {error}"
    if run.kills == 0 or not any(reply for replies in run.replies.values() for _, reply in replies):
        return f"seed {seed}: nothing was tried"
    return None


USUAL = {"sites": None, "patience": PATIENCE, "wrong": None}


def usual(**changes):
    return argparse.Namespace(**{"seconds": SECONDS, **USUAL, **changes})


# ---- wrong programs

# They change the journal before each start: that of a program which forgets something.
FORGETFUL = """#!{python}
import os, sys
sys.path.insert(0, {tests!r})
from journal_kit import batch, read_batches
path = sys.argv[3]
if os.path.exists(path):
    with open(path, "rb") as file:
        batches = read_batches(file.read())[0]
    {change}
    with open(path, "wb") as file:
        file.write(b"".join(batch(*records) for records in batches if records))
os.execv({program!r}, [{program!r}, *sys.argv[1:]])
"""
# What each forgets, and how that may be found.
WITHOUT = 'batches = [[it for it in records if it[0] != "%s"] for records in batches]'
LOST = (
    "given out twice|no such number|told twice|two entries|which is|went_back|not within|in no journal|"
    "started once more|what site [0-9]+ applied of site|keys that are told"
)
WRONG = {
    "its last batch": ("del batches[-1:]", LOST),
    "all that it did": ("del batches[1:]", LOST),
    "its tickets": (WITHOUT % "T", "ticket [0-9]+ is given out twice"),
    "its asks": (WITHOUT % "W", "in no journal|is for|granted twice|grants more"),
    "its keys": (WITHOUT % "X", "and number [0-9]+ before|more entries than commands|keys that are told"),
}


def program_that_forgets(change):
    script, path = tempfile.mkstemp(dir=ROOM.name, prefix="forgetful-")
    with open(script, "w") as text:
        text.write(FORGETFUL.format(python=sys.executable, tests=HERE, change=change, program=built()))
    os.chmod(path, 0o755)
    return path


def is_found(change, words):
    """Whether one of some runs finds a program that forgets this: None, or that it is not."""
    said = None
    for seed in (2, 6, 10, 14):
        said = fault(seed, usual(seconds=1.2, sites=2, patience=3, wrong=program_that_forgets(change)))
        if said is not None:
            return None if re.search(words, said) else f"it is found by {said}"
    return "it is not found"


CASES = [
    case_of_pairs("Kills", [(f"seed {seed}", lambda seed=seed: fault(seed, usual())) for seed in range(1, 5)]),
    case_of_pairs(
        "KillsOfWrongPrograms",
        [(f"one that forgets {what}", lambda wrong=wrong: is_found(*wrong)) for what, wrong in WRONG.items()],
    ),
]


def main():
    words = argparse.ArgumentParser(description=__doc__, formatter_class=argparse.RawDescriptionHelpFormatter)
    words.add_argument("--seeds", nargs=2, type=int, default=[1, 10], metavar=("FIRST", "COUNT"))
    words.add_argument("--seconds", type=float, default=10.0, help="how long a run kills")
    words.add_argument("--sites", type=int, choices=range(2, 17), metavar="N", help="sites of the system, else 2 to 5")
    words.add_argument("--program", default=PROGRAM)
    options = words.parse_args(namespace=argparse.Namespace(**USUAL))
    first, count = options.seeds
    failed = 0
    for seed in range(first, first + count):
        found = fault(seed, options)
        failed += found is not None
        print(found or f"seed {seed}: passed", flush=True)
    print(f"{count - failed} passed, {failed} failed")
    return 1 if failed else 0


if __name__ == "__main__":
    sys.exit(main())
