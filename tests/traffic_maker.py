#!/usr/bin/env python3
"""Makes a script for `./bench sim` with all commands, in the shares that traffic between sites has.

    tests/traffic_maker.py [--seed SEED] SITES COMMANDS PROGRAM...

PROGRAM answers a script on its standard input, as `rights-site sim` does. It is asked step by step, since a script names
packets by the numbers that its replies give them. The script, of about so many commands, goes to the standard output. It
is the same for the same seed.

A site writes some entries and publishes them to all others, as at a tick. Most packets arrive, and what is put in order
is taken at once; some are lost, repeated or overtaken. What is missing is asked for and answered. Sites that run short
ask others for rights. Now and then a site beats, spends expire, noise comes, and all is reported; some sites close.
"""

import argparse
import random
import subprocess
import sys

# Of a hundred packets so many are lost, repeated, or overtaken by another one.
LOST, REPEATED, OVERTAKEN = 3, 3, 8

# How often, in a hundred turns of sites, each of these comes beside the traffic.
BEATS, EXPIRIES, NOISES, REPORTS = 30, 10, 10, 1

# What each site issues at first: sites of even numbers little, so that they run short.
MUCH, LITTLE = 1_000_000_000, 100


class Program:
    """The program at work, and the script so far."""

    def __init__(self, command):
        pipes = {"stdin": subprocess.PIPE, "stdout": subprocess.PIPE}
        self.process = subprocess.Popen(command, **pipes)
        self.lines = []
        self.sites = 0

    def ask(self, *lines):
        """Adds these commands, and returns the reply to each; of a report only its first line."""
        if not lines:
            return []
        self.lines += lines
        self.process.stdin.write("".join(f"{line}\n" for line in lines).encode())
        self.process.stdin.flush()
        return [self.reply(line) for line in lines]

    def reply(self, line):
        first = self.process.stdout.readline().decode().split()
        if line == "report":
            for _ in range(self.sites * self.sites):
                self.process.stdout.readline()
        return first

    def end(self):
        self.process.stdin.close()
        self.process.wait()


class Traffic:
    def __init__(self, seed, sites, command):
        self.random = random.Random(seed)
        self.program = Program(command)
        self.ask = self.program.ask
        self.program.sites = sites
        self.sites = list(range(1, sites + 1))
        self.open = list(self.sites)
        # Packets on their way: the number of each, and the two sites.
        self.way = []
        # Links, by the site and the origin, with entries that are missing.
        self.gaps = set()
        # What was published, of each log, as pairs of a packet's sender and its addressee.
        self.time = 0
        self.tickets = {}

    def hits(self, percent):
        return self.random.random() * 100 < percent

    def others(self, site):
        return [it for it in self.sites if it != site]

    # -- sending

    def note(self, sender, to, reply):
        """Notes the packet that a reply tells of."""
        if reply[0] == "denied":
            reply = reply[1:]
        if reply[0] == "packet":
            self.way.append((int(reply[1]), sender, to))

    def send(self, *sent):
        """Adds commands that send something, each with its sender and addressee."""
        replies = self.ask(*(line for line, _, _ in sent))
        for (_, sender, to), reply in zip(sent, replies):
            self.note(sender, to, reply)

    def begin(self):
        self.ask(f"sites {len(self.sites)}")
        for site in self.sites:
            self.ask(f"issue {site} {MUCH if site % 2 else LITTLE}")
            self.publish(site, 1)

    def publish(self, site, count):
        peers = self.others(site)
        self.send(*((f"publish {site} {peer}", site, peer) for peer in peers for _ in range(count)))

    # -- writing

    def move(self, site):
        amount = self.random.randint(1, 9)
        peer = self.random.choice(self.others(site))
        return self.random.choices([f"S:{amount}", f"I:{amount}", f"R:{peer}:{amount}"], [6, 2, 2])[0]

    def written(self, site):
        """A command that writes an entry, or lets a spend wait."""
        amount = self.random.randint(1, 9)
        kind = self.random.choices(["spend", "give", "issue", "post"], [70, 15, 7, 8])[0]
        if kind == "spend":
            return f"spend {site} {amount} {self.time + 20}"
        if kind == "give":
            return f"give {site} {self.random.choice(self.others(site))} {amount}"
        if kind == "issue":
            return f"issue {site} {amount}"
        moves = " ".join(self.move(site) for _ in range(self.random.randint(2, 5)))
        return f"post {site} {moves}"

    def write(self, site):
        count = self.random.randint(1, 4)
        replies = self.ask(*(self.written(site) for _ in range(count)))
        tickets = [reply[1] for reply in replies if reply[0] == "queued"]
        self.tickets.setdefault(site, []).extend(tickets)
        self.publish(site, sum(reply[0] in ("number", "spent") for reply in replies))

    # -- packets that arrive

    def arrivals(self):
        """The packets that arrive now: some are lost, others overtaken and left for later."""
        now, later = [], []
        for packet in self.way:
            if self.hits(OVERTAKEN):
                later.append(packet)
            elif not self.hits(LOST):
                now += [packet] * (2 if self.hits(REPEATED) else 1)
        self.way = later
        return now

    def deliver(self):
        """Lets packets arrive, and takes what they put in order."""
        packets = self.arrivals()
        replies = self.ask(*(f"arrive {to} {number}" for number, _, to in packets))
        takes = []
        for (_, sender, to), reply in zip(packets, replies):
            self.note(to, sender, reply)
            takes += [f"take {to} {sender}"] * reply.count("ready")
            if reply[0] in ("held", "full"):
                self.gaps.add((to, sender))
        backs = [line for line, reply in zip(takes, self.ask(*takes)) if "back" in reply]
        for line in backs:
            self.publish(int(line.split()[1]), 1)

    def heal(self):
        """Asks for what is missing; an answer may be lost, so that it is asked for again."""
        gaps, self.gaps = sorted(self.gaps), set()
        words = ["requery" if self.hits(30) else "query" for _ in gaps]
        self.send(*((f"{word} {s} {o}", s, o) for word, (s, o) in zip(words, gaps)))

    # -- rights that are asked for

    def ask_for_rights(self, site):
        waiting = self.tickets.get(site, [])
        if not waiting or site not in self.open:
            return
        peers = self.random.sample(self.others(site), min(3, len(self.sites) - 1))
        self.ask(f"plan {site}")
        self.send(*((f"ask {site} {peer}", site, peer) for peer in peers))
        self.deliver()
        for peer in peers:
            if peer in self.open:
                self.publish(peer, 1)
        self.deliver()
        replies = self.ask(*[f"serve {site}"] * len(waiting))
        self.publish(site, sum(reply[0] == "served" for reply in replies))
        states = self.ask(*(f"status {site} {ticket}" for ticket in waiting))
        self.tickets[site] = [t for t, state in zip(waiting, states) if state[0] == "waiting"]

    # -- what is rare

    def beside(self, site):
        if self.hits(BEATS):
            peer = self.random.choice(self.others(site))
            self.send((f"beat {site} {peer}", site, peer))
            self.gaps.add((peer, site))
        if self.hits(EXPIRIES):
            self.time += 1
            self.ask(f"expire {site} {self.time}")
        if self.hits(NOISES):
            self.ask(f"noise {site} {self.random.choice(self.others(site))} X {self.time}")
        if self.hits(REPORTS / len(self.sites)):
            self.ask("report")

    def close(self):
        """A site closes, with rights on their way to it; two stay open."""
        site = self.random.choice(self.open)
        self.time += 30
        self.ask(f"expire {site} {self.time}")
        heir = f" {self.random.choice(self.others(site))}" if self.hits(50) else ""
        [reply] = self.ask(f"close {site}{heir}")
        if reply[0] == "number":
            self.open.remove(site)
            self.publish(site, 1)

    def run(self, commands):
        closings = sorted(self.random.randrange(commands) for _ in range((len(self.sites) - 2) // 2))
        self.begin()
        while len(self.program.lines) < commands:
            site = self.random.choice(self.open)
            self.write(site)
            self.deliver()
            self.heal()
            self.deliver()
            self.ask_for_rights(site)
            self.beside(site)
            if closings and closings[0] < len(self.program.lines):
                closings.pop(0)
                self.close()
        self.program.end()
        return self.program.lines


def main():
    parser = argparse.ArgumentParser(usage="%(prog)s [--seed SEED] SITES COMMANDS PROGRAM...")
    parser.add_argument("--seed", type=int, default=1)
    parser.add_argument("sites", type=int)
    parser.add_argument("commands", type=int)
    parser.add_argument("program", nargs=argparse.REMAINDER)
    asked = parser.parse_args()
    lines = Traffic(asked.seed, asked.sites, asked.program).run(asked.commands)
    sys.stdout.write("".join(f"{line}\n" for line in lines))


main()
