#!/usr/bin/env python3
"""Tries running sites against a model, input by input.

    tests/lockstep.py [--seeds FIRST COUNT] [--kind alone|full|cluster] [--sites N] [--steps N] [--seconds N]
                      [--program PATH]

Each seed makes one run. In most of them one process gets commands and lines of peers, all of which the test is (alone).
In some, first more lines are to be sent than an outbox has room for (full). In others 2 to 5 processes talk to each
other, and the test carries their lines, loses, repeats, reorders and delays them (cluster). Each process has a model
that gets the same, and all that it says is compared: replies, status objects, and lines to each peer. A run that fails
is reported with its seed, step and input, and `--seeds SEED 1` runs it alone again. The last line is 'N passed, M failed'.
tests/suite.py runs the first sixty seeds.
"""

import argparse
import os
import random
import subprocess
import sys
import time

sys.path.insert(0, os.path.dirname(os.path.abspath(__file__)))

from cases import Skipped, case_of_pairs  # noqa: E402
from cluster import BUILT, PROGRAM, SiteEnded  # noqa: E402
from desk_model import total  # noqa: E402
from site_driver import Difference, Node, text_of  # noqa: E402
from site_inputs import Inputs  # noqa: E402
from site_model import ROOM  # noqa: E402

STEPS = 120
# So long it is tried to fill outboxes while nothing leaves them.
FULL_SECONDS = 120
# More entries than these are sent before others are written.
MOST_UNSENT = 100


class Run:
    """What a run is, and what its last input was."""

    def __init__(self, seed, kind, options):
        self.rng = random.Random(f"{kind} {seed}")
        self.options, self.kind = options, kind
        self.step, self.input = 0, "nothing"

    def note(self, *words):
        self.input = " ".join(text_of(word) for word in words)

    @property
    def program(self):
        return self.options.program

    def sites(self, most):
        """How many sites the system has, few mostly."""
        few = self.rng.random() < 0.8
        return self.options.sites or self.rng.randint(2, min(4, most) if few else most)

    def keys(self):
        """How many keys a site is told to remember, if it is."""
        return self.rng.choice([None, None, None, 0, 1, 3, 10])


# ---- one process


def give_some(run, node, inputs):
    """One input of any kind, and the comparison of all that follows."""
    rng = run.rng
    number = rng.choice(node.model.peers)
    peer, other = node.peers[number], inputs.others[number]
    if inputs.most_unsent() > MOST_UNSENT:
        give_commands(run, node, inputs, [inputs.tick()])
    elif rng.random() < 0.5 or not peer.hears:
        give_commands(run, node, inputs, inputs.commands())
    elif (chance := rng.random()) < 0.04:
        run.note("a new connection of", number)
        node.renew(number, rng.random() < 0.5)
    elif chance < 0.08 and not peer.begun:
        part, rest = inputs.torn(other)
        run.note("the first part of a line of", number, part)
        node.begin_line(number, part, rest)
        return
    elif chance < 0.09:
        text = inputs.stranger()
        run.note("a stranger", text)
        node.meet_stranger(text)
    elif chance < 0.10:
        run.note("the connection to peer", number, "is cut")
        node.cut(number)
        give_commands(run, node, inputs, [inputs.tick()])
    else:
        if peer.begun:
            # What comes behind an entry may be judged before the entry is applied, so the line comes to its end alone.
            run.note("the rest of a line of", number, peer.rest)
            node.give_lines(number, [])
            node.settle()
        lines = inputs.lines(number)
        run.note("lines of", number, b" / ".join(lines))
        node.give_lines(number, lines, inputs.cuts(sum(map(len, lines))))
    node.settle()


def give_commands(run, node, inputs, lines):
    run.note("commands", b" / ".join(lines))
    node.give_commands(lines, inputs.cuts(sum(map(len, lines))) if inputs else ())


def restore_some(run, node, is_certain=False):
    """Peers that were cut off hear the site again, at some time."""
    for number, peer in node.peers.items():
        is_full = len(node.model.outboxes[number].lines) > ROOM // 4
        if not peer.hears and (is_certain or is_full or run.rng.random() < 0.2):
            run.note("peer", number, "hears again")
            node.restore(number)
            node.settle()


def run_alone(run):
    count = run.sites(16)
    me = run.rng.randint(1, count)
    late = [other for other in range(1, count + 1) if other != me and run.rng.random() < 0.1]
    node = Node(me, count, run.program, late, keys=run.keys())
    try:
        go_on(run, node)
    finally:
        node.close()


def go_on(run, node):
    inputs = Inputs(run.rng, node.model)
    for run.step in range(run.step + 1, run.options.steps + 1):
        give_some(run, node, inputs)
        restore_some(run, node)
    restore_some(run, node, is_certain=True)
    for number in node.peers:
        run.note("a last query of", number)
        node.give_lines(number, [])
        node.settle()
    run.note("the end")
    node.end(by_quit=run.rng.random() < 0.5)


# ---- outboxes that are full


class NotTried(Skipped):
    """The machine was too busy for this run, which says nothing of the program."""


def run_full(run):
    """No peer answers an attempt to connect: of the lines for each one is at the attempt, and the others wait. An
    attempt lasts a second, so where it was over too soon all is tried again, for two minutes."""
    state = run.rng.getstate()
    until = time.monotonic() + FULL_SECONDS
    while time.monotonic() < until:
        run.rng.setstate(state)
        run.step = 0
        count = run.sites(5)
        me, *others = run.rng.sample(range(1, count + 1), count)
        node = Node(me, count, run.program, others)
        try:
            if node.fill_outboxes(many_entries(run.rng, min(node.peers)), run.note):
                return go_on(run, node)
        finally:
            node.close()
    raise NotTried("each time an attempt to connect was over before the outboxes were full")


def many_entries(rng, peer):
    """Commands that write more entries than there is room for, mostly, with ticks between them and behind them."""
    lines = [b"issue 1000000", b"give %d 1" % peer]
    left = ROOM + rng.randint(-5, 40)
    while left > 0:
        some = min(left, rng.randint(1, 150))
        left -= some
        lines += [b"spend %d 1" % rng.randint(1, 5) for _ in range(some)] + [b"tick 1"]
    return [*lines, b"tick 2", b"give %d 1" % peer, b"spend 2000000 5", b"tick 2", b"status"]


# ---- processes that talk to each other


class Lines:
    """The lines between some sites that were sent, and did not arrive or may arrive again."""

    def __init__(self, rng):
        self.rng = rng
        self.waiting = {}

    def add(self, sender, came):
        for receiver, lines in came.items():
            self.waiting.setdefault((sender, receiver), []).extend(lines)

    def links(self):
        return [link for link, lines in self.waiting.items() if lines]

    def some(self, link):
        """Lines of a link that arrive together: in order or not, and some of them again later. One that may be
        answered by what was applied before arrives alone."""
        rng, lines = self.rng, self.waiting[link]
        place = 0 if rng.random() < 0.7 else rng.randrange(len(lines))
        most = rng.choice([1, 1, 4, 16])
        some = lines[place : place + most]
        if any(line[:1] in b"QWD" for line in some):
            some = some[:1]
        if rng.random() < 0.85:
            del lines[place : place + len(some)]
        return some

    def lose(self, link):
        rng, lines = self.rng, self.waiting[link]
        del lines[: rng.choice([1, 5, len(lines)])]

    def first(self, link):
        """The first line of a link, or those that may arrive together."""
        lines = self.waiting[link]
        count = 1
        if lines[0][:1] in b"EAB":
            while count < min(len(lines), 100) and lines[count][:1] in b"EAB":
                count += 1
        self.waiting[link] = lines[count:]
        return lines[:count]


def run_cluster(run):
    count = run.sites(5)
    nodes = {}
    try:
        for number in range(1, count + 1):
            nodes[number] = Node(number, count, run.program, keys=run.keys())
        carry(run, nodes)
    finally:
        for node in nodes.values():
            node.close()


def carry(run, nodes):
    rng = run.rng
    inputs = {number: Inputs(rng, node.model) for number, node in nodes.items()}
    lines = Lines(rng)
    losses = rng.choice([0, 0.02, 0.2])
    for run.step in range(1, run.options.steps + 1):
        links = lines.links()
        if not links or rng.random() < 0.4:
            number = rng.choice(list(nodes))
            give_commands(run, nodes[number], inputs[number], inputs[number].commands_of_cluster())
            lines.add(number, nodes[number].settle())
        elif rng.random() < losses:
            lines.lose(rng.choice(links))
        else:
            deliver(run, nodes, lines, rng.choice(links), lines.some)
    heal(run, nodes, lines)
    run.note("the end")
    for node in nodes.values():
        node.end(by_quit=rng.random() < 0.5)


def deliver(run, nodes, lines, link, choose):
    """Some lines of a link arrive."""
    sender, receiver = link
    some = choose(link)
    run.note("from", sender, "to", receiver, b" / ".join(some))
    nodes[receiver].give_lines(sender, some)
    came = nodes[receiver].settle()
    # The answer to the query behind them is no line that somebody waits for.
    answers = [place for place, line in enumerate(came[sender]) if line.startswith(b"A ")]
    del came[sender][answers[-1]]
    lines.add(receiver, came)


def heal(run, nodes, lines):
    """All ticks, and all lines arrive, till each open site has applied all that was written."""
    desks = [node.model.desk for node in nodes.values()]
    for _ in range(30):
        for number, node in nodes.items():
            give_commands(run, node, None, [b"tick %d" % node.model.desk.now])
            lines.add(number, node.settle())
        while links := lines.links():
            deliver(run, nodes, lines, links[0], lines.first)
        if all(len(a.entries_of(b.number)) == len(b.log) for a in desks for b in desks if not a.is_closed):
            break
    else:
        raise Difference("after 30 ticks and no losses", "that all is applied", "that it is not")
    if sum(desk.is_closed for desk in desks) <= 1:
        logs = [entry for desk in desks for entry in desk.log]
        issued, spent, held = total(logs, "I"), total(logs, "S"), sum(desk.held for desk in desks)
        if issued != spent + held:
            raise Difference("the rights in the end", f"{issued} spent or held", f"{spent} spent and {held} held")


# ---- all runs

KINDS = {"alone": run_alone, "full": run_full, "cluster": run_cluster}


def kind_of(seed):
    """Of ten seeds, seven are of one process, one of full outboxes, and two of more processes."""
    return {3: "full", 6: "cluster", 9: "cluster"}.get(seed % 10, "alone")


def fault(seed, options):
    """Why the run of a seed fails, or None. `NotTried` where the machine is too busy for it."""
    kind = options.kind or kind_of(seed)
    run = Run(seed, kind, options)
    try:
        KINDS[kind](run)
    except (Difference, AssertionError, SiteEnded, OSError, subprocess.TimeoutExpired) as error:
        cause = error if isinstance(error, Difference) else f"{type(error).__name__}: {error}"
        return f"seed {seed} ({kind}), step {run.step}: FAILED after {run.input}:\n  {cause}"
    return None


USUAL = argparse.Namespace(kind=None, sites=None, steps=STEPS, program=PROGRAM)
CASES = [case_of_pairs("Lockstep", [(f"seed {seed}", lambda seed=seed: fault(seed, USUAL)) for seed in range(1, 61)])]


def main():
    words = argparse.ArgumentParser(description=__doc__.split("\n", 1)[0])
    words.add_argument("--seeds", nargs=2, type=int, default=[1, 100], metavar=("FIRST", "COUNT"))
    words.add_argument("--kind", choices=KINDS, help="runs of this kind alone")
    words.add_argument("--sites", type=int, choices=range(2, 17), metavar="N", help="sites of the system, 2 to 16")
    words.add_argument("--steps", type=int, default=STEPS, help="inputs of a run")
    words.add_argument("--seconds", type=float, default=float("inf"), help="no run begins after so many seconds")
    words.add_argument("--program", default=BUILT if os.path.exists(BUILT) else PROGRAM)
    options = words.parse_args()
    first, count = options.seeds
    begun = time.monotonic()
    passed = failed = 0
    for seed in range(first, first + count):
        if time.monotonic() - begun > options.seconds:
            break
        try:
            found = fault(seed, options)
        except NotTried as cause:
            print(f"seed {seed}: not tried: {cause}", flush=True)
            continue
        if found:
            failed += 1
            print(found, flush=True)
        else:
            passed += 1
    print(f"{passed} passed, {failed} failed")
    return 1 if failed else 0


if __name__ == "__main__":
    sys.exit(main())
