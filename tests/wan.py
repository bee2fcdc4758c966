#!/usr/bin/env python3
"""Measures one stock that is sold at three places far apart, for `./bench wan`: latencies and rates while rights last,
while they run out, with one place cut off, and with one that is killed and comes back.

    tests/wan.py [--program PATH] [--seconds N] [--clients N] [--pace MS] [--write]

A site at each place is measured beside the two things that people do instead: one Redis that all must reach, and counters
at each place that are added up later. The places are processes on loopback, and between them are proxies that hold back
what goes through them. `--write` puts the table into docs/PERFORMANCE.md and the picture into docs/wan.svg.
"""

import argparse
import math
import multiprocessing
import os
import random
import shutil
import signal
import sys
import textwrap
import time
import traceback
from collections import namedtuple

HERE = os.path.dirname(os.path.abspath(__file__))
sys.path.insert(0, HERE)

from cluster import PROGRAM, Cluster  # noqa: E402
from page_tables import DOCS, put, table  # noqa: E402
from wan_loss import LOST_FROM, LOST_TO, caught_up  # noqa: E402
from wan_picture import picture  # noqa: E402
from wan_systems import PLACES, REFUSED, ROUND_TRIPS, SOLD, UNANSWERED, Sites, Strong, Weak  # noqa: E402

SYSTEMS = (Sites, Strong, Weak)
# This program writes what is between these in docs/PERFORMANCE.md.
BEGIN, END = "<!-- made by ./bench wan --write -->\n", "<!-- end of what ./bench wan made -->\n"
# The place that is cut off, and after which part of the phase.
AWAY, CUT_AFTER = 3, 0.25
# The place that is killed, and after which parts of the phase that is and it is started again.
KILLED, DOWN = 1, (0.25, 0.5)
STOCK_HEAD = (
    "phase", "", "stock", "sold", "oversold", "sold after a wait", "refused", "no answer", "taken without an answer"
)
# Seconds after which it ends in any case.
LONGEST = 300
# A spend that took longer, in milliseconds, waited for another place.
WAITED = min(ROUND_TRIPS.values()) / 2


class Phase(namedtuple("Phase", "title shares away killed", defaults=(None, None))):
    """`shares` are the rights that each place has at first. `away` is a place that is cut off, and `killed` one whose server
    is killed, and started again."""

    def stock(self):
        return sum(self.shares.values())


# Seconds since the phase began, milliseconds until the answer came, and what it was.
Spend = namedtuple("Spend", "at took result")
# The spends of a system in a phase, by place; what the servers took from the stock; seconds until all servers knew that; and
# until the server that was killed answered, since it was started again.
Run = namedtuple("Run", "phase kind spends taken settled back")


def demand(given):
    """What buyers at one place want in one phase, at most."""
    return offered(given) * given.seconds


def offered(given):
    return given.clients * 1000 / given.pace


def lasting(given):
    return Phase("while rights last", dict.fromkeys(PLACES, round(10 * demand(given))))


def phases(given):
    def shares(*parts):
        return {place: round(part * demand(given)) for place, part in zip(PLACES, parts, strict=True)}

    return [
        lasting(given),
        Phase("while they run out", shares(0.75, 0.3, 0.15)),
        Phase("Europe cut off", shares(0.75, 0.75, 0.75), away=AWAY),
        Phase("East killed", shares(1, 1, 1), killed=KILLED),
    ]


# ---- buyers


def buy(system, place, number, given, begin, results):
    """A buyer's process: begins a spend every `pace` milliseconds, or later where the one before takes longer."""
    signal.signal(signal.SIGTERM, signal.SIG_DFL)
    try:
        client = system.client(place)
        pace = given.pace / 1000
        due = begin + random.Random(number).uniform(0, pace)
        spends = []
        while due < begin + given.seconds:
            time.sleep(max(0, due - time.monotonic()))
            since = time.monotonic()
            result = client.spend()
            until = time.monotonic()
            spends.append(Spend(since - begin, (until - since) * 1000, result))
            due = max(due + pace, until)
        results.put((place, spends, None))
    except Exception:
        results.put((place, [], traceback.format_exc(limit=3)))


def run(kind, phase, given):
    """One system in one phase."""
    fork = multiprocessing.get_context("fork")
    results = fork.Queue()
    with kind(phase) as system:
        begin = time.monotonic() + 0.5
        buyers = [
            fork.Process(target=buy, args=(system, place, number, given, begin, results), daemon=True)
            for place in PLACES for number in range(given.clients)
        ]
        for buyer in buyers:
            buyer.start()
        if phase.away is not None:
            sleep_until(begin + CUT_AFTER * given.seconds)
            system.links.cut(phase.away)
        back = None if phase.killed is None else killed_and_back(system, phase, begin, given)
        spends = gathered(buyers, results, given.seconds)
        healed = time.monotonic()
        system.links.heal()
        taken = system.settle()
        return Run(phase, kind, spends, taken, time.monotonic() - healed, back)


def sleep_until(moment):
    time.sleep(max(0, moment - time.monotonic()))


def killed_and_back(system, phase, begin, given):
    """Kills a place's server, and starts it again: seconds until it answers."""
    end, start = (begin + part * given.seconds for part in DOWN)
    sleep_until(end)
    system.kill(phase.killed)
    sleep_until(start)
    system.restart(phase.killed)
    return time.monotonic() - start


def gathered(buyers, results, seconds):
    spends = {place: [] for place in PLACES}
    for _ in buyers:
        place, found, failed = results.get(timeout=seconds + 30)
        if failed:
            raise AssertionError(f"a buyer failed: {failed}")
        spends[place] += found
    for buyer in buyers:
        buyer.join(10)
    return spends


# ---- tables


def percentile(values, part):
    values = sorted(values)
    return values[max(0, math.ceil(part * len(values)) - 1)] if values else None


def times(spends, result):
    return [spend.took for spend in spends if spend.result == result]


def milliseconds(value):
    if value is None:
        return "-"
    return f"{value:.1f}" if value < 10 else f"{value:,.0f}"


def latency_row(found, seconds):
    """A row of the first table."""
    cells = []
    for place in PLACES:
        sold = times(found.spends[place], SOLD)
        cells.append(
            f"{milliseconds(percentile(sold, 0.5))}, {milliseconds(percentile(sold, 0.99))}; {len(sold) / seconds:,.0f}"
            if sold else "none sold"
        )
    return [found.phase.title, found.kind.name, *cells]


def stock_row(found):
    """A row of the second table."""
    spends = [spend for each in found.spends.values() for spend in each]
    stock, told = found.phase.stock(), sold_by(found)
    waited = [took for took in times(spends, SOLD) if took > WAITED]
    refused, unanswered = times(spends, REFUSED), times(spends, UNANSWERED)
    return [
        found.phase.title,
        found.kind.name,
        f"{stock:,}",
        f"{told:,}",
        f"**{told - stock:,}**" if told > stock else "0",
        f"{len(waited):,}, {milliseconds(percentile(waited, 0.5))} ms" if waited else "0",
        f"{len(refused):,}, {milliseconds(percentile(refused, 0.5))} ms" if refused else "0",
        f"{len(unanswered):,}",
        f"{found.taken - told:,}",
    ]


def report(found, lost, given):
    """The text for docs/PERFORMANCE.md."""
    places = [f"{place}: ms, ms; sold/s" for place in PLACES.values()]
    parts = [
        paragraph(
            f"Latency of the spends that sold something, median and 99th percentile in milliseconds; units sold a second. "
            f"{given.clients} buyers at each place, who begin a spend every {given.pace:g} ms at most, "
            f"so {offered(given):,.0f} a second at a place; {given.seconds:g} seconds for each row:"
        ),
        table(["phase", "", *places], [latency_row(each, given.seconds) for each in found]),
        paragraph(
            f"What became of the stock. A spend that waited took longer than {WAITED:.0f} ms; "
            "after each count comes the median time that it took:"
        ),
        table(STOCK_HEAD, [stock_row(each) for each in found]),
        paragraph(after_the_cut(found) + " " + after_the_kill(found, given) + " " + after_a_loss(lost, given)),
    ]
    return "\n".join(parts)


def paragraph(words):
    return textwrap.fill(words, 120, break_on_hyphens=False) + "\n"


def after_the_cut(found):
    (each,) = [each for each in found if each.kind is Sites and each.phase.away]
    return f"Once {PLACES[AWAY]} was back, all sites knew of all sales after {each.settled:.1f} seconds."


def after_the_kill(found, given):
    (each,) = [each for each in found if each.kind is Sites and each.phase.killed]
    down = (DOWN[1] - DOWN[0]) * given.seconds
    return (
        f"The site in {PLACES[KILLED]} was killed, and started again after {down:g} seconds: "
        f"it answered after {each.back * 1000:.0f} milliseconds more."
    )


def after_a_loss(lost, given):
    """What `caught_up` found, in words."""
    places = ", and ".join(
        f"{PLACES[place]} was {behind:,} entries behind and then caught up at {rate:,.0f} a second"
        for place, (behind, rate) in lost.items()
    )
    return (
        f"All lines were lost for {LOST_TO - LOST_FROM:.1f} seconds, while East sold {offered(given):,.0f} a second: "
        f"at the end of the sale {places}."
    )


def lines_for_readme(found):
    """The result in three lines."""
    sites, strong = (next(each for each in found if each.kind is kind) for kind in (Sites, Strong))
    local = [took for spends in sites.spends.values() for took in times(spends, SOLD)]
    far = [milliseconds(percentile(times(strong.spends[place], SOLD), 0.5)) for place in (2, 3)]
    weak = [each for each in found if each.kind is Weak][1:]
    over = [(f"{each.phase.stock():,}", f"{sold_by(each) - each.phase.stock():,}") for each in weak]
    return paragraph(
        f"Between two coasts and Europe a site sells what it holds in {milliseconds(percentile(local, 0.5))} ms (median), cut off "
        f"or not. With one Redis in the East, buyers elsewhere wait {far[0]} and {far[1]} ms, and a place that is cut off sells "
        f"nothing; counters that are added up later oversold a stock of {over[0][0]} units by {over[0][1]}, and one of "
        f"{over[1][0]} by {over[1][1]} while a place was cut off "
        "([how this was measured](docs/PERFORMANCE.md#three-places-far-apart))."
    )


def sold_by(run):
    return sum(len(times(spends, SOLD)) for spends in run.spends.values())


def write(text, drawing):
    put(BEGIN, text, END)
    with open(os.path.join(DOCS, "wan.svg"), "w") as file:
        file.write(drawing)


def main():
    words = argparse.ArgumentParser(description=__doc__.splitlines()[0])
    words.add_argument("--program", default=PROGRAM)
    words.add_argument("--seconds", type=float, default=8, help="of each phase and system; 10 at most")
    words.add_argument("--clients", type=int, default=8, help="at each place; 30 at most")
    words.add_argument("--pace", type=float, default=20, help="milliseconds between two spends of a client, at least")
    words.add_argument("--write", action="store_true", help="put table and picture into docs")
    given = words.parse_args()
    if not (1 <= given.seconds <= 10 and 1 <= given.clients <= 30 and given.pace >= 1):
        words.error("out of bounds")
    if shutil.which("redis-server") is None:
        sys.exit("wan: redis-server is not here, and the comparison is with it")
    for each in (signal.SIGTERM, signal.SIGALRM):
        # Whoever is started here is ended too.
        signal.signal(each, lambda *_: sys.exit("wan: was ended"))
    signal.alarm(LONGEST)
    Cluster.program = given.program
    found = []
    for phase in phases(given):
        for kind in SYSTEMS:
            found.append(run(kind, phase, given))
            print("; ".join(latency_row(found[-1], given.seconds)), flush=True)
    text = report(found, caught_up(lasting(given), offered(given)), given)
    print(f"\n{text}\n{lines_for_readme(found)}")
    if given.write:
        shares = {"away": (CUT_AFTER, 1), "killed": DOWN}
        write(text, picture(found, given.seconds, {it: [part * given.seconds for part in parts] for it, parts in shares.items()}))


if __name__ == "__main__":
    main()
