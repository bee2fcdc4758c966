#!/usr/bin/env python3
"""Shows the page of a running site in a headless Chromium, of a stand-in that says what a site in some situation says.

    tests/page.py [--shots FOLDER] [--program PATH] [SITUATION..]

What the page shows is compared with what the stand-in says. `--program` has sites of this program show themselves too:
one of three, whose peer 3 is not there, and which closes then. `--shots` keeps a picture of each situation: wide and at a
phone's width, light and dark. Where no Chromium is found, it says so and tries nothing. The last line is
'N passed, M failed'.
"""

import argparse
import functools
import html
import json
import math
import os
import re
import shutil
import subprocess
import sys
import tempfile
import threading
from http.server import BaseHTTPRequestHandler, ThreadingHTTPServer

from cluster import SiteEnded, expect, wait_for
from web_driver import WebCluster

TOP = os.path.dirname(os.path.dirname(os.path.abspath(__file__)))
PAGE = os.path.join(TOP, "crates", "site_http", "src", "page.html")
BROWSERS = ("chromium", "chromium-browser", "google-chrome", "google-chrome-stable")
# The browser's clock runs ahead of ours, and stands while an answer is awaited. A picture is of five minutes; what is
# compared is of a shorter time, in which as much happens.
SHOT_MINUTES = 5.2
MINUTES = 1.3
SIZES = {"wide": (1100, 810), "phone": (500, 1400)}

PEER = {
    "receiving": 1, "sending": 1, "lines_total": 0, "lines_refused_total": 0, "lines_dropped_total": 0,
    "lines_waiting": 0, "number_went_back_total": 0,
}
# The metrics that the status has too, and the key of each.
BY_STATUS = {"held": "held", "queued": "queued", "issued_total": "issued", "spent_total": "spent",
             "received_total": "received", "log_moves_total": "number"}


class Situation:
    """What a site says at its nth poll, and what the page shows after five minutes of that."""

    shows = ["Site 1 of 3"]
    hides = ["unreachable", "Cut off", "Silent", "are missing", "in the last minute", "has closed", "went back"]
    # From this poll on no answer comes, if at all.
    ends = None

    def status(self, n):
        spent = self.spent(n)
        held = 9000 - spent + (1500 if n > 120 else 0)
        peers = [{"applied": 40 + n * 3, "buffering": False, "held": 0, "site": 2},
                 {"applied": 31 + n * 2, "buffering": False, "held": 0, "site": 3}]
        return {"closed": False, "held": held, "issued": 12000, "number": 3 + n * 4, "peers": peers, "queued": 0,
                "received": 1500 if n > 120 else 0, "site": 1, "spent": spent}

    def sums(self, n):
        peers = [{"applied": peer["applied"], "closed": False, "given": n, "held": 4000 - 3 * n, "issued": 0, "received": 4000,
                  "site": peer["site"], "spent": 2 * n, "taken_back": 0} for peer in self.status(n)["peers"]]
        return {"peers": peers, "site": 1}

    def spent(self, n):
        return int(4200 / (1 + math.exp(-(n - 160) / 45)))

    def peer(self, number, n):
        return {**PEER, "lines_total": n * 11 // number}

    def more(self, n):
        return {"requests_waiting": 0, "outcomes_unread": 0, "clients": 5, "commands_total": n * 41,
                "given_total": 3000, "taken_back_total": 0}

    def refused(self, n):
        return {"Short": 3, "QueueFull": n // 20}

    def metrics(self, n):
        status = self.status(n)
        values = {**{name: status[key] for name, key in BY_STATUS.items()}, **self.more(n), "closed": int(status["closed"])}
        lines = [f"rights_{name} {value}" for name, value in values.items()]
        lines += [f'rights_commands_refused_total{{name="{name}"}} {count}' for name, count in self.refused(n).items()]
        for peer in status["peers"]:
            number = peer["site"]
            known = {**self.peer(number, n), "moves_applied_total": peer["applied"], "buffering": int(peer["buffering"]),
                     "entries_held": peer["held"]}
            lines += [f'rights_peer_{name}{{peer="{number}"}} {value}' for name, value in known.items()]
        return "\n".join(lines) + "\n"


class Healthy(Situation):
    shows = [*Situation.shows, "open", "Held 6,", "all in order", "in order", "QueueFull", "Rights of the peers", "4,000 0"]
    hides = [*Situation.hides, "needs attention"]


class Cut(Situation):
    """Nothing goes to site 3 or comes from it, and spends wait."""

    shows = [*Situation.shows, "open, needs attention", "Cut off: nothing comes from it", "Cut off: nothing goes to it",
             "lines dropped in the last minute", "1 of 2 needs attention", "4 spends wait"]
    hides = ["unreachable", "are missing", "has closed", "went back"]

    def peer(self, number, n):
        normal = super().peer(number, n)
        return {**normal, "receiving": 0, "sending": 0, "lines_dropped_total": n * 3} if number == 3 else normal

    def status(self, n):
        return {**super().status(n), "queued": 7 if n > 200 else 0}

    def more(self, n):
        return {**super().more(n), "requests_waiting": 4}


class Silent(Situation):
    """The connections with site 3 stand, but nothing comes any more; site 2 ticks rarely."""

    shows = [*Situation.shows, "open, needs attention", "1 of 2 needs attention", "Silent: no line came for"]
    hides = [each for each in Situation.hides if each != "Silent"]

    def peer(self, number, n):
        return {**PEER, "lines_total": min(n, 120) if number == 3 else n // 50}


class Stuck(Situation):
    """The site counts site 3 as silent, nothing leaves its queue, and its wall clock was set back."""

    shows = [*Situation.shows, "open, needs attention", "1 of 2 needs attention", "Silent since", "it is not asked for rights",
             "The queue is stuck: nothing has left it since", "7 rights are waited for", "stands still for 60 seconds"]
    hides = [each for each in Situation.hides if each not in ("Silent", "went back")]

    def status(self, n):
        return {**super().status(n), "held": 3, "queued": 7}

    def spent(self, n):
        return super().spent(min(n, 120))

    def peer(self, number, n):
        return {**super().peer(number, n), "silent_seconds": 42 if number == 3 else 0}

    def more(self, n):
        return {**super().more(n), "requests_waiting": 2, "clock_behind_seconds": 60}


class Busy(Situation):
    """More spends come than can be served, but some are."""

    shows = [*Situation.shows, "open", "spends wait", "all in order"]
    hides = [*Situation.hides, "needs attention", "stuck"]

    def status(self, n):
        return {**super().status(n), "held": 0, "queued": 7 + n}

    def spent(self, n):
        return 10 + 2 * n

    def more(self, n):
        return {**super().more(n), "requests_waiting": 4 + n // 20}


class Gap(Situation):
    """Entries of site 2 are missing, lines of it are refused, and its log went back."""

    shows = [*Situation.shows, "missing, 12 held", "Entries after 40 are missing", "refused in the last minute",
             "Its log went back", "Its outbox fills: 256 of 256 lines"]
    hides = ["unreachable", "Cut off", "has closed"]

    def status(self, n):
        status = super().status(n)
        status["peers"][0].update(applied=40, buffering=True, held=12)
        return status

    def peer(self, number, n):
        odd = {"lines_refused_total": n // 9, "lines_waiting": 256, "number_went_back_total": 2}
        return {**super().peer(number, n), **(odd if number == 2 else {})}


class Closed(Situation):
    shows = [*Situation.shows, "closed", "This site has closed"]
    hides = [*Situation.hides[:5], "went back"]

    def status(self, n):
        return {**super().status(n), "closed": n > 40, "held": 0 if n > 40 else 4800, "spent": min(n, 41) * 60}


class Unreachable(Situation):
    ends = 190
    shows = [*Situation.shows, "unreachable", "The site has not been reached since", "The values below are from"]
    hides = ["Cut off", "has closed"]


class Started(Situation):
    """The site itself was started anew, with a greatest number that a double can't hold."""

    shows = [*Situation.shows, "it was started anew under its number", "999,999,999,999,999,999"]
    hides = ["unreachable", "has closed"]

    def status(self, n):
        return {**super().status(n), "number": 700 if n < 100 else 3, "issued": 999_999_999_999_999_999}


SITUATIONS = {each.__name__.lower(): each for each in (Healthy, Cut, Silent, Stuck, Busy, Gap, Closed, Unreachable, Started)}


class StandIn:
    """Serves the page, and what a site says of a situation, at each `step`th of its polls."""

    def __init__(self, situation, step=1):
        self.polls = 0
        self.asked = []
        stand_in = self

        class Handler(BaseHTTPRequestHandler):
            protocol_version = "HTTP/1.1"

            def do_GET(self):
                stand_in.asked.append(self.path)
                if self.path == "/":
                    with open(PAGE, "rb") as page:
                        return self.say(page.read(), "text/html; charset=utf-8")
                if self.path == "/status":
                    stand_in.polls += 1
                n = stand_in.polls * step
                if situation.ends is not None and n >= situation.ends:
                    self.close_connection = True
                    return None
                if self.path == "/status":
                    body = json.dumps(situation.status(n), separators=(",", ":")) + "\n"
                    return self.say(body.encode(), "application/json")
                if self.path == "/peers":
                    body = json.dumps(situation.sums(n), separators=(",", ":")) + "\n"
                    return self.say(body.encode(), "application/json")
                if self.path == "/metrics":
                    return self.say(situation.metrics(n).encode(), "text/plain; version=0.0.4")
                return self.send_error(404)

            def say(self, body, kind):
                self.send_response(200)
                for name, value in (("content-type", kind), ("content-length", len(body)), ("cache-control", "no-store")):
                    self.send_header(name, str(value))
                self.end_headers()
                self.wfile.write(body)

            def log_message(self, *_):
                pass

        self.server = ThreadingHTTPServer(("127.0.0.1", 0), Handler)
        self.server.daemon_threads = True
        threading.Thread(target=self.server.serve_forever, daemon=True).start()
        self.address = f"http://127.0.0.1:{self.server.server_address[1]}/"

    def close(self):
        self.server.shutdown()
        self.server.server_close()


def browse(browser, address, words, minutes):
    """Runs the browser on the page for so many minutes of its own clock. What it says."""
    with tempfile.TemporaryDirectory() as profile:
        words = [browser, "--headless=new", "--no-sandbox", "--disable-gpu", "--hide-scrollbars", "--no-first-run",
                 "--disable-background-networking", f"--user-data-dir={profile}",
                 f"--virtual-time-budget={int(minutes * 60000)}", *words, address]
        done = subprocess.run(words, capture_output=True, timeout=120)
    return done.stdout.decode(errors="replace")


def words_of(dom):
    """The words that the page shows, of the elements that are not hidden."""
    body = dom[dom.find("<body") :]
    body = re.sub(r"<(script|noscript)\b.*?</\1>|<section[^>]* hidden.*?</section>", " ", body, flags=re.DOTALL)
    return re.sub(r"\s+", " ", html.unescape(re.sub(r"<[^>]+>", " ", body)))


def try_situation(browser, name):
    """Compares what the page shows."""
    situation = SITUATIONS[name]()
    stand_in = StandIn(situation, step=4)
    try:
        said = words_of(browse(browser, stand_in.address, ["--dump-dom"], MINUTES))
    finally:
        stand_in.close()
    for text in situation.shows:
        if text not in said:
            raise AssertionError(f"it does not show {text!r}: {said}")
    for text in situation.hides:
        if text in said:
            raise AssertionError(f"it shows {text!r}: {said}")
    if set(stand_in.asked) - {"/", "/status", "/peers", "/metrics"}:
        raise AssertionError(f"it asks for {sorted(set(stand_in.asked))}")
    # The browser's minutes have sixty seconds, and a poll comes at least one after the one before.
    if not 30 <= stand_in.polls <= MINUTES * 60 + 2:
        raise AssertionError(f"{stand_in.polls} polls in {MINUTES} minutes")


def shown_by(browser, address):
    return words_of(browse(browser, address, ["--dump-dom"], 0.1))


def try_program(browser, program):
    """The page that the program itself serves."""
    with WebCluster(3, started=[1, 2], programs={1: program, 2: program}) as sites:
        sites.command("issue 100", "give 2 30", "spend 12 0", "tick 1")
        sites.command("tick 1", number=2)
        wait_for("site 2 is heard", lambda: sites.metrics()["rights_peer_receiving", "2"] == 1)
        sites.command("spend 500 9", "give 2 900")
        address = f"http://{sites.address()}/"
        said = shown_by(browser, address)
        for text in ("Site 1 of 3", "open, needs attention", "Held 58", "Spent 12", "Queued 500", "Issued 100", "Received 0",
                     "1 of 2 needs attention", "Cut off: nothing comes from it", "in order", "Short 1",
                     "Site 2 0 0 0 0 30 0 30 open", "Site 3 0 0 0 0 0 0 0 open"):
            expect(text in said, True, f"{text!r} in {said}")
        sites.command("tick 10", "close")
        said = shown_by(browser, address)
        for text in ("closed", "This site has closed", "Held 58", "Queued 0"):
            expect(text in said, True, f"{text!r} in {said}")


def keep_shots(browser, name, folder):
    for size, (width, height) in SIZES.items():
        for scheme, value in (("light", 1), ("dark", 0)):
            stand_in = StandIn(SITUATIONS[name]())
            path = os.path.join(folder, f"{name}-{size}-{scheme}.png")
            words = [f"--screenshot={path}", f"--window-size={width},{height}", f"--blink-settings=preferredColorScheme={value}"]
            browse(browser, stand_in.address, words, SHOT_MINUTES)
            stand_in.close()


def main():
    words = argparse.ArgumentParser(description=__doc__.splitlines()[0])
    words.add_argument("--shots", metavar="FOLDER", help="keep a picture of each situation in this folder")
    words.add_argument("--program", metavar="PATH", help="sites of this program show themselves too")
    words.add_argument("situations", nargs="*", metavar="SITUATION", help=f"of {', '.join(SITUATIONS)}; all without it")
    given = words.parse_args()
    browser = next(filter(None, map(shutil.which, BROWSERS)), None)
    if browser is None:
        print("the page was not tried: there is no Chromium")
        print("0 passed, 0 failed")
        return 0
    names = given.situations or list(SITUATIONS)
    tries = [(name, functools.partial(try_situation, browser, name)) for name in names]
    if given.program:
        tries.append(("the program", functools.partial(try_program, browser, given.program)))
    failed = 0
    for name, attempt in tries:
        try:
            attempt()
        except (AssertionError, SiteEnded, OSError, subprocess.TimeoutExpired) as error:
            failed += 1
            print(f"{name}: FAILED: {type(error).__name__}: {error}", flush=True)
    for name in names if given.shots else []:
        os.makedirs(given.shots, exist_ok=True)
        keep_shots(browser, name, given.shots)
    print(f"{len(tries) - failed} passed, {failed} failed")
    return 1 if failed else 0


if __name__ == "__main__":
    sys.exit(main())
