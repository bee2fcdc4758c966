"""Three stocks at two places, by examples/many-stocks: from one table to settings, processes, nginx and Prometheus."""

import json
import os
import re
import shutil
import signal
import subprocess
import sys
import tempfile
import urllib.request
from urllib.error import HTTPError

from cases import case
from cluster import PATIENCE, PROGRAM, TOP, at, expect, free_ports, wait_for
from preloaded import built
from tunnel_kit import free_row, is_open, run, tool

FOLDER = os.path.join(TOP, "examples", "many-stocks")
SCRIPT = os.path.join(FOLDER, "stocks.py")
NAMES = ["concert-2026", "Match7", "default"]


class Stocks:
    """A table of three stocks at two places of this machine, in a folder of its own."""

    def __init__(self):
        self.room = tempfile.TemporaryDirectory(prefix="stocks-")
        self.table = os.path.join(self.room.name, "table")
        self.first = {place: (free_row(), free_row()) for place in ("east", "west")}
        lines = [f"place {place} 127.0.0.1 {peers} {web}" for place, (peers, web) in self.first.items()]
        lines += ["tick 20", *(f"stock {name} {at} east west  # the stock {at}" for at, name in enumerate(NAMES, 1))]
        self.write("\n".join(lines) + "\n")

    def write(self, text):
        with open(self.table, "w") as file:
            file.write(text)

    def call(self, *words, status=0):
        return run(sys.executable, SCRIPT, self.table, *words, status=status)

    def start(self, *places, status=0):
        return self.call("start", self.room.name, *places, "--program", built(PROGRAM), status=status)

    def stop(self, *places, status=0):
        return self.call("stop", self.room.name, *places, status=status)

    def path(self, *names):
        return os.path.join(self.room.name, *names)

    def process(self, place, name):
        with open(self.path(place, name, "pid")) as file:
            return int(file.read())

    def rows(self, status=0):
        """What `show` prints: by stock and site, what it issued, sold and holds."""
        found = re.findall(r"^(\S+) +(\d+) +(\S+) +(\d+) +(\d+) +(\d+) +(\d+)$", self.call("show", status=status), re.MULTILINE)
        return {(name, int(site)): tuple(map(int, values[:3])) for name, site, _, *values in found}

    def command(self, place, name, text):
        return posted(f"http://127.0.0.1:{self.first[place][1] + NAMES.index(name) + 1}/", text)

    def __enter__(self):
        return self

    def __exit__(self, *_):
        self.stop()
        self.room.cleanup()


def posted(url, text):
    """The answer to a command. The status stands for the answer of who refuses it."""
    try:
        with urllib.request.urlopen(urllib.request.Request(url, text.encode()), timeout=PATIENCE) as answer:
            return answer.read().decode()
    except HTTPError as error:
        return error.code


def sites_sell_end_and_go_on():
    with Stocks() as stocks:
        expect(stocks.start(), "started 6 sites\n")
        expect(stocks.start(), "started 0 sites\n")
        for name in NAMES:
            expect(stocks.command("east", name, "issue 100\ngive 2 40\n"), "number 1\nnumber 2\n")
        wait_for("gifts arrive", lambda: all(stocks.rows()[name, 2] == (0, 0, 40) for name in NAMES))
        expect(stocks.command("west", "Match7", "take 15"), "spent 1\n")
        # One is killed; all at a place are ended. Each goes on where its journal ends.
        killed = stocks.process("west", "Match7")
        os.kill(killed, signal.SIGKILL)
        wait_for("it is gone", lambda: ("Match7", 2) not in stocks.rows(status=1))
        expect((stocks.start(), stocks.stop("east")), ("started 1 sites\n", "ended 3 sites\n"))
        expect(stocks.process("west", "Match7") != killed, True, "another process")
        expect(set(stocks.rows(status=1)), {(name, 2) for name in NAMES})
        expect(stocks.start("east"), "started 3 sites\n")
        wanted = {(name, 1): (100, 0, 60) for name in NAMES} | {(name, 2): (0, 0, 40) for name in NAMES}
        expect(stocks.rows(), wanted | {("Match7", 2): (0, 15, 25)})
        expect(stocks.stop(), "ended 6 sites\n")
        expect(stocks.stop(), "ended 0 sites\n")
        with open(stocks.path("east", "default", "log")) as log:
            expect("rights-site: ended: issued 100 " in log.read(), True, "it ended in order")


def what_cannot_start_is_named():
    with Stocks() as stocks:
        stocks.start("west")
        stocks.stop("west")
        # The journal of another stock.
        os.replace(stocks.path("west", "default", "site-2.journal"), stocks.path("west", "Match7", "site-2.journal"))
        said = stocks.start(status=1)
        expect(re.findall(r"^(\S+), site 2: rights-site: ", said, re.MULTILINE), ["Match7"], said)
        expect("started 5 sites" in said, True, said)


def units_have_their_settings():
    """The script of the unit starts a site by the settings that are made, under its number and not under its name."""
    with Stocks() as stocks:
        made = stocks.path("made")
        said = stocks.call("make", "west", made)
        names = sorted(os.listdir(made))
        expect(names, sorted([*(f"{name}.env" for name in NAMES), "nginx.map", "prometheus.json", "units"]))
        expect(len(said.splitlines()), len(names), said)
        expect(stocks.call("make", "west", made), "")
        with open(os.path.join(made, "units")) as file:
            expect(file.read(), "".join(f"rights-site@{name}\n" for name in NAMES))
        with open(os.path.join(made, "Match7.env")) as file:
            settings = dict(line.rstrip("\n").split("=", 1) for line in file)
        unit = os.path.join(TOP, "systemd", "rights-site-run")
        own = {"RIGHTS_STATE": stocks.path("made"), "RIGHTS_SITE": built(PROGRAM), "PATH": os.environ["PATH"]}
        process = subprocess.Popen([unit, "Match7"], env=settings | own, start_new_session=True, stderr=subprocess.DEVNULL)
        try:
            port = int(settings["RIGHTS_HTTP"].rpartition(":")[2])
            wait_for("the site serves", lambda: is_open(port))
            expect(stocks.rows(status=1), {("Match7", 2): (0, 0, 0)})
            with open(os.path.join(made, "site-2.journal")) as file:
                expect(file.read().splitlines()[1], "J 1 2 2 Match7")
        finally:
            os.killpg(process.pid, signal.SIGTERM)
            expect(process.wait(PATIENCE), 0)


def changes_of_a_table_are_told():
    with Stocks() as stocks:
        made = stocks.path("made")
        stocks.call("make", "west", made)
        with open(stocks.table) as file:
            lines = file.read().splitlines()
        stocks.write("\n".join([*lines[:3], "stock new-one 9 west east", *lines[3:5]]) + "\n")
        said = stocks.call("make", "west", made).splitlines()
        kinds = [(line.rpartition(": ")[0], os.path.basename(line.rpartition(": ")[2])) for line in said]
        changed = [("changed", name) for name in ("nginx.map", "prometheus.json", "units")]
        expect(kinds, [("new", "new-one.env"), *changed, ("of no stock of the table", "default.env")])


def bad_tables_are_refused():
    with Stocks() as stocks:
        with open(stocks.table) as file:
            good = file.read()
        expect(stocks.call("check"), "")
        peers, web = stocks.first["east"]
        for line, cause in {
            "stock concert-2026 7 east west": "one name", "stock MATCH7 7 east west": "one name",
            "stock other 2 east west": "port", f"stock {'a' * 33} 7 east west": "1 to 32", "stock a_b 7 east west": "1 to 32",
            "stock -a 7 east west": "1 to 32", "stock other 7 east": "two places or more", "stock other 7 east east": "one place",
            "stock other 7 east north": "no place north", "stock other 70000 east west": "not 70000",
            "stock other x east west": "not x", "place east 10.0.0.1 1 2": "two places", "place north 10.0.0.1 1": "not place",
            "place north 10.0.0.1 1 70000": "not 70000", "place north 127.0.0.1 1 1\nstock other 7 east north": "port 8",
            f"place north 127.0.0.2 1 {web}\nstock other 2 north west": "port", "tick 0": "not 0", "tick": "not tick", "sites 2": "not with sites",
            f"place north 127.0.0.1 {peers} 9\nstock other 3 north west": "port",
        }.items():  # fmt: skip
            stocks.write(f"{good}{line}\n")
            said = stocks.call("check", status=1)
            expect((cause in said, len(said.splitlines())), (True, 1), f"{line}: {said}")
        stocks.write("place east 10.0.0.1 1 2\n")
        expect("no stock" in stocks.call("check", status=1), True)
        stocks.write(good)
        stocks.call("make", "north", stocks.path("made"), status=1)


def nginx_leads_to_each_stock_by_its_name():
    program = tool("nginx")
    with Stocks() as stocks:
        stocks.start()
        stocks.call("make", "west", stocks.path("made"))
        (port,) = free_ports(1)
        with open(os.path.join(FOLDER, "nginx.conf")) as file:
            text = file.read()
        for old, new in {"/etc/rights-site": stocks.path("made"), "127.0.0.1:8080": at(port)}.items():
            expect(old in text, True, old)
            text = text.replace(old, new)
        with open(stocks.path("nginx.conf"), "w") as file:
            file.write(f"pid {stocks.path('nginx.pid')};\nevents {{}}\nhttp {{\naccess_log off;\n{text}\n}}\n")
        words = [program, "-c", stocks.path("nginx.conf"), "-e", stocks.path("nginx.log"), "-g", "daemon off;"]
        process = subprocess.Popen(words, stdin=subprocess.DEVNULL)
        try:
            wait_for("nginx listens", lambda: process.poll() is None and is_open(port))
            for number, name in enumerate(NAMES, 1):
                expect(posted(f"http://{at(port)}/{name}/", f"issue {number}"), "number 1\n")
                expect(posted(f"http://{at(port)}/{name}/wait", "spend 1 0"), "spent 2\n")
            for target in ("other/", "concert-2026x/", "concert-2026", "concert-2026/x/y", "concert-2026/status%0a"):
                expect(posted(f"http://{at(port)}/{target}", "take 1"), 404, target)
            expect({key: value for key, value in stocks.rows().items() if key[1] == 2}, {(name, 2): (n, 1, n - 1) for n, name in enumerate(NAMES, 1)})
        finally:
            process.terminate()
            process.wait(PATIENCE)


def prometheus_reads_the_targets():
    with Stocks() as stocks:
        made = stocks.path("made")
        stocks.call("make", "west", made)
        with open(os.path.join(made, "prometheus.json")) as file:
            found = {target["labels"]["stock"]: target for target in json.load(file)}
        expect(found["Match7"], {"targets": [at(stocks.first["west"][1] + 2)], "labels": {"stock": "Match7", "site": "2", "place": "west"}})
        program = tool("promtool")
        shutil.copy(os.path.join(TOP, "prometheus", "rights-site.rules.yml"), made)
        with open(os.path.join(FOLDER, "prometheus.yml")) as source, open(os.path.join(made, "prometheus.yml"), "w") as file:
            file.write(source.read().replace("/etc/rights-site", made))
        run(program, "check", "config", os.path.join(made, "prometheus.yml"))


CASES = [
    case("ManyStocks", [
        bad_tables_are_refused, sites_sell_end_and_go_on, what_cannot_start_is_named, units_have_their_settings,
        changes_of_a_table_are_told, nginx_leads_to_each_stock_by_its_name, prometheus_reads_the_targets,
    ]),
]  # fmt: skip
