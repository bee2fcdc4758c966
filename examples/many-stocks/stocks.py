#!/usr/bin/env python3
"""Many stocks at some places, from one table:

    stocks.py TABLE check                      whether the table is in order
    stocks.py TABLE make PLACE FOLDER          writes what the machine of a place needs: the settings of its units, and
                                               what nginx and Prometheus read
    stocks.py TABLE start FOLDER [PLACE..]     starts sites as processes, for a trial without a service manager
    stocks.py TABLE show [PLACE..]             prints what each site on this machine holds
    stocks.py TABLE stop FOLDER [PLACE..]      ends what `start` started

A table is text. `#` begins a comment. Its lines:

    place NAME HOST PEERS HTTP      a place: the address at which the others reach it, and the ports from which those for
                                    peers and for HTTP are counted
    stock NAME NUMBER PLACE..       a stock: its number, and the places of its sites 1, 2, .. At HOST it has the ports
                                    PEERS + NUMBER, and on loopback HTTP + NUMBER. A place that is `-` keeps a number
                                    free, for a place that is added later
    tick MS                         how often all sites tick; 100 without it

So a line that is added or removed changes no port of another stock.
"""

from __future__ import annotations

import argparse
import http.client
import json
import os
import re
import shutil
import subprocess
import sys
import time
from collections.abc import Callable, Iterator
from dataclasses import dataclass, field
from pathlib import Path

# Where nobody listens: the address of a site that is not there yet.
NOBODY = "127.0.0.1:9"
# What `--system` takes.
NAME = re.compile(r"[A-Za-z0-9-]{1,32}")
# A site ends within four seconds.
PATIENCE = 20


class BadTable(Exception):
    """What is wrong with a table, and in which line."""


@dataclass(frozen=True)
class Place:
    name: str
    host: str
    peers: int
    http: int


@dataclass(frozen=True)
class Site:
    """One site of a stock, at a place."""

    stock: str
    number: int
    place: Place
    listen: str
    http: str


@dataclass
class Table:
    places: dict[str, Place] = field(default_factory=dict)
    # By stock, a site for each number, and None for one that is kept free.
    stocks: dict[str, list[Site | None]] = field(default_factory=dict)
    tick: int = 100

    def sites(self, places: list[str]) -> Iterator[Site]:
        """The sites at these places, or at all."""
        for name in places:
            if name not in self.places:
                raise BadTable(f"there is no place {name}")
        for sites in self.stocks.values():
            yield from (site for site in sites if site and (not places or site.place.name in places))

    def peers(self, site: Site) -> list[str]:
        others = enumerate(self.stocks[site.stock], 1)
        return [f"{number}={other.listen if other else NOBODY}" for number, other in others if other != site]


# ---- reading a table


def number_in(text: str, least: int, greatest: int, what: str) -> int:
    if not re.fullmatch(r"[0-9]{1,9}", text) or not least <= int(text) <= greatest:
        raise BadTable(f"{what} is {least} to {greatest}, not {text}")
    return int(text)


def name_of(text: str, what: str) -> str:
    # A name that begins with a hyphen would be read as an option.
    if not NAME.fullmatch(text) or text.startswith("-"):
        raise BadTable(f"a {what} has 1 to 32 letters, digits and hyphens, and begins with none: {text}")
    return text


class Reader:
    """Reads a table, and notes who has which name and which port."""

    def __init__(self) -> None:
        self.table = Table()
        self.names: dict[str, str] = {}
        self.ports: dict[tuple[str, int], str] = {}

    def read(self, line: str) -> None:
        kind, *words = line.split()
        readers = {"place": self.place, "stock": self.stock, "tick": self.set_tick}
        if kind not in readers:
            raise BadTable(f"a line begins with place, stock or tick, not with {kind}")
        readers[kind](words)

    def set_tick(self, words: list[str]) -> None:
        if len(words) != 1:
            raise BadTable("not tick MS")
        self.table.tick = number_in(words[0], 1, 60_000, "a tick")

    def place(self, words: list[str]) -> None:
        if len(words) != 4:
            raise BadTable("not place NAME HOST PEERS HTTP")
        name, host, *ports = words
        if name_of(name, "place") in self.table.places:
            raise BadTable(f"two places have the name {name}")
        peers, web = (number_in(port, 0, 65_535, "a first port") for port in ports)
        self.table.places[name] = Place(name, host, peers, web)

    def stock(self, words: list[str]) -> None:
        if len(words) < 4:
            raise BadTable("not stock NAME NUMBER PLACE.. with two places or more")
        name, number, *places = words
        # nginx does not tell letters of one case from those of the other.
        other = self.names.setdefault(name_of(name, "stock").lower(), name)
        if name in self.table.stocks or other != name:
            raise BadTable(f"two stocks have one name: {other}" + ("" if other == name else f" and {name}"))
        if len(places) > 16:
            raise BadTable(f"{name} has {len(places)} places; a stock has at most 16")
        named = [place for place in places if place != "-"]
        if len(set(named)) < len(named):
            raise BadTable(f"{name} has two sites at one place")
        offset = number_in(number, 0, 65_535, "the number of a stock")
        numbered = enumerate(places, 1)
        self.table.stocks[name] = [None if place == "-" else self.site(name, at, place, offset) for at, place in numbered]

    def site(self, stock: str, number: int, at: str, offset: int) -> Site:
        if at not in self.table.places:
            raise BadTable(f"there is no place {at} before this line")
        place, owner = self.table.places[at], f"site {number} of {stock}"
        for port in (place.peers + offset, place.http + offset):
            number_in(str(port), 1, 65_535, "a port")
            other = self.ports.setdefault((machine_of(place.host), port), owner)
            if other is not owner or place.peers == place.http:
                raise BadTable(f"port {port} of {place.host} is that of {other} and that of {owner}")
        return Site(stock, number, place, f"{place.host}:{place.peers + offset}", f"127.0.0.1:{place.http + offset}")


def machine_of(host: str) -> str:
    """Hosts that are surely one machine have one name. All sites of a machine serve HTTP on its loopback."""
    return "127.0.0.1" if host == "localhost" or re.fullmatch(r"127(\.[0-9]+){3}", host) else host


def read_table(path: Path) -> Table:
    reader = Reader()
    for number, line in enumerate(path.read_text().splitlines(), 1):
        if text := line.partition("#")[0].strip():
            try:
                reader.read(text)
            except BadTable as cause:
                raise BadTable(f"{path}, line {number}: {cause}") from None
    if not reader.table.stocks:
        raise BadTable(f"{path} has no stock")
    return reader.table


# ---- what a machine needs


def settings(table: Table, site: Site) -> str:
    """The settings of the unit rights-site@STOCK."""
    values = {
        "ID": site.number, "SITES": len(table.stocks[site.stock]), "SYSTEM": site.stock, "LISTEN": site.listen,
        "PEERS": " ".join(table.peers(site)), "HTTP": site.http, "TICK": table.tick,
    }  # fmt: skip
    return "".join(f"RIGHTS_{name}={value}\n" for name, value in values.items())


def target(site: Site) -> dict[str, object]:
    labels = {"stock": site.stock, "site": str(site.number), "place": site.place.name}
    return {"targets": [site.http], "labels": labels}


def make(table: Table, place: str, folder: Path) -> None:
    """Writes the files for the machine of a place, and says what has changed."""
    sites = list(table.sites([place]))
    files = {f"{site.stock}.env": settings(table, site) for site in sites}
    files["nginx.map"] = "".join(f"/{site.stock}/ {site.http.rpartition(':')[2]};\n" for site in sites)
    files["prometheus.json"] = json.dumps([target(site) for site in sites], indent=1) + "\n"
    files["units"] = "".join(f"rights-site@{site.stock}\n" for site in sites)
    folder.mkdir(parents=True, exist_ok=True)
    for name, text in files.items():
        path = folder / name
        before = path.read_text() if path.exists() else None
        if before != text:
            print(f"{'new' if before is None else 'changed'}: {path}")
            draft = folder / f".{name}.new"
            draft.write_text(text)
            draft.replace(path)
    for path in sorted(folder.glob("*.env")):
        if path.name not in files:
            print(f"of no stock of the table: {path}")


# ---- sites as processes


@dataclass(frozen=True)
class Process:
    """A site without a service manager: its folder has its journal, its log, its number as a process, and its input.

    The input is a named pipe that the site holds open itself, for reading and for writing, so it has no end, and `stop`
    writes `quit` into it."""

    site: Site
    folder: Path

    @property
    def journal(self) -> Path:
        return self.folder / f"site-{self.site.number}.journal"

    def is_running(self) -> bool:
        """Whether the noted process is this site: its number may have gone to another process since."""
        try:
            words = Path(f"/proc/{int((self.folder / 'pid').read_text())}/cmdline").read_bytes().split(b"\0")
        except (OSError, ValueError):
            return False
        return str(self.journal).encode() in words

    def start(self, table: Table, program: str) -> subprocess.Popen[bytes]:
        self.folder.mkdir(parents=True, exist_ok=True, mode=0o700)
        pipe = self.folder / "input"
        pipe.unlink(missing_ok=True)
        os.mkfifo(pipe, 0o600)
        site = self.site
        words = [
            program, "run", "--id", str(site.number), "--sites", str(len(table.stocks[site.stock])), "--listen", site.listen,
            "--http", site.http, "--tick", str(table.tick), "--journal", str(self.journal), "--system", site.stock, "--log",
            *table.peers(site),
        ]  # fmt: skip
        source = os.open(pipe, os.O_RDWR)
        with open(self.folder / "log", "a") as log, open(source, "rb+", buffering=0) as commands:
            process = subprocess.Popen(words, stdin=commands, stdout=subprocess.DEVNULL, stderr=log, start_new_session=True)
        (self.folder / "pid").write_text(f"{process.pid}\n")
        return process

    def stop(self) -> None:
        with open(os.open(self.folder / "input", os.O_WRONLY | os.O_NONBLOCK), "wb", buffering=0) as commands:
            commands.write(b"quit\n")

    def last_words(self) -> str:
        lines = (self.folder / "log").read_text(errors="replace").splitlines()
        return lines[-1] if lines else "it said nothing"


def processes(table: Table, folder: Path, places: list[str]) -> list[Process]:
    """Paths are absolute, so that a process is known by its journal wherever this is called."""
    return [Process(site, folder.absolute() / site.place.name / site.stock) for site in table.sites(places)]


def wait_for_all(waiting: list[Process], is_done: Callable[[Process], bool]) -> list[Process]:
    """Waits until it is so of each, and returns those of which it never was."""
    until = time.monotonic() + PATIENCE
    while (waiting := [each for each in waiting if not is_done(each)]) and time.monotonic() < until:
        time.sleep(0.05)
    return waiting


def start(table: Table, folder: Path, places: list[str], program: str) -> int:
    started = {each: each.start(table, program) for each in processes(table, folder, places) if not each.is_running()}
    # Of a process that has just begun the system may not tell the words yet, so it is asked whether it has ended.
    silent = wait_for_all(list(started), lambda each: started[each].poll() is not None or status_of(each.site) is not None)
    failed = [each for each, process in started.items() if each in silent or process.poll() is not None]
    for each in failed:
        print(f"{each.site.stock}, site {each.site.number}: {each.last_words()}", file=sys.stderr)
    print(f"started {len(started) - len(failed)} sites")
    return 1 if failed else 0


def stop(table: Table, folder: Path, places: list[str]) -> int:
    found = [each for each in processes(table, folder, places) if each.is_running()]
    for each in found:
        each.stop()
    left = wait_for_all(found, lambda each: not each.is_running())
    for each in left:
        print(f"{each.site.stock}, site {each.site.number}: it still runs", file=sys.stderr)
    print(f"ended {len(found) - len(left)} sites")
    return 1 if left else 0


# ---- what sites hold


def status_of(site: Site) -> dict[str, object] | None:
    """The status object of a site on this machine, or None if it does not answer."""
    connection = http.client.HTTPConnection(site.http, timeout=5)
    try:
        connection.request("GET", "/status")
        found = json.loads(connection.getresponse().read())
    except (OSError, http.client.HTTPException, ValueError):
        return None
    finally:
        connection.close()
    # Another site may have the port.
    return found if isinstance(found, dict) and found.get("site") == site.number else None


def show(table: Table, places: list[str]) -> int:
    row = "{:32} {:>4} {:16} {:>12} {:>12} {:>12} {:>8}"
    print(row.format("stock", "site", "place", "issued", "sold", "held", "waiting"))
    missing = 0
    for site in table.sites(places):
        found = status_of(site)
        missing += found is None
        keys = ("issued", "spent", "held", "queued")
        values = ["not reached", "", "", ""] if found is None else [str(found[key]) for key in keys]
        print(row.format(site.stock, site.number, site.place.name, *values))
    return 1 if missing else 0


# ---- the command line


def words_of(arguments: list[str]) -> argparse.Namespace:
    words = argparse.ArgumentParser(usage="stocks.py TABLE {check,make,start,show,stop} ..", epilog=__doc__,
        formatter_class=argparse.RawDescriptionHelpFormatter)  # fmt: skip
    words.add_argument("table", type=Path, metavar="TABLE")
    tasks = words.add_subparsers(dest="task", required=True)
    tasks.add_parser("check")
    making = tasks.add_parser("make")
    making.add_argument("place")
    making.add_argument("folder", type=Path)
    for name in ("start", "stop"):
        task = tasks.add_parser(name)
        task.add_argument("folder", type=Path)
        task.add_argument("places", nargs="*")
        task.add_argument("--program", default=shutil.which("rights-site") or "rights-site")
    tasks.add_parser("show").add_argument("places", nargs="*")
    return words.parse_args(arguments)


def main(arguments: list[str]) -> int:
    words = words_of(arguments)
    try:
        table = read_table(words.table)
        if words.task == "make":
            make(table, words.place, words.folder)
        elif words.task == "start":
            return start(table, words.folder, words.places, words.program)
        elif words.task == "stop":
            return stop(table, words.folder, words.places)
        elif words.task == "show":
            return show(table, words.places)
    except (BadTable, OSError) as cause:
        print(f"stocks.py: {cause}", file=sys.stderr)
        return 1
    return 0


if __name__ == "__main__":
    sys.exit(main(sys.argv[1:]))
