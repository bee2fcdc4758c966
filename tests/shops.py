"""The Python client that sells at several sites, and its records; and the clients as a package for pip."""

import json
import os
import re
import select
import shutil
import socket
import subprocess
import sys
import tempfile
import threading
from contextlib import contextmanager, suppress

from cases import Skipped, case
from cluster import PATIENCE, TOP, expect, sees, wait_for
from journal_kit import Journaled

from rights_http import AnswerLost, SiteClient, SiteUnreachable
from rights_shop import Records, Sale, Shop, Totals


@contextmanager
def shop_of(*addresses):
    """A shop at these sites, with records in a folder of its own."""
    with tempfile.TemporaryDirectory(prefix="shop-") as room:
        records = Records(os.path.join(room, "records"))
        clients = [SiteClient(address, tries=1, retry_for=0.5) for address in addresses]
        yield Shop(clients, records)
        for client in clients:
            client.close()
        records.close()


@contextmanager
def silent_site():
    """The address of what takes each request and closes its connection, and the requests."""
    requests = []
    with socket.create_server(("127.0.0.1", 0)) as server:

        def take_and_close():
            with suppress(OSError):
                while True:
                    stream, _ = server.accept()
                    with stream:
                        stream.settimeout(PATIENCE)
                        requests.append(stream.recv(1 << 16))

        threading.Thread(target=take_and_close, daemon=True).start()
        yield f"127.0.0.1:{server.getsockname()[1]}", requests
        server.shutdown(socket.SHUT_RDWR)


@contextmanager
def answers_lost(target):
    """An address that leads to this one. What comes back is an end of the connection."""
    host, port = target.rsplit(":", 1)
    with socket.create_server(("127.0.0.1", 0)) as server:

        def pass_on(stream, out):
            while out not in select.select([stream, out], [], [], PATIENCE)[0] and (block := stream.recv(1 << 16)):
                out.sendall(block)

        def accept_all():
            with suppress(OSError):
                while True:
                    stream, _ = server.accept()
                    with stream, suppress(OSError), socket.create_connection((host, int(port)), PATIENCE) as out:
                        pass_on(stream, out)

        threading.Thread(target=accept_all, daemon=True).start()
        yield f"127.0.0.1:{server.getsockname()[1]}"
        server.shutdown(socket.SHUT_RDWR)


def keys_in(requests):
    """The keys of requests, as many as there are of each."""
    keys = [re.search(rb"\r\nidempotency-key: (\S+)\r\n", request)[1].decode() for request in requests]
    return {key: keys.count(key) for key in keys}


def recorded(shop, event):
    """The records of an event."""
    with open(shop.records._file.name) as file:
        return [record for record in map(json.loads, file) if record["event"] == event]


def raises(kind, call, *words, **others):
    try:
        call(*words, **others)
    except kind as error:
        return error
    raise AssertionError(f"{kind.__name__} is not raised")


def another_site_sells_while_one_is_down():
    with Journaled(2, tick=20) as sites, shop_of(sites.address(1), sites.address(2)) as shop:
        sites[1].ask_all(["issue 100", "give 2 40"])
        wait_for("the gift arrives", sees(sites[2], None, held=40))
        first, second = sites.address(1), sites.address(2)
        expect(shop.sell(3), Sale(first, 3, 3))
        sites[1].end()
        expect([shop.sell(1) for _ in range(3)], [Sale(second, number, 1) for number in (1, 2, 3)])
        # While the first one is away, a sale does not wait for it. Then it sells again.
        expect(shop._in_order()[0].address, second)
        sites.start(1)
        shop._missed.clear()
        expect(shop.sell(2), Sale(first, 4, 2))
        for number in (1, 2):
            sites[number].end()
        raises(SiteUnreachable, shop.sell, 1)
        expect(shop.records.totals(), Totals(8, 0, 0, 0))


def a_sale_goes_where_rights_are():
    """At a site that holds enough; else it waits for what the others grant; else there is none."""
    with Journaled(2, tick=20) as sites, shop_of(sites.address(1), sites.address(2)) as shop:
        sites[2].ask_all(["issue 10"])
        expect(shop.sell(4), Sale(sites.address(2), 2, 4))
        sites[1].ask_all(["issue 3"])
        wait_for("both know", lambda: all(peer["applied"] for site in (1, 2) for peer in sites[site].status()["peers"]))
        expect(shop.sell(8), None)
        sale = shop.sell(8, within=PATIENCE)
        expect((sale.site, sale.amount), (sites.address(1), 8))
        sites[1].ask("close")
        expect(shop.sell(1), Sale(sites.address(2), 4, 1))
        expect((shop.sell(1), shop.sell(1, within=0.2)), (None, None))
        expect(shop.records.totals(), Totals(13, 0, 0, 0))


def what_was_perhaps_sold_is_sold_nowhere_else():
    with Journaled(2, started=[1], tick=20) as sites, silent_site() as (address, requests):
        sites[1].ask("issue 10")
        with shop_of(address, sites.address(1)) as shop:
            raises(AnswerLost, shop.sell, 2)
            raises(AnswerLost, shop.sell, 3, within=1.0)
            # Each is asked again there, under its key.
            keys = keys_in(requests)
            expect((len(keys), min(keys.values()) > 1, sites[1].status()["held"]), (2, True, 10))
            expect(shop.records.totals(), Totals(0, 5, 0, 0))
            records = [(record["site"], record["key"], record["command"]) for record in recorded(shop, "perhaps sold")]
            expect(records, [(address, key, command) for key, command in zip(keys, ("take 2", "take 3"))])


def what_was_perhaps_sold_is_asked_for_by_its_key():
    """Its answers are lost, it ends, and starts again: the records say how to ask it what became of the sale."""
    with Journaled(2, started=[1], tick=20) as sites:
        sites[1].ask("issue 10")
        with answers_lost(sites.address(1)) as address, shop_of(address) as shop:
            raises(AnswerLost, shop.sell, 2)
            expect((sites[1].status()["held"], shop.records.totals()), (8, Totals(0, 2, 0, 0)))
            sites[1].end()
            sites.start(1)
            (record,) = recorded(shop, "perhaps sold")
            with SiteClient(sites.address(1)) as client:
                expect([client.ask(record["command"], key=record["key"]) for _ in range(2)], ["spent 2", "spent 2"])
            expect(sites[1].status()["held"], 8)


def a_spend_whose_site_ends_is_perhaps_sold():
    """It waits, and its site ends: what a last tick did with it nobody is told."""
    with Journaled(2, started=[1], tick=20) as sites, shop_of(sites.address(1)) as shop:
        found = []
        buyer = threading.Thread(target=lambda: found.append(raises(AnswerLost, shop.sell, 2, within=PATIENCE)))
        buyer.start()
        wait_for("it waits", lambda: sites[1].status()["queued"] == 2)
        sites[1].end()
        buyer.join(PATIENCE)
        expect((len(found), shop.records.totals()), (1, Totals(0, 2, 0, 0)))


def a_refund_issues_once_and_says_why():
    with Journaled(2, started=[1], tick=20) as sites, shop_of("127.0.0.1:1", sites.address(1)) as shop:
        sites[1].ask("issue 10")
        sale = shop.sell(5)
        expect(shop.refund(sale, "two were sent back", 2), 3)
        raises(ValueError, shop.refund, sale, "too many", 4)
        raises(ValueError, shop.refund, sale, "none", 0)
        expect((shop.refund(sale, "all"), sites[1].status()["held"]), (4, 10))
        for amount in (1, None):
            raises(ValueError, shop.refund, sale, "again", amount)
        expect(shop.records.totals(), Totals(5, 0, 5, 0))
        sale = shop.sell(1)
        sites[1].end()
        raises(SiteUnreachable, shop.refund, sale, "nobody is there")
        expect((shop.records.refundable(sale), shop.records.totals()), (1, Totals(6, 0, 5, 0)))
        # The records as another process reads them, behind a line whose writer crashed.
        path = shop.records._file.name
        with open(path, "a") as file:
            file.write('{"event": "refund be')
        again = Records(path)
        expect((again.totals(), again.refundable(sale)), (Totals(6, 0, 5, 0), 1))
        again.add("sold", Sale("x", 1, 1), 1)
        expect(Records(path).totals(), Totals(7, 0, 5, 0))
        with open(path) as file:
            expect(re.findall(r'"reason": "([^"]*)"', file.read()), ["two were sent back", "all", "nobody is there"])


def a_refund_without_an_answer_is_made_nowhere_else():
    with silent_site() as (address, requests), silent_site() as (other, nothing), shop_of(address, other) as shop:
        sale = Sale(address, 7, 4)
        raises(AnswerLost, shop.refund, sale, "sent back", 3)
        ((key, count),) = keys_in(requests).items()
        expect((count > 1, nothing, shop.records.refundable(sale), shop.records.totals()), (True, [], 1, Totals(0, 0, 0, 3)))
        (record,) = recorded(shop, "perhaps refunded")
        expect((record["site"], record["key"], record["command"]), (address, key, "issue 3"))
        raises(ValueError, shop.refund, sale, "sent back", 3)


def the_example_sells_at_both_sites():
    """In a network of its own, since its ports are fixed."""
    inside = ["unshare", "--user", "--map-root-user", "--net", "sh", "-c", 'ip link set lo up && exec "$0" "$@"']
    if shutil.which("unshare") is None or shutil.which("ip") is None or subprocess.run([*inside, "true"], capture_output=True).returncode != 0:
        raise Skipped("no network of its own can be made here")
    with tempfile.TemporaryDirectory() as room:
        # The program that is tried, by the name by which it is looked for.
        os.symlink(os.path.abspath(program()), os.path.join(room, "rights-site"))
        for folder in ("python", "examples"):
            shutil.copytree(os.path.join(TOP, folder), os.path.join(room, folder))
        words = [*inside, sys.executable, os.path.join(room, "examples", "two-sites", "sell.py")]
        done = subprocess.run(words, capture_output=True, text=True, timeout=PATIENCE)
    expect(done.stdout.splitlines()[0:1] + done.stdout.splitlines()[2:], ["without site 1: ['127.0.0.1:8002']", "sold by the sites: 40"], done.stderr)
    expect("Totals(sold=40, perhaps_sold=0, refunded=2, perhaps_refunded=0)" in done.stdout, True, done.stdout)


def program():
    from cluster import PROGRAM
    from preloaded import built

    return built(PROGRAM)


def pip_installs_the_clients():
    """From the folder alone, with nothing of a network."""
    with tempfile.TemporaryDirectory() as room:
        source, target = os.path.join(room, "python"), os.path.join(room, "installed")
        shutil.copytree(os.path.join(TOP, "python"), source, ignore=shutil.ignore_patterns("__pycache__"))
        pip = [sys.executable, "-m", "pip", "--disable-pip-version-check"]
        for needed in ([*pip, "--version"], [sys.executable, "-c", "import setuptools, wheel"]):
            if subprocess.run(needed, capture_output=True).returncode != 0:
                raise Skipped("pip, setuptools or wheel is not here")
        words = [*pip, "install", "--no-index", "--no-build-isolation", "--no-deps", "--target", target, source]
        done = subprocess.run(words, capture_output=True, text=True, timeout=4 * PATIENCE)
        expect(done.returncode, 0, done.stderr)
        text = "import rights_http, rights_shop, rights_site; print(rights_shop.__file__)"
        said = subprocess.run([sys.executable, "-c", text], capture_output=True, text=True, cwd=room, env={**os.environ, "PYTHONPATH": target})
        expect(said.stdout.strip(), os.path.join(target, "rights_shop.py"), said.stderr)


CASES = [
    case("Shops", [
        another_site_sells_while_one_is_down, a_sale_goes_where_rights_are, what_was_perhaps_sold_is_sold_nowhere_else,
        what_was_perhaps_sold_is_asked_for_by_its_key, a_spend_whose_site_ends_is_perhaps_sold,
        a_refund_issues_once_and_says_why, a_refund_without_an_answer_is_made_nowhere_else, the_example_sells_at_both_sites,
        pip_installs_the_clients,
    ]),
]  # fmt: skip
