"""Sites that keep journals, end in each way, and are started again by the same command."""

import re
import socket
import subprocess
import time

from cases import case
from cluster import PATIENCE, Proxy, at, expect, reset_at_its_end, sees, wait_for
from journal_kit import ENDS, Entry, Journaled, at_rest, batch, fault_of_keys, read_batches, records_of, shown
from web_driver import WebCluster, request

import rights_site

WAITS = re.compile(r"queued ([0-9]+)")


def ticket_of(reply):
    """The ticket of a spend that waits."""
    if (found := WAITS.fullmatch(reply)) is None:
        raise AssertionError(f"no ticket: {reply!r}")
    return int(found[1])


def in_each_way(test):
    """A test of each way to end a site."""

    def tests():
        for end in ENDS:
            test(end)

    tests.__name__, tests.__doc__ = test.__name__, test.__doc__
    return tests


# ---- one site


@in_each_way
def a_site_goes_on_where_it_ended(end):
    with Journaled(2, started=[1], system="shop-1") as sites:
        replies = sites[1].ask_all(["issue 100", "spend 3 0", "take 2", "give 2 10"])
        expect(replies, ["number 1", "spent 2", "spent 3", "number 4"])
        before = sites.agrees(1)
        site = sites.again(1, end)
        expect(sites.agrees(1), before, f"after {end}")
        expect(site.ask_all(["spend 85 9", "issue 4", "take 5"]), ["spent 5", "number 6", "error Short"])
        expect((sites.holdings(1).system, sites.agrees(1)["held"]), ("shop-1", 4))
        expect(sites.again(1, end).ask("take 4"), "spent 7", f"after {end} twice")


def a_site_that_did_nothing_starts_again():
    with Journaled(2, started=[1]) as sites:
        for end in [*ENDS, *ENDS]:
            sites.again(1, end)
            expect(sites.agrees(1)["number"], 0)
        expect(sites[1].ask("issue 1"), "number 1")


@in_each_way
def tickets_are_never_given_out_twice(end):
    """Spends that wait are forgotten, and their tickets, unknown. A new ticket is above all earlier ones."""
    with Journaled(2, started=[1]) as sites:
        last = 0
        for _ in range(3):
            replies = sites[1].ask_all(["spend 5 9", "spend 6 99", "spend 7 9", "tick 10"])
            tickets = list(map(ticket_of, replies[:3]))
            expect((tickets == sorted(set(tickets)), last < tickets[0]), (True, True), f"{tickets} after {last}")
            expect(replies[3][:14], "tick expired 2")
            last = tickets[-1]
            sites.again(1, end)
            expect(sites[1].queue(), {"requests": [], "unread": 0})
            old = [f"{word} {ticket}" for word in ("outcome", "cancel") for ticket in tickets]
            expect(sites[1].ask_all(old), ["unknown"] * 6)
            expect(sites[1].status()["queued"], 0)
        expect(last <= sites.holdings(1).tickets, True, "the record of tickets")


def what_was_served_by_a_tick_stays():
    with Journaled(2, started=[1]) as sites:
        stream = socket.create_connection(("127.0.0.1", sites.ports[0]))
        ticket = ticket_of(sites[1].ask("spend 5 99"))
        with stream:
            stream.sendall(b"H 2\nE 2 0 2 I:9 R:1:7\n")
            wait_for("site 1 got 7", sees(sites[1], None, held=7))
            expect(sites[1].ask_all(["tick 1", f"outcome {ticket}"])[1], "spent 1")
        sites.again(1)
        status = sites.agrees(1)
        expect((status["held"], status["spent"], status["peers"][0]["applied"]), (2, 5, 2))
        expect(sites[1].ask("give 2 3"), "error Short")


@in_each_way
def a_closed_site_stays_closed(end):
    for commands, numbers in ((["close"], ["number 2"]), (["close 2"], ["number 3"])):
        with Journaled(2) as sites:
            sites[1].ask("issue 10")
            expect(sites[1].ask_all(commands), numbers)
            before = sites.agrees(1)
            site = sites.again(1, end)
            expect(sites.agrees(1), before, f"after {end}")
            expect((before["closed"], site.ask_all(["issue 1", "take 1", "close"])), (True, ["error Closed"] * 3))
            with sites.client(1) as client:
                expect(client.ask(request("GET", "/healthz")).status, 503)
            # It still sends its log to the other one.
            site.ask("tick 1")
            wait_for("site 2 applied it", sees(sites[2], 1, applied=before["number"]))
            expect(sites.agrees(2)["held"], 10 if commands == ["close 2"] else 0)


def metrics_are_those_of_the_journal():
    with Journaled(2, started=[1]) as sites:
        sites[1].ask_all(["issue 50", "spend 20 0", "give 2 5", "x"])
        sites.again(1)
        metrics = sites.metrics(1)
        names = ("held", "issued_total", "spent_total", "given_total", "log_moves_total")
        expect([metrics[f"rights_{name}"] for name in names], [25, 50, 20, 5, 3])
        expect((metrics["rights_queued"], metrics["rights_closed"], metrics["rights_requests_waiting"]), (0, 0, 0))


def far_is(sites, number):
    """How far the journal of a site is, by its status, its metrics, and the file. A command was answered before."""
    begun = time.time() - 60
    journal = sites[number].status()["journal"]
    metrics = sites.metrics(number)
    records = len(records_of(sites.content(number)))
    found = (journal["records"], journal["durable"], journal["bytes"])
    expect(found, (records, records, len(sites.content(number))), "by the status")
    names = ("records_total", "records_durable_total", "bytes", "synced_timestamp_seconds")
    expect([metrics[f"rights_journal_{name}"] for name in names], [*found, journal["synced"] // 1000], "by the metrics")
    expect(begun < journal["synced"] / 1000 < time.time() + 1, True, "the time of the last sync")
    return records


def a_site_tells_how_far_its_journal_is():
    with Journaled(2, started=[1]) as sites:
        expect(far_is(sites, 1), 2)
        sites[1].ask_all(["issue 50", "spend 20 0", "give 2 5", "x"])
        expect(far_is(sites, 1), 5)
        sites.again(1)
        expect(far_is(sites, 1), 6)
        sites[1].ask("take 1")
        expect(far_is(sites, 1), 7)
    with WebCluster(2) as sites:
        expect("journal" in sites[1].status(), False)
        expect([name for name in sites.metrics(1) if "journal" in name], [])


def commands_at_the_end_are_kept():
    """Those that come with `quit`, or before the end of the input, and an unfinished last line."""
    with Journaled(2, started=[]) as sites:
        own, other = map(at, sites.ports)
        words = [*sites.words(1), "--id", "1", "--sites", "2", "--listen", own, f"2={other}"]

        def run(text):
            done = subprocess.run(words, input=text, capture_output=True, timeout=PATIENCE)
            expect((done.returncode, done.stderr), (0, b""))
            return done.stdout

        expect(run(b"issue 100\n" + b"spend 1 0\n" * 20 + b"quit\nissue 5\n").splitlines()[-1], b"spent 21")
        expect(run(b"spend 2 0\nspend 2 0"), b"spent 22\nspent 23\n")
        expect(run(b"take 76"), b"spent 24\n")
        expect((sites.holdings(1).values()["held"], sites.holdings(1).number), (0, 24))


def many_entries_are_read_again():
    """More bytes of them than one greatest batch has, and more than a site reads at once; and then some of its own."""
    with Journaled(2, started=[]) as sites:
        entries = ["E 1 0 1 I:1000000"] + [f"E 1 {n} {n + 1} S:3" for n in range(1, 200_001)]
        with open(sites.path(1), "wb") as file:
            file.write(batch("J 1 1 2"))
            for first in range(0, len(entries), 40_000):
                file.write(batch(*entries[first : first + 40_000]))
        sites.start(1).ask_all(["take 2"] * 5000)
        for _ in range(2):
            sites.again(1)
            status = sites.agrees(1)
            expect((status["number"], status["held"]), (205_001, 390_000))


def a_site_that_does_nothing_writes_nothing():
    """Ticks, beats, an ask that is sent again and again, and spends that expire have no record."""
    with Journaled(2, started=[1], tick=5) as sites:
        with socket.create_connection(("127.0.0.1", sites.ports[0])) as stream:
            stream.sendall(b"H 2\nE 2 0 1 I:9\n")
            sites[1].ask("spend 5 +60000")
            wait_for("site 1 asks", lambda: sites.holdings(1).asks == {2: {1: 5}})
            before = sites.content(1)
            for _ in range(20):
                stream.sendall(b"B 2 1\nQ 2 1 1 1\nE 2 0 1 I:9\nD 2 1 7\n")
                sites[1].ask_all(["spend 1 +1", "status", "take 1", "queue", "x", "cancel 9"])
                time.sleep(0.02)
            expect(sites.content(1), before)


# ---- keys


def keyed(sites, number=1):
    """The numbers of the entries of keys, by the journal of a site: each stands at the end of the batch of its entry."""
    expect(fault_of_keys(read_batches(sites.content(number))[0]), None)
    return sites.holdings(number).keys


@in_each_way
def keys_outlive_a_site(end):
    with Journaled(2, started=[1]) as sites:
        commands = ["key a issue 100", "key b take 2", "key c give 2 10", "key d spend 3 0", "issue 1", "key e spend 500 9"]
        replies = sites[1].ask_all(commands)
        expect(replies[:5], ["number 1", "spent 2", "number 3", "spent 4", "number 5"])
        for _ in range(2):
            sites.again(1, end)
            expect(sites[1].ask_all(commands[:4]), replies[:4], f"after {end}")
            expect(sites[1].ask_all(["key a issue 99", "key d take 3", "key b spend 2 9"]), ["error KeyReused", "spent 4", "spent 2"])
            expect(sites.agrees(1)["number"], 5)
        expect(sites[1].ask_all(["key e issue 7", "key f close", "key f close 2"]), ["number 6", "number 7", "number 7"])
        expect(keyed(sites), {"a": 1, "b": 2, "c": 3, "d": 4, "e": 6, "f": 7})
        sites.again(1, end)
        expect(sites[1].ask_all(["key f close", "key e issue 7", "close"]), ["number 7", "number 6", "error Closed"])


def export_of(records):
    """The export of the log of site 1 that keeps these records: each of its entries, and directly behind it its key."""
    keys = {int(record.split(" ")[2]): record for record in records if record[0] == "X"}
    entries = [record for record in records if record.startswith("E 1 ")]
    return "".join(f"{entry}\n" + "".join(f"{key}\n" for key in [keys.get(Entry(entry).own)] if key) for entry in entries)


@in_each_way
def the_log_is_listed_as_the_journal_has_it(end):
    """All that is listed is in the file already."""
    with Journaled(2, started=[1]) as sites:

        def listed():
            with sites.client(1) as client:
                answer = client.ask(request("GET", "/log"))
            records = records_of(sites.content(1))
            expect((answer.status, answer.body.decode()), (200, export_of(records)), f"with {end}")
            return answer.body.decode()

        for _ in range(2):
            sites[1].ask_all(["issue 100", "key a issue 50", "key b spend 3 0", "take 1", "key c give 2 3", "key d spend 200 9", "key e issue 90", "tick 1"])
            before = listed()
            sites.again(1, end)
            expect(listed(), before)
        expect(before.splitlines()[:6], ["E 1 0 1 I:100", "E 1 1 2 I:50", "X a 2", "E 1 2 3 S:3", "X b 3", "E 1 3 4 S:1"])
        sites.keys = 1
        sites.again(1, end)
        with sites.client(1) as client:
            text = client.ask(request("GET", "/log")).body.decode()
        lines = [line for line in before.splitlines() if line[0] == "E"]
        expect([line for line in text.splitlines() if line[0] == "E"], lines, "without keys that were forgotten")
        expect(("X d 7\n" in text, text.count("X ")), (True, 1))


def keys_have_the_batches_of_their_entries():
    """However many come together, and whatever stands between them."""
    with Journaled(2, started=[1]) as sites:
        commands = [f"key {number} issue {number}" if number % 3 else f"issue {number}" for number in range(1, 1501)]
        for last in (1500, 2000):
            expect(sites[1].ask_all(commands)[-2:], ["number 1499", f"number {last}"])
        found = {int(key): number for key, number in keyed(sites).items()}
        expect(found, {number: number for number in range(1, 1501) if number % 3})
        sites.again(1)
        expect(sites[1].ask_all(commands[:2]), ["number 1", "number 2"])
        sites.agrees(1)


def keys_of_what_its_own_ticks_serve():
    """They are recorded with the entries, and no sooner."""
    with Journaled(2, started=[1], tick=5) as sites:
        for number in range(1, 21):
            expect(sites[1].ask(f"key k{number} spend {number} +60000")[:7], "queued ")
            expect(f"k{number}" in sites.holdings(1).keys, False)
            sites[1].ask(f"issue {number}")
            wait_for("it is served", sees(sites[1], None, queued=0))
            if number % 4 == 0:
                sites.again(1)
            expect(sites[1].ask(f"key k{number} take {number}"), f"spent {2 * number}")
        expect(keyed(sites), {f"k{number}": 2 * number for number in range(1, 21)})
        sites.agrees(1)


def keys_that_wait_or_expired_have_no_record():
    with Journaled(2, started=[1]) as sites:
        before = sites.content(1)
        sites[1].ask_all(["key a spend 5 9", "key a spend 5 9", "key b spend 6 3", "tick 4", "key b take 6", "key c take 1", "key d issue 0"])
        expect(sites.content(1), before)
        sites.again(1)
        expect(sites[1].ask_all(["key a issue 5", "key b take 2", "key c take 3", "key d issue 4"]), ["number 1", "spent 2", "spent 3", "number 4"])
        expect(keyed(sites), {"a": 1, "b": 2, "c": 3, "d": 4})


def a_site_is_told_to_remember_more_keys():
    """All that the journal has are remembered then. If one was used twice, it is remembered with its last entry."""
    with Journaled(2, started=[1], keys=2) as sites:
        sites[1].ask_all(["issue 100", "key a take 1", "key b take 2", "key c take 3"])
        sites.agrees(1)
        for keys, known in ((3, 3), (2, 2), (1, 1), (0, 0), (100, 3), (None, 3)):
            sites.keys = keys
            sites.again(1)
            expect(sites[1].status().get("keys", 0), known)
            sites.agrees(1)
        expect(sites[1].ask_all(["key a take 1", "key c take 3"]), ["spent 2", "spent 4"])
        sites.keys = 2
        sites.again(1)
        expect(sites[1].ask_all(["key a take 9", "key c take 3"]), ["spent 5", "spent 4"])
        # Its record stands twice from now on, and the two keys that are remembered are c and a.
        sites.again(1)
        expect(sites[1].ask_all(["key a take 9", "key c take 3"]), ["spent 5", "spent 4"])
        for sites.keys in (3, 4, None, 3):
            sites.again(1)
            expect(sites[1].status()["keys"], 3)
            expect(sites[1].ask_all(["key a take 9", "key c take 3", "key b take 2"]), ["spent 5", "spent 4", "spent 3"])
            expect(sites[1].ask_all(["key a take 1", "key b take 1"]), ["error KeyReused", "error KeyReused"])
        # With three, b is the oldest now, and a, which wrote last, the newest.
        expect(sites[1].ask_all(["key d take 4", "key b take 2", "key a take 9"]), ["spent 6", "spent 7", "spent 5"])
        expect(sites[1].ask_all(["key e take 1", "key d take 4", "key b take 2", "key a take 9"]), ["spent 8", "spent 6", "spent 7", "spent 9"])


def keys_may_stand_anywhere_behind_their_entries():
    """In a journal that was made by other means."""
    with Journaled(2, started=[]) as sites:
        with open(sites.path(1), "wb") as file:
            file.write(batch("J 1 1 2", "E 1 0 1 I:100") + batch("E 1 1 2 S:4", "E 2 0 2 I:9 R:1:7", "X b 2", "E 1 2 3 R:2:5"))
            file.write(batch("X c 3") + batch("X a 1", "T 7"))
        site = sites.start(1)
        expect(site.ask_all(["key a issue 100", "key b take 4", "key c give 2 5", "key d take 98"]), ["number 1", "spent 2", "number 3", "spent 4"])
        expect(site.status()["keys"], 4)


def many_keys_are_read_again():
    with Journaled(2, started=[]) as sites:
        count, each = 200_000, 5_000
        with open(sites.path(1), "wb") as file:
            file.write(batch("J 1 1 2"))
            for first in range(0, count, each):
                numbers = range(first, first + each)
                entries = [f"E 1 {number} {number + 1} I:3" for number in numbers]
                file.write(batch(*entries, *(f"X order-{number + 1:08} {number + 1}" for number in numbers)))
        for keys in (None, 1000, 1):
            sites.keys = keys
            site = sites.start(1)
            known = count if keys is None else keys
            expect(site.status()["keys"], known)
            some = [count, count - known + 1]
            expect(site.ask_all([f"key order-{number:08} issue 3" for number in some]), [f"number {number}" for number in some])
            site.kill()


# ---- two sites and more


@in_each_way
def rights_that_were_given_are_received_once(end):
    with Journaled(2) as sites:
        sites[1].ask_all(["issue 20", "give 2 7", "tick 1"])
        wait_for("site 2 has 7", sees(sites[2], None, held=7))
        for number in (1, 2, 1):
            sites.again(number, end)
            sites[1].ask_all(["tick 1"])
            expect((sites.agrees(1)["held"], sites.agrees(2)["held"]), (13, 7))
        # Site 1 sends its entries again if it is asked for them, and site 2 takes none twice.
        sites[1].ask_all(["give 2 1", "tick 1"])
        wait_for("site 2 has 8", sees(sites[2], None, held=8, received=8))
        sites[2].ask_all(["give 1 8", "tick 1"])
        wait_for("site 1 has all", sees(sites[1], None, held=20, received=8))


def a_peer_that_was_down_catches_up():
    """All entries of before a restart count as sent, so it asks for them. There are more than its buffer holds."""
    with Journaled(3, started=[1], tick=20) as sites:
        for _ in range(3):
            sites[1].ask_all(["issue 1000", *["give 2 1", "give 3 2"] * 250])
            sites.again(1)
        sites.start(2)
        sites.start(3)
        found = at_rest(sites)
        expect([found[number]["held"] for number in (1, 2, 3)], [750, 750, 1500])
        sites.again(2)
        sites.again(1)
        expect([status["held"] for status in at_rest(sites).values()], [750, 750, 1500])
        for number in (1, 2, 3):
            sites.agrees(number)


def an_entry_that_was_told_before_its_gift_was_lost():
    """The lines to a peer are lost, the site is killed and starts again, and the peer gets them in the end."""
    with Journaled(2, started=[2], tick=20) as sites:
        is_cut = [True]
        proxy = Proxy(at(sites.ports[1]), lambda line: is_cut[0] and not line.startswith(b"H"))
        sites.routes[(1, 2)] = proxy.address
        site = sites.start(1)
        expect(site.ask_all(["issue 9", "give 2 4"]), ["number 1", "number 2"])
        wait_for("it was sent", lambda: b"E 1 1 2 R:2:4\n" in proxy.lines)
        sites.again(1)
        is_cut[0] = False
        wait_for("site 2 has 4", sees(sites[2], None, held=4))


@in_each_way
def an_ask_outlives_its_site(end):
    """The asked site is not there. The asker ends, and starts again: the ask stays outstanding with its number, and its
    grant arrives, though the spend is forgotten that it was for."""
    with Journaled(2) as sites:
        sites[1].ask_all(["issue 50", "tick 1"])
        wait_for("site 2 knows of 50", sees(sites[2], 1, applied=1))
        sites[1].kill()
        sites[2].ask("spend 6 99")
        expect(sites[2].ask("tick 1")[:31], "tick expired 0 served 0 asks 1 ")
        expect(sites.holdings(2).asks, {1: {1: 6}})
        sites.again(2, end)
        expect(sites[2].queue()["requests"], [])
        # Nothing waits: no new ask. The old one is sent at each tick.
        expect(sites[2].ask("tick 1"), "tick expired 0 served 0 asks 0 sent 2")
        sites.start(1)
        expect(sites[2].ask("tick 2"), "tick expired 0 served 0 asks 0 sent 2")

        def is_granted():
            sites[2].ask("tick 3")
            return sees(sites[1], None, held=44)()

        wait_for("site 1 granted 6", is_granted)
        sites[1].ask("tick 2")
        wait_for("site 2 has 6", sees(sites[2], None, held=6))
        # The next ask has another number.
        sites[2].ask_all(["spend 8 99", "tick 4"])
        expect(sites.holdings(2).asks, {1: {1: 6, 2: 2}})


@in_each_way
def an_ask_is_granted_once(end):
    """The asked site grants, its grant is lost, and it ends. The ask comes again: it grants nothing a second time."""
    with Journaled(2, started=[2]) as sites:
        is_cut = [False]
        proxy = Proxy(at(sites.ports[1]), lambda line: is_cut[0] and not line.startswith(b"H"))
        sites.routes[(1, 2)] = proxy.address
        sites.start(1).ask_all(["issue 50", "tick 1"])
        wait_for("site 2 knows of 50", sees(sites[2], 1, applied=1))
        is_cut[0] = True
        sites[2].ask_all(["spend 6 99", "tick 1"])
        wait_for("site 1 granted 6", sees(sites[1], None, held=44))
        sites[1].ask("tick 2")
        sites.again(1, end)
        for time in range(2, 5):
            sites[2].ask(f"tick {time}")

        def is_heard():
            sites[2].ask("tick 5")
            return sites.metrics(1)["rights_peer_receiving", "2"] == 1

        # A connection that site 2 made later would take the place of the one below.
        wait_for("site 2 is heard", is_heard)
        with socket.create_connection(("127.0.0.1", sites.ports[0])) as stream:
            stream.sendall(b"H 2\nW 2 1 1 6\nW 2 1 1 6\nE 2 0 1 I:1\n")
            wait_for("site 1 read all", sees(sites[1], 2, applied=1))
        expect((sites.agrees(1)["held"], sites.holdings(1).number), (44, 2))
        is_cut[0] = False

        def has_arrived():
            sites[1].ask("tick 3")
            return sees(sites[2], None, held=6)()

        wait_for("site 2 has 6", has_arrived)


@in_each_way
def a_denial_is_repeated(end):
    """The asked site has nothing. What was denied is asked again after a restart with its number, and denied again,
    also by a site that started again itself."""
    with Journaled(2) as sites:
        sites[1].ask_all(["issue 5", "tick 1"])
        wait_for("site 2 knows of 5", sees(sites[2], 1, applied=1))
        sites[1].ask("spend 5 9")
        for number in (2, 1):
            sites[2].ask("spend 5 99")
            for time in range(1, 4):
                sites[2].ask(f"tick {time}")
            sites.again(number, end)
        asks = sites.holdings(2).asks[1]
        expect(sorted(asks), list(range(1, len(asks) + 1)), "numbers of asks")
        # A denial ends the ask, so that a new one can be made, with the next number.
        sites[2].ask("spend 5 99")
        wait_for("a new ask", lambda: sites[2].ask("tick 9") and len(sites.holdings(2).asks[1]) > len(asks))
        sites[1].ask_all(["issue 30", "tick 9"])

        def is_granted():
            sites[2].ask("tick 9")
            sites[1].ask("tick 9")
            return sees(sites[2], None, queued=0)()

        wait_for("a grant", is_granted)
        total = at_rest_of_ticks(sites)
        expect(sum(status["held"] + status["spent"] for status in total.values()), 35)


def at_rest_of_ticks(sites):
    """The same as `at_rest`, of sites that tick as they are told."""

    def rest():
        for site in sites.sites.values():
            site.ask("tick 99")
        found = {number: site.status() for number, site in sites.sites.items()}
        known = {status["site"]: status["number"] for status in found.values()}
        peers = [peer for status in found.values() for peer in status["peers"]]
        return found if all(peer["applied"] == known[peer["site"]] for peer in peers) else None

    return wait_for("all sites applied all", rest)


@in_each_way
def what_is_taken_back_is_taken_once(end):
    """A site closes and never applied a gift. Who takes that back ends, and starts again; so does the closed one."""
    with Journaled(3, started=[2, 3]) as sites:
        proxy = Proxy(at(sites.ports[2]), lambda line: line.startswith((b"E 1", b"A 1")))
        sites.routes[(1, 3)] = proxy.address
        sites.start(1).ask_all(["issue 10", "give 3 4", "tick 1"])
        wait_for("site 2 applied both", sees(sites[2], 1, applied=2))
        expect(sites[3].ask_all(["close", "tick 2"])[0], "number 1")
        wait_for("site 1 took 4 back", sees(sites[1], None, held=10, number=3))
        for number in (1, 3, 1):
            sites.again(number, end)
            sites[3].ask("tick 3")
            status = sites.agrees(1)
            expect((status["held"], status["number"], status["peers"][1]["applied"]), (10, 3, 1))
        expect(sites.holdings(1).log[2].text, "E 1 2 3 V:3:4")
        # The entry of it has no record; site 2 gets it nevertheless, after the restart too.
        sites[1].ask("tick 3")
        wait_for("site 2 applied it", sees(sites[2], 1, applied=3))
        expect(sites[1].ask("give 3 1"), "error PeerClosed")


def a_site_that_is_killed_as_it_takes_back():
    """The closing entry is known before the restart, by the lines of the others, or only after it."""
    with Journaled(2, started=[1]) as sites:
        for line in (b"E 2 0 2 I:8 R:1:3\n", b"E 2 2 3 K:0:0\n"):
            with socket.create_connection(("127.0.0.1", sites.ports[0])) as stream:
                if line[6:7] == b"2":
                    sites[1].ask_all(["issue 20", "give 2 6"])
                stream.sendall(b"H 2\n" + line)
                own = int(line.split(b" ")[3])
                wait_for("site 1 applied it", sees(sites[1], 2, applied=own))
            sites.again(1)
            sites.agrees(1)
        status = sites[1].status()
        expect((status["held"], status["number"]), (23, 3))


def a_connection_that_breaks_in_a_line():
    """What was read of a log before the site is killed, and what was not, comes again from a peer, in any pieces."""
    with Journaled(2, started=[1]) as sites:
        lines = b"".join(b"E 2 %d %d I:1\n" % (n, n + 1) for n in range(40))
        for cut in (5, 30, 333, len(lines)):
            with socket.create_connection(("127.0.0.1", sites.ports[0])) as stream:
                stream.sendall(b"H 2\n" + lines[:cut])
                wait_for("site 1 read it", sees(sites[1], 2, applied=lines[:cut].count(b"\n")))
                reset_at_its_end(stream)
            sites.again(1)
            expect(sites.agrees(1)["peers"][0]["applied"], lines[:cut].count(b"\n"))


def five_sites_end_and_start_in_turn():
    """While they give, spend and ask. Each ends in another way, and all comes together at the end."""
    with Journaled(5, tick=20, system="five") as sites:
        sites[1].ask_all(["issue 1000"] + [f"give {peer} 100" for peer in range(2, 6)])
        told = {number: 0 for number in range(1, 6)}
        for turn in range(10):
            number = turn % 5 + 1
            for site in range(1, 6):
                replies = sites[site].ask_all([f"give {site % 5 + 1} 3", "spend 2 +5000", "take 1", "give 1 5"])
                told[site] += 2 * replies[1].startswith("spent") + replies[2].startswith("spent")
            before = sites[number].status()
            after = sites.again(number, list(ENDS)[turn % 4]).status()
            for key in ("number", "spent", "issued"):
                expect(after[key] >= before[key], True, f"{key} of {before}, then of {after}")
        found = at_rest(sites)
        expect(sum(status["held"] + status["spent"] for status in found.values()), 1000)
        for number in range(1, 6):
            expect(sites.agrees(number)["spent"] >= told[number], True, f"site {number} told {told[number]}")
            sites.again(number)
            expect(shown(sites.agrees(number)), shown(found[number]))


def a_journal_can_be_checked_while_it_is_used():
    with Journaled(2, started=[1]) as sites:
        sites[1].ask_all(["issue 5", "take 2"])
        words = [sites.words(1)[0], "check-journal", sites.path(1)]
        said = subprocess.run(words, capture_output=True, timeout=PATIENCE)
        expect((said.returncode, b"held 3\n" in said.stdout), (0, True), said.stdout)
        expect(sites[1].ask("take 3"), "spent 3")


def a_second_process_is_refused():
    """The first one goes on, and its journal is as it was."""
    with Journaled(2, started=[1]) as sites:
        sites[1].ask("issue 5")
        before, first = sites.content(1), sites[1]
        try:
            sites.start(1).kill()
            raise AssertionError("two processes have the journal open")
        except rights_site.SiteEnded as ended:
            expect("another process has it open" in str(ended), True, ended)
        expect((first.ask("take 5"), sites.content(1)[: len(before)]), ("spent 2", before))


def of_many_that_start_at_once_one_runs():
    """On a new journal, and on one that is there. The others say that it is open."""
    with Journaled(2, started=[]) as sites:
        for turn in range(4):
            words = [*sites.words(1), "--id", "1", "--sites", "2", "--listen", "127.0.0.1:0", "2=127.0.0.1:1"]
            pipes = dict.fromkeys(("stdin", "stdout", "stderr"), subprocess.PIPE)
            many = [subprocess.Popen(words, **pipes) for _ in range(6)]
            # Those that are refused end by themselves. The one that runs ends at the end of its input.
            wait_for("one of them runs", lambda: sum(each.poll() is None for each in many) == 1)
            (runs,) = [each for each in many if each.poll() is None]
            said = runs.communicate(b"issue 1\n", timeout=PATIENCE)
            expect((runs.returncode, said), (0, (b"number %d\n" % (turn + 1), b"")))
            for each in many:
                if each is not runs:
                    errors = each.communicate()[1]
                    expect((each.returncode, b"another process has it open" in errors), (1, True), errors)


def a_start_without_memory():
    """It runs, or says why not and ends; the records of before stand."""
    with Journaled(2, started=[1]) as sites:
        sites[1].ask("issue 1000000")
        sites[1].ask_all(["take 1"] * 20_000)
        sites[1].kill()
        before, starts = sites.holdings(1).values(), 0
        for kibibytes in range(4000, 90_000, 4000):
            limit = ["sh", "-c", f'ulimit -v {kibibytes}; exec "$0" "$@"']
            words = [*limit, *sites.words(1), "--id", "1", "--sites", "2", "--listen", "127.0.0.1:0", "2=127.0.0.1:1"]
            done = subprocess.run(words, input=b"outcome 1\n", capture_output=True, timeout=PATIENCE)
            starts += done.returncode == 0
            wanted = (0, b"unknown\n", b"") if done.returncode == 0 else (1, b"", b"rights-site: out of memory\n")
            expect((done.returncode, done.stdout, done.stderr), wanted, kibibytes)
            expect(sites.holdings(1).values(), before, kibibytes)
        expect(0 < starts < 21, True, f"{starts} starts")
        expect(sites.start(1).ask("take 980000"), "spent 20002")


CASES = [
    case("Restarts", [
        a_site_goes_on_where_it_ended, a_site_that_did_nothing_starts_again, tickets_are_never_given_out_twice,
        what_was_served_by_a_tick_stays, a_closed_site_stays_closed, metrics_are_those_of_the_journal,
        a_site_tells_how_far_its_journal_is,
        commands_at_the_end_are_kept, many_entries_are_read_again,
        a_site_that_does_nothing_writes_nothing, keys_outlive_a_site, the_log_is_listed_as_the_journal_has_it, keys_have_the_batches_of_their_entries,
        keys_of_what_its_own_ticks_serve, keys_that_wait_or_expired_have_no_record, a_site_is_told_to_remember_more_keys,
        keys_may_stand_anywhere_behind_their_entries, many_keys_are_read_again, rights_that_were_given_are_received_once,
        a_peer_that_was_down_catches_up, an_entry_that_was_told_before_its_gift_was_lost, an_ask_outlives_its_site,
        an_ask_is_granted_once, a_denial_is_repeated, what_is_taken_back_is_taken_once,
        a_site_that_is_killed_as_it_takes_back, a_connection_that_breaks_in_a_line, five_sites_end_and_start_in_turn,
        a_journal_can_be_checked_while_it_is_used, a_second_process_is_refused,
        of_many_that_start_at_once_one_runs, a_start_without_memory,
    ]),
]  # fmt: skip
