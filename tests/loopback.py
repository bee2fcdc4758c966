"""Starts sites as processes on loopback, and drives them through their standard streams. Each test binds to free ports,
ends by itself, and says what it expected where it fails."""

import os
import re
import select
import socket
import subprocess
import threading
import time
from contextlib import ExitStack, suppress

from cases import case
from cluster import PATIENCE, PROGRAM, Cluster, Proxy, Site, SiteEnded, at, expect, free_ports, reset_at_its_end
from cluster import all_sleep, sees, wait_for
from site_driver import Peer

import rights_site


class TickingSite(Site):
    """A site each of whose ticks is carried out, or is refused as its time went back."""

    time = 0

    def ask_all(self, commands):
        replies = super().ask_all(commands)
        for command, reply in zip(commands, replies):
            name, *words = command.split(" ")
            if name == "tick":
                went_back = int(words[0]) < self.time
                wanted = "error TimeWentBack" if went_back else "tick expired "
                expect(reply[: len(wanted)], wanted, command)
                self.time = max(self.time, int(words[0]))
        return replies


class Sites(Cluster):
    """Sites that tick as they are told, or are refused to."""

    kind = TickingSite


def connect(cluster, number, text=b""):
    stream = socket.create_connection(("127.0.0.1", cluster.ports[number - 1]))
    if text:
        stream.sendall(text)
    return stream


# ---- what a stock needs


def a_batch_travels():
    with Sites(2) as sites:
        expect(sites[1].ask("issue 10"), "number 1")
        expect(sites[1].ask("give 2 4"), "number 2")
        expect(sites[1].ask("tick 1"), "tick expired 0 served 0 asks 0 sent 3")
        wait_for("site 2 holds 4", sees(sites[2], None, held=4, received=4))


def an_ask_is_granted_and_served():
    with Sites(2) as sites:
        sites[1].ask_all(["issue 10", "tick 1"])
        wait_for("site 2 knows of 10", sees(sites[2], 1, applied=1))
        expect(sites[2].ask("spend 6 99"), "queued 1")
        expect(sites[2].ask("outcome 1"), "waiting")
        expect(sites[2].ask("tick 2"), "tick expired 0 served 0 asks 1 sent 2")
        wait_for("site 1 granted 6", sees(sites[1], None, held=4))
        sites[1].ask("tick 3")
        wait_for("site 2 holds 6", sees(sites[2], None, held=6))
        expect(sites[2].ask("tick 4"), "tick expired 0 served 1 asks 0 sent 2")
        expect(sites[2].ask("outcome 1"), "spent 1")
        expect(sites[2].ask("outcome 1"), "unknown")


def an_ask_is_denied():
    with Sites(2) as sites:
        sites[1].ask_all(["issue 5", "tick 1"])
        wait_for("site 2 knows of 5", sees(sites[2], 1, applied=1))
        sites[1].ask("spend 5 9")
        expect(sites[2].ask_all(["spend 5 9", "tick 2"])[1], "tick expired 0 served 0 asks 1 sent 2")
        # The denial ends the ask: the next plan asks again.
        wait_for("the ask is denied", lambda: sites[2].ask("tick 3").startswith("tick expired 0 served 0 asks 1"))
        expect(sites[2].ask("tick 10")[:31], "tick expired 1 served 0 asks 0 ", "at the deadline")
        expect(sites[2].ask("outcome 1"), "expired")


def a_lost_entry_is_asked_for():
    """A proxy loses the first entry: the later one is held, and a query closes the gap."""
    with Sites(2, started=[2]) as sites:
        lost = []

        def drops(line):
            if line.startswith(b"E 1 0 ") and not lost:
                lost.append(line)
                return True
            return False

        proxy = Proxy(at(sites.ports[1]), drops)
        sites.routes[(1, 2)] = proxy.address
        site = sites.start(1)
        site.ask_all(["issue 10", "give 2 3", "tick 1"])
        wait_for("the gap is closed", sees(sites[2], 1, applied=2, buffering=False, held=0))
        expect(sites[2].status()["held"], 3)
        expect(len(lost), 1)
        expect(any(line.startswith(b"A 1 2") for line in proxy.lines), True, "an answer")


def a_cut_connection_heals():
    """All that was sent over a while is lost. The next beat shows the gap, and answers close it."""
    cut = threading.Event()
    with Sites(2, started=[2]) as sites:
        proxy = Proxy(at(sites.ports[1]), lambda line: cut.is_set() and not line.startswith(b"H"))
        sites.routes[(1, 2)] = proxy.address
        site = sites.start(1)
        cut.set()
        site.ask_all(["issue 1000"] + ["give 2 1"] * 100 + ["tick 1"])
        time.sleep(0.2)
        expect(sites[2].status()["held"], 0, "while it is cut")
        cut.clear()

        def healed():
            site.ask("tick 2")
            return sees(sites[2], 1, applied=101, buffering=False)()

        wait_for("all came", healed)
        expect(sites[2].status()["held"], 100)


def a_closed_sites_rights_are_taken_back():
    with Sites(3, started=[2, 3]) as sites:
        lost = threading.Event()
        lost.set()
        proxy = Proxy(at(sites.ports[2]), lambda line: lost.is_set() and line.startswith((b"E 1", b"A 1")))
        sites.routes[(1, 3)] = proxy.address
        sites.start(1)
        sites[1].ask_all(["issue 10", "give 3 4", "tick 1"])
        wait_for("site 2 applied both", sees(sites[2], 1, applied=2))
        # Site 3 closes and never applied the gift; site 1 takes it back.
        expect(sites[3].ask_all(["close", "tick 2"])[0], "number 1")
        wait_for("site 1 took 4 back", sees(sites[1], None, held=10, number=3))
        expect(sites[3].ask("issue 1"), "error Closed")
        wait_for("site 2 knows that site 3 closed", sees(sites[2], 3, applied=1))
        expect(sites[2].ask("give 3 1"), "error PeerClosed")


def waiting_spends_are_served_by_one_tick():
    with Sites(2, started=[1]) as sites:
        expect(sites[1].ask_all(["spend 2 9"] * 5), [f"queued {ticket}" for ticket in range(1, 6)])
        with connect(sites, 1, b"H 2\nE 2 0 2 I:11 R:1:11\n"):
            wait_for("site 1 holds 11", sees(sites[1], None, held=11))
        expect(sites[1].ask("tick 1"), "tick expired 0 served 5 asks 0 sent 6")
        expect([sites[1].ask(f"outcome {n}") for n in range(1, 6)], [f"spent {n}" for n in range(1, 6)])
        expect(sites[1].status()["held"], 1)


def outcomes_that_nobody_reads():
    """32 spends wait or have outcomes that were not read, and no more."""
    with Sites(2, started=[1]) as sites:
        wanted = [f"queued {ticket}" for ticket in range(1, 33)] + ["error QueueFull"]
        expect(sites[1].ask_all(["spend 1 5"] * 33), wanted)
        expect(sites[1].ask("tick 6"), "tick expired 32 served 0 asks 0 sent 1")
        expect(sites[1].ask_all(["spend 1 9"] * 40), ["error QueueFull"] * 40)
        expect(sites[1].ask_all(["outcome 7", "outcome 7"]), ["expired", "unknown"])
        expect(sites[1].ask_all(["spend 1 9", "spend 1 9"]), ["queued 33", "error QueueFull"])
        replies = sites[1].ask_all([f"outcome {ticket}" for ticket in range(1, 34)])
        expect(replies, ["expired"] * 6 + ["unknown"] + ["expired"] * 25 + ["waiting"])


def a_spend_is_cancelled_and_rights_are_taken():
    """What blocks a site is cancelled; what is taken never waits."""
    with Sites(2, started=[1]) as sites:
        expect(sites[1].ask_all(["issue 5", "spend 9 1780000000000000", "spend 2 7"]), ["number 1", "queued 1", "queued 2"])
        expect(sites[1].ask_all(["take 1", "close"]), ["error Short", "error QueueBusy"])
        expect(sites[1].ask_all(["cancel 1", "cancel 1", "outcome 1"]), ["expired", "unknown", "unknown"])
        expect(sites[1].ask("tick 1"), "tick expired 0 served 1 asks 0 sent 3")
        expect(sites[1].ask_all(["cancel 2", "take 4", "take 3", "close", "take 0"]), ["spent 2", "error Short", "spent 3", "number 4", "error Closed"])


def lines_of_the_last_tick_go_out():
    """Rights that a closing site leaves to an heir arrive, though the site ends at once."""
    with Sites(2) as sites:
        sites[1].ask("issue 7")
        sites[1].process.stdin.write(b"close 2\ntick 1\nquit\n")
        expect(sites[1].process.wait(5), 0)
        wait_for("the heir holds 7", sees(sites[2], None, held=7))


def a_site_ends_and_others_go_on():
    with Sites(3) as sites:
        sites[1].kill()
        sites[2].ask_all(["issue 5", "give 3 5", "tick 1"])
        wait_for("site 3 holds 5", sees(sites[3], None, held=5))
        expect(sites[2].ask("spend 1 1"), "queued 1")


# ---- replies


def replies_come_at_once():
    with Sites(2) as sites:
        expect(sites[1].ask_all(["issue 10", "spend 1 1", "nonsense", "", "spend 0 1", "spend 01 1", "give 1 1"]), [
            "number 1", "spent 2", "error BadCommand", "error BadCommand", "error BadAmount", "error BadCommand",
            "error SameSite",
        ])
        expect(sites[1].ask("give 3 1"), "error NoSuchSite")
        expect(sites[1].ask("give 2 10"), "error Short")
        expect(sites[1].ask_all(["tick 5", "tick 4"])[1], "error TimeWentBack")
        expect(sites[1].ask_all(["spend 100 9", "close"]), ["queued 1", "error QueueBusy"])
        expect(sites[1].ask("x" * 20000), "error BadCommand")
        expect(sites[1].ask("status"), '{"closed":false,"held":9,"issued":10,"number":2,"peers":'
               '[{"applied":0,"buffering":false,"held":0,"site":2}],"queued":100,"received":0,"site":1,"spent":1}')


def an_unfinished_last_line_is_a_command():
    done = subprocess.run(site_words(), input=b"issue 3\nspend 1 1", capture_output=True, timeout=PATIENCE)
    expect((done.returncode, done.stdout, done.stderr), (0, b"number 1\nspent 2\n", b""))


def commands_under_keys_are_carried_out_once():
    """The last one has no line feed."""
    text = b"key a issue 3\nkey b spend 1 1\nkey a issue 3\nkey a issue 4\nkey  issue 3\nkey b\nkey c quit\nkey b take 1"
    said = b"number 1\nspent 2\nnumber 1\nerror KeyReused\nerror BadKey\nerror BadCommand\nerror BadKey\nspent 2\n"
    done = subprocess.run(site_words(), input=text, capture_output=True, timeout=PATIENCE)
    expect((done.returncode, done.stdout, done.stderr), (0, said, b""))


def site_words():
    own, other = free_ports(2)
    return [PROGRAM, "run", "--id", "1", "--sites", "2", "--listen", at(own), f"2={at(other)}"]


def stream_that_is_reset(text):
    """A stream that brings this text, and then fails."""
    with socket.create_server(("127.0.0.1", 0)) as server:
        writer = socket.create_connection(server.getsockname())
        reader, _ = server.accept()
        writer.sendall(text)
        reset_at_its_end(writer)
        writer.close()
        return reader


def replies_before_a_read_that_fails():
    with stream_that_is_reset(b"issue 3\nspend 1 1\nstatus") as stream:
        done = subprocess.run(site_words(), stdin=stream, capture_output=True, timeout=PATIENCE)
    expect((done.returncode, done.stdout, done.stderr), (1, b"number 1\nspent 2\n", b"rights-site: read failed\n"))
    folder = os.open(".", os.O_RDONLY)
    try:
        done = subprocess.run(site_words(), stdin=folder, capture_output=True, timeout=PATIENCE)
    finally:
        os.close(folder)
    expect((done.returncode, done.stdout, done.stderr), (1, b"", b"rights-site: read failed\n"), "of a folder")


def dead_peers_hold_nothing_up():
    """Two thousand spends and ticks, with peers that refuse or never answer."""
    deaf = socket.create_server(("127.0.0.1", 0), backlog=1)
    with Sites(3, started=[1], routes={(1, 2): at(deaf.getsockname()[1])}) as sites:
        sites[1].ask("issue 100000")
        for time_now in range(10):
            # One attempt to connect for each line would take hours, and a reply is not awaited for that long.
            replies = sites[1].ask_all(["spend 1 1"] * 2000 + [f"tick {time_now}"])
            expect(all(reply.startswith("spent") for reply in replies[:-1]), True)
        expect(sites[1].end(), 0)
    deaf.close()


# ---- what others may do to a site


def strangers_are_turned_away():
    with Sites(3, started=[1]) as sites:
        for text in [b"B 1 5\n", b"H 9\n", b"H 1\n", b"H 17\n", b"\n", b"\xff\xfe\n", b"H 2 \n", b"x" * 20000]:
            stream = connect(sites, 1, text)
            stream.settimeout(PATIENCE)
            try:
                expect(stream.recv(1), b"", f"after {text[:10]!r}")
            except ConnectionResetError:
                pass
            stream.close()
        expect(sites[1].ask("issue 1"), "number 1")


def silence_is_cut_off():
    """A connection that says nothing is closed after 5 seconds, and holds up nobody."""
    with Sites(3, started=[1]) as sites:
        silent = [connect(sites, 1) for _ in range(40)]
        start = time.monotonic()
        half = connect(sites, 1, b"H ")
        with connect(sites, 1, b"H 3\nE 3 0 2 I:9 R:1:7\n"):
            wait_for("site 1 heard site 3", sees(sites[1], None, received=7))
        half.settimeout(PATIENCE)
        expect(half.recv(1), b"")
        waited = time.monotonic() - start
        if waited < 5:
            raise AssertionError(f"closed after {waited:.1f} seconds")
        for stream in silent:
            stream.close()


def a_silent_peer_holds_up_nobody():
    with Sites(3, started=[1]) as sites:
        with connect(sites, 1, b"H 2\n"), connect(sites, 1, b"H 3\nE 3 0 2 I:9 R:1:7\n"):
            wait_for("site 1 heard site 3", sees(sites[1], None, received=7))


def the_newest_connection_is_heard():
    with Sites(2, started=[1]) as sites:
        with connect(sites, 1, b"H 2\nE 2 0 1 I:9\n") as old:
            wait_for("site 1 hears the first one", sees(sites[1], 2, applied=1))
            with connect(sites, 1, b"H 2\nE 2 1 2 R:1:7\n"):
                wait_for("site 1 heard site 2", sees(sites[1], None, received=7))
                old.settimeout(PATIENCE)
                try:
                    expect(old.recv(1), b"")
                except ConnectionResetError:
                    pass


def answer_at(port, text):
    """Whether a connection on which this is sent is still open a moment later."""
    with socket.create_connection(("127.0.0.1", port), PATIENCE) as stream:
        stream.sendall(text)
        stream.settimeout(0.3)
        try:
            return stream.recv(1) != b""
        except TimeoutError:
            return True
        except ConnectionResetError:
            return False


def a_peer_has_an_entrance():
    """Peer 2 is let in at its own address alone, and nobody else there; peer 3 at the shared one."""
    shared, own, two, three = free_ports(4)
    site = Site(1, 3, at(shared), {2: at(two), 3: at(three)}, PROGRAM, entrances={2: at(own)})
    try:
        for port, text, is_heard in (
            (own, b"H 2\nE 2 0 1 I:1\n", True), (own, b"H 3\nE 3 0 1 I:1\n", False), (own, b"H 1\nE 1 0 1 I:1\n", False),
            (own, b"E 2 0 1 I:1\n", False), (shared, b"H 2\nE 2 1 2 I:1\n", False), (shared, b"H 3\nE 3 0 1 I:1\n", True),
            (shared, b"H 4\nE 4 0 1 I:1\n", False), (own, b"H 2\nE 2 1 2 I:1\n", True),
        ):  # fmt: skip
            expect(answer_at(port, text), is_heard, f"a connection that sends {text!r}, at its own address: {port == own}")
        wait_for("what came the right way", sees(site, 2, applied=2))
        expect([peer["applied"] for peer in site.status()["peers"]], [2, 1])
        expect(site.end(), 0)
    finally:
        site.kill()


def each_peer_has_an_entrance():
    """Three sites that listen for each peer at an address of its own, and nowhere else."""
    inner = {(site, peer): at(port) for (site, peer), port in zip([(s, p) for s in (1, 2, 3) for p in (1, 2, 3) if s != p], free_ports(6))}
    sites = {}
    try:
        for number in (1, 2, 3):
            others = [peer for peer in (1, 2, 3) if peer != number]
            peers = {peer: inner[peer, number] for peer in others}
            sites[number] = Site(number, 3, None, peers, PROGRAM, entrances={peer: inner[number, peer] for peer in others})
        sites[1].ask_all(["issue 10", "give 2 4", "give 3 5", "tick 1"])
        wait_for("a gift to site 2", sees(sites[2], None, held=4))
        wait_for("a gift to site 3", sees(sites[3], None, held=5))
        sites[2].ask_all(["give 3 1", "tick 1"])
        wait_for("a gift of site 2", sees(sites[3], None, held=6))
    finally:
        for site in sites.values():
            site.kill()


def a_link_may_be_silent():
    """Six seconds, which is longer than a first line may take: lines come then as before, both ways."""
    with socket.create_server(("127.0.0.1", 0)) as ear:
        with Sites(2, started=[1], routes={(1, 2): at(ear.getsockname()[1])}) as sites:
            sites[1].ask("tick 1")
            heard = ear.accept()[0]
            heard.settimeout(PATIENCE)
            with connect(sites, 1, b"H 2\nE 2 0 2 I:9 R:1:3\n") as stream, heard, heard.makefile("rb") as lines:
                wait_for("site 1 heard site 2", sees(sites[1], None, received=3))
                expect([lines.readline(), lines.readline()], [b"H 1\n", b"B 1 0\n"])
                time.sleep(6)
                stream.sendall(b"E 2 2 3 R:1:4\n")
                wait_for("site 1 heard site 2 again", sees(sites[1], None, received=7))
                sites[1].ask_all(["spend 7 1", "tick 1"])
                expect([lines.readline(), lines.readline()], [b"E 1 0 1 S:7\n", b"B 1 1\n"], "on the same connection")


def connections_leave_nothing_behind():
    """More connections than may wait for a first line, each ended in one of six ways: their places, threads and handles
    are free again."""
    with Sites(3, started=[1]) as sites:
        folder = f"/proc/{sites[1].process.pid}"

        def used():
            return [len(os.listdir(f"{folder}/{kind}")) for kind in ("task", "fd")]

        before = used()
        for way in range(240):
            text = [b"", b"H ", b"H 9\n", b"x" * 20000, b"H 2\n", b"H 2\nB 2 0\nE 2 "][way % 6]
            with suppress(OSError), connect(sites, 1, text) as stream:
                if way % 4 == 0:
                    reset_at_its_end(stream)
                elif way % 4 == 1:
                    stream.shutdown(socket.SHUT_WR)
        wait_for("all is free", lambda: all(now <= then for now, then in zip(used(), before)))

        def is_heard():
            # A connection that comes while the last of the others are not accepted yet may be turned away.
            with suppress(OSError), connect(sites, 1, b"H 3\nE 3 0 2 I:9 R:1:7\n"):
                time.sleep(0.1)
                return sees(sites[1], None, received=7)()

        wait_for("site 1 heard site 3", is_heard)


def a_half_closed_connection_is_heard_to_its_end():
    """A peer that ends its output still waits for the end of the site's."""
    with Sites(2, started=[1]) as sites, connect(sites, 1, b"H 2\nE 2 0 2 I:9 R:1:7\n") as stream:
        wait_for("site 1 heard site 2", sees(sites[1], None, received=7))
        stream.sendall(b"E 2 2 3 R:1:1\n")
        stream.shutdown(socket.SHUT_WR)
        stream.settimeout(PATIENCE)
        expect(stream.recv(1), b"", "the site closes the connection too")
        wait_for("site 1 heard the last line", sees(sites[1], None, received=8))


def one_of_several_connections_stays():
    """A peer that connects four times at once, again and again: all but one of the connections are closed."""
    with Sites(2, started=[1]) as sites:
        for turn in range(20):
            with ExitStack() as stack:
                streams = [stack.enter_context(connect(sites, 1, b"H 2\n")) for _ in range(4)]
                wait_for("three are closed", lambda: len(select.select(streams, [], [], 0)[0]) == 3)
                ended = select.select(streams, [], [], 0.01)[0]
                (heard,) = [stream for stream in streams if stream not in ended]
                heard.sendall(b"E 2 %d %d I:1\n" % (turn, turn + 1))
                wait_for("the other is heard", sees(sites[1], 2, applied=turn + 1))


def an_entry_of_sixteen_moves():
    with Sites(2, started=[1]) as sites:
        moves = b" ".join(b"R:1:%d" % n for n in range(1, 17))
        with connect(sites, 1, b"H 2\nE 2 0 16 " + moves + b"\nE 2 16 33 " + moves + b" I:1\n"):
            wait_for("site 1 applied 16 moves", sees(sites[1], 2, applied=16))
            expect(sites[1].status()["received"], 136)
        with connect(sites, 1, b"H 2\nA 2 1;E 2 16 32 " + moves + b"\n"):
            wait_for("site 1 applied 16 moves of an answer", sees(sites[1], 2, applied=32, buffering=False))
            expect(sites[1].status()["received"], 272)


def entries_are_held():
    """The status of a site that holds 60 entries, and of one that holds 64 and lost more."""
    with Sites(2, started=[1]) as sites:

        def says(applied, held, received):
            peer = f'{{"applied":{applied},"buffering":{str(held > 0).lower()},"held":{held},"site":2}}'
            wanted = (
                f'{{"closed":false,"held":{received},"issued":0,"number":0,"peers":[{peer}],'
                f'"queued":0,"received":{received},"site":1,"spent":0}}'
            )
            wait_for(wanted, lambda: sites[1].ask("status") == wanted)

        later = [b"E 2 %d %d R:1:1\n" % (n, n + 1) for n in range(1, 71)]
        with connect(sites, 1, b"H 2\n" + b"".join(later[:60])) as stream:
            says(0, 60, 0)
            stream.sendall(b"".join(later[60:]))
            says(0, 64, 0)
            # The last six were lost, so they are missing still.
            stream.sendall(b"E 2 0 1 R:1:1\n")
            wait_for("site 1 applied 65", sees(sites[1], 2, applied=65, buffering=True, held=0))
            stream.sendall(b"".join(later[64:]))
            says(71, 0, 71)


def bad_lines_are_skipped():
    with Sites(2, started=[1]) as sites:
        lines = b"H 2\nnonsense\nE 2 0 1 I:0\nE 3 0 1 I:1\n" + b"x" * 20000 + b"\nQ 2 1 0 0\nE 2 0 2 I:9 R:1:7\nE 2 2 3"
        with connect(sites, 1, lines):
            wait_for("site 1 heard site 2", sees(sites[1], None, received=7))
        with connect(sites, 1, b"H 2\nE 2 2 3 R:1:1\n"):
            wait_for("the torn line came again", sees(sites[1], None, received=8))


def a_flood_grows_nothing():
    """Megabytes of repeats, and of entries that can't be held."""
    with Sites(2, started=[1]) as sites:

        def room():
            with open(f"/proc/{sites[1].process.pid}/status") as status:
                return next(int(line.split()[1]) for line in status if line.startswith("VmRSS"))

        with connect(sites, 1, b"H 2\nE 2 0 1 I:9\n") as stream:
            wait_for("site 1 heard site 2", sees(sites[1], 2, applied=1))
            before = room()
            block = b"".join(b"E 2 %d %d I:1\n" % (n, n + 1) for n in range(2, 20002)) + b"E 2 0 1 I:9\n" * 20000
            for _ in range(10):
                stream.sendall(block)
            stream.sendall(b"E 2 1 2 R:1:1\n")
            wait_for("the flood is over", sees(sites[1], None, received=1), 2 * PATIENCE)
        if room() > before + 20000:
            raise AssertionError(f"{room() - before} KiB more")


def a_peer_that_reads_nothing():
    """Its outbox fills, lines are lost, and the site goes on and ends in time."""
    deaf = socket.create_server(("127.0.0.1", 0))
    with Sites(2, started=[1], routes={(1, 2): at(deaf.getsockname()[1])}) as sites:
        sites[1].ask("issue 1000000000")
        full = False
        for time_now in range(400):
            replies = sites[1].ask_all(["spend 1 1"] * 200 + [f"tick {time_now}"])
            full = full or not replies[-1].endswith("sent 201")
            if time_now == 0:
                stream, _ = deaf.accept()
        # A tick waits 50 ms for such a peer, but not each tick: that would take 200 seconds.
        start = time.monotonic()
        sites[1].ask_all(["tick 400"] * 4000)
        expect(time.monotonic() - start < 150, True, "each tick waited")
        expect(sites[1].end(), 0)
        stream.close()
    deaf.close()


def queries_for_a_peer_that_reads_nothing():
    """Each beat asks for a query, until the peer's buffers and its outbox are full. Once it reads, what comes are whole
    lines, and then the query for the last beat."""
    deaf = socket.socket()
    deaf.setsockopt(socket.SOL_SOCKET, socket.SO_RCVBUF, 4096)
    deaf.bind(("127.0.0.1", 0))
    deaf.listen(1)
    beats = 300_000
    with Sites(2, started=[1], routes={(1, 2): at(deaf.getsockname()[1])}) as sites:
        sites[1].ask("tick 1")
        heard, _ = deaf.accept()
        lines = b"".join(b"B 2 %d\n" % number for number in range(1, beats))
        spoken = connect(sites, 1, b"H 2\n" + lines + b"E 2 0 1 I:9\n")
        wait_for("all beats are taken", sees(sites[1], 2, applied=1), 2 * PATIENCE)
        heard.settimeout(0.5)
        text = read_all(heard)
        last = b"Q 1 2 2 %d\n" % beats

        def has_asked():
            nonlocal text
            spoken.sendall(b"B 2 %d\n" % beats)
            text += read_all(heard)
            return text.endswith(last)

        wait_for("the query for the last beat", has_asked)
        first, *queries, rest = text.split(b"\n")
        expect((first, rest), (b"H 1", b""))
        expect([line for line in queries if not re.fullmatch(rb"Q 1 2 [12] [1-9][0-9]*|B 1 0", line)], [])
        expect(len(queries) > 1000, True, "many queries come")
        heard.close()
        spoken.close()
    deaf.close()


def ticks_that_wait(site, follows=lambda spends: True):
    """Ten ticks at once, each with more lines than fit beside those of the one before: the site waits until those are
    sent. On a busy machine that may take longer than it waits, but not each time."""
    turns = 0

    def waits():
        nonlocal turns
        turns += 1
        replies = site.ask_all((["spend 1 0"] * 200 + ["tick 1"]) * 10)
        # What was lost is asked for after the beat of another tick.
        wait_for("all are applied", lambda: site.ask("tick 1") and follows(2000 * turns))
        return all(reply.endswith("sent 201") for reply in replies[200::201])

    wait_for("no line is lost", waits)


def ticks_in_a_row_wait_for_space():
    with Sites(2) as sites:
        sites[1].ask_all(["issue 1000000", "tick 1"])
        ticks_that_wait(sites[1], lambda spends: sees(sites[2], 1, applied=1 + spends)())


def ticks_wait_again_once_lines_are_sent():
    """A tick waits in vain for a peer that answers no attempt to connect. Once that peer reads, ticks wait as before."""
    peer = Peer(2, is_late=True)
    peer.grow_deaf()
    with Sites(2, started=[1], routes={(1, 2): peer.address}) as sites:
        sites[1].ask_all(["issue 1000000", "tick 1", *["spend 1 0"] * 300, "tick 1"])
        peer.listen()
        expect(peer.accept(PATIENCE), True, "the site connects")
        threading.Thread(target=read_all, args=(peer.heard,), daemon=True).start()
        ticks_that_wait(sites[1])
    peer.close()


def read_all(stream):
    """What comes until the end, or until nothing does for as long as the stream waits."""
    text = b""
    with suppress(OSError):
        while part := stream.recv(1 << 20):
            text += part
    return text


# ---- memory that is refused


def limited(kibibytes):
    """The program where it gets no more address space than that: in words."""
    return ["sh", "-c", f'ulimit -v {kibibytes}; exec "$0" "$@"', PROGRAM, "run"]


def a_start_without_memory():
    """It runs, or says why not and ends."""
    starts = 0
    for kibibytes in range(4000, 64001, 4000):
        words = limited(kibibytes) + ["--id", "1", "--sites", "2", "--listen", "127.0.0.1:0", "2=127.0.0.1:1"]
        done = subprocess.run(words, input=b"issue 10\nspend 3 9\n", capture_output=True, timeout=PATIENCE)
        if b"error OutOfMemory" in done.stdout:
            # The start was just granted what it wanted.
            continue
        if done.returncode == 0:
            starts += 1
            expect((done.stdout, done.stderr), (b"number 1\nspent 2\n", b""), kibibytes)
        else:
            expect((done.returncode, done.stderr), (1, b"rights-site: out of memory\n"), kibibytes)
    if starts == 0:
        raise AssertionError("it never started")


def memory_runs_out():
    """A spend that gets none changes nothing, and the site goes on with what it has."""
    with Sites(2, started=[1], programs={1: limited(60000)}) as sites:
        expect(sites[1].ask("issue 1000000000"), "number 1")
        spent = 0
        replies = []
        while "error OutOfMemory" not in replies:
            replies = sites[1].ask_all(["spend 1 9"] * 500)
            spent += sum(reply.startswith("spent ") for reply in replies)
        expect(sites[1].ask("spend 1 9"), "error OutOfMemory")
        status = sites[1].status()
        expect((status["spent"], status["number"], status["held"]), (spent, spent + 1, 10**9 - spent))
        expect(sites[1].end(), 0)


def ends_at_a_take_back(kibibytes):
    """Whether a site that found no memory ends, when what was on the way to a closed peer is to be taken back by an entry.
    The rest of a block may still have room for that entry."""
    with Cluster(2, started=[1], programs={1: limited(kibibytes)}) as sites:
        sites[1].ask("issue 1000000000")
        with connect(sites, 1, b"H 2\nE 2 0 1 I:1\n") as stream:
            wait_for("site 1 heard site 2", sees(sites[1], 2, applied=1))
            replies, gifts = [], []
            while "error OutOfMemory" not in replies:
                replies = sites[1].ask_all(["give 2 1"] + ["spend 1 9"] * 500)
                gifts += [int(reply[7:]) for reply in replies if reply.startswith("number ")]
            # The peer applied all before the last gift, and closes.
            stream.sendall(b"E 2 1 2 K:%d:0\n" % (gifts[-1] - 1))
            # Commands are answered until the entry is applied.
            until = time.monotonic() + 2
            try:
                while time.monotonic() < until:
                    sites[1].ask("outcome 1")
            except SiteEnded:
                expect((sites[1].process.wait(PATIENCE), sites[1].said()), (1, "rights-site: out of memory\n"))
                return True
    return False


def an_applier_without_memory():
    """An applier that finds no memory ends the program. With some limits it is the reader that finds none first."""
    if not any(ends_at_a_take_back(kibibytes) for kibibytes in range(57000, 65000, 777)):
        raise AssertionError("no applier ended the program")


# ---- ends


def the_end_of_input_ends_it():
    with Sites(2, started=[1]) as sites:
        with connect(sites, 1), connect(sites, 1, b"H 2\n"):
            time.sleep(0.1)
            sites[1].process.stdin.close()
            expect(sites[1].process.wait(PATIENCE), 0)


def an_address_in_use_is_refused():
    with socket.create_server(("127.0.0.1", 0)) as taken:
        for address in [at(taken.getsockname()[1]), "", "nowhere", "127.0.0.1:99999", "256.1.1.1:1"]:
            words = [PROGRAM, "run", "--id", "1", "--sites", "2", "--listen", address, "2=127.0.0.1:1"]
            done = subprocess.run(words, input=b"issue 1\n", capture_output=True, timeout=PATIENCE)
            expect((done.returncode, done.stdout, done.stderr), (1, b"", b"rights-site: cannot listen\n"), address)


def an_entrance_in_use_is_refused():
    """As --listen is; and so are two entrances at one address. No later command is read."""
    own, other = map(at, free_ports(2))
    with socket.create_server(("127.0.0.1", 0)) as taken:
        held = at(taken.getsockname()[1])
        for words in (["--listen", own, "--from", f"2={held}"], ["--from", f"2={own}", "--from", "3=nowhere"],
                      ["--from", f"2={own}", "--from", f"3={own}"], ["--listen", own, "--from", f"3={own}"],
                      ["--from", f"2={own}", "--from", "3="]):  # fmt: skip
            words = [PROGRAM, "run", "--id", "1", "--sites", "3", *words, f"2={other}", f"3={other}"]
            done = subprocess.run(words, input=b"issue 1\n", capture_output=True, timeout=PATIENCE)
            explained = done.stderr.splitlines(keepends=True)
            expect((done.returncode, done.stdout, explained[0]), (1, b"", b"rights-site: cannot listen\n"), str(words))
            expect(len(explained), 2, f"the address is named: {done.stderr!r}")


def other_addresses():
    """Names, and IPv6 where this machine has it."""
    port, other = free_ports(2)
    addresses = ["localhost"]
    try:
        socket.create_server(("::1", 0), family=socket.AF_INET6).close()
        addresses.append("[::1]")
    except OSError:
        pass
    for host in addresses:
        one = Site(1, 2, f"{host}:{port}", {2: f"{host}:{other}"}, PROGRAM)
        two = Site(2, 2, f"{host}:{other}", {1: f"{host}:{port}"}, PROGRAM)
        try:
            two.status()
            one.ask_all(["issue 10", "give 2 4", "tick 1"])
            wait_for(f"a gift by {host}", sees(two, None, held=4))
        finally:
            one.kill()
            two.kill()


# ---- the client class


def refusal_of(call, kind):
    """What the call says where it raises this, as it should."""
    try:
        call()
    except kind as error:
        return str(error)
    raise AssertionError(f"no {kind.__name__} was raised")


def a_start_that_fails_is_said():
    own, other = free_ports(2)
    with socket.create_server(("127.0.0.1", 0)) as taken:
        address = at(taken.getsockname()[1])
        said = refusal_of(lambda: Site(1, 2, address, {2: at(other)}, PROGRAM), SiteEnded)
        expect(said, "site 1: the process ended; last line on standard error: rights-site: cannot listen")
    expect(refusal_of(lambda: Site(3, 2, at(own), {2: at(other)}, PROGRAM), SiteEnded)[-16:], "bad command line")
    mute = ["sh", "-c", "echo starting >&2; exec sleep 60", "sh"]

    def is_said(seconds):
        silent = refusal_of(lambda: Site(1, 2, at(own), {2: at(other)}, mute, timeout=seconds), rights_site.SiteSilent)
        return silent == f"site 1: no reply within {seconds} seconds; last line on standard error: starting"

    # On a busy machine that line may come late.
    expect(any(is_said(seconds) for seconds in (0.3, 3, 30)), True)


def a_program_that_is_nowhere_is_said():
    beside, path = rights_site.BESIDE, os.environ["PATH"]
    rights_site.BESIDE, os.environ["PATH"] = "/none/rights-site", "/none/bin"
    try:
        said = refusal_of(rights_site.find_program, FileNotFoundError)
    finally:
        rights_site.BESIDE, os.environ["PATH"] = beside, path
    expect("/none/rights-site" in said and "/none/bin" in said, True, said)


def one_command_a_line():
    with Sites(2, started=[1]) as sites:
        for command in ("issue 1\nissue 1", "issue 1\n", "quit"):
            refusal_of(lambda: sites[1].ask_all(["issue 1", command]), ValueError)
        expect(sites[1].ask_all(["issue 5", "status"])[0], "number 1")


def threads_share_a_client():
    """Each gets the replies to its own commands, though they come in any order."""
    with Sites(2, started=[1]) as sites:
        faults = []

        def ask(place):
            for _ in range(50):
                wanted = [f"error {'BadAmount' if place % 2 else 'NoSuchSite'}"] * place
                replies = sites[1].ask_all(["issue 0" if place % 2 else "give 9 1"] * place)
                faults.extend([replies] if replies != wanted else [])

        threads = [threading.Thread(target=ask, args=(place,)) for place in range(1, 9)]
        for thread in threads:
            thread.start()
        for thread in threads:
            thread.join()
        expect(faults, [])


def threads_of_idle_sites_sleep():
    """All of them, also after a site caught up, when threads polled for the next line: none runs, or wants to."""
    with Sites(2, started=[1]) as sites:
        sites[1].ask_all(["issue 5000", *["spend 1 0"] * 4999])
        sites[1].ask("tick 1")
        sites.start(2)
        wait_for("site 2 caught up", lambda: sites[1].ask("tick 1") and sees(sites[2], 1, applied=5000)())
        for number in (1, 2):
            wait_for(f"the threads of site {number} sleep", lambda: all_sleep(sites[number]))


CASES = [case("Loopback", [
    a_batch_travels,
    an_ask_is_granted_and_served,
    an_ask_is_denied,
    a_lost_entry_is_asked_for,
    a_cut_connection_heals,
    a_closed_sites_rights_are_taken_back,
    waiting_spends_are_served_by_one_tick,
    outcomes_that_nobody_reads,
    a_spend_is_cancelled_and_rights_are_taken,
    lines_of_the_last_tick_go_out,
    a_site_ends_and_others_go_on,
    replies_come_at_once,
    an_unfinished_last_line_is_a_command,
    commands_under_keys_are_carried_out_once,
    replies_before_a_read_that_fails,
    dead_peers_hold_nothing_up,
    strangers_are_turned_away,
    silence_is_cut_off,
    a_silent_peer_holds_up_nobody,
    the_newest_connection_is_heard,
    a_peer_has_an_entrance,
    each_peer_has_an_entrance,
    a_link_may_be_silent,
    connections_leave_nothing_behind,
    a_half_closed_connection_is_heard_to_its_end,
    one_of_several_connections_stays,
    an_entry_of_sixteen_moves,
    entries_are_held,
    bad_lines_are_skipped,
    a_flood_grows_nothing,
    a_peer_that_reads_nothing,
    queries_for_a_peer_that_reads_nothing,
    ticks_in_a_row_wait_for_space,
    ticks_wait_again_once_lines_are_sent,
    a_start_without_memory,
    memory_runs_out,
    an_applier_without_memory,
    the_end_of_input_ends_it,
    an_address_in_use_is_refused,
    an_entrance_in_use_is_refused,
    other_addresses,
    a_start_that_fails_is_said,
    a_program_that_is_nowhere_is_said,
    one_command_a_line,
    threads_share_a_client,
    threads_of_idle_sites_sleep,
])]
