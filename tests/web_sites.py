"""Tests of sites that serve HTTP: spends that are waited for, metrics, lines of the log, options, and the end."""

import json
import os
import re
import resource
import signal
import socket
import subprocess
import tempfile
import time
from contextlib import ExitStack, suppress

from cluster import PATIENCE, TOP, Cluster, at, expect, free_ports, processor_seconds, sees, wait_for
from site_model import RunningSite
from web_driver import Client, WebCluster, alone, expect_served, post, request, samples, seats

from rights_http import in_seconds


# ---- waiting


def waiting(sites, amount):
    """Waits until spends of so many rights wait."""
    wait_for(f"spends of {amount} wait", lambda: sites[1].status()["queued"] == amount)


def expect_slots(sites, waiting, unread):
    """Of the slots of the queue so many are taken."""
    found = sites.metrics()
    expect((found["rights_requests_waiting"], found["rights_outcomes_unread"]), (waiting, unread), "slots that wait, and unread ones")


def wait_that_is_answered_at_once():
    with alone() as sites, sites.client() as client:
        for command, answer in [
            ("issue 5", (200, ["number 1"])), ("spend 2 0", (200, ["spent 2"])), ("spend 0 0", (409, ["error BadAmount"])),
            ("nonsense", (400, ["error BadCommand"])), ("quit", (400, ["error BadCommand"])), ("outcome 3", (200, ["unknown"])),
            ("give 2 9", (409, ["error Short"])),
        ]:
            expect(client.command(command, target="/wait"), answer, command)
        for body in (b"", b"issue 1\nissue 1\n", b"spend 1 0\n\n", b"issue 1\nspend"):
            answer = client.ask(request("POST", "/wait", body))
            expect_served(answer, 400, b"error BadCommand\n", what=f"{body!r}")
        expect((sites[1].status()["issued"], sites[1].status()["spent"]), (5, 2))


def wait_that_is_served_by_a_tick():
    with alone() as sites, sites.client() as client:
        # What follows on the same connection is answered after it.
        client.send(post("spend 5 9", target="/wait") + post("outcome 1"))
        waiting(sites, 5)
        expect_slots(sites, 1, 0)
        expect(sites[1].ask_all(["outcome 1", "issue 7"]), ["waiting", "number 1"])
        time.sleep(0.1)
        expect(client.unread, b"")
        expect(sites.command("tick 1"), (200, ["tick expired 0 served 1 asks 0 sent 3"]))
        expect_served(client.read(), 200, b"spent 2\n")
        expect_served(client.read(), 200, b"unknown\n", what="the outcome was told")
        expect_slots(sites, 0, 0)


def wait_that_expires():
    with alone() as sites, sites.client() as client, sites.client() as other:
        client.send(post("spend 5 9", target="/wait"))
        waiting(sites, 5)
        other.send(post("spend 5 20", target="/wait"))
        waiting(sites, 10)
        sites[1].ask_all(["tick 9", "tick 10"])
        expect_served(client.read(), 200, b"expired\n")
        waiting(sites, 5)
        sites[1].ask("tick 21")
        expect_served(other.read(), 200, b"expired\n")
        expect_slots(sites, 0, 0)


def waits_that_fill_the_queue():
    with alone() as sites, ExitStack() as stack:
        clients = [stack.enter_context(sites.client()) for _ in range(32)]
        for count, client in enumerate(clients, 1):
            client.send(post("spend 1 9", target="/wait"))
            waiting(sites, count)
        for target in ("/", "/wait"):
            expect(sites.command("spend 1 9", target=target), (409, ["error QueueFull"]))
        sites[1].ask_all(["issue 20", "tick 1"])
        expect([client.read().body for client in clients[:20]], [b"spent %d\n" % n for n in range(2, 22)])
        expect_slots(sites, 12, 0)
        sites[1].ask("tick 10")
        expect([client.read().body for client in clients[20:]], [b"expired\n"] * 12)
        expect(sites.command("spend 1 10"), (200, ["queued 33"]))


def waits_whose_clients_have_gone():
    """However they go, their spends are cancelled: no place and no slot of the queue stays taken."""
    with alone() as sites:
        clients = [sites.client() for _ in range(60)]
        for client in clients:
            client.send(post("spend 5 999999", target="/wait"))
        wait_for("the queue is full", lambda: sites.metrics()["rights_requests_waiting"] == 32)
        for way, client in enumerate(clients):
            client.reset() if way % 2 else client.close()
        seats(sites, 1)
        expect_slots(sites, 0, 0)
        expect(sites.command("issue 7"), (200, ["number 1"]))
        expect(sites.command("spend 5 9", target="/wait"), (200, ["spent 2"]))
        report = sites.end()
        expect((report.spent, report.told_spent, report.told_served), (5, 5, 0))


def a_wait_whose_client_sends_no_more():
    """A client that shuts its connection down for writing has left too. It can still read what became of its spend. What
    it sent before does not hide that."""
    with alone() as sites, sites.client() as client:
        client.send(post("spend 5 999999", target="/wait") + post("issue 3"))
        waiting(sites, 5)
        client.stream.shutdown(socket.SHUT_WR)
        expect_served(client.read(), 200, b"expired\n")
        expect_served(client.read(), 200, b"number 1\n")
        expect(client.has_ended(), True)
        expect_slots(sites, 0, 0)


def waits_at_the_end():
    with alone() as sites, sites.client() as client, sites.client() as other:
        client.send(post("spend 5 9", target="/wait"))
        waiting(sites, 5)
        other.send(post("spend 5 9", target="/wait"))
        waiting(sites, 10)
        sites.end()
        expect_served(client.read(), 200, b"queued 1\n")
        expect_served(other.read(), 200, b"queued 2\n")
        expect((client.has_ended(), other.has_ended()), (True, True))


# ---- what the site says of itself

PLAIN = {
    "rights_held": "gauge", "rights_queued": "gauge", "rights_issued_total": "counter", "rights_spent_total": "counter",
    "rights_received_total": "counter", "rights_given_total": "counter", "rights_taken_back_total": "counter",
    "rights_log_moves_total": "counter", "rights_closed": "gauge", "rights_requests_waiting": "gauge",
    "rights_outcomes_unread": "gauge", "rights_clock_behind_seconds": "gauge", "rights_clients": "gauge",
    "rights_commands_total": "counter", "rights_log_lines_dropped_total": "counter",
}
OF_PEERS = {
    "rights_peer_moves_applied_total": "counter", "rights_peer_buffering": "gauge", "rights_peer_entries_held": "gauge",
    "rights_peer_receiving": "gauge", "rights_peer_sending": "gauge", "rights_peer_silent_seconds": "gauge",
    "rights_peer_lines_total": "counter",
    "rights_peer_lines_refused_total": "counter", "rights_peer_lines_dropped_total": "counter",
    "rights_peer_lines_waiting": "gauge", "rights_peer_number_went_back_total": "counter",
}
REFUSED = "rights_commands_refused_total"


def the_form_of_metrics():
    """Each name once, with its help and its type before its samples, as Prometheus reads them."""
    with WebCluster(3, started=[1]) as sites, sites.client() as client:
        client.command("nonsense")
        client.command("give 2 1")
        body = client.ask(request("GET", "/metrics")).body
    expect(body[-1:], b"\n")
    kinds, helped, seen = {}, [], []
    for line in body.decode("ascii").splitlines():
        if line.startswith("# HELP "):
            helped.append(line.split(" ")[2])
            expect(len(line.split(" ")) > 3, True, line)
        elif line.startswith("# TYPE "):
            name, kind = line.split(" ")[2:]
            expect((helped[-1], name in kinds), (name, False), "the help of a name stands before its type, once")
            kinds[name] = kind
        else:
            expect(re.split("[{ ]", line)[0], helped[-1], "the name of a sample")
            seen.append(line)
    expect(kinds, {**PLAIN, **OF_PEERS, REFUSED: "counter"})
    found = samples(body)
    expect({key for key in found if isinstance(key, str)}, set(PLAIN))
    expect({key for key in found if not isinstance(key, str) and key[0] != REFUSED},
           {(name, peer) for name in OF_PEERS for peer in ("2", "3")})
    expect({key: count for key, count in found.items() if key[0] == REFUSED and count},
           {(REFUSED, "BadCommand"): 1, (REFUSED, "Short"): 1})


def metrics_are_the_status():
    """At rest, each value is that of the status, and what is counted is what was done."""
    with WebCluster(3) as sites:
        commands = [
            (1, ["issue 100", "give 2 20", "give 3 10", "spend 5 0", "spend 0 0", "x", "quit", "tick 1"]),
            (2, ["spend 3 0", "spend 90 9", "give 3 1", "tick 1"]), (1, ["tick 2"]), (3, ["close 1", "tick 1"]),
        ]
        count = dict.fromkeys((1, 2, 3), 0)
        for number, lines in commands:
            expect(sites.command(*lines, number=number)[0], 200)
            count[number] += len(lines)
            time.sleep(0.2)
        for number in (1, 2, 3):
            with sites.client(number) as client:
                wait_for("the site is at rest", lambda: are_alike(client, sites.count, number))
                found = samples(client.ask(request("GET", "/metrics")).body)
            # The site was asked for its status when it was started.
            expect(found["rights_commands_total"], count[number] + 1, f"the commands of site {number}")
            expect(found["rights_clients"], 1)
        found = sites.metrics(1)
        expect({key[1]: n for key, n in found.items() if key[0] == REFUSED and n}, {"BadCommand": 2, "BadAmount": 1})
        expect((found["rights_peer_receiving", "2"], found["rights_peer_sending", "3"]), (1, 1))
        expect(sites.metrics(3)["rights_closed"], 1)


def are_alike(client, count, number):
    """Whether metrics and status say the same."""
    status = json.loads(client.ask(request("GET", "/status")).body)
    found = samples(client.ask(request("GET", "/metrics")).body)
    wanted = {
        "rights_held": status["held"], "rights_queued": status["queued"], "rights_issued_total": status["issued"],
        "rights_spent_total": status["spent"], "rights_received_total": status["received"],
        "rights_log_moves_total": status["number"], "rights_closed": int(status["closed"]),
    }
    for peer in status["peers"]:
        label = str(peer["site"])
        wanted["rights_peer_moves_applied_total", label] = peer["applied"]
        wanted["rights_peer_buffering", label] = int(peer["buffering"])
        wanted["rights_peer_entries_held", label] = peer["held"]
    expect(len(status["peers"]), count - 1)
    balance = found["rights_issued_total"] + found["rights_received_total"] + found["rights_taken_back_total"]
    spent = found["rights_spent_total"] + found["rights_given_total"]
    expect(balance - spent, found["rights_held"], f"issued + received + taken back - spent - given of site {number}")
    return all(found[key] == value for key, value in wanted.items())


class Ear:
    """The test as peer 2 of site 1, whose other peers are not there."""

    def __init__(self, stack, **options):
        self.listener = stack.enter_context(socket.create_server(("127.0.0.1", 0)))
        self.sites = stack.enter_context(WebCluster(3, started=[1], routes={(1, 2): at(self.listener.getsockname()[1])}, **options))
        self.site = self.sites[1]

    def speak(self, text):
        stream = socket.create_connection(("127.0.0.1", self.sites.ports[0]))
        stream.sendall(b"H 2\n" + text)
        return stream

    def metric(self, name):
        return self.sites.metrics()[f"rights_peer_{name}", "2"]

    def waits_for(self, **values):
        for name, value in values.items():
            wait_for(f"{name} is {value}", lambda: self.metric(name) == value)

    def said(self, is_sending=False):
        """The lines of its log on peer 2: those on what it sends to it, or all others."""
        start = "rights-site: peer 2: "
        lines = [line[len(start) :] for line in self.site.said().splitlines() if line.startswith(start)]
        return [line for line in lines if line.startswith("sends to it") == is_sending]


def lines_of_a_peer_are_counted():
    with ExitStack() as stack:
        ear = Ear(stack)
        expect((ear.metric("receiving"), ear.metric("sending"), ear.metric("lines_total")), (0, 0, 0))
        stream = stack.enter_context(ear.speak(b"E 2 0 2 I:9 R:1:7\nB 2 9\nnonsense\nB 3 1\nE 2 3 4 I:1\n"))
        ear.waits_for(lines_total=5, lines_refused_total=2, moves_applied_total=2, buffering=1, entries_held=1, receiving=1)
        stream.sendall(b"A 2 1;E 2 2 3 I:1\nx\n")
        ear.waits_for(lines_total=7, lines_refused_total=3, moves_applied_total=4, entries_held=0)
        stream.sendall(b"B 2 3\n")
        ear.waits_for(number_went_back_total=1)
        stream.sendall(b"B 2 4\nB 2 2\n")
        ear.waits_for(number_went_back_total=2, lines_total=10)
        stream.close()
        ear.waits_for(receiving=0)
        ear.site.ask("tick 1")
        heard = stack.enter_context(ear.listener.accept()[0])
        ear.waits_for(sending=1)
        expect(ear.metric("lines_dropped_total"), 0)
        # Each tick has more lines than an outbox holds.
        ear.site.ask("issue 100000")
        for time_now in range(2, 22):
            ear.site.ask_all(["spend 1 0"] * 800 + [f"tick {time_now}"])
        if ear.metric("lines_dropped_total") == 0 or ear.metric("lines_waiting") > 256:
            raise AssertionError(f"dropped {ear.metric('lines_dropped_total')}, waiting {ear.metric('lines_waiting')}")
        heard.close()


def lines_for_a_dead_peer_are_dropped():
    """Each takes an attempt to connect with it."""
    with alone() as sites:
        expect(sites.command("issue 5", "tick 1"), (200, ["number 1", "tick expired 0 served 0 asks 0 sent 2"]))
        wait_for("both are dropped", lambda: sites.metrics()["rights_peer_lines_dropped_total", "2"] == 2)
        expect(sites.metrics()["rights_peer_sending", "2"], 0)


def what_is_said_of_a_peer():
    with ExitStack() as stack:
        ear = Ear(stack, log=True)
        port, web = ear.sites.ports[0], ear.sites.web_ports[0]
        wait_for("it says that it listens", ear.site.said)
        expect(ear.site.said().splitlines()[0], f"rights-site: site 1 of 3 listens on 127.0.0.1:{port}, http on 127.0.0.1:{web}")

        def says(*lines):
            wait_for(f"it says {lines}", lambda: [*lines] == ear.said()[-len(lines) :] or None)

        stream = stack.enter_context(ear.speak(b"E 2 0 1 I:9\n"))
        says("receives from it")
        stream.sendall(b"B 2 1\nB 2 6\nB 2 6\n")
        says("receives from it", "lacks 2 to 6 of its log")
        stream.sendall(b"E 2 1 6 I:1 I:1 I:1 I:1 I:1\n")
        says("lacks 2 to 6 of its log", "lacks nothing")
        stream.sendall(b"nonsense\nnonsense\nnonsense\nB 2 6\n")
        ear.waits_for(lines_refused_total=3)
        wait_for("it says that it skips lines", lambda: ear.said()[-1].startswith("skips lines: "))
        expect(sum(line.startswith("skips lines: ") for line in ear.said()), 1, ear.said())
        stream.sendall(b"nonsense\n")
        wait_for("it says so once more", lambda: sum(line.startswith("skips lines: ") for line in ear.said()) == 2)
        stream.sendall(b"B 2 6\nB 2 3\nB 2 3\n")
        says("its log went back: it says 3, and 6 were applied. It was started anew, or runs twice")
        stream.close()
        says("receives from it no more")
        expect(len([line for line in ear.said() if line.startswith("its log went back")]), 1, "said once")
        # It connected to ask for what was missing.
        expect(ear.said(is_sending=True), ["sends to it"])
        ear.listener.accept()[0].close()
        ear.listener.close()

        def notices():
            ear.site.ask("tick 1")
            return ear.said(is_sending=True)[-1].startswith("sends to it no more: ")

        wait_for("it says that it sends no more", notices)
        for _ in range(20):
            ear.site.ask("tick 1")
        expect(len(ear.said(is_sending=True)), 2, f"it repeats: {ear.said(is_sending=True)}")


def nothing_is_said_unless_asked_for():
    with WebCluster(2) as sites:
        sites[1].ask_all(["issue 5", "give 2 1", "tick 1"])
        wait_for("site 2 holds 1", sees(sites[2], None, held=1))
        expect((sites[1].said(), sites[2].said()), ("", ""))


def a_peer_that_is_started_anew():
    """Its number was used before: the others count that, and say so."""
    with WebCluster(2, log=True) as sites:
        sites[2].ask_all(["issue 50", "spend 1 0", "tick 1"])
        wait_for("site 1 applied 2", sees(sites[1], 2, applied=2))
        sites[2].kill()
        sites.start(2).ask_all(["issue 7", "tick 1"])
        wait_for("site 1 counts it", lambda: sites.metrics(1)["rights_peer_number_went_back_total", "2"] == 1)
        wanted = "rights-site: peer 2: its log went back: it says 1, and 2 were applied. It was started anew, or runs twice"
        wait_for("site 1 says it", lambda: wanted in sites[1].said().splitlines())


def unsent_at_the_end(site):
    """Ends a site, and answers what it says of entries that no peer was sent."""
    expect(site.end(), 0)
    return [line for line in site.said().splitlines() if line.endswith(" of its log were sent to no peer")]


def entries_that_no_peer_was_sent():
    with WebCluster(3, started=[1], log=True) as sites:
        sites[1].ask_all(["issue 5", "give 2 3"])
        expect(unsent_at_the_end(sites[1]), ["rights-site: ended: 1 to 2 of its log were sent to no peer"], "with no tick")
    with WebCluster(3, started=[1], log=True) as sites:
        sites[1].ask_all(["issue 5", "give 2 3", "tick 1"])
        expect(unsent_at_the_end(sites[1]), ["rights-site: ended: 1 to 2 of its log were sent to no peer"], "with no peer")
    for late, wanted in ([], []), (["spend 1 0"], ["rights-site: ended: 3 to 3 of its log were sent to no peer"]):
        with ExitStack() as stack:
            ear = Ear(stack, log=True)
            ear.site.ask_all(["issue 5", "give 2 3", "tick 1"])
            lines = stack.enter_context(stack.enter_context(ear.listener.accept()[0]).makefile("rb"))
            expect([line for line in iter(lines.readline, b"B 1 2\n")][-1], b"E 1 1 2 R:2:3\n")
            ear.site.ask_all(late)
            expect(unsent_at_the_end(ear.site), wanted, f"one peer was sent all but {late}")
    with WebCluster(2, started=[1], log=True) as sites:
        expect(unsent_at_the_end(sites[1]), [], "an empty log")
    with WebCluster(2, started=[1]) as sites:
        sites[1].ask("issue 5")
        expect(unsent_at_the_end(sites[1]), [], "without --log")


# ---- options


def run(*options, text=b"", listen=None):
    """Runs a site with these options on this input. Its status, and its standard output and error."""
    own, other = free_ports(2)
    words = [Cluster.program, "run", "--id", "1", "--sites", "2", "--listen", listen or at(own), f"2={at(other)}", *options]
    done = subprocess.run(words, input=text, capture_output=True, timeout=PATIENCE)
    return done.returncode, done.stdout, done.stderr


def a_site_is_started_once():
    refused = (1, b"", b"rights-site: was started before\n")
    failed = (1, b"", b"rights-site: cannot create the start file\n")
    with tempfile.TemporaryDirectory() as room, socket.create_server(("127.0.0.1", 0)) as taken:
        address = at(taken.getsockname()[1])
        path = os.path.join(room, "started")
        expect(run("--once", path, text=b"issue 1\n"), (0, b"number 1\n", b""))
        expect(os.path.isfile(path), True, "the file stays")
        expect(run("--once", path, text=b"issue 1\n"), refused)
        # What can be listened on is tested before that.
        expect(run("--once", path, listen=address)[2], b"rights-site: cannot listen\n")
        expect(run("--once", path, "--http", address)[2], b"rights-site: cannot listen\n")
        for stale in ("folder", "link"):
            path = os.path.join(room, stale)
            os.mkdir(path) if stale == "folder" else os.symlink("nowhere", path)
            expect(run("--once", path), refused, f"a {stale}")
        expect(os.path.lexists(os.path.join(room, "nowhere")), False, "a file that a link points to")
        for path in ("", os.path.join(room, "none", "file"), os.path.join(room, "started", "file"), "/proc/started"):
            expect(run("--once", path), failed, path)
        if os.geteuid() != 0:
            os.chmod(room, 0o500)
            expect(run("--once", os.path.join(room, "new")), failed, "a folder that can't be written")
            os.chmod(room, 0o700)
        # A start that failed was none.
        path = os.path.join(room, "other")
        expect(run("--once", path, listen=address)[2], b"rights-site: cannot listen\n")
        expect(run("--once", path)[0], 0)


def addresses_of_peers_that_cannot_be_resolved():
    own, other = free_ports(2)
    words = [Cluster.program, "run", "--id", "1", "--sites", "3", "--listen", at(own), f"3={at(other)}", "2=notaport"]
    # It is said at the start, with no line to send, and once.
    for text in (b"", b"tick 1\ntick 2\ntick 3\n"):
        said = subprocess.run([*words, "--log"], input=text, capture_output=True, timeout=PATIENCE).stderr.splitlines()
        found = [line for line in said if b": its address cannot be resolved" in line]
        expect(found, [b"rights-site: peer 2: its address cannot be resolved: notaport"], said)
    expect(subprocess.run(words, input=b"tick 1\n", capture_output=True, timeout=PATIENCE).stderr, b"")


def addresses_that_cannot_be_listened_on():
    with socket.create_server(("127.0.0.1", 0)) as taken:
        for address in (at(taken.getsockname()[1]), "", "nowhere", "127.0.0.1:99999", "256.1.1.1:1"):
            expect(run("--http", address, text=b"issue 1\n"), (1, b"", b"rights-site: cannot listen\n"), address)
    (port,) = free_ports(1)
    expect(run("--http", at(port), listen=at(port))[2], b"rights-site: cannot listen\n", "one address for both")


def words_that_are_refused():
    bad = (2, b"", b"rights-site: bad command line\n")
    for options in (["--tick", "0"], ["--tick", "60001"], ["--tick", "x"], ["--tick"], ["--tick", "-1"], ["--http"], ["--once"], ["--log=1"]):
        expect(run(*options), bad, options)
    for tick in ("1", "60000"):
        expect(run("--tick", tick, text=b"issue 1\n")[:2], (0, b"number 1\n"), tick)


def a_site_without_http():
    """Without the new options nothing is said at the end."""
    expect(run(text=b"issue 3\nspend 1 0\nquit\n"), (0, b"number 1\nspent 2\n", b""))
    expect(run("--tick", "5", text=b"issue 3\n"), (0, b"number 1\n", b""))


def a_site_that_ticks_by_itself():
    with WebCluster(2, tick=20) as sites:
        sites.command("issue 10", "give 2 3")
        wait_for("site 2 holds 3", sees(sites[2], None, held=3))
        # What is lacking is asked for, granted and served, and nobody says `tick`.
        with sites.client(2) as client:
            expect(client.command(f"spend 5 {in_seconds(PATIENCE)}", target="/wait")[1][0][:6], "spent ")
            begun = time.monotonic()
            expect(client.command(f"spend 50 {in_seconds(0.3)}", target="/wait"), (200, ["expired"]))
            if time.monotonic() - begun < 0.25:
                raise AssertionError(f"it expired after {time.monotonic() - begun:.2f} seconds")
        before = sites.metrics(1)["rights_commands_total"]
        time.sleep(0.2)
        expect(sites.metrics(1)["rights_commands_total"], before, "its own ticks are no commands")


def nobody_else_ticks_a_site_that_ticks_by_itself():
    """A tick of a client does nothing, on any way in. A deadline that is too far ahead is refused."""
    with alone(tick=20) as sites, sites.client() as client:
        expect(sites[1].ask_all(["tick 0", f"tick {2**64 - 1}", f"tick {in_seconds(0)}"]), ["error OwnClock"] * 3)
        for target in ("/", "/wait"):
            expect(client.command(f"tick {2**64 - 1}", target=target), (409, ["error OwnClock"]))
        expect(client.command("issue 5", "tick 1", "spend 2 0"), (200, ["number 1", "error OwnClock", "spent 2"]))
        # In microseconds by mistake, or in a number that is none.
        for wrong in (in_seconds(1) * 1000, 2**64 - 1, in_seconds(90_000)):
            expect(sites[1].ask(f"spend 1 {wrong}"), "error BadDeadline", wrong)
            expect(client.command(f"spend 9 {wrong}", target="/wait"), (409, ["error BadDeadline"]), wrong)
        expect(sites[1].ask_all([f"spend 0 {2**64 - 1}", "spend 9 +86400001"]), ["error BadAmount", "error BadCommand"])
        expect(client.command("spend 9 +1", target="/wait"), (200, ["expired"]))
        expect(client.command(f"spend 9 {in_seconds(86_000)}"), (200, ["queued 2"]))
        # Its own ticks go on: none of these times is its own.
        expect(client.command("spend 9 +0"), (200, ["queued 3"]))
        wait_for("the last spend expires", lambda: sites[1].ask("outcome 3") == "expired")
        metrics = sites.metrics(1)
        for name in ("OwnClock", "BadDeadline"):
            expect(metrics["rights_commands_refused_total", name], 6, name)


def the_spends_that_wait_are_listed():
    """As the command `queue` lists them."""
    with alone() as sites, sites.client() as client:
        for commands in ([], ["spend 9 5", "spend 1 7"], ["spend 2 6", "cancel 2"], ["spend 3 1", "tick 6"]):
            sites[1].ask_all(commands)
            expected = sites[1].ask("queue").encode() + b"\n"
            expect_served(client.ask(request("GET", "/queue")), 200, expected, "application/json")
            expect_served(client.ask(request("POST", "/", b"queue")), 200, expected)
        expect(expected, b'{"requests":[{"amount":2,"deadline":6,"ticket":3}],"unread":2}\n')


def what_is_known_of_the_other_sites():
    """The sums of what was written and applied, as an independent model has them."""
    model = RunningSite(1, 3)
    with WebCluster(3, started=[1]) as sites, sites.client() as client:
        for peer, line in [
            (None, "issue 50"), (3, "E 3 0 1 S:15"), (2, "E 2 0 3 I:100 R:1:30 S:7"), (2, "E 2 3 4 R:3:20"), (None, "give 2 10"),
            (None, "give 3 8"), (None, "spend 5 0"), (3, "E 3 1 4 I:1000000000 V:2:1000000000 G:2:4:9"), (2, "E 2 4 5 K:0:0:1"),
            (3, "E 3 4 5 S:1"),
        ]:  # fmt: skip
            if peer is None:
                expect(sites[1].ask(line).encode(), model.reply(line.encode()), line)
            else:
                with Client(at(sites.ports[0])) as speaker:
                    speaker.send(f"H {peer}\n{line}\n".encode())
                model.hear(peer, line.encode())
                wait_for(f"site 1 applied {line!r}", sees(sites[1], peer, applied=int(line.split(" ")[3])))
            answer = client.ask(request("GET", "/peers"))
            expect_served(answer, 200, model.sums().encode() + b"\n", "application/json", line)
        expect(json.loads(answer.body), {"peers": [
            {"applied": 5, "closed": True, "given": 50, "held": 57, "issued": 100, "received": 14, "site": 2, "spent": 7, "taken_back": 0},
            {"applied": 5, "closed": False, "given": 4, "held": 2000000008, "issued": 1000000000, "received": 28, "site": 3, "spent": 16,
             "taken_back": 1000000000},
        ], "site": 1})  # fmt: skip


def listed(client, model, first=None):
    """The export of the log from this number on, which is that of the model."""
    target = "/log" if first is None else f"/log?from={first}"
    answer = client.ask(request("GET", target))
    expect_served(answer, 200, model.listing(first or 0), what=target)
    head = client.ask(request("HEAD", target), is_head=True)
    expect_served(head, 200, b"", what=f"HEAD {target}")
    expect(head.headers.get("content-length"), str(len(answer.body)) if answer.body else None, f"HEAD {target}")
    return answer.body.decode()


def the_log_is_listed():
    """As an independent model lists it, from each number on, with the keys that are remembered."""
    model = RunningSite(1, 2, keys=3)
    with alone(programs={1: [Cluster.program, "run", "--keys", "3"]}) as sites, sites.client() as client:
        expect(listed(client, model), "")
        for commands in (["issue 50", "key a give 2 5"], ["key b take 3", "spend 4 0", "x", "key c spend 60 9"],
                         ["key d issue 40", "tick 1"], ["key e take 1", "key b take 3", "give 2 7"], ["close 2"]):  # fmt: skip
            for command in commands:
                expect(sites[1].ask(command).encode(), model.reply(command.encode()), command)
            for first in (None, *range(sites[1].status()["number"] + 3), 2**63, 2**64 - 1):
                listed(client, model, first)
        expect(listed(client, model, 4), "E 1 3 4 S:4\nE 1 4 5 I:40\nE 1 5 6 S:60\nX c 6\nE 1 6 7 S:1\nX e 7\nE 1 7 8 S:3\nX b 8\n"
               "E 1 8 9 R:2:7\nE 1 9 11 R:2:7 K:0:0\n")  # fmt: skip


def a_long_log_is_listed_in_parts():
    """Each part has 1,000 entries, and the next one begins behind it. What peers sent is not in it."""
    with alone() as sites, sites.client() as client:
        with Client(at(sites.ports[0])) as speaker:
            speaker.send(b"H 2\nE 2 0 1 I:9\n")
            wait_for("site 1 applied it", sees(sites[1], 2, applied=1))
        commands, entries = ["issue 5000"], ["E 1 0 1 I:5000\n"]
        for number in range(2, 2502, 2):
            commands += ["take 1", f"key order-{number} take 2"]
            entries += [f"E 1 {number - 1} {number} S:1\n", f"E 1 {number} {number + 1} S:2\nX order-{number} {number + 1}\n"]
        expect(sites[1].ask_all(commands)[-1], "spent 2501")
        for first, last in ((0, 1000), (1, 1000), (2, 1001), (1001, 2000), (1500, 2499), (1502, 2501), (2001, 2501), (2502, 2501)):
            answer = client.ask(request("GET", f"/log?from={first}"))
            expect_served(answer, 200, "".join(entries[max(first, 1) - 1 : last]).encode(), what=f"from {first} on")


def queries_for_no_log():
    """400, whatever else they have. Other targets have no queries."""
    with alone() as sites, sites.client() as client:
        client.command("issue 5")
        for query in ("", "from", "from=", "from=-1", "from=+1", "from=01", "from=00", "from=1.0", "from=1=", "from==1", "from=1&", "from=1&from=1",
                      "to=1", "From=1", "from=%31", "from=x", "from=18446744073709551616", "from=1?", "&from=1", "from=0x1"):  # fmt: skip
            expect_served(client.ask(request("GET", f"/log?{query}")), 400, b"error Query\n", what=query)
            expect_served(client.ask(request("HEAD", f"/log?{query}"), is_head=True), 400, b"", what=f"HEAD {query}")
            expect_served(client.ask(request("POST", f"/log?{query}", b"")), 405, b"error Method\n", what=f"POST {query}")
            expect_served(client.ask(request("GET", f"/healthz?{query}")), 200, b"ok\n", what=query)


def a_site_that_gets_no_handles():
    """Connections that cannot be accepted wait for a handle, and so does the site, without using the processor."""
    with alone() as sites:
        process = sites[1].process.pid
        limits = resource.prlimit(process, resource.RLIMIT_NOFILE)
        taken = len(os.listdir(f"/proc/{process}/fd"))
        resource.prlimit(process, resource.RLIMIT_NOFILE, (taken, limits[1]))
        peer = at(sites.ports[0])
        # For a connection that is awaited already the site may have one handle, and no second one: then it is closed.
        with Client(peer), sites.client(), Client(peer) as speaker, sites.client() as client:
            speaker.send(b"H 2\nE 2 0 2 I:9 R:1:7\n")
            client.send(post("issue 1"))
            before = processor_seconds(sites[1])
            time.sleep(0.3)
            expect(processor_seconds(sites[1]) - before < 0.1, True, "it uses the processor")
            expect(sites[1].ask("issue 5"), "number 1")
            resource.prlimit(process, resource.RLIMIT_NOFILE, limits)
            expect_served(client.read(), 200, b"number 2\n")
            wait_for("site 1 heard site 2", sees(sites[1], 2, applied=2))


# ---- the end


def requests_that_have_begun_are_answered():
    """The end waits for them for a second. On a busy machine that may be too short, but not each time."""
    wait_for("a request that had begun is answered", answers_what_has_begun)


def answers_what_has_begun():
    with alone() as sites, sites.client() as begun, sites.client() as idle, sites.client() as stuck:
        expect(idle.command("issue 5"), (200, ["number 1"]))
        stuck.send(b"POST / HTTP/1.1\r\n")
        whole = post("spend 1 0")
        begun.send(whole[:-5])
        time.sleep(0.1)
        sites[1].process.stdin.close()
        time.sleep(0.2)
        with suppress(OSError):
            begun.send(whole[-5:])
        answer = begun.read(may_end=True)
        expect(idle.has_ended(), True, "an idle connection")
        expect(sites[1].process.wait(PATIENCE), 0)
        return answer is not None and answer.body == b"spent 2\n"


def the_end_with_clients_that_never_end():
    with alone() as sites, ExitStack() as stack:
        for n in range(60):
            client = stack.enter_context(sites.client(room=4096))
            client.stream.setblocking(False)
            with suppress(BlockingIOError):
                client.send([b"POST / HT", request("GET", "/") * 300, b"", post("spend 9 9", target="/wait")][n % 4])
        time.sleep(0.3)
        expect(sites[1].end(), 0)


def a_site_at_rest_ends_at_once():
    """Nothing waits for clients that have no request, nor for peers that have got all lines. A busy machine may be slow,
    but not each time."""

    def ends_at_once():
        with WebCluster(2) as sites, sites.client() as idle:
            expect(idle.command("issue 5", "tick 1")[0], 200)
            wait_for("site 2 applied it", sees(sites[2], 1, applied=1))
            begun = time.monotonic()
            sites.end()
            return time.monotonic() - begun < 0.7

    wait_for("an end in less than a second", ends_at_once)


def the_report_adds_up():
    with alone() as sites:
        sites.command("issue 100", "spend 3 0", "give 2 7", "spend 200 9")
        expect(sites[1].ask_all(["issue 20", "spend 4 9", "issue 100", "tick 1"])[2:],
               ["number 5", "tick expired 0 served 2 asks 0 sent 8"])
        status = sites[1].status()
        report = sites.end()
        expect(report._asdict(), {
            "issued": 220, "spent": 207, "given": 7, "received": 0, "held": 6, "told_issued": 220, "told_spent": 3,
            "told_served": 204,
        })
        expect((status["issued"], status["spent"], status["held"]), (220, 207, 6))


def a_service_that_is_stopped():
    """The shell part of the unit: SIGTERM to the whole group ends the site by the end of its input. The same command goes
    on where its journal ends, also after SIGKILL."""
    with tempfile.TemporaryDirectory() as room:
        own, peer, web = free_ports(3)
        stay = {**os.environ, "RIGHTS_SITE": Cluster.program, "RIGHTS_STATE": room, "RIGHTS_SITES": "2", "RIGHTS_LISTEN": at(own),
                "RIGHTS_HTTP": at(web), "RIGHTS_TICK": "60000", "RIGHTS_PEERS": f"2={at(peer)}", "RIGHTS_SYSTEM": "shop-1"}
        with socket.create_server(("127.0.0.1", peer)) as ear:
            commands = ["issue 5", "spend 1 0", "tick 99999999999999"]
            said = of_service(stay, at(web), commands, ["number 1", "spent 2"], signal.SIGTERM)
            stream = ear.accept()[0]
            stream.settimeout(PATIENCE)
            with stream, stream.makefile("rb") as lines:
                sent = lines.read()
        expect(sent.startswith(b"H 1\n") and b"E 1 0 1 I:5\nE 1 1 2 S:1\n" in sent, True, f"its outbox: {sent!r}")
        expect("rights-site: ended: issued 5 spent 1 " in said, True, said)
        of_service(stay, at(web), ["take 1", "take 9"], ["spent 3", "error Short"], signal.SIGKILL)
        of_service(stay, at(web), ["take 3", "issue 1"], ["spent 4", "number 5"], signal.SIGTERM)
        # That of another system is not started.
        stay["RIGHTS_SYSTEM"] = "shop-2"
        other = subprocess.run([WRAPPER, "1"], env=stay, capture_output=True, stdin=subprocess.DEVNULL, timeout=PATIENCE)
        expect((other.returncode, b"the journal of another system" in other.stderr), (1, True), other.stderr)


WRAPPER = os.path.join(TOP, "systemd", "rights-site-run")


def of_service(settings, address, commands, replies, ends_by):
    """What a service says on standard error that is started, answers these commands, and is ended by this signal."""
    silent = {"stderr": subprocess.PIPE, "stdin": subprocess.DEVNULL, "start_new_session": True}
    process = subprocess.Popen([WRAPPER, "1"], env=settings, **silent)
    try:
        wait_for("the site answers", lambda: with_status(address) == 200)
        expect(command_at(address, *commands), replies)
        os.killpg(process.pid, ends_by)
        said = process.communicate(timeout=PATIENCE)[1].decode()
        expect(process.returncode, 0 if ends_by == signal.SIGTERM else -ends_by, said)
        return said
    finally:
        with suppress(ProcessLookupError):
            os.killpg(process.pid, signal.SIGKILL)


def with_status(address):
    with suppress(OSError), Client(address) as client:
        return client.ask(request("GET", "/healthz")).status


def command_at(address, *commands):
    with Client(address) as client:
        return client.command(*commands)[1][:2]


TESTS = [
    wait_that_is_answered_at_once, wait_that_is_served_by_a_tick, wait_that_expires, waits_that_fill_the_queue,
    waits_whose_clients_have_gone, a_wait_whose_client_sends_no_more, waits_at_the_end, the_form_of_metrics, metrics_are_the_status,
    lines_of_a_peer_are_counted, lines_for_a_dead_peer_are_dropped, what_is_said_of_a_peer, nothing_is_said_unless_asked_for, a_peer_that_is_started_anew,
    entries_that_no_peer_was_sent, addresses_of_peers_that_cannot_be_resolved, a_site_is_started_once, addresses_that_cannot_be_listened_on, words_that_are_refused, a_site_without_http,
    a_site_that_ticks_by_itself, nobody_else_ticks_a_site_that_ticks_by_itself, the_spends_that_wait_are_listed, what_is_known_of_the_other_sites, the_log_is_listed, a_long_log_is_listed_in_parts, queries_for_no_log,
    a_site_that_gets_no_handles, requests_that_have_begun_are_answered, the_end_with_clients_that_never_end,
    a_site_at_rest_ends_at_once, the_report_adds_up, a_service_that_is_stopped,
]
