"""Tests of what a site does where clients want too much: slow ones, ones that read nothing, too many, hosts of others.
Nothing here fails because a machine is slow: a limit of time is waited for, and never measured from above."""

import json
import os
import resource
import select
import socket
import threading
import time
from contextlib import ExitStack, suppress

from cluster import all_sleep, expect, wait_for
from timing import TimedSite
from web_driver import Client, alone, expect_served, in_threads, post, request, seats
from web_requests import LONGEST_BODY, MOST_CLIENTS, pid_of, suppressed_send, threads_of

# What is waited for comes within so many seconds, or never.
PATIENCE = 60
# The most memory that a site may take with all clients, in kilobytes.
MOST_MEMORY = 400_000


def is_turned_away(answer):
    """Whether this is the answer to a request that was not carried out for want of a place or of memory."""
    return answer.status == 503 and answer.headers.get("retry-after") == "1"


def told(sites, command):
    """The reply to a command over a connection of its own, which is tried again where it was certainly not carried out."""

    def once():
        with suppress(ConnectionError), sites.client() as client:
            answer = client.ask(post(command))
            if not is_turned_away(answer):
                expect(answer.status, 200, f"{command}: {answer}")
                return answer.body.decode().rstrip("\n")

    return wait_for(f"{command} is carried out", once, PATIENCE)


class Slow:
    """Connections that send a byte of a request in a while, and connect again where they are ended."""

    def __init__(self, sites, count):
        self.sites, self.count, self.is_over = sites, count, False
        self.clients = [self.client() for _ in range(count)]
        self.thread = threading.Thread(target=self.run, daemon=True)
        self.thread.start()

    def client(self):
        client = Client(self.sites.address())
        client.send(b"POST / HTTP/1.1\r\nx: ")
        client.stream.setblocking(False)
        return client

    def run(self):
        while not self.is_over:
            for place, client in enumerate(self.clients):
                try:
                    client.send(b"y")
                except OSError:
                    client.close()
                    with suppress(OSError):
                        self.clients[place] = self.client()
            time.sleep(0.2)

    def __enter__(self):
        return self

    def __exit__(self, *_):
        self.is_over = True
        self.thread.join(PATIENCE)
        for client in self.clients:
            client.close()


# ---- places


def slow_clients_shut_nobody_out():
    """As many as there are places send a byte in a while: others are served."""
    with alone() as sites, Slow(sites, MOST_CLIENTS):
        for number in range(1, 151):
            expect(told(sites, "issue 1"), f"number {number}")
        report = sites.end()
        expect((report.issued, report.told_issued), (150, 150))


def silent_clients_shut_nobody_out():
    """The same of clients that connect and say nothing, and of such that have got an answer and keep the connection."""
    with alone() as sites, ExitStack() as stack:
        for n in range(2 * MOST_CLIENTS):
            client = stack.enter_context(sites.client())
            if n % 2:
                client.send(request("GET", "/healthz"))
        for number in range(1, 101):
            expect(told(sites, "issue 1"), f"number {number}")


def the_longest_idle_connection_ends_first():
    """.. with an answer that says that nothing was carried out; requests that are being sent go on."""
    with alone() as sites, ExitStack() as stack:
        idle = [stack.enter_context(sites.client()) for _ in range(MOST_CLIENTS - 1)]
        expect(idle[0].command("issue 1"), (200, ["number 1"]))
        # Its thread notes since when it is idle some time after its answer, which may be after the next client's.
        wait_for("the first is idle", lambda: all_sleep(sites[1]), PATIENCE)
        for number, client in enumerate(idle[1:], 2):
            expect(client.command("issue 1"), (200, [f"number {number}"]))
        begun, since = stack.enter_context(sites.client()), time.monotonic()
        whole = post("issue 1")
        begun.send(whole[:-3])
        expect(told(sites, "issue 1"), f"number {MOST_CLIENTS}")
        expect(is_turned_away(idle[0].read()), True, "the one that was idle longest")
        expect(idle[0].has_ended(), True)
        suppressed_send(begun, whole[-3:])
        answer = begun.read()
        if answer.status != 408 or time.monotonic() - since < 9:
            expect_served(answer, 200, b"number %d\n" % (MOST_CLIENTS + 1))


def what_gives_way_is_not_carried_out():
    """Many more clients than there are places, all at once: each is answered or told to come again, and what was
    carried out is what was told."""
    with alone() as sites:
        served, lost = [], []

        def one():
            try:
                with sites.client() as client:
                    for _ in range(5):
                        answer = client.ask(post("issue 1"))
                        if answer.status != 200:
                            expect(is_turned_away(answer), True, answer)
                            return
                        served.append(answer.body)
            except (OSError, AssertionError) as cause:
                lost.append(cause)

        for _ in range(3):
            in_threads(200, one)
        seats(sites, 1)
        report = sites.end()
        expect(report.issued, report.told_issued)
        # An answer may be lost with a connection that was reset: where more came than it read.
        expect(len(served) <= report.issued <= len(served) + len(lost), True, f"{len(served)} {report} {lost[:3]}")
        expect(len(set(served)), len(served), "each number once")


def clients_that_are_all_busy():
    """Where nobody has been idle for long, a further client is told to come again."""
    with TimedSite(log=True) as sites, ExitStack() as stack:
        clients = [stack.enter_context(sites.client()) for _ in range(MOST_CLIENTS)]

        def are_served():
            for client in clients:
                expect(client.command("outcome 1"), (200, ["unknown"]))

        are_served()
        further = stack.enter_context(sites.client())
        further.send(post("issue 1"))

        def is_answered():
            sites.clock.advance(0.03)
            are_served()
            return is_readable(further)

        wait_for("it is answered", is_answered, PATIENCE)
        answer = further.read()
        expect_served(answer, 503, b"error Busy\n")
        expect(is_turned_away(answer), True)
        expect(further.has_ended(), True)
        # A line of the log is written some time after what it reports.
        said = wait_for("it says so", lambda: [line for line in sites.site.said().splitlines() if "turned away" in line], PATIENCE)
        expect(len(said) == 1 and said[0].endswith(": turned away: 63 clients are connected"), True, said)
        expect(sites.site.status()["issued"], 0)


def a_limit_of_handles_is_named():
    """A client that is turned away for want of a handle is not said to be turned away for want of a place."""
    with alone(log=True) as sites:
        process = pid_of(sites[1])
        limits = resource.prlimit(process, resource.RLIMIT_NOFILE)
        # One for the connection, and none for its second handle.
        resource.prlimit(process, resource.RLIMIT_NOFILE, (len(os.listdir(f"/proc/{process}/fd")) + 1, limits[1]))
        with sites.client() as client:
            with suppress(ConnectionError):
                expect(client.has_ended(), True)
        said = wait_for("it says so", lambda: [line for line in sites[1].said().splitlines() if "turned away" in line], PATIENCE)
        expect(said[0].endswith(": turned away: the system gives the process no further handle"), True, said)
        resource.prlimit(process, resource.RLIMIT_NOFILE, limits)
        expect(told(sites, "issue 1"), "number 1")


# ---- time


def a_request_has_ten_seconds():
    """However its bytes come: then it is refused, and nothing of it was carried out."""
    with TimedSite() as sites, sites.client() as slow, sites.client() as quick:
        head = b"POST / HTTP/1.1\r\nhost: localhost\r\ncontent-length: 7\r\nx: "
        for client in (slow, quick):
            client.send(head)
        time.sleep(0.1)
        sites.clock.advance(9)
        quick.send(b"y\r\n\r\nissue 1")
        expect_served(quick.read(), 200, b"number 1\n")

        def is_refused():
            suppressed_send(slow, b"y")
            sites.clock.advance(0.5)
            return is_readable(slow)

        wait_for("the slow one is refused", is_refused, PATIENCE)
        answer = slow.read()
        expect((answer.status, answer.headers.get("retry-after")), (408, None))
        expect(slow.has_ended(), True)
        expect(sites.site.status()["issued"], 1)


def a_response_has_ten_seconds():
    """A client that takes nothing of its responses loses its place."""
    with TimedSite() as sites, sites.client(room=4096) as deaf:
        threading.Thread(target=suppressed_send, args=(deaf, request("GET", "/") * 2000), daemon=True).start()
        wait_for("it has a place", lambda: sites.metrics()["rights_clients"] == 2, PATIENCE)
        wait_for("it has lost it", lambda: sites.clock.advance(3) or sites.metrics()["rights_clients"] == 1, PATIENCE)


def is_readable(client):
    return bool(select.select([client.stream], [], [], 0)[0])


# ---- memory


def most_memory_of(site):
    """The most resident memory that it ever had, in kilobytes."""
    with open(f"/proc/{pid_of(site)}/status") as status:
        return next(int(line.split()[1]) for line in status if line.startswith("VmHWM:"))


def responses_that_nobody_reads():
    """Sixty clients ask for a response of 20 MB each and read nothing of it: the site's memory has a limit, and it
    serves others meanwhile."""
    with alone() as sites, ExitStack() as stack:
        body = b"status\n" * (LONGEST_BODY // 7)
        deaf = [stack.enter_context(sites.client(room=4096)) for _ in range(60)]
        for client in deaf:
            threading.Thread(target=suppressed_send, args=(client, request("POST", "/", body)), daemon=True).start()
        statuses = []
        for client in deaf:
            client.stream.settimeout(PATIENCE)
            with suppress(OSError):
                statuses.append(client.stream.recv(12))
            # Small requests find room at any time.
            expect(told(sites, "outcome 1"), "unknown")
        expect(set(statuses) <= {b"HTTP/1.1 200", b"HTTP/1.1 503", b"HTTP/1.1 408"}, True, statuses)
        expect(b"HTTP/1.1 503" in statuses, True, f"none found the limit: {statuses}")
        if most_memory_of(sites[1]) > MOST_MEMORY:
            raise AssertionError(f"{most_memory_of(sites[1]):,} KB")
        for client in deaf:
            client.reset()
        wait_for("their places are free", lambda: sites.metrics()["rights_clients"] == 1, PATIENCE)
        # What they had is free again.
        for _ in range(5):
            with sites.client() as client:
                client.stream.settimeout(PATIENCE)
                answer = client.ask(request("POST", "/", body))
                expect((answer.status, len(answer.body) > 10_000_000), (503, True))


# ---- hosts


def hosts_that_are_answered():
    with alone(hosts=["Stock.example", "other"]) as sites, sites.client() as client:
        for host in ["127.0.0.1", "127.0.0.1:8001", "192.168.7.9", "[::1]", "[fe80::1]:80", "localhost", "LOCALHOST:1", "stock.EXAMPLE",
                     "stock.example:8001", "other"]:
            expect_served(client.ask(with_host("GET", "/healthz", host)), 200, b"ok\n", what=host)
        for host in ["evil.example", "evil.example:8001", "site", "stock.example.", "stock", "xother", "127.0.0.1.evil.example", "127.1", ""]:
            for method, target in [("GET", "/status"), ("GET", "/metrics"), ("GET", "/"), ("GET", "/x"), ("POST", "/"), ("PUT", "/wait")]:
                expect_served(client.ask(with_host(method, target, host)), 421, b"error Host\n", what=f"{host} {method} {target}")
        for target, status in [("http://evil.example/status", 421), ("http://localhost/status", 200), ("http://other:80/status", 200)]:
            expect(client.ask(with_host("GET", target, "localhost")).status, status, target)
        # HTTP/1.0 asks for no host, and no browser speaks it.
        with sites.client() as old:
            expect_served(old.ask(b"GET /healthz HTTP/1.0\r\n\r\n"), 200, b"ok\n")
        for text in [b"GET /status HTTP/1.1\r\n\r\n", b"GET /status HTTP/1.1\r\nhost: localhost\r\nhost: localhost\r\n\r\n",
                     b"GET /status HTTP/1.1\r\nhost: localhost:80:80\r\n\r\n"]:
            with sites.client() as other:
                expect(other.ask(text).status, 400, text)
        expect(sites[1].status()["issued"], 0)
    with alone() as sites, sites.client() as client:
        expect(client.ask(with_host("GET", "/status", "stock.example")).status, 421, "a name that was not given")
        expect(json.loads(client.ask(with_host("GET", "/status", "localhost")).body)["site"], 1)


def with_host(method, target, host):
    length = "" if method == "GET" else "content-length: 0\r\n"
    return f"{method} {target} HTTP/1.1\r\nhost: {host}\r\n{length}\r\n".encode()


def pages_of_other_sites():
    with alone() as sites, sites.client() as client:
        client.command("issue 5")
        for target in ("/", "/wait"):
            answer = client.ask(request("POST", target, b"spend 1 0\n", "sec-fetch-site: cross-site"))
            expect_served(answer, 403, b"error Origin\n", what=target)
        for value in ("same-origin", "same-site", "none"):
            expect(client.ask(request("POST", "/", b"outcome 9\n", f"Sec-Fetch-Site: {value}")).status, 200, value)
        expect(client.ask(request("GET", "/status", None, "sec-fetch-site: cross-site")).status, 200)
        expect(sites[1].status()["spent"], 0)


# ---- first lines


def connections_that_never_say_who_they_are():
    """At most 64 of them wait for their first line, each with a thread; a further one is closed at once."""
    with alone() as sites, ExitStack() as stack:
        before, most = threads_of(sites[1]), 0
        silent = [stack.enter_context(socket.create_connection(("127.0.0.1", sites.ports[0]))) for _ in range(100)]
        for stream in silent:
            stream.settimeout(0.01)
        until = time.monotonic() + PATIENCE
        while silent:
            most = max(most, threads_of(sites[1]))
            silent = [stream for stream in silent if not has_ended(stream)]
            if time.monotonic() > until:
                raise AssertionError(f"{len(silent)} connections still wait")
        expect(most <= before + 65, True, f"{most - before} threads more")


def has_ended(stream):
    try:
        return not stream.recv(1)
    except TimeoutError:
        return False
    except ConnectionError:
        return True


TESTS = [
    slow_clients_shut_nobody_out, silent_clients_shut_nobody_out, the_longest_idle_connection_ends_first,
    what_gives_way_is_not_carried_out,
    clients_that_are_all_busy, a_limit_of_handles_is_named,
    a_request_has_ten_seconds, a_response_has_ten_seconds, responses_that_nobody_reads, hosts_that_are_answered,
    pages_of_other_sites, connections_that_never_say_who_they_are,
]
