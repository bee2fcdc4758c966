"""Tests of requests that are rare, odd or hostile, over HTTP: what is answered, and that nothing is carried out of what was refused."""

import socket
import threading
from contextlib import suppress

from cluster import expect, wait_for
from web_driver import Client, alone, expect_served, in_threads, post, request, seats
from web_requests import threads_of
from web_sites import expect_slots, waiting

# ---- targets and versions


def forms_of_a_target():
    """A query is not looked at, and a target may be absolute; no other text stands for a path."""
    with alone() as sites, sites.client() as client:
        for number, target in enumerate(["/?x", "/?", "/?a=b&c=%20", "http://localhost/", "http://127.0.0.1", "HTTP://localhost:80/?x"], 1):
            answer = client.ask(request("POST", target, b"issue 1"))
            expect_served(answer, 200, b"number %d\n" % number, what=target)
        expect_served(client.ask(request("POST", "/wait?x", b"issue 1")), 200, b"number 7\n")
        expect_served(client.ask(request("GET", "/healthz?verbose=1")), 200, b"ok\n")
        expect_served(client.ask(request("HEAD", "http://localhost/status?x"), is_head=True), 200, b"", "application/json")
        for target in ["/%73tatus", "/./status", "/a/../status", "/status;x", "*"]:
            expect_served(client.ask(request("POST", target, b"issue 1")), 404, what=target)
        expect_served(client.ask(request("OPTIONS", "*")), 404, what="OPTIONS *")
        expect(sites[1].status()["issued"], 7)


def versions_and_connections():
    with alone() as sites:
        head = b"POST / HTTP/1.0\r\ncontent-length: 7\r\n"
        with sites.client() as client:
            expect_served(client.ask(head + b"connection: keep-alive\r\n\r\nissue 1"), 200, b"number 1\n")
            expect_served(client.ask(head + b"\r\nissue 1"), 200, b"number 2\n")
            expect(client.has_ended(), True, "HTTP/1.0 without keep-alive")
        with sites.client() as client:
            # What comes behind a request that asks to close is not carried out.
            client.send(request("POST", "/", b"issue 1", "connection: Close") + post("issue 1") * 3)
            expect_served(client.read(), 200, b"number 3\n")
            expect(client.has_ended(), True, "after a request that asked to close")
        for version, status in [(b"HTTP/0.9", 505), (b"HTTP/1.2", 505), (b"HTTP/2.0", 505), (b"http/1.1", 505), (b"HTTP/1.1 ", 400)]:
            text = b"POST / " + version + b"\r\nhost: localhost\r\ncontent-length: 7\r\n\r\nissue 1"
            for before in range(3):
                # What came before it on the connection is answered first.
                with sites.client() as client:
                    client.send(request("GET", "/healthz") * before + text)
                    for _ in range(before):
                        expect_served(client.read(), 200, b"ok\n", what=version)
                    expect(client.read().status, status, version)
                    expect(client.has_ended(), True, version)
        expect(sites[1].status()["issued"], 3)


# ---- heads


def heads_that_two_servers_may_read_differently():
    """Where one reader may see another body than the next one, nothing is carried out."""
    with alone() as sites:
        for fields in [
            ["content-length: 7", "content-length: 8"], ["content-length: 7, 8"], ["content-length: +7"], ["content-length: 7x"],
            ["content-length: 0x7"], ["content-length:"], ["content-length: 18446744073709551623"],
            ["transfer-encoding: chunked", "content-length: 7"], ["transfer-encoding: chunked, identity"], ["transfer-encoding: xchunked"],
            ["transfer-encoding : chunked"], ["content-length : 7"], [" content-length: 7"], ["x: a\r\n b", "content-length: 7"],
            ["x: a\0b", "content-length: 7"], ["x\xe9: a", "content-length: 7"], ["x y: a", "content-length: 7"],
        ]:
            with sites.client() as client:
                client.send(request("POST", "/", None, *fields) + b"issue 1")
                client.stream.shutdown(socket.SHUT_WR)
                expect(client.read().status in (400, 413, 501), True, f"{fields}")
                expect(client.has_ended(), True, f"after {fields}")
        with sites.client() as client:
            # Before a request an empty line is let pass, as of clients that end a body with one.
            expect_served(client.ask(b"\r\n" + post("issue 2")), 200, b"number 1\n")
            expect_served(client.ask(b"\r\n" + post("issue 3")), 200, b"number 2\n")
        expect(sites[1].status()["issued"], 5)


def bodies_of_requests_that_need_none():
    """They are read and dropped, and the next request is where they end."""
    with alone() as sites, sites.client() as client:
        for method, target in [("GET", "/healthz"), ("GET", "/status"), ("DELETE", "/"), ("PUT", "/wait"), ("POST", "/x")]:
            client.send(request(method, target, post("issue 1")) + request("GET", "/healthz"))
            expect(client.read().status in (200, 404, 405), True, f"{method} {target}")
            expect_served(client.read(), 200, b"ok\n", what=f"after {method} {target}")
        expect_served(client.ask(request("POST", "/", b"spend 1 0\n", "origin: x", "origin: y")), 403)
        expect(sites[1].status()["issued"], 0)


# ---- chunks


def bodies_in_chunks():
    with alone() as sites, sites.client() as client:
        head = request("POST", "/", None, "transfer-encoding: Chunked")
        lines = b"issue 4\nspend 1 0\n"
        single = b"".join(b"1\r\n%c\r\n" % byte for byte in lines) + b"0\r\n\r\n"
        expect_served(client.ask(head + single), 200, b"number 1\nspent 2\n", what="chunks of a byte")
        expect_served(client.ask(head + b"0\r\n\r\n"), 200, b"", what="no chunk")
        expect_served(client.ask(head + b"00007;x=\"y\"\r\nissue 1\r\n0;z\r\nx-trailer: 1\r\n\r\n"), 200, b"number 3\n", what="with trailers")
        expect(client.ask(request("POST", "/", None, "transfer-encoding: chunked", "expect: 100-continue")).status, 100)
        expect_served(client.ask(b"7\r\nissue 1\r\n0\r\n\r\n"), 200, b"number 4\n", what="chunks that are waited for")
        for size in (b"10000000000000000", b"8000000000000000", b"ffffffffffffffff", b"100001"):
            # A size of 64 bits is refused once more than a body may have has come of it.
            with sites.client() as other:
                expect(other.ask(head + size + b"\r\n" + b"x" * 1_100_000).status, 413, size)
                expect(other.has_ended(), True, size)
        for body in [b"x\r\n", b"-1\r\n", b"7\r\nissue 1x\r\n", b"7\nissue 1\n0\n\n", b"10000000000000007\r\n", b"7\r\nissue 1\r\n", b"7\r\nissu"]:
            with sites.client() as other:
                other.send(head + body)
                other.stream.shutdown(socket.SHUT_WR)
                expect(other.read().status in (400, 413), True, f"{body!r}")
        expect(sites[1].status()["issued"], 6)


def a_body_that_is_too_long_is_not_asked_for():
    with alone() as sites, sites.client() as client:
        answer = client.ask(request("POST", "/", None, "content-length: 1048577", "expect: 100-continue"))
        expect((answer.status, client.has_ended()), (413, True))


# ---- clients that come, go and wait


def waits_in_a_pipeline():
    """The next one begins once the one before it is answered."""
    with alone() as sites, sites.client() as client:
        client.send(post("spend 5 9", target="/wait") * 2 + post("issue 1", target="/wait") + request("GET", "/healthz"))
        waiting(sites, 5)
        sites[1].ask_all(["issue 20", "tick 1"])
        expect([client.read().body for _ in range(4)], [b"spent 2\n", b"spent 3\n", b"number 4\n", b"ok\n"])
        expect_slots(sites, 0, 0)


def waits_that_begin_as_the_site_ends():
    """Each is answered `queued T`, or is not carried out; what was told adds up."""
    with alone() as sites:
        told, begun = [], threading.Barrier(11)

        def one():
            begun.wait()
            with suppress(OSError, AssertionError), sites.client() as client:
                for _ in range(20):
                    told.append(client.ask(post("issue 1", target="/wait")).body)
                    told.append(client.ask(post("spend 9000 9", target="/wait")).body)

        threads = [threading.Thread(target=one, daemon=True) for _ in range(10)]
        for thread in threads:
            thread.start()
        begun.wait()
        report = sites.end()
        for thread in threads:
            thread.join(10)
            expect(thread.is_alive(), False, "a client waits for ever")
        kinds = {answer.split()[0] for answer in told}
        expect(kinds <= {b"number", b"queued", b"error"}, True, kinds)
        # An answer may be lost on its way where the connection was shut down, and none is told that was not carried out.
        issued = sum(answer.startswith(b"number") for answer in told)
        expect((report.issued == report.told_issued, issued <= report.told_issued <= issued + 10, report.told_spent), (True, True, 0))


def ten_thousand_short_connections():
    """Each has its answer, and of none is a thread, a handle or a seat left."""
    with alone() as sites:
        seats(sites, 1)
        before = threads_of(sites[1])

        def some():
            for _ in range(1_250):
                while True:
                    client = Client(sites.address())
                    client.send(post("issue 1"))
                    with suppress(OSError):
                        answer = client.read(may_end=True)
                        client.reset()
                        if answer is not None and answer.status == 200:
                            break
                    client.reset()

        in_threads(8, some)
        seats(sites, 1)
        wait_for("the threads have ended", lambda: threads_of(sites[1]) <= before)
        report = sites.end()
        expect((report.issued, report.told_issued), (10_000, 10_000))


TESTS = [
    forms_of_a_target, versions_and_connections, heads_that_two_servers_may_read_differently, bodies_of_requests_that_need_none,
    bodies_in_chunks, a_body_that_is_too_long_is_not_asked_for, waits_in_a_pipeline,
    waits_that_begin_as_the_site_ends, ten_thousand_short_connections,
]
