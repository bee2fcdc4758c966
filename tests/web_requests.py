"""Tests of requests to a site: what is answered, the limits, and clients that send and read as they like."""

import json
import os
import random
import re
import signal
import socket
import threading
import time
from contextlib import ExitStack, suppress

from cluster import PATIENCE, TOP, expect, wait_for
from web_driver import TEXT, alone, expect_served, in_threads, post, request, samples, seats

PAGE = os.path.join(TOP, "crates", "site_http", "src", "page.html")

# So many connections a site has at a time.
MOST_CLIENTS = 63
LONGEST_BODY = 1_048_576
# Once the replies to a body have so many bytes, the rest of it is not carried out.
MOST_REPLIES = 20_000_000
LONGEST_HEAD = 16_384
MOST_FIELDS = 64
# The server closes a connection that says nothing for so many seconds.
IDLE = 60
GETS = {"/": "text/html; charset=utf-8", "/status": "application/json", "/queue": "application/json", "/peers": "application/json", "/log": TEXT, "/metrics": "text/plain; version=0.0.4", "/healthz": TEXT}

# ---- requests


def each_target():
    with alone() as sites, sites.client() as client:
        for target, kind in GETS.items():
            answer = client.ask(request("GET", target))
            expect_served(answer, 200, kind=kind, what=target)
            head = client.ask(request("HEAD", target), is_head=True)
            expect_served(head, 200, b"", what=f"HEAD {target}")
            expect(head.headers.get("content-type"), kind, f"HEAD {target}")
            # Where the body is empty, as that of a log without entries, `HEAD` says no length.
            if target != "/metrics" and answer.body:
                expect(head.headers.get("content-length"), str(len(answer.body)), f"HEAD {target}")
        expect(client.ask(request("GET", "/status")).body.decode(), sites[1].ask("status") + "\n")
        expect(client.ask(request("GET", "/healthz")).body.strip(), b"ok")


def the_page():
    with alone() as sites:
        body = sites.client().ask(request("GET", "/")).body
    expect(body[:15].lower(), b"<!doctype html>")
    if os.path.exists(PAGE):
        with open(PAGE, "rb") as page:
            expect(body == page.read(), True, "the page of the repository")


def other_targets_and_methods():
    with alone() as sites, sites.client() as client:
        for target in ["/x", "/status/", "/statuses", "/Status", "//", "/wait/", "/index.html", "/favicon.ico"]:
            for method in ["GET", "POST", "PUT"]:
                expect_served(client.ask(request(method, target, b"")), 404, what=f"{method} {target}")
            expect_served(client.ask(request("HEAD", target), is_head=True), 404, b"", what=f"HEAD {target}")
        allowed = {"/": {"GET", "HEAD", "POST"}, "/wait": {"POST"}}
        for target in [*GETS, "/wait"]:
            methods = allowed.get(target, {"GET", "HEAD"})
            for method in {"GET", "POST", "PUT", "DELETE", "OPTIONS", "PATCH", "TRACE", "get", "BREW"} - methods:
                answer = client.ask(request(method, target, b"issue 1\n" if method in ("POST", "PUT") else None))
                expect_served(answer, 405, what=f"{method} {target}")
                expect(set(re.split(", *", answer.headers.get("allow", ""))), methods, f"Allow of {method} {target}")
        expect_served(client.ask(request("HEAD", "/wait"), is_head=True), 405, b"", what="HEAD /wait")
        expect(sites[1].status()["issued"], 0)


def the_status_of_one_command():
    cases = [
        ("issue 10", 200, "number 1"), ("spend 3 0", 200, "spent 2"), ("give 2 4", 200, "number 3"),
        ("spend 9 5", 200, "queued 1"), ("outcome 1", 200, "waiting"), ("outcome 9", 200, "unknown"),
        ("give 2 4", 409, "error Short"), ("issue 0", 409, "error BadAmount"), ("give 3 1", 409, "error NoSuchSite"),
        ("give 1 1", 409, "error SameSite"), ("close", 409, "error QueueBusy"),
        ("tick 6", 200, "tick expired 1 served 0 asks 0 sent 4"), ("tick 5", 409, "error TimeWentBack"),
        ("outcome 1", 200, "expired"), ("nonsense", 400, "error BadCommand"), ("", 400, "error BadCommand"),
        ("spend 01 1", 400, "error BadCommand"), ("issue 1\r", 400, "error BadCommand"),
        ("quit", 400, "error BadCommand"), ("x" * 20000, 400, "error BadCommand"),
        ("close", 200, "number 4"), ("issue 1", 409, "error Closed"),
    ]
    with alone() as sites, sites.client() as client:
        for command, status, reply in cases:
            answer = client.ask(post(command))
            expect_served(answer, status, f"{reply}\n".encode(), what=f"{command[:20]!r}")
        answer = client.ask(request("GET", "/healthz"))
        expect_served(answer, 503, what="/healthz of a closed site")
        expect(answer.body.strip(), b"closed")
        expect(sites[1].ask("status"), client.ask(request("GET", "/status")).body.decode().strip())


def bodies_of_several_lines():
    with alone() as sites, sites.client() as client:
        for body, replies in [
            (b"", b""), (b"issue 5\nspend 1 0\nnonsense\ngive 9 1\n", b"number 1\nspent 2\nerror BadCommand\nerror NoSuchSite\n"),
            (b"quit\nquit", b"error BadCommand\nerror BadCommand\n"), (b"spend 1 0\nspend 1 0", b"spent 3\nspent 4\n"),
            (b"\n\n", b"error BadCommand\nerror BadCommand\n"), (b"\xff\x00\nstatus x\n", b"error BadCommand\n" * 2),
            (b"y" * 20000 + b"\nissue 1\n" + b"z" * 17000, b"error BadCommand\nnumber 5\nerror BadCommand\n"),
        ]:
            answer = client.ask(request("POST", "/", body))
            expect_served(answer, 200, replies, what=f"{body[:30]!r}")
        # An unfinished line is a command, and one line, whether or not it ends.
        expect_served(client.ask(request("POST", "/", b"issue 1")), 200, b"number 6\n")
        expect_served(client.ask(request("POST", "/", b"issue x")), 400, b"error BadCommand\n")
        expect_served(client.ask(request("POST", "/")), 200, b"", what="a POST with no body")
        expect(sites[1].status()["issued"], 7)


def the_longest_line():
    """16,384 bytes with the line feed, as on standard input: what a longer one says is not looked at."""
    with alone() as sites, sites.client() as client:
        for length in (16_382, 16_383, 16_384, 16_385):
            for end in (b"\n", b""):
                answer = client.ask(request("POST", "/", b"issue 1\n" + b"i" * length + end))
                expect(answer.body.splitlines()[1:], [b"error BadCommand"], f"{length} bytes")
        expect(sites[1].status()["issued"], 8)


def no_web_page_can_spend():
    with alone() as sites, sites.client() as client:
        client.command("issue 5")
        for origin in ["Origin: http://evil.example", "origin: null", "ORIGIN: ", "Origin: http://site"]:
            for target in ("/", "/wait"):
                answer = client.ask(request("POST", target, b"spend 1 0\n", origin))
                expect_served(answer, 403, what=f"{origin} {target}")
                expect(b"spent" in answer.body, False)
            expect(client.ask(request("GET", "/status", None, origin)).status, 200, origin)
        expect(sites[1].status()["spent"], 0)


# ---- limits


def the_longest_body():
    with alone() as sites, sites.client() as client:
        body = b"outcome 1\n" * (LONGEST_BODY // 10) + b"issue\n"
        expect(len(body), LONGEST_BODY)
        answer = client.ask(request("POST", "/", body))
        expect(answer.status, 200)
        expect(answer.body == b"unknown\n" * (LONGEST_BODY // 10) + b"error BadCommand\n", True, "the replies")
        for fields, longer in [((), b"issue 1\n" + body[7:]), (("transfer-encoding: chunked",), b"issue 1\n" + body[7:])]:
            with sites.client() as other:
                expect(other.ask(too_long(longer, fields)).status, 413, f"one byte more {fields}")
                expect(other.has_ended(), True, "the connection")
        expect(sites[1].status()["issued"], 0)
        chunks = b"8\r\nissue 1\n\r\n9;a=b\r\nspend 1 0\r\n0\r\n\r\n"
        head = request("POST", "/", None, "transfer-encoding: chunked")
        expect_served(client.ask(head + chunks), 200, b"number 1\nspent 2\n", what="in chunks")


def the_most_replies():
    """A body ends where its replies reach their limit, as where memory runs out."""
    with alone() as sites, sites.client() as client:
        reply = client.ask(request("POST", "/", b"status\n")).body
        answered = -(-MOST_REPLIES // len(reply))
        body = b"status\n" * ((LONGEST_BODY - 8) // 7) + b"issue 1\n"
        expect(answered < body.count(b"status\n"), True, "the body has more lines than are answered")
        answer = client.ask(request("POST", "/", body))
        expect(answer.status, 503)
        expect(len(answer.body), answered * len(reply) + 18, "the bytes of the replies")
        expect(answer.body == reply * answered + b"error OutOfMemory\n", True, "the replies")
        expect(sites[1].status()["issued"], 0)
        # Only that body ended: the next one begins anew.
        expect_served(client.ask(post("issue 2", "issue 3")), 200, b"number 1\nnumber 2\n")


def too_long(body, fields):
    if not fields:
        return request("POST", "/", body)
    return request("POST", "/", None, *fields) + b"%x\r\n" % len(body) + body + b"\r\n0\r\n\r\n"


def a_body_that_is_waited_for():
    with alone() as sites, sites.client() as client:
        expect(client.ask(request("POST", "/", None, "content-length: 8", "expect: 100-continue")).status, 100)
        expect_served(client.ask(b"issue 3\n"), 200, b"number 1\n")


def the_longest_head():
    with alone() as sites:
        plain = request("GET", "/healthz", None, "x-long: ")
        for length, status in [(LONGEST_HEAD, 200), (LONGEST_HEAD + 1, 431)]:
            with sites.client() as client:
                head = request("GET", "/healthz", None, "x-long: " + "y" * (length - len(plain)))
                expect((len(head), client.ask(head).status), (length, status), "the bytes of a head")
        for count, status in [(MOST_FIELDS, 200), (MOST_FIELDS + 1, 431)]:
            with sites.client() as client:
                # `host` is one more.
                head = request("GET", "/healthz", None, *(f"x-{n}: 1" for n in range(count - 1)))
                expect(client.ask(head).status, status, f"{count} fields")
        with sites.client() as client:
            expect(client.ask(b"GET /" + b"x" * LONGEST_HEAD).status, 414, "a line that does not end")
            expect(client.has_ended(), True)


def heads_that_are_refused():
    with alone() as sites:
        for head, status in [
            (b"nonsense\r\n\r\n", 400), (b"GET / HTTP/1.1\r\n\r\n", 400), (b"GET / HTTP/1.1\r\nhost: a b\r\n\r\n", 400),
            (b"GET / HTTP/1.1\r\nhost: a\r\nhost: a\r\n\r\n", 400), (b"GET / HTTP/1.1\nhost: a\n\n", 400),
            (b"POST / HTTP/1.1\r\nhost: a\r\ncontent-length: 8\r\ntransfer-encoding: chunked\r\n\r\nissue 1\n", 400),
            (b"POST / HTTP/1.1\r\nhost: a\r\ncontent-length: -1\r\n\r\n", 400),
            (b"POST / HTTP/1.1\r\nhost: a\r\ntransfer-encoding: gzip, chunked\r\n\r\n", 501), (b"\x16\x03\x01\x02\x00", 400),
        ]:
            with sites.client() as client:
                client.send(head)
                client.stream.shutdown(socket.SHUT_WR)
                expect(client.read().status, status, f"{head[:40]!r}")
                expect(client.has_ended(), True, f"after {head[:40]!r}")
        expect(sites[1].status()["issued"], 0)


def connections_that_are_closed_when_asked():
    with alone() as sites:
        with sites.client() as client:
            expect(client.ask(request("GET", "/healthz", None, "connection: close")).status, 200)
            expect(client.has_ended(), True)
        with sites.client() as client:
            expect(client.ask(b"POST / HTTP/1.0\r\ncontent-length: 8\r\n\r\nissue 2\n").body, b"number 1\n")
            expect(client.has_ended(), True, "of HTTP/1.0")


# ---- seats


def sixty_three_clients():
    """One more than there are places ends the connection that was idle longest, and is served."""
    with alone() as sites, ExitStack() as stack:
        clients = [stack.enter_context(sites.client()) for _ in range(MOST_CLIENTS)]
        for client in clients:
            expect(client.command("issue 1")[0], 200)
        found = samples(clients[-1].ask(request("GET", "/metrics")).body)
        expect((found["rights_clients"], found["rights_issued_total"]), (MOST_CLIENTS, MOST_CLIENTS))
        further = stack.enter_context(sites.client())
        expect(further.command("issue 1"), (200, [f"number {MOST_CLIENTS + 1}"]))
        answer = clients[0].read()
        expect((answer.status, answer.headers.get("retry-after")), (503, "1"))
        expect(clients[0].has_ended(), True)
        expect(samples(further.ask(request("GET", "/metrics")).body)["rights_clients"], MOST_CLIENTS)
        expect(sites.end().told_issued, MOST_CLIENTS + 1)


def the_last_response_frees_the_place():
    """Its client does not close the connection, and a further one is served all the same."""
    last = request("POST", "/", b"issue 1", "connection: close")
    with alone() as sites, ExitStack() as stack:
        for _ in range(2):
            clients = [stack.enter_context(sites.client()) for _ in range(MOST_CLIENTS)]
            for client in clients:
                expect_served(client.ask(last), 200)
            wait_for("a place is free", lambda: sites.command("issue 1")[0] == 200)


def two_hundred_at_once():
    with alone() as sites:
        told = []

        def one():
            while True:
                with suppress(ConnectionError), sites.client() as client:
                    client.send(post("issue 1"))
                    # Where very many are turned away together, some are closed without a word.
                    answer = client.read(may_end=True)
                    if answer is not None and answer.status == 200:
                        told.append(answer.body)
                        return
                time.sleep(0.02)

        in_threads(200, one)
        expect(sorted(int(reply.split()[1]) for reply in told), list(range(1, 201)))
        seats(sites, 1)
        expect(sites.end().told_issued, 200)


def threads_of(site):
    with open(f"/proc/{pid_of(site)}/status") as status:
        return next(int(line.split()[1]) for line in status if line.startswith("Threads:"))


def memory_of(site):
    """Its resident memory, in kilobytes."""
    with open(f"/proc/{pid_of(site)}/status") as status:
        return next(int(line.split()[1]) for line in status if line.startswith("VmRSS:"))


def pid_of(site):
    return site.process.pid


def no_thread_and_no_seat_is_left():
    with alone() as sites:
        # Threads that have ended are gone a moment after their connections.
        before = threads_of(sites[1])
        for way in range(60):
            client = sites.client()
            if way % 5 == 0:
                client.reset()
            elif way % 5 == 1:
                client.send(b"POST / HTTP/1.1\r\nho")
                client.close()
            elif way % 5 == 2:
                client.send(request("POST", "/", None, "content-length: 9") + b"issue 1\n")
                client.reset()
            elif way % 5 == 3:
                expect(client.command("issue 1")[0], 200)
                client.close()
            else:
                client.send(request("GET", "/metrics") * 20)
                client.reset()
        seats(sites, 1)
        wait_for("the threads have ended", lambda: threads_of(sites[1]) <= before)
        expect(sites[1].status()["issued"], 12)


def memory_of_connections():
    """Under 64 KB for an idle one, and none that grows with requests."""
    with alone() as sites, ExitStack() as stack:
        warm = stack.enter_context(sites.client())
        expect(warm.command("issue 1")[0], 200)
        before = memory_of(sites[1])
        clients = [stack.enter_context(sites.client()) for _ in range(60)]
        for client in clients:
            expect(client.command("outcome 1")[0], 200)
        each = (memory_of(sites[1]) - before) / 60
        if each >= 64:
            raise AssertionError(f"{each:.0f} KB for a connection")
        for turn in range(20):
            for client in clients[:8]:
                client.send(request("GET", "/status") * 20 + request("GET", "/metrics") * 5 + post(*["outcome 7"] * 100))
                for _ in range(26):
                    client.read()
            if turn == 2:
                before = memory_of(sites[1])
        if memory_of(sites[1]) > before + 1000:
            raise AssertionError(f"{memory_of(sites[1]) - before} KB more after requests that change nothing")


# ---- how requests come


def pipelines_of_a_hundred():
    with alone() as sites, sites.client() as client:
        client.send(b"".join(post("issue 1") + request("GET", "/healthz") for _ in range(50)))
        for number in range(1, 51):
            expect_served(client.read(), 200, b"number %d\n" % number)
            expect(client.read().status, 200)
        client.send(post("issue 1") * 100)
        expect([client.read().body for _ in range(100)], [b"number %d\n" % n for n in range(51, 151)])
        expect(sites[1].status()["issued"], 150)


def one_byte_at_a_time():
    with alone() as sites, sites.client() as client:
        for byte in post("issue 7", "spend 2 0") + request("GET", "/status") + post("spend 1 0"):
            client.send(bytes([byte]))
        expect_served(client.read(), 200, b"number 1\nspent 2\n")
        expect(json.loads(client.read().body)["held"], 5)
        expect_served(client.read(), 200, b"spent 3\n")


def half_requests():
    """What was not sent whole is not carried out, however the connection ends."""
    with alone() as sites:
        whole = post("issue 1")
        for length in range(1, len(whole), 5):
            with sites.client() as client:
                client.send(whole[:length])
                if length % 2:
                    client.stream.shutdown(socket.SHUT_WR)
                    expect(client.read().status, 400, f"after {length} bytes")
                else:
                    client.reset()
        with sites.client() as client:
            client.send(post("issue 1") + whole[:-3])
            expect(client.read().status, 200)
        seats(sites, 1)
        expect(sites[1].status()["issued"], 1)


def slow_readers():
    """Clients that read nothing, or slowly, hold up nobody; a slow one gets all."""
    with alone() as sites:
        readers = [sites.client(room=4096) for _ in range(10)]
        count = 400
        writers = [threading.Thread(target=suppressed_send, args=(reader, request("GET", "/metrics") * count), daemon=True) for reader in readers]
        for writer in writers:
            writer.start()
        got = []
        slow = [threading.Thread(target=lambda r=reader: got.extend(r.read().status for _ in range(count)), daemon=True) for reader in readers[:3]]
        for thread in slow:
            thread.start()
        with sites.client() as client:
            for n in range(200):
                expect(client.command("issue 1"), (200, [f"number {n + 1}"]))
        for thread in slow:
            thread.join(PATIENCE)
        expect(got, [200] * (3 * count))
        for reader in readers:
            reader.reset()
        seats(sites, 1)


def suppressed_send(client, data):
    with suppress(OSError):
        client.send(data)


NOISE = [
    b"GET / HTTP/1.1\r\n", b"POST / HTTP/1.1\r\n", b"POST /wait HTTP/1.1\r\n", b"HEAD /status HTTP/1.0\r\n\r\n", b"OPTIONS * HTTP/1.1\r\n",
    b"CONNECT a:1 HTTP/1.1\r\n", b"host: x\r\n", b"content-length: 8\r\n", b"content-length: 99999999999999999999\r\n",
    b"transfer-encoding: chunked\r\n", b"expect: 100-continue\r\n", b"connection: upgrade\r\nupgrade: x\r\n", b"connection: close\r\n",
    b"x: " + b"y" * 5000 + b"\r\n", b"8\r\nissue 1\n\r\n", b"0\r\n\r\n", b"ffffffffffffffff\r\n", b"issue 1\n", b"\r\n", b"\n", b" ",
    request("GET", "/metrics"), post("spend 1 0"), post("spend 9000000 1", target="/wait"),
]


def noise():
    """Parts of requests and bytes of no meaning, in any order: nothing is left of their connections."""
    with alone(tick=20) as sites:
        sites.command("issue 1000000")
        seats(sites, 1)
        handles = f"/proc/{pid_of(sites[1])}/fd"
        threads, files = threads_of(sites[1]), len(os.listdir(handles))
        until = time.monotonic() + 3
        seed = random.randrange(10**6)
        chances = iter([random.Random(seed + place) for place in range(8)])

        def one():
            chance = next(chances)
            while time.monotonic() < until:
                with suppress(OSError), sites.client() as client:
                    client.stream.settimeout(0.2)
                    for _ in range(chance.randrange(1, 12)):
                        client.send(chance.choice(NOISE) if chance.random() < 0.8 else chance.randbytes(chance.randrange(1, 50)))
                    if chance.random() < 0.5:
                        client.read_more()
                    if chance.random() < 0.5:
                        client.reset()

        in_threads(8, one)
        seats(sites, 1)
        wait_for(f"seed {seed}: threads and handles are as before",
                 lambda: threads_of(sites[1]) <= threads and len(os.listdir(handles)) <= files)
        report = sites.end()
        expect((report.issued, report.spent), (report.told_issued, report.told_spent + report.told_served), f"seed {seed}")


def reads_that_are_interrupted():
    """A process that is stopped and goes on, as by a debugger or a shell, keeps its connections."""
    with alone() as sites, sites.client() as idle, sites.client() as begun:
        expect(idle.command("issue 5"), (200, ["number 1"]))
        begun.send(post("issue 1")[:-3])
        for _ in range(3):
            time.sleep(0.05)
            sites[1].process.send_signal(signal.SIGSTOP)
            time.sleep(0.05)
            sites[1].process.send_signal(signal.SIGCONT)
        expect(idle.command("spend 1 0"), (200, ["spent 2"]))
        begun.send(post("issue 1")[-3:])
        expect_served(begun.read(), 200, b"number 3\n")
        expect(sites[1].ask("spend 1 0"), "spent 4")


def slow_senders():
    """Clients that stop in the middle of a request hold up nobody, and ones that go on are answered."""
    with alone() as sites, ExitStack() as stack:
        whole = post("issue 1")
        slow = [stack.enter_context(sites.client()) for _ in range(40)]
        begun = time.monotonic()
        for client in slow:
            client.send(whole[:-4])
        expect(sites.command("issue 5"), (200, ["number 1"]))
        for client in slow:
            suppressed_send(client, whole[-4:])
        answers = [client.read() for client in slow]
        # Where this machine took long they had not gone on in time.
        if time.monotonic() - begun < 9:
            expect(sorted(int(answer.body.split()[1]) for answer in answers), list(range(2, 42)))


class Idle:
    """Connections that say nothing more, from the start of all tests to their end: nobody waits for them before that."""

    def __init__(self):
        self.sites = alone()
        # One that said nothing, and one that was answered.
        self.clients = [self.sites.client() for _ in range(2)]
        self.clients[1].command("issue 1")
        self.begun = time.monotonic()
        self.ends = [None] * 2
        self.threads = [threading.Thread(target=self.watch, args=(place,), daemon=True) for place in range(2)]
        for thread in self.threads:
            thread.start()

    def watch(self, place):
        client = self.clients[place]
        client.stream.settimeout(IDLE + PATIENCE)
        with suppress(OSError):
            while client.read_more():
                pass
            self.ends[place] = time.monotonic() - self.begun

    def idle_connections(self):
        try:
            for thread in self.threads:
                thread.join(IDLE + PATIENCE)
            for ended in self.ends:
                if ended is None or ended < IDLE - 2:
                    raise AssertionError(f"idle connections ended after {self.ends} seconds")
            seats(self.sites, 1)
            expect(self.sites[1].status()["issued"], 1)
        finally:
            self.sites.kill_all()


TESTS = [
    each_target, the_page, other_targets_and_methods, the_status_of_one_command, bodies_of_several_lines, the_longest_line,
    no_web_page_can_spend, the_longest_body, the_most_replies, a_body_that_is_waited_for, the_longest_head,
    heads_that_are_refused, connections_that_are_closed_when_asked, sixty_three_clients, two_hundred_at_once,
    the_last_response_frees_the_place,
    no_thread_and_no_seat_is_left, memory_of_connections, pipelines_of_a_hundred, one_byte_at_a_time, half_requests, slow_readers, slow_senders,
    noise, reads_that_are_interrupted,
]
