"""Talks to running sites over HTTP, and drives them in every way that a client may. Each test binds to free ports, ends
by itself, and says what it expected where it fails."""

import atexit
import http.client
import http.server
import json
import os
import random
import re
import shutil
import socket
import subprocess
import sys
import tempfile
import threading
import time
import urllib.error
import urllib.request
from contextlib import ExitStack, suppress

import web_faults
import web_keys
import web_limits
import web_oddities
import web_requests
import web_sale
import web_sites
from cases import Skipped, case
from cluster import PATIENCE, TOP, Cluster, at, expect, free_ports, wait_for
from web_driver import alone, in_threads, seats
from web_requests import MOST_CLIENTS

from rights_http import (
    AnswerLost, CommandRefused, Expired, KeyRefused, LogEntry, Queued, SiteClient, SiteRefused, SiteUnreachable, Spent, Unknown,
    Waiting, entries_in, in_seconds, number_of, result_of,
)  # fmt: skip
from rights_site import Site

# ---- clients that nobody here wrote


def pythons_clients():
    with alone() as sites:
        connection = http.client.HTTPConnection(sites.address())
        for n in range(1, 51):
            connection.request("POST", "/", b"issue 1")
            answer = connection.getresponse()
            expect((answer.status, answer.read()), (200, b"number %d\n" % n))
        connection.close()
        url = f"http://{sites.address()}"
        with urllib.request.urlopen(f"{url}/status", timeout=PATIENCE) as answer:
            expect(json.load(answer)["issued"], 50)
        with urllib.request.urlopen(urllib.request.Request(url, b"spend 1 0\nspend 1 0\n"), timeout=PATIENCE) as answer:
            expect(answer.read(), b"spent 51\nspent 52\n")
        try:
            urllib.request.urlopen(url, b"nonsense", timeout=PATIENCE)
            raise AssertionError("a bad command is no error")
        except urllib.error.HTTPError as error:
            expect((error.code, error.read()), (400, b"error BadCommand\n"))


def curl():
    if shutil.which("curl") is None:
        raise Skipped("curl is not here")
    with alone(tick=20) as sites:
        url = f"http://{sites.address()}"

        def curls(*words):
            done = subprocess.run(["curl", "-sS", "-m", str(PATIENCE), *words], capture_output=True, timeout=2 * PATIENCE)
            return done.stdout.decode() + done.stderr.decode()

        expect(curls("-d", "issue 10", url), "number 1\n")
        expect(curls("-w", "%{http_code}", "-d", "give 2 99", url), "error Short\n409")
        expect(curls("-d", f"spend 99 {in_seconds(0.1)}", f"{url}/wait"), "expired\n")
        with tempfile.NamedTemporaryFile("w") as file:
            print("issue 1\nspend 1 0", file=file, flush=True)
            expect(curls("--data-binary", f"@{file.name}", url), "number 2\nspent 3\n")
            # This sends the lines of the file as one.
            expect(curls("-d", f"@{file.name}", url), "error BadCommand\n")
        expect(curls("-w", "%{http_code}", "-H", "Origin: x", "-d", "spend 1 0", "-o", "/dev/null", url), "403")
        expect(curls(f"{url}/healthz").strip(), "ok")
        expect("rights_held 10\n" in curls(f"{url}/metrics"), True)
        for _ in range(2):
            expect(curls("-H", "Idempotency-Key: order-1", "-d", "give 2 1", url), "number 4\n")
        expect(curls("-w", "%{http_code}", "-H", "Idempotency-Key: order-1", "-d", "give 2 2", url), "error KeyReused\n409")
        expect(curls("-I", url).splitlines()[0], "HTTP/1.1 200 OK")
        expect(curls(url, url).lower().count("<!doctype html>"), 2)


def wrk():
    if shutil.which("wrk") is None:
        raise Skipped("wrk is not here")
    with alone() as sites:
        done = subprocess.run(["wrk", "-t2", "-c40", "-d1s", f"http://{sites.address()}/status"], capture_output=True, timeout=PATIENCE)
        said = done.stdout.decode()
        expect((done.returncode, "Non-2xx" in said), (0, False), said)
        # On a busy machine some answers may come late.
        if errors := re.search(r"Socket errors: (.*), timeout", said):
            expect(errors[1], "connect 0, read 0, write 0", said)
        seats(sites, 1)


def the_client_class():
    with alone() as sites, SiteClient(sites.address(), connections=2, tries=8) as client:
        expect(client.ask("issue 10"), "number 1")
        expect(client.ask_all(["spend 1 0", "x", "give 2 99"]), ["spent 2", "error BadCommand", "error Short"])
        expect((client.ask("x"), client.ask("give 2 99"), client.wait("spend 2 0")), ("error BadCommand", "error Short", "spent 3"))
        expect((client.status()["held"], client.metrics()["rights_held"]), (7, 7))
        in_threads(12, lambda: [client.ask("spend 0 0") for _ in range(20)])
        for bad in ("issue 1\nissue 1", "issue 1\n"):
            try:
                client.ask(bad)
                raise AssertionError("a line feed is let through")
            except ValueError:
                pass
        # All places are taken for a while: it tries again, and nothing is carried out twice.
        client.close()
        with ExitStack() as stack:
            for _ in range(MOST_CLIENTS):
                stack.enter_context(sites.client()).command("outcome 1")
            threading.Timer(0.3, stack.pop_all().close).start()
            expect(client.ask("issue 1"), "number 4")
        sites[1].end()
        try:
            SiteClient(sites.address(), tries=2).ask("issue 1")
            raise AssertionError("a site that ended was reached")
        except SiteUnreachable:
            pass


def refusal_of(call, *words, **others):
    """The name of the refusal that a call raises."""
    try:
        return f"not refused: {call(*words, **others)}"
    except CommandRefused as refusal:
        return refusal.name


def results_of_the_client_class():
    """Calls with values and results with types, in place of texts."""
    with alone(tick=20) as sites, SiteClient(sites.address()) as client:
        expect((client.issue(10), client.spend(3), client.give(2, 1)), (1, Spent(2), 3))
        begun = time.monotonic()
        expect(client.spend(9, within=0.3), Expired())
        expect(time.monotonic() - begun > 0.2, True, "it waits for its deadline")
        # Rights that come in time are spent.
        later = threading.Timer(0.2, client.issue, [3])
        later.start()
        expect(client.spend(9, within=30.0), Spent(5))
        later.join()
        (word, ticket) = client.ask(f"spend 1 {in_seconds(600)}").split()
        expect((word, client.outcome(int(ticket))), ("queued", Waiting()))
        client.issue(1)
        wait_for("the spend is served", lambda: client.status()["queued"] == 0, 30)
        expect((client.outcome(int(ticket)), client.outcome(int(ticket)), client.outcome(10**6)), (Spent(7), Unknown(), Unknown()))
        refusals = [refusal_of(client.issue, 0), refusal_of(client.give, 2, 1), refusal_of(client.give, 1, 1), refusal_of(client.spend, 0)]
        expect(refusals, ["BadAmount", "Short", "SameSite", "BadAmount"])
        status = client.status()
        expect((status["held"], status["spent"], status["peers"][0]["site"]), (0, 13, 2))
        expect((client.close_site(), refusal_of(client.close_site, 2), refusal_of(client.spend, 1)), (8, "Closed", "Closed"))


def the_log_by_the_client_class():
    """All of it, in parts of 1,000 entries, also where the last part is full; and what is no log."""
    with alone() as sites, SiteClient(sites.address()) as client:
        expect(list(client.log()), [])
        client.issue(5000, key="order-1")
        client.ask_all(["take 1"] * 998 + ["key order-1000 take 2"])
        rows = [LogEntry(1, "E 1 0 1 I:5000", "order-1"), *[LogEntry(n, f"E 1 {n - 1} {n} S:1") for n in range(2, 1000)],
                LogEntry(1000, "E 1 999 1000 S:2", "order-1000")]  # fmt: skip
        expect((list(client.log()), list(client.log(2)), list(client.log(1001))), (rows, rows[1:], []))
        client.ask_all(["give 2 1"] * 1500)
        rows += [LogEntry(n, f"E 1 {n - 1} {n} R:2:1") for n in range(1001, 2501)]
        expect((list(client.log()), list(client.log(1500))), (rows, rows[1499:]))
    for text in ("x", "X a 1", "E 1 0 x I:1", "E 1 0 1", "E 1 0 1 I:5\nX a 2", "error Query\n"):
        try:
            raise AssertionError(f"{text!r} is taken for {entries_in(text)}")
        except SiteRefused:
            pass


def replies_as_results():
    for reply, result in (("spent 12", Spent(12)), ("queued 7", Queued(7)), ("expired", Expired()), ("waiting", Waiting())):
        expect(result_of(reply), result)
    for read, reply in ((result_of, "spent"), (result_of, "spent x"), (result_of, "spent 1 2"), (result_of, ""), (number_of, "spent 1")):
        try:
            raise AssertionError(f"{reply!r} is taken for {read(reply)}")
        except SiteRefused:
            pass


class Answers(http.server.BaseHTTPRequestHandler):
    """A stand-in for a site: `server.replies` has the reply to each command, and `server.asked` what came, with its key."""

    protocol_version = "HTTP/1.1"

    def do_POST(self):
        command = self.rfile.read(int(self.headers["content-length"])).decode().rstrip("\n")
        self.server.asked.append((self.path, command, self.headers["idempotency-key"]))
        reply = self.server.replies[command.split()[0]].encode() + b"\n"
        self.send_response(409 if reply.startswith(b"error ") else 200)
        self.send_header("content-length", str(len(reply)))
        self.end_headers()
        self.wfile.write(reply)

    def log_message(self, *_):
        pass


def calls_as_commands():
    """Each call of the client class sends its command, and its result is what the reply says."""
    with http.server.ThreadingHTTPServer(("127.0.0.1", 0), Answers) as server:
        threading.Thread(target=server.serve_forever, daemon=True).start()
        server.asked = []
        with SiteClient(at(server.server_address[1])) as client:
            for call, words, target, command, reply, result in [
                (client.take, (3,), "/", "take 3", "spent 12", Spent(12)),
                (client.cancel, (7,), "/", "cancel 7", "expired", Expired()),
                (client.cancel, (7,), "/", "cancel 7", "spent 3", Spent(3)),
                (client.cancel, (7,), "/", "cancel 7", "unknown", Unknown()),
                (client.outcome, (7,), "/", "outcome 7", "waiting", Waiting()),
                (client.close_site, (), "/", "close", "number 5", 5),
                (client.close_site, (2,), "/", "close 2", "number 6", 6),
                (client.spend, (4,), "/wait", "spend 4 +0", "queued 9", Queued(9)),
            ]:
                server.replies = {command.split()[0]: reply}
                expect(call(*words), result, command)
                asked = server.asked[-1]
                expect((asked[0], asked[1][: len(command)]), (target, command))
                expect(asked[2] is None, command.startswith(("cancel", "outcome")), f"{command}: a key")
            server.replies = {"take": "error Short", "cancel": "error BadCommand"}
            expect((refusal_of(client.take, 3), refusal_of(client.cancel, 1)), ("Short", "BadCommand"))
            keys = [key for _, _, key in server.asked if key is not None]
            expect((len(keys), len(set(keys))), (5, 5), "each command has a key of its own")
            # A key that is given, and lines that bring their own or have none.
            server.replies = {word: "number 1" for word in ("issue", "give", "close", "key")} | {"take": "spent 1", "spend": "spent 1"}
            client.issue(1, key="a"), client.give(2, 1, key="b"), client.take(1, key="c"), client.spend(1, key="d")
            client.close_site(key="e"), client.ask("take 1", key="f"), client.wait("spend 1 0", key="g")
            expect([key for _, _, key in server.asked[-7:]], list("abcdefg"))
            client.ask_all(["take 1", "take 2"]), client.ask_all(["take 1"]), client.ask("key h take 1")
            expect([key for _, _, key in server.asked[-3:]], [None] * 3)
        with SiteClient(at(server.server_address[1]), retry_for=0) as client:
            client.take(1), client.take(1, key="a")
            expect([key for _, _, key in server.asked[-2:]], [None, "a"])
        server.shutdown()


def commands_under_keys():
    """The client at a real site: what was carried out under a key is told again."""
    with alone(tick=20) as sites, SiteClient(sites.address()) as client:
        expect((client.issue(10, key="i"), client.issue(10, key="i"), client.take(3, key="t"), client.take(3, key="t")), (1, 1, Spent(2), Spent(2)))
        expect((client.spend(3, within=5.0, key="t"), client.ask("key t take 3"), client.ask_all(["key t take 3", "take 1"])), (Spent(2), "spent 2", ["spent 2", "spent 3"]))
        expect((client.spend(20, within=0.1, key="s"), client.spend(20, within=9.0, key="s")), (Expired(), Expired()))
        expect((client.status()["held"], client.status()["keys"]), (6, 2))
        for call, words, name in [
            (client.take, (4,), "KeyReused"), (client.issue, (3,), "KeyReused"), (client.spend, (0,), "KeyReused"), (client.close_site, (), "KeyReused"),
        ]:  # fmt: skip
            try:
                raise AssertionError(f"not refused: {call(*words, key='t')}")
            except KeyRefused as refusal:
                expect(refusal.name, name)
        expect((client.ask("outcome 1", key="o"), sites[1].ask("take 3", key="t"), sites[1].ask("take 2", key="u")), ("error BadKey", "spent 2", "spent 4"))
        for bad in ("", "a b", "x" * 65, "é", "a\n"):
            for ask in (client.ask, sites[1].ask):
                try:
                    raise AssertionError(f"{bad!r} is taken for a key: {ask('take 1', key=bad)}")
                except ValueError:
                    pass
    with alone(tick=20, keys=0) as sites, SiteClient(sites.address()) as client, SiteClient(sites.address(), retry_for=0) as other:
        try:
            raise AssertionError(f"not refused: {client.issue(1)}")
        except KeyRefused as refusal:
            expect(refusal.name, "KeyRefused")
        expect((other.issue(1), "keys" in other.status()), (1, False))


def names_and_ipv6():
    """An address may be a name, and of IPv6 where this machine has it."""
    hosts = ["localhost"]
    with suppress(OSError):
        socket.create_server(("::1", 0), family=socket.AF_INET6).close()
        hosts.append("[::1]")
    for host in hosts:
        own, peer, web = free_ports(3)
        with Site(1, 2, at(own), {2: at(peer)}, Cluster.program, http=f"{host}:{web}"), SiteClient(f"{host}:{web}") as client:
            expect(client.ask("issue 1"), "number 1", host)


class Forgetful:
    """A server that reads requests, and answers some: `replies` has what it says to each in turn, None to end its connection.
    `came` has their commands and keys."""

    def __init__(self, *replies, then=None):
        self.replies, self.then, self.came = list(replies), then, []
        self.server = socket.create_server(("127.0.0.1", 0))
        self.address = at(self.server.getsockname()[1])
        threading.Thread(target=self.serve, daemon=True).start()

    def serve(self):
        with suppress(OSError):
            while True:
                stream, _ = self.server.accept()
                with stream:
                    stream.settimeout(PATIENCE)
                    self.answer(stream)

    def answer(self, stream):
        head, body = b"", b""
        while b"\r\n\r\n" not in head:
            head += stream.recv(1 << 16)
        head, _, body = head.partition(b"\r\n\r\n")
        fields = dict(line.lower().split(": ", 1) for line in head.decode().split("\r\n")[1:])
        while len(body) < int(fields.get("content-length", 0)):
            body += stream.recv(1 << 16)
        self.came.append((body.decode().rstrip("\n"), fields.get("idempotency-key")))
        reply = self.replies.pop(0) if self.replies else self.then
        if reply is not None:
            status, _, text = reply.partition(" ")
            stream.sendall(f"HTTP/1.1 {status} x\r\ncontent-type: text/plain\r\nconnection: close\r\n{text}".encode())

    def __enter__(self):
        return self

    def __exit__(self, *_):
        self.server.shutdown(socket.SHUT_RDWR)
        self.server.close()


def said(reply, status=200, *fields):
    """What `Forgetful` says."""
    return f"{status} " + "".join(f"{field}\r\n" for field in fields) + f"content-length: {len(reply) + 1}\r\n\r\n{reply}\n"


def a_lost_answer_is_asked_for_again():
    """Under the same key each time, whatever happens in between, until it comes."""
    turned_away = said("error Busy", 503, "retry-after: 1")
    for call, words, command, reply, result in [
        (SiteClient.take, (2,), "take 2", "spent 7", Spent(7)), (SiteClient.issue, (2,), "issue 2", "number 8", 8),
        (SiteClient.spend, (2,), "spend 2 +0", "expired", Expired()), (SiteClient.ask, ("close",), "close", "number 9", "number 9"),
    ]:  # fmt: skip
        with Forgetful(None, turned_away, said("error Foreign", 403), said(reply)) as server, SiteClient(server.address, tries=1) as client:
            expect(call(client, *words), result)
            expect([came for came, _ in server.came], [command] * 4)
            keys = {key for _, key in server.came}
            expect((len(keys), all(re.fullmatch("[!-~]{1,64}", key) for key in keys)), (1, True))
    # A refusal that comes at last is one.
    with Forgetful(None, said("error Short", 409)) as server, SiteClient(server.address) as client:
        expect((refusal_of(client.take, 2, key="k"), server.came), ("Short", [("take 2", "k")] * 2))
    # For a while only. What was turned away each time was certainly not carried out.
    with Forgetful() as server, SiteClient(server.address, retry_for=0.5) as client:
        begun = time.monotonic()
        try:
            raise AssertionError(f"no answer is none: {client.take(2, key='k')}")
        except AnswerLost as lost:
            expect((lost.commands, lost.key, set(server.came)), (["take 2"], "k", {("take 2", "k")}))
        expect((len(server.came) > 2, time.monotonic() - begun < PATIENCE), (True, True))
    with Forgetful(then=turned_away) as server, SiteClient(server.address, tries=3) as client:
        try:
            raise AssertionError(f"it was turned away: {client.take(2)}")
        except SiteUnreachable:
            expect(len(server.came), 3)


def a_lost_answer_without_a_key_is_not_asked_for_again():
    """The server reads the request and ends the connection: a command is not sent again, a question is."""
    with Forgetful() as server, SiteClient(server.address, tries=3, retry_for=0) as client, SiteClient(server.address, tries=3) as other:
        for ask, count in ((lambda: client.ask("spend 1 0"), 1), (lambda: client.spend(1, within=1.0), 1), (lambda: other.ask_all(["take 1", "take 2"]), 2),
                           (lambda: other.outcome(1), 1), (lambda: other.cancel(1), 1)):  # fmt: skip
            server.came.clear()
            try:
                raise AssertionError(f"no answer is none: {ask()}")
            except AnswerLost as lost:
                expect((len(lost.commands), lost.key, len(server.came), server.came[0][1]), (count, None, 1, None))
        server.came.clear()
        try:
            client.status()
            raise AssertionError("no answer is none")
        except SiteUnreachable:
            expect(len(server.came), 3)


def examples_to_copy():
    """The short examples, as they are but for their ports, in a folder of their own: the program is the one on the path."""
    cases = {
        "python/rights_site.py": r"number 1\n10 sold; held 0\n",
        "python/rights_http.py": r"number 1\n100 sold; the site spent 100\n",
        "examples/ticket-sale/thirty_lines.py": r"sold [1-9]\d* at site 1 and [1-9]\d* at site 2, 100 in all; held 0\n",
    }
    with tempfile.TemporaryDirectory() as room:
        os.symlink(os.path.abspath(Cluster.program), os.path.join(room, "rights-site"))
        paths = {path: os.path.join(room, "copies", os.path.basename(path)) for path in cases}
        os.mkdir(os.path.join(room, "copies"))
        for path, copy in paths.items():
            ports = iter(free_ports(8))
            with open(os.path.join(TOP, path)) as source, open(copy, "w") as target:
                found = {}
                target.write(re.sub(r"127\.0\.0\.1:\d+", lambda it: found.setdefault(it[0], at(next(ports))), source.read()))
        for path, copy in paths.items():
            stay = {**os.environ, "PATH": f"{room}:{os.environ['PATH']}", "PYTHONPATH": os.path.join(room, "copies")}
            # On a busy machine one site may sell all before a seller at the other one gets its turn.
            for _ in range(5):
                done = subprocess.run([sys.executable, copy], env=stay, capture_output=True, text=True, timeout=120)
                if done.returncode == 0 and re.fullmatch(cases[path], done.stdout):
                    break
            else:
                raise AssertionError(f"{path}: status {done.returncode}: {done.stdout}{done.stderr}")


# ---- a sale


def many_clients_of_three_sites():
    """Eight processes with four connections each, links that are cut and healed, clients that die: what all were told
    is what the sites report."""
    web_sale.sell(Cluster.program, processes=8, connections=4, seconds=6, seed=random.randrange(10**6))


# ---- all of them

# Idle connections are looked at last, since they last a minute.
IDLE = []


def begin_idle():
    if not IDLE:
        IDLE.append(web_requests.Idle())
        atexit.register(IDLE[0].sites.kill_all)


def idle_connections():
    begin_idle()
    IDLE[0].idle_connections()


CASES = [
    case("Requests", web_requests.TESTS, begin_idle),
    case("WebLimits", web_limits.TESTS),
    case("WebFaults", web_faults.TESTS),
    case("WebOddities", web_oddities.TESTS),
    case("WebSites", web_sites.TESTS),
    case("WebKeys", web_keys.TESTS),
    case("WebClients", [
        pythons_clients, curl, wrk, the_client_class, results_of_the_client_class, the_log_by_the_client_class, replies_as_results, calls_as_commands,
        commands_under_keys, names_and_ipv6, a_lost_answer_is_asked_for_again, a_lost_answer_without_a_key_is_not_asked_for_again,
        examples_to_copy, many_clients_of_three_sites, idle_connections,
    ]),
]  # fmt: skip
